/*
 * The recorder: seals stripes, writes blocks with the record of stripes at risk, recovers after a loss of power,
 * patrols while it is idle, and repairs a drive. README.md at the root, "When the power goes", says why it goes in this
 * order. It holds one stripe in memory, and allocates none.
 */
#include <inttypes.h>
#include <stdio.h>
#include <string.h>

#include "recorder.h"

/* Kinds of answers, by their numbers in irumbolai.h. */
enum { CHECK_GOOD = 0, CHECK_BAD = 1 };
enum { READ_STORED = 0, READ_REBUILT = 1 };
enum { RECOVERY_NOT_ENTERED = 0, RECOVERY_LEFT = 2 };
enum { VERDICT_CLEAN = 0, VERDICT_BAD = 1, VERDICT_TORN = 2 };

/* A refusal by its number in irumbolai.h. */
void say_refused(struct box *box, const char *what, uint64_t number, uint32_t refusal)
{
    printf("refused %" PRIu32 " %s %" PRIu64 "\n", refusal, what, number);
    box->found = true;
}

/* A stripe that stays open, and a drive that has to be mended first. */
static void say_left(struct box *box, uint64_t stripe, size_t member)
{
    printf("left %" PRIu64 " drive %zu\n", stripe, member);
    box->found = true;
}

/* Numbers in the record and in tags have their highest byte first. */
uint64_t number_at(const uint8_t *bytes, size_t count)
{
    uint64_t number = 0;

    for (size_t at = 0; at < count; at++)
        number = number << 8 | bytes[at];
    return number;
}

void put_number(uint8_t *bytes, size_t count, uint64_t number)
{
    for (size_t at = count; at > 0; at--, number >>= 8)
        bytes[at - 1] = (uint8_t)number;
}

/* The array's numbers are known: are they fit? Then what follows from them. */
void begin(struct box *box)
{
    struct irumbolai_patrol_begun begun = irumbolai_patrol_begin(ARRAY(box));

    if (begun.refusal != 0) {
        say_refused(box, "array of stripes", box->stripes, begun.refusal);
        fail("the array's numbers are not fit");
    }
    box->patrol = begun.state;
    box->data_length = box->method == LARGE ? 4096 : 512;
    box->block_length = box->method == LARGE ? 4112 : 520;
    box->length = box->members * box->block_length;
}

static uint8_t *block_of(struct box *box, size_t member)
{
    return box->bytes + member * box->block_length;
}

/* The store of a member's block, as it stands in memory. */
static void store_member(struct box *box, uint64_t stripe, size_t member)
{
    store_block(box, stripe, member, block_of(box, member));
}

/* The store of the record, which then is the one in memory. */
static void store_entries(struct box *box, const uint8_t *record)
{
    store_record(box, record);
    memcpy(box->record, record, RECORD_BYTES);
}

/* Reads a stripe. A block that its drive does not give is lent as a bad one. */
static void load(struct box *box, uint64_t stripe)
{
    for (size_t member = 0; member < box->members; member++)
        if (!fetch_block(box, stripe, member, block_of(box, member)))
            memset(block_of(box, member), NO_BLOCK, box->block_length);
}

/* The place of a block, with its stripe read; or the request is refused. */
static bool load_at(struct box *box, const char *what, uint64_t block, struct irumbolai_place *place)
{
    *place = irumbolai_place(ARRAY(box), block);
    if (place->refusal != 0)
        say_refused(box, what, block, place->refusal);
    else
        load(box, place->stripe);
    return place->refusal == 0;
}

/* The member that holds the parity of a stripe. */
static size_t parity_of(const struct box *box, uint64_t stripe)
{
    for (size_t member = 0;; member++) {
        struct irumbolai_owner owner = irumbolai_owner(ARRAY(box), stripe, member);

        if (owner.refusal != 0)
            fail("the array has no such stripe");
        if (owner.parity == 1)
            return member;
    }
}

static struct irumbolai_check check_member(struct box *box, uint64_t stripe, size_t member)
{
    struct irumbolai_check check =
        irumbolai_check(ARRAY(box), stripe, member, block_of(box, member), box->block_length);

    if (check.refusal != 0)
        fail("the array has no such block");
    return check;
}

/* Is the stripe in the record? Then nobody can tell whether its blocks and its parity belong together. */
static bool is_open(const struct box *box, uint64_t stripe)
{
    for (size_t at = 0; at < RECORD_BYTES; at += ENTRY_BYTES)
        if (number_at(box->record + at, ENTRY_BYTES) == stripe + 1)
            return true;
    return false;
}

/* Seals a stripe of an array that is being made. The order of these stores is all one: there is no array yet. */
void seal(struct box *box, uint64_t stripe, const uint8_t *data, size_t length)
{
    if (irumbolai_seal(ARRAY(box), stripe, data, length, box->bytes, box->length) != 0)
        fail("the stripe cannot be sealed");
    for (size_t member = 0; member < box->members; member++)
        store_member(box, stripe, member);
}

/*
 * Recovers a stripe in two stores: its parity, then the record. It stays open where a data member is amiss, and where
 * the parity's drive does not answer: that one could come back with its old parity.
 */
static void recover(struct box *box, uint64_t stripe)
{
    uint8_t struck[RECORD_BYTES];

    load(box, stripe);
    memcpy(struck, box->record, RECORD_BYTES);
    struct irumbolai_recovery recovery =
        irumbolai_recover(ARRAY(box), stripe, box->bytes, box->length, struck, RECORD_BYTES);
    if (recovery.refusal != 0)
        fail("the record is not this array's");
    if (recovery.kind == RECOVERY_NOT_ENTERED)
        return;
    size_t parity = parity_of(box, stripe);
    if (recovery.kind == RECOVERY_LEFT || !answers(box, parity)) {
        say_left(box, stripe, recovery.kind == RECOVERY_LEFT ? recovery.member : parity);
        return;
    }
    store_member(box, stripe, parity);
    store_entries(box, struck);
    printf("recovered %" PRIu64 "\n", stripe);
}

/* After power on, before anything else is written: every stripe that the record names. */
void recover_all(struct box *box)
{
    for (size_t at = 0; at < RECORD_BYTES; at += ENTRY_BYTES) {
        uint64_t entry = number_at(box->record + at, ENTRY_BYTES);

        if (entry != 0)
            recover(box, entry - 1);
    }
}

static uint32_t update(struct box *box, uint64_t block, uint8_t *record, size_t stores)
{
    return irumbolai_update_recorded(ARRAY(box), block, box->data, box->data_length, box->bytes, box->length, record,
                                     RECORD_BYTES, stores);
}

/*
 * Writes a block in the four stores of an update. The first call enters the stripe in a copy of the record, the second
 * leaves stripe and record as they are to be after all four; only then is anything stored. A refused call has changed
 * nothing. While a drive is away, writes to its stripes are refused by 9 as a rule.
 */
void write_block(struct box *box, uint64_t block)
{
    uint8_t entered[RECORD_BYTES], struck[RECORD_BYTES];
    struct irumbolai_place place;

    if (!load_at(box, "write", block, &place))
        return;
    memcpy(entered, box->record, RECORD_BYTES);
    memcpy(struck, box->record, RECORD_BYTES);
    uint32_t refusal = update(box, block, entered, 1);
    if (refusal == 0)
        refusal = update(box, block, struck, 4);
    if (refusal != 0) {
        say_refused(box, "write", block, refusal);
        return;
    }
    store_entries(box, entered);
    store_member(box, place.stripe, place.member);
    store_member(box, place.stripe, parity_of(box, place.stripe));
    store_entries(box, struck);
    printf("wrote %" PRIu64 "\n", block);
}

/* Reads a block. Data that are made from other members are handed out only if the stripe is not open. */
void read_block(struct box *box, uint64_t block)
{
    static const char *const kinds[] = {"stored", "rebuilt", "unchecked"};
    struct irumbolai_place place;

    if (!load_at(box, "read", block, &place))
        return;
    struct irumbolai_read read =
        irumbolai_read(ARRAY(box), block, box->bytes, box->length, box->data, box->data_length);
    if (read.refusal != 0) {
        say_refused(box, "read", block, read.refusal);
    } else if (read.kind == READ_REBUILT && is_open(box, place.stripe)) {
        say_left(box, place.stripe, place.member);
    } else {
        printf("read %" PRIu64 " %s\n", block, kinds[read.kind]);
        fwrite(box->data, 1, box->data_length, stdout);
        box->found = box->found || read.kind != READ_STORED;
    }
}

/* A verdict as a line of the report has it. */
static void say_verdict(uint64_t stripe, struct irumbolai_verdict verdict)
{
    printf("patrol %" PRIu64, stripe);
    if (verdict.kind == VERDICT_CLEAN)
        printf(" CLEAN\n");
    else if (verdict.kind == VERDICT_BAD)
        printf(" BAD %" PRIu32 " %" PRIu32 " %c%c%c\n", verdict.first, verdict.count, verdict.guard_fits ? '-' : 'G',
               verdict.application_fits ? '-' : 'A', verdict.reference_fits ? '-' : 'R');
    else if (verdict.kind == VERDICT_TORN)
        printf(" TORN %" PRIu32 "\n", verdict.first);
    else
        printf(" UNCHECKED %" PRIu32 " %" PRIu32 "\n", verdict.first, verdict.count);
}

/* Idle turns: at each the patrol scrubs its next stripe. It tells what it finds and changes nothing. */
void patrol(struct box *box, uint64_t turns)
{
    for (; turns > 0; turns--) {
        load(box, box->patrol.next);
        struct irumbolai_patrolled turn = irumbolai_patrol_turn(box->patrol, 1, box->bytes, box->length);

        if (turn.verdict.refusal != 0)
            fail("the patrol is not this array's");
        say_verdict(turn.stripe, turn.verdict);
        box->found = box->found || turn.verdict.kind != VERDICT_CLEAN;
        box->patrol = turn.state;
    }
}

/*
 * Makes the bad blocks of a drive again, each in one store; a repair that was cut is asked for again. Not those of a
 * stripe that stays open: what came out could be wrong and look right.
 */
void repair(struct box *box, uint64_t member)
{
    if (member >= box->members || !answers(box, (size_t)member)) {
        say_refused(box, "repair", member, 5);
        return;
    }
    recover_all(box);
    for (uint64_t stripe = 0; stripe < box->stripes; stripe++) {
        load(box, stripe);
        if (is_open(box, stripe) || check_member(box, stripe, (size_t)member).kind != CHECK_BAD)
            continue;
        uint32_t refusal = irumbolai_rebuild(ARRAY(box), stripe, (size_t)member, box->bytes, box->length);
        if (refusal != 0) {
            say_refused(box, "rebuild", stripe, refusal);
            continue;
        }
        store_member(box, stripe, (size_t)member);
        printf("rebuilt %" PRIu64 "\n", stripe);
    }
    printf("repaired %" PRIu64 "\n", member);
}

/*
 * Data from elsewhere for a block of an open stripe that is not good, which nothing here can make again. Its tag is
 * what a check of these data expects. Then the stripe is recovered, unless another block is amiss. Of this the theorem
 * says nothing: that the data are the right ones is on whoever brings them.
 */
void bring(struct box *box, uint64_t block)
{
    size_t width = box->method == LARGE ? 4 : 2;
    struct irumbolai_place place;

    if (!load_at(box, "bring", block, &place))
        return;
    bool good = check_member(box, place.stripe, place.member).kind == CHECK_GOOD;
    if (good || !is_open(box, place.stripe) || !answers(box, place.member)) {
        say_refused(box, "bring", block, 9);
        return;
    }
    uint8_t *bytes = block_of(box, place.member), *tag = bytes + box->data_length;
    memcpy(bytes, box->data, box->data_length);
    memset(tag, 0, box->block_length - box->data_length);
    struct irumbolai_check due = check_member(box, place.stripe, place.member);
    put_number(tag, width, due.guard.expected);
    put_number(tag + width, width, due.application.expected);
    put_number(tag + 2 * width, 2 * width, due.reference.expected);
    store_member(box, place.stripe, place.member);
    printf("brought %" PRIu64 "\n", block);
    recover(box, place.stripe);
}
