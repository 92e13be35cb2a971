/*
 * The rig: looks at one stripe through libirumbolai.a and says what it finds, or patrols the stripes of a file between
 * requests. README.md has the format of its files, its lines and its exit codes.
 *
 *     rig MEMBERS STRIPES VOLUME METHOD ROW STRIPE FILE
 *     rig patrol MEMBERS STRIPES VOLUME METHOD ROW FILE TURN ..
 */
#include <errno.h>
#include <inttypes.h>
#include <stdbool.h>
#include <stdio.h>
#include <stdlib.h>
#include <string.h>

#include "irumbolai.h"

/* The guard methods. Blocks of method 3 are large. */
enum { CRC = 1, CHECKSUM = 2, LARGE = 3 };

/* The most that there is of each, in every method. */
enum { MOST_MEMBERS = 16, MOST_DATA = 4096, MOST_BLOCK = 4112, RECORD_BYTES = 512 };

enum exit_code { CLEAN = 0, FOUND = 1, REFUSED = 2 };

/* A stripe in memory, and the numbers that say which one it is. */
struct stripe {
    size_t members;
    uint64_t stripes;
    uint8_t volume;
    uint8_t method;
    uint8_t row;
    uint64_t number;
    uint8_t *bytes;
    size_t length;
};

/* How many bytes the data of a block have, and how many the whole block, by the method. */
static size_t data_bytes(const struct stripe *stripe)
{
    return stripe->method == LARGE ? 4096 : 512;
}

static size_t block_bytes(const struct stripe *stripe)
{
    return stripe->method == LARGE ? 4112 : 520;
}

/* How many bytes the guard has in the tag. As many has the application tag, and twice as many the reference tag. */
static size_t guard_bytes(const struct stripe *stripe)
{
    return stripe->method == LARGE ? 4 : 2;
}

/* A refusal number in words. */
static const char *in_words(uint32_t refusal)
{
    static const char *const words[] = {
        [0] = "done",
        [1] = "the members are not 3 to 16",
        [2] = "the stripes are not 1 to 68719476736",
        [3] = "the array has no such stripe or block",
        [4] = "the state is not fit",
        [5] = "the array has no such member",
        [6] = "a buffer is not as long as it has to be",
        [7] = "the piece is longer than what its member lacks",
        [8] = "a member has not given all its bytes",
        [9] = "the blocks that are needed are not all good, or do not belong together",
        [12] = "the method is not 1 to 3",
        [13] = "the row length is not 1, 2, 4 up to 128, or does not divide the stripes",
        [14] = "no entry of the record is free",
        [15] = "the stripe is entered in the record already",
        [16] = "the record names a stripe that the array has not, or one twice",
    };
    bool known = refusal < sizeof words / sizeof words[0] && words[refusal] != NULL;

    return known ? words[refusal] : "no such refusal";
}

static void show_refusal(uint32_t refusal)
{
    printf("refused %" PRIu32 ", %s\n", refusal, in_words(refusal));
}

/* The letters of the report: a dash for each field that fits. */
static void show_letters(struct irumbolai_verdict verdict)
{
    printf("%c%c%c", verdict.guard_fits ? '-' : 'G', verdict.application_fits ? '-' : 'A',
           verdict.reference_fits ? '-' : 'R');
}

static void show_verdict(const char *name, struct irumbolai_verdict verdict)
{
    printf("%s: ", name);
    if (verdict.refusal != 0)
        show_refusal(verdict.refusal);
    else if (verdict.kind == 0)
        printf("clean\n");
    else if (verdict.kind == 1) {
        printf("bad, lowest member %" PRIu32 " ", verdict.first);
        show_letters(verdict);
        printf(", %" PRIu32 " in all\n", verdict.count);
    } else if (verdict.kind == 2)
        printf("torn, first at byte %" PRIu32 "\n", verdict.first);
    else
        printf("unchecked, lowest member %" PRIu32 ", %" PRIu32 " in all\n", verdict.first, verdict.count);
}

static bool same(struct irumbolai_verdict a, struct irumbolai_verdict b)
{
    return a.refusal == b.refusal && a.kind == b.kind && a.first == b.first && a.count == b.count &&
           a.guard_fits == b.guard_fits && a.application_fits == b.application_fits &&
           a.reference_fits == b.reference_fits;
}

static const uint8_t *block_of(const struct stripe *stripe, size_t member)
{
    return stripe->bytes + member * block_bytes(stripe);
}

/* The calls that take the array's numbers, each once: the rest of the program hands over a stripe. */

static struct irumbolai_owner owner_of(const struct stripe *stripe, size_t member)
{
    return irumbolai_owner(stripe->members, stripe->stripes, stripe->volume, stripe->method, stripe->row,
                           stripe->number, member);
}

static struct irumbolai_check check_member(const struct stripe *stripe, size_t member)
{
    return irumbolai_check(stripe->members, stripe->stripes, stripe->volume, stripe->method, stripe->row,
                           stripe->number, member, block_of(stripe, member), block_bytes(stripe));
}

static struct irumbolai_verdict scrub(const struct stripe *stripe)
{
    return irumbolai_scrub(stripe->members, stripe->stripes, stripe->volume, stripe->method, stripe->row,
                           stripe->number, stripe->bytes, stripe->length);
}

static struct irumbolai_read read_block(const struct stripe *stripe, uint64_t block, uint8_t *out)
{
    return irumbolai_read(stripe->members, stripe->stripes, stripe->volume, stripe->method, stripe->row, block,
                          stripe->bytes, stripe->length, out, data_bytes(stripe));
}

static uint32_t update_recorded(struct stripe *stripe, uint64_t block, const uint8_t *data, uint8_t *record,
                                size_t stores)
{
    return irumbolai_update_recorded(stripe->members, stripe->stripes, stripe->volume, stripe->method, stripe->row,
                                     block, data, data_bytes(stripe), stripe->bytes, stripe->length, record,
                                     RECORD_BYTES, stores);
}

static struct irumbolai_recovery recover(struct stripe *stripe, uint8_t *record)
{
    return irumbolai_recover(stripe->members, stripe->stripes, stripe->volume, stripe->method, stripe->row,
                             stripe->number, stripe->bytes, stripe->length, record, RECORD_BYTES);
}

static struct irumbolai_taken start_scan(const struct stripe *stripe, uint8_t *work, size_t work_length)
{
    return irumbolai_start(stripe->members, stripe->stripes, stripe->volume, stripe->method, stripe->row,
                           stripe->number, work, work_length);
}

/* The guard in the tag of a member's block, as it stands there: the highest byte comes first. */
static uint32_t stored_guard(const struct stripe *stripe, size_t member)
{
    const uint8_t *tag = block_of(stripe, member) + data_bytes(stripe);
    uint32_t guard = 0;

    for (size_t at = 0; at < guard_bytes(stripe); at++)
        guard = guard << 8 | tag[at];
    return guard;
}

/* The guard that the data of a member ask for, by the method. Their number is even, so the checksum is not refused. */
static uint32_t due_guard(const struct stripe *stripe, size_t member)
{
    const uint8_t *block = block_of(stripe, member);
    size_t length = data_bytes(stripe);

    if (stripe->method == CHECKSUM)
        return irumbolai_checksum(block, length).guard;
    if (stripe->method == LARGE)
        return irumbolai_crc32c(block, length);
    return irumbolai_guard(block, length);
}

/* The parity's guard by checksum tells of the whole stripe, and its own data ask for none. */
static bool asks_for_guard(const struct stripe *stripe, size_t member)
{
    return stripe->method != CHECKSUM || owner_of(stripe, member).parity == 0;
}

/* How many digits a guard is shown with. */
static int guard_digits(const struct stripe *stripe)
{
    return (int)(2 * guard_bytes(stripe));
}

/* A field of a tag, with so many digits: as found, as expected, and whether they are the same. */
static void show_field(const char *name, int digits, struct irumbolai_field field)
{
    printf("    %s found %0*" PRIX64 ", expected %0*" PRIX64 ": %s\n", name, digits, field.found, digits,
           field.expected, field.fits ? "fits" : "WRONG");
}

/*
 * A member: its guard as stored and as its data ask for, whether the block is the one that belongs there, and each field
 * of its tag. Of an unchecked block no fields are told.
 */
static void show_member(const struct stripe *stripe, size_t member)
{
    int digits = guard_digits(stripe);
    struct irumbolai_check check = check_member(stripe, member);

    printf("member %zu: guard stored %0*" PRIX32 ", ", member, digits, stored_guard(stripe, member));
    if (asks_for_guard(stripe, member))
        printf("due %0*" PRIX32 ": ", digits, due_guard(stripe, member));
    else
        printf("not checked: ");
    if (check.refusal != 0) {
        show_refusal(check.refusal);
        return;
    }
    if (check.kind == 2) {
        printf("unchecked\n");
        return;
    }
    printf("%s\n", check.kind == 0 ? "good" : "bad");
    show_field("guard", digits, check.guard);
    show_field("application tag", digits, check.application);
    show_field("reference tag", 2 * digits, check.reference);
}

/* The quick scrub: the stored guards alone, of sixteen bits or of thirty-two. */
static struct irumbolai_quick quick_scrub(const struct stripe *stripe)
{
    uint16_t narrow[MOST_MEMBERS];
    uint32_t wide[MOST_MEMBERS];

    for (size_t member = 0; member < stripe->members; member++) {
        wide[member] = stored_guard(stripe, member);
        narrow[member] = (uint16_t)wide[member];
    }
    if (stripe->method == LARGE)
        return irumbolai_quick_scrub_wide(wide, stripe->members);
    return irumbolai_quick_scrub(narrow, stripe->members);
}

static void show_quick(const struct stripe *stripe, struct irumbolai_quick quick)
{
    printf("quick scrub: ");
    if (quick.refusal != 0)
        show_refusal(quick.refusal);
    else if (quick.differs == 0)
        printf("fits\n");
    else
        printf("differs, guards combine to %0*" PRIX32 "\n", guard_digits(stripe), quick.combination);
}

/*
 * The scan, as if the drives handed over `step` bytes at a time, each in its turn. Each call is given the state that
 * the one before gave back. A refused call ends the scan.
 */
static struct irumbolai_verdict scan(const struct stripe *stripe, size_t step)
{
    uint8_t work[MOST_DATA];
    size_t work_length = data_bytes(stripe), end = block_bytes(stripe);
    struct irumbolai_taken taken = start_scan(stripe, work, work_length);

    for (size_t at = 0; at < end && taken.refusal == 0; at += step) {
        size_t length = end - at < step ? end - at : step;

        for (size_t member = 0; member < stripe->members && taken.refusal == 0; member++)
            taken = irumbolai_piece(taken.state, member, block_of(stripe, member) + at, length, work, work_length);
    }
    if (taken.refusal != 0) {
        struct irumbolai_verdict refused = {.refusal = taken.refusal};
        return refused;
    }
    return irumbolai_finish(taken.state, work, work_length);
}

/* A decimal number, at most `most`. */
static bool read_number(const char *text, uint64_t most, uint64_t *number)
{
    char *end;

    if (text[0] < '0' || text[0] > '9')
        return false;
    errno = 0;
    *number = strtoull(text, &end, 10);
    return errno == 0 && *end == '\0' && *number <= most;
}

/*
 * The power goes after some of the four stores of an update, played on a copy of a clean stripe with an empty record:
 * the lowest block gets other data, every bit of it turned. Then the stripe is recovered, and the block read. Says
 * whether all is as it should be.
 */
static bool show_cut(const struct stripe *stripe, size_t stores)
{
    static const char *const kinds[] = {"not entered", "recovered", "left"};
    uint8_t record[RECORD_BYTES] = {0}, old[MOST_DATA], new[MOST_DATA], out[MOST_DATA];
    size_t length = data_bytes(stripe);
    struct stripe copy = *stripe;
    /* Member 0 holds the lowest block, or the parity, which is named by it. */
    uint64_t block = owner_of(stripe, 0).block;

    copy.bytes = malloc(copy.length);
    if (copy.bytes == NULL)
        return false;
    memcpy(copy.bytes, stripe->bytes, copy.length);
    uint32_t refusal = read_block(&copy, block, old).refusal;
    for (size_t at = 0; at < length; at++)
        new[at] = (uint8_t)~old[at];
    if (refusal == 0)
        refusal = update_recorded(&copy, block, new, record, stores);

    /* Here the power goes. What is on the drives is the copy and the record. */
    struct irumbolai_recovery recovery = recover(&copy, record);
    if (refusal == 0)
        refusal = recovery.refusal;
    if (refusal == 0)
        refusal = read_block(&copy, block, out).refusal;
    printf("power cut after %zu stores: ", stores);
    if (refusal != 0) {
        show_refusal(refusal);
        free(copy.bytes);
        return false;
    }
    bool is_new = memcmp(out, new, length) == 0, is_old = memcmp(out, old, length) == 0;
    struct irumbolai_verdict verdict = scrub(&copy);
    printf("%s, block %" PRIu64 " reads as %s, ", kinds[recovery.kind], block,
           is_new ? "new" : is_old ? "before" : "NEITHER");
    printf("%s\n", verdict.refusal == 0 && verdict.kind == 0 ? "clean" : "NOT CLEAN");
    free(copy.bytes);
    return (is_new || is_old) && verdict.refusal == 0 && verdict.kind == 0;
}

/* Asks the library everything about a stripe. */
static enum exit_code look_at(const struct stripe *stripe)
{
    struct irumbolai_verdict whole = scrub(stripe);

    printf("stripe %" PRIu64 " of %" PRIu64 ", members %zu, volume %u, method %u, row length %u\n", stripe->number,
           stripe->stripes, stripe->members, (unsigned)stripe->volume, (unsigned)stripe->method,
           (unsigned)stripe->row);
    if (whole.refusal != 0) {
        show_verdict("scrub", whole);
        return REFUSED;
    }

    /* The scrub was done, so the numbers are in range and there is a whole block for each member. */
    for (size_t member = 0; member < stripe->members; member++)
        show_member(stripe, member);
    show_verdict("scrub", whole);

    struct irumbolai_quick quick = quick_scrub(stripe);
    show_quick(stripe, quick);

    struct irumbolai_verdict halves = scan(stripe, block_bytes(stripe) / 2);
    struct irumbolai_verdict singles = scan(stripe, 1);
    show_verdict("scan in two halves", halves);
    show_verdict("scan in single bytes", singles);

    bool agree = same(whole, halves) && same(whole, singles);
    printf("the three verdicts %s\n", agree ? "agree" : "DIFFER");
    bool clean = agree && whole.kind == 0 && quick.differs == 0;
    for (size_t stores = 0; clean && stores <= 4; stores++)
        clean = show_cut(stripe, stores);
    return clean ? CLEAN : FOUND;
}

/*
 * Keeps what was read, in memory of exactly the number of its bytes, so that a tool which watches memory notices any step
 * beyond. An empty buffer needs a pointer too: the library takes no NULL.
 */
static bool keep(const uint8_t *buffer, struct stripe *stripe)
{
    stripe->bytes = malloc(stripe->length > 0 ? stripe->length : 1);
    if (stripe->bytes == NULL)
        return false;
    memcpy(stripe->bytes, buffer, stripe->length);
    return true;
}

/*
 * The bytes of a file. Of one longer than every stripe one byte too many is read, and the library refuses it for its
 * length.
 */
static bool read_stripe(const char *path, struct stripe *stripe)
{
    uint8_t buffer[MOST_MEMBERS * MOST_BLOCK + 1];
    FILE *file = fopen(path, "rb");

    if (file == NULL)
        return false;
    stripe->length = fread(buffer, 1, sizeof buffer, file);
    if (ferror(file)) {
        fclose(file);
        return false;
    }
    fclose(file);
    return keep(buffer, stripe);
}

/* The words for the array's numbers: members, stripes, volume, method, row length. */
static bool read_array(char **words, struct stripe *array)
{
    uint64_t members, volume, method, row;

    if (!read_number(words[0], SIZE_MAX, &members) || !read_number(words[1], UINT64_MAX, &array->stripes) ||
        !read_number(words[2], UINT8_MAX, &volume) || !read_number(words[3], UINT8_MAX, &method) ||
        !read_number(words[4], UINT8_MAX, &row))
        return false;
    array->members = (size_t)members;
    array->volume = (uint8_t)volume;
    array->method = (uint8_t)method;
    array->row = (uint8_t)row;
    return true;
}

/*
 * Reads a stripe out of a file that holds those of the whole array, one after the other: as many bytes of it as the file
 * has, none where it ends before. A stripe past the array's end has none either.
 */
static bool fetch(FILE *file, uint64_t number, struct stripe *stripe)
{
    uint8_t buffer[MOST_MEMBERS * MOST_BLOCK];
    size_t whole = stripe->members * block_bytes(stripe);

    stripe->length = 0;
    if (number < stripe->stripes) {
        if (fseek(file, (long)(number * whole), SEEK_SET) != 0)
            return false;
        stripe->length = fread(buffer, 1, whole, file);
        if (ferror(file))
            return false;
    }
    return keep(buffer, stripe);
}

/*
 * One call of a patrol. The word says what the host does: it is idle, it is busy, or it asks for a stripe by its number.
 * A stripe is read only where one is looked at.
 */
static bool take_turn(const char *word, FILE *file, struct stripe *array, struct irumbolai_patrolled *last)
{
    bool idle = strcmp(word, "idle") == 0, busy = strcmp(word, "busy") == 0;
    struct irumbolai_patrol state = last->state;
    uint64_t asked = state.next;

    if (!idle && !busy && !read_number(word, UINT64_MAX, &asked))
        return false;
    if (busy) {
        *last = irumbolai_patrol_turn(state, 0, (const uint8_t *)"", 0);
        return true;
    }
    if (!fetch(file, asked, array))
        return false;
    *last = idle ? irumbolai_patrol_turn(state, 1, array->bytes, array->length)
                 : irumbolai_patrol_request(state, asked, array->bytes, array->length);
    free(array->bytes);
    return true;
}

/* Patrols the stripes of a file, one call for each word. What is refused leaves the patrol where it stands. */
static enum exit_code patrol(struct stripe *array, FILE *file, char **words)
{
    struct irumbolai_patrol_begun begun =
        irumbolai_patrol_begin(array->members, array->stripes, array->volume, array->method, array->row);
    struct irumbolai_patrolled last = {.state = begun.state};
    bool refused = false, found = false;

    printf("patrol of %" PRIu64 " stripes, members %zu, volume %u, method %u, row length %u\n", array->stripes,
           array->members, (unsigned)array->volume, (unsigned)array->method, (unsigned)array->row);
    if (begun.refusal != 0) {
        show_refusal(begun.refusal);
        return REFUSED;
    }
    for (; *words != NULL; words++) {
        if (!take_turn(*words, file, array, &last)) {
            fprintf(stderr, "rig: %s is no turn, or its stripe cannot be read\n", *words);
            return REFUSED;
        }
        printf("%s: ", *words);
        if (strcmp(*words, "busy") == 0)
            printf("nothing looked at\n");
        else if (last.verdict.refusal != 0)
            show_refusal(last.verdict.refusal);
        else {
            printf("stripe %" PRIu64, last.stripe);
            show_verdict("", last.verdict);
        }
        refused = refused || last.verdict.refusal != 0;
        found = found || last.verdict.kind != 0;
    }
    printf("next is stripe %" PRIu64 "\n", last.state.next);
    return refused ? REFUSED : found ? FOUND : CLEAN;
}

static enum exit_code patrol_file(struct stripe *array, const char *path, char **words)
{
    FILE *file = fopen(path, "rb");
    enum exit_code code;

    if (file == NULL) {
        fprintf(stderr, "rig: %s cannot be read\n", path);
        return REFUSED;
    }
    code = patrol(array, file, words);
    fclose(file);
    return code;
}

static enum exit_code look_at_file(struct stripe *stripe, const char *path)
{
    enum exit_code code;

    if (!read_stripe(path, stripe)) {
        fprintf(stderr, "rig: %s cannot be read\n", path);
        return REFUSED;
    }
    code = look_at(stripe);
    free(stripe->bytes);
    return code;
}

int main(int argc, char **argv)
{
    bool patrols = argc > 8 && strcmp(argv[1], "patrol") == 0;
    struct stripe stripe;
    enum exit_code code;

    if (!(patrols && read_array(argv + 2, &stripe)) &&
        !(argc == 8 && read_array(argv + 1, &stripe) && read_number(argv[6], UINT64_MAX, &stripe.number))) {
        fprintf(stderr, "usage: rig MEMBERS STRIPES VOLUME METHOD ROW STRIPE FILE\n"
                        "       rig patrol MEMBERS STRIPES VOLUME METHOD ROW FILE TURN ..\n");
        return REFUSED;
    }
    code = patrols ? patrol_file(&stripe, argv[7], argv + 8) : look_at_file(&stripe, argv[7]);
    if (fflush(stdout) != 0 || ferror(stdout)) {
        fprintf(stderr, "rig: the lines cannot be written\n");
        return REFUSED;
    }
    return code;
}
