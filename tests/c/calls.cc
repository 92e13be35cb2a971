// Every call of the header from C++, on the stripes of the bench table, the same by checksum and the same in large blocks; every field of every
// answer is looked at. Each buffer that is lent has its exact length on the heap, so that valgrind notices any step beyond.
#include <algorithm>
#include <cstdio>
#include <cstdlib>
#include <vector>

#include "irumbolai.h"

typedef std::vector<uint8_t> Bytes;

static int compared = 0;

static void due(const char *what, uint64_t found, uint64_t expected)
{
    compared++;
    if (found != expected) {
        std::printf("calls: %s is %llu and should be %llu\n", what, (unsigned long long)found, (unsigned long long)expected);
        std::exit(1);
    }
}

#define DUE(found, expected) due(#found, found, expected)

// The calls that take an array's numbers, each once: the tests hand over an array.

struct Array {
    size_t members;
    uint64_t stripes;
    uint8_t volume;
    uint8_t method;
    uint8_t row;
};

static struct irumbolai_place place_of(Array array, uint64_t block)
{
    return irumbolai_place(array.members, array.stripes, array.volume, array.method, array.row, block);
}

static struct irumbolai_owner owner_at(Array array, uint64_t stripe, size_t member)
{
    return irumbolai_owner(array.members, array.stripes, array.volume, array.method, array.row, stripe, member);
}

static struct irumbolai_check check(Array array, uint64_t stripe, size_t member, const Bytes &block)
{
    return irumbolai_check(array.members, array.stripes, array.volume, array.method, array.row, stripe, member, block.data(), block.size());
}

static uint32_t seal(Array array, uint64_t stripe, const Bytes &data, Bytes &bytes)
{
    return irumbolai_seal(array.members, array.stripes, array.volume, array.method, array.row, stripe, data.data(), data.size(), bytes.data(), bytes.size());
}

static struct irumbolai_read read_block(Array array, uint64_t block, const Bytes &bytes, Bytes &out)
{
    return irumbolai_read(array.members, array.stripes, array.volume, array.method, array.row, block, bytes.data(), bytes.size(), out.data(), out.size());
}

static uint32_t rebuild(Array array, uint64_t stripe, size_t member, Bytes &bytes)
{
    return irumbolai_rebuild(array.members, array.stripes, array.volume, array.method, array.row, stripe, member, bytes.data(), bytes.size());
}

static uint32_t update(Array array, uint64_t block, const Bytes &data, Bytes &bytes)
{
    return irumbolai_update(array.members, array.stripes, array.volume, array.method, array.row, block, data.data(), data.size(), bytes.data(), bytes.size());
}

static uint32_t update_recorded(Array array, uint64_t block, const Bytes &data, Bytes &bytes, Bytes &record, size_t stores)
{
    return irumbolai_update_recorded(array.members, array.stripes, array.volume, array.method, array.row, block, data.data(), data.size(), bytes.data(), bytes.size(), record.data(), record.size(), stores);
}

static void due_recovery(Array array, uint64_t stripe, Bytes &bytes, Bytes &record, uint32_t refusal, uint32_t kind, uint32_t member)
{
    struct irumbolai_recovery recovery = irumbolai_recover(array.members, array.stripes, array.volume, array.method, array.row, stripe, bytes.data(), bytes.size(), record.data(), record.size());
    DUE(recovery.refusal, refusal);
    DUE(recovery.kind, kind);
    DUE(recovery.member, member);
}

static struct irumbolai_verdict scrub(Array array, uint64_t stripe, const Bytes &bytes)
{
    return irumbolai_scrub(array.members, array.stripes, array.volume, array.method, array.row, stripe, bytes.data(), bytes.size());
}

static struct irumbolai_taken start(Array array, uint64_t stripe, Bytes &work)
{
    return irumbolai_start(array.members, array.stripes, array.volume, array.method, array.row, stripe, work.data(), work.size());
}

// The array of the sealed stripe in the table, the same by checksum, and the same in large blocks.
static const Array three = {3, 1, 7, 1, 1};
static const Array summed = {3, 1, 7, 2, 1};
static const Array large = {3, 1, 7, 3, 1};

// How long the data of a block are, and the whole block.
static size_t data_length(Array array)
{
    return array.method == 3 ? 4096 : 512;
}

static size_t block_length(Array array)
{
    return array.method == 3 ? 4112 : 520;
}

// A block's data, zeros with these at their end.
static Bytes ending(std::initializer_list<uint8_t> last, size_t length = 512)
{
    Bytes data(length);
    std::copy(last.begin(), last.end(), data.end() - static_cast<std::ptrdiff_t>(last.size()));
    return data;
}

static Bytes joined(const Bytes &a, const Bytes &b)
{
    Bytes both(a);
    both.insert(both.end(), b.begin(), b.end());
    return both;
}

// A stripe of three zero blocks, but for what the parity ends in, with tags that fit.
static Bytes torn(std::initializer_list<uint8_t> last, uint8_t high, uint8_t low)
{
    Bytes parity = joined(ending(last), {high, low, 0x80, 7, 0, 0, 0, 0});
    return joined(parity, joined(joined(ending({}), {0, 0, 0, 7, 0, 0, 0, 0}), joined(ending({}), {0, 0, 0, 7, 0, 0, 0, 1})));
}

// The sealed stripe of the table: data end in 01 and 02.
static Bytes sealed()
{
    Bytes stripe = joined(ending({3}), {0x17, 0x6E, 0x80, 7, 0, 0, 0, 0});
    stripe = joined(stripe, joined(ending({1}), {0x8B, 0xB7, 0, 7, 0, 0, 0, 0}));
    return joined(stripe, joined(ending({2}), {0x9C, 0xD9, 0, 7, 0, 0, 0, 1}));
}

// The letters of the report stand for which fields of the lowest bad member fit; all three are 0 where none is bad.
static void due_verdict(struct irumbolai_verdict verdict, uint32_t refusal, uint32_t kind, uint32_t first, uint32_t count, const char *letters = "GAR")
{
    DUE(verdict.refusal, refusal);
    DUE(verdict.kind, kind);
    DUE(verdict.first, first);
    DUE(verdict.count, count);
    DUE(verdict.guard_fits, letters[0] == '-');
    DUE(verdict.application_fits, letters[1] == '-');
    DUE(verdict.reference_fits, letters[2] == '-');
}

static void due_field(struct irumbolai_field field, uint64_t found, uint64_t expected, uint32_t fits)
{
    DUE(field.found, found);
    DUE(field.expected, expected);
    DUE(field.fits, fits);
}

// A check that tells no fields: refused, or of an unchecked block.
static void due_untold(struct irumbolai_check checked, uint32_t refusal, uint32_t kind)
{
    DUE(checked.refusal, refusal);
    DUE(checked.kind, kind);
    due_field(checked.guard, 0, 0, 0);
    due_field(checked.application, 0, 0, 0);
    due_field(checked.reference, 0, 0, 0);
}

static void places()
{
    const uint8_t one = 1;
    DUE(irumbolai_guard(&one, 1), 0x8BB7);
    DUE(irumbolai_guard(&one, 0), 0);
    const uint8_t bytes[3] = {1, 0, 2};
    const struct irumbolai_guards guards = irumbolai_guards(bytes, 3, 2);
    DUE(guards.guard[0], irumbolai_guard(bytes, 3));
    DUE(guards.guard[1], 0x9CD9);
    DUE(guards.guard[2], 0);
    DUE(guards.guard[15], 0);

    const Bytes digits = {'1', '2', '3', '4', '5', '6', '7', '8'};
    struct irumbolai_sum sum = irumbolai_checksum(digits.data(), digits.size());
    DUE(sum.refusal, 0);
    DUE(sum.guard, 0xF806);
    sum = irumbolai_checksum(digits.data(), 7);
    DUE(sum.refusal, 6);
    DUE(sum.guard, 0);
    DUE(irumbolai_checksum(digits.data(), 0).guard, 0xFFFF);

    const Bytes nine = {'1', '2', '3', '4', '5', '6', '7', '8', '9'};
    DUE(irumbolai_crc32c(nine.data(), nine.size()), 0xE3069283);
    DUE(irumbolai_crc32c(nine.data(), 0), 0);
    const Bytes blank(4096);
    DUE(irumbolai_crc32c(blank.data(), blank.size()), 0x98F94189);

    DUE(irumbolai_join(0x8BB7, 0x9CD9, 2), 0xE2BF);
    DUE(irumbolai_add_zeros(1, 2), 0x8BB7);
    DUE(irumbolai_remove_zeros(0x8BB7, 2), 1);
    DUE(irumbolai_combine(0x8BB7, 0x9CD9), 0x176E);

    const Array largest = {16, 268435456, 7, 1, 1};
    struct irumbolai_place place = place_of(largest, 4026531839);
    DUE(place.refusal, 0);
    DUE(place.member, 14);
    DUE(place.stripe, 268435455);
    DUE(place_of(largest, 4026531840).refusal, 3);
    DUE(place_of({16, 268435456, 7, 3, 1}, 4026531839).refusal, 0);
    DUE(place_of({16, 268435456, 7, 3, 1}, 4026531840).refusal, 3);
    DUE(place_of({16, 268435456, 7, 4, 3}, 4026531840).refusal, 12);
    DUE(place_of({16, 0, 7, 4, 3}, 4026531840).refusal, 2);

    DUE(place_of({16, 68719476737, 7, 4, 3}, 0).refusal, 2);
    const Array most = {16, 68719476736, 7, 1, 1};
    DUE(place_of(most, 1030792151039).stripe, 68719476735);
    DUE(place_of(most, 1030792151039).member, 14);
    DUE(place_of(most, 1030792151040).refusal, 3);
    DUE(owner_at(most, 68719476735, 14).block, 1030792151039);

    const Array five = {5, 65537, 7, 2, 1};
    struct irumbolai_owner owner = owner_at(five, 65536, 1);
    DUE(owner.refusal, 0);
    DUE(owner.parity, 1);
    DUE(owner.block, 0x00040000);
    DUE(owner_at(five, 65536, 5).refusal, 5);
}

static void due_place(Array array, uint64_t block, uint64_t stripe, uint32_t member)
{
    const struct irumbolai_place place = place_of(array, block);
    DUE(place.refusal, 0);
    DUE(place.stripe, stripe);
    DUE(place.member, member);
    const struct irumbolai_owner owner = owner_at(array, stripe, member);
    DUE(owner.refusal, 0);
    DUE(owner.parity, 0);
    DUE(owner.block, block);
}

static void due_parity(Array array, uint64_t stripe, size_t member, uint64_t lowest)
{
    const struct irumbolai_owner owner = owner_at(array, stripe, member);
    DUE(owner.refusal, 0);
    DUE(owner.parity, 1);
    DUE(owner.block, lowest);
}

// Rows of four in five members: the parity moves on after four stripes.
static void rows()
{
    const Array five = {5, 8, 7, 1, 4};
    due_place(five, 0, 0, 1);
    due_place(five, 3, 3, 1);
    due_place(five, 4, 0, 2);
    due_place(five, 16, 4, 0);
    due_place(five, 20, 4, 2);
    due_place(five, 31, 7, 4);
    due_parity(five, 3, 0, 3);
    due_parity(five, 4, 1, 16);
    due_parity(five, 7, 1, 19);
    DUE(place_of(five, 32).refusal, 3);
    DUE(owner_at(five, 8, 0).refusal, 3);
    due_place({16, 268435456, 7, 3, 128}, 4026531839, 268435455, 14);
    due_place({16, 68719476736, 7, 3, 128}, 1030792151039, 68719476735, 14);

    for (uint8_t row : {0, 3, 5, 16, 128, 255}) {
        const Array none = {5, 8, 7, 1, row};
        Bytes stripe(5 * 520, 0xFF), work(512, 0xFF);
        const struct irumbolai_place place = place_of(none, 32);
        DUE(place.refusal, 13);
        DUE(place.stripe, 0);
        DUE(place.member, 0);
        DUE(owner_at(none, 8, 5).refusal, 13);
        due_untold(check(none, 8, 5, work), 13, 0);
        DUE(seal(none, 0, Bytes(4 * 512), stripe), 13);
        DUE(read_block(none, 0, stripe, work).refusal, 13);
        DUE(rebuild(none, 0, 0, stripe), 13);
        DUE(update(none, 0, work, stripe), 13);
        due_verdict(scrub(none, 8, work), 13, 0, 0, 0);
        const struct irumbolai_taken taken = start(none, 8, work);
        DUE(taken.refusal, 13);
        DUE(taken.state.members, 0);
        DUE(taken.state.row, 0);
        DUE(stripe == Bytes(5 * 520, 0xFF), true);
        DUE(work == Bytes(512, 0xFF), true);
        DUE(place_of({5, 8, 7, 4, row}, 0).refusal, 12);
    }
}

// The last stripe of the first row of two in three members, its tags those of its own blocks.
static void jobs_in_rows()
{
    const Array two = {3, 4, 7, 1, 2};
    Bytes stripe(3 * 520, 0xFF), out(512, 0xFF), due_bytes = sealed();
    due_bytes[519] = 1;
    due_bytes[520 + 519] = 1;
    due_bytes[2 * 520 + 519] = 3;
    DUE(seal(two, 1, joined(ending({1}), ending({2})), stripe), 0);
    DUE(stripe == due_bytes, true);
    due_verdict(scrub(two, 1, stripe), 0, 0, 0, 0);
    due_verdict(scrub(two, 0, stripe), 0, 1, 0, 3, "--R");
    due_verdict(scrub({3, 4, 7, 1, 1}, 1, stripe), 0, 1, 0, 2, "-AR");
    stripe[520] ^= 0x10;
    DUE(read_block(two, 1, stripe, out).kind, 1);
    DUE(out == ending({1}), true);
    DUE(read_block(two, 3, stripe, out).kind, 0);
    DUE(out == ending({2}), true);
    DUE(rebuild(two, 1, 1, stripe), 0);
    DUE(stripe == due_bytes, true);
    DUE(update(two, 3, ending({3}), stripe), 0);
    due_verdict(scrub(two, 1, stripe), 0, 0, 0, 0);
    DUE(stripe[2 * 520 + 511], 3);
    DUE(stripe[511], 2);
}

static void checks()
{
    Bytes block = joined(ending({3}), {0x8B, 0xB7, 0, 7, 0, 0, 0, 0});
    struct irumbolai_check checked = check(three, 0, 1, block);
    DUE(checked.refusal, 0);
    DUE(checked.kind, 1);
    due_field(checked.guard, 0x8BB7, 0x176E, 0);
    due_field(checked.application, 7, 7, 1);
    due_field(checked.reference, 0, 0, 1);
    block[511] = 1;
    checked = check(three, 0, 1, block);
    DUE(checked.refusal, 0);
    DUE(checked.kind, 0);
    due_field(checked.guard, 0x8BB7, 0x8BB7, 1);
    due_field(checked.application, 7, 7, 1);
    due_field(checked.reference, 0, 0, 1);
    checked = check(three, 0, 2, block);
    DUE(checked.refusal, 0);
    DUE(checked.kind, 1);
    due_field(checked.guard, 0x8BB7, 0x8BB7, 1);
    due_field(checked.application, 7, 7, 1);
    due_field(checked.reference, 0, 1, 0);
    checked = check({5, 70000, 9, 1, 1}, 65536, 1, joined(ending({3}), {0x12, 0x34, 0x56, 0x78, 0x9A, 0xBC, 0xDE, 0xF0}));
    DUE(checked.refusal, 0);
    DUE(checked.kind, 1);
    due_field(checked.guard, 0x1234, 0x176E, 0);
    due_field(checked.application, 0x5678, 0x8009, 0);
    due_field(checked.reference, 0x9ABCDEF0, 0x00040000, 0);
    block[514] = block[515] = 0xFF;
    for (size_t member = 0; member < 3; member++)
        due_untold(check(three, 0, member, block), 0, 2);
    block[515] = 0xFE;
    checked = check(three, 0, 1, block);
    DUE(checked.kind, 1);
    due_field(checked.guard, 0x8BB7, 0x8BB7, 1);
    due_field(checked.application, 0xFFFE, 7, 0);
    due_field(checked.reference, 0, 0, 1);
    due_untold(check(three, 0, 3, block), 5, 0);
    block.pop_back();
    due_untold(check(three, 0, 1, block), 6, 0);
}

static void jobs()
{
    Bytes data = joined(ending({1}), ending({2})), stripe(1560, 0xFF), out(512, 0xFF);
    DUE(seal(three, 0, Bytes(1023), stripe), 6);
    DUE(stripe == Bytes(1560, 0xFF), true);
    DUE(seal(three, 0, data, stripe), 0);
    DUE(stripe == sealed(), true);

    struct irumbolai_read read = read_block(three, 1, stripe, out);
    DUE(read.refusal, 0);
    DUE(read.kind, 0);
    DUE(out == ending({2}), true);
    stripe[520] ^= 0x10;
    read = read_block(three, 0, stripe, out);
    DUE(read.refusal, 0);
    DUE(read.kind, 1);
    DUE(out == ending({1}), true);
    DUE(rebuild(three, 0, 0, stripe), 9);
    DUE(rebuild(three, 0, 1, stripe), 0);
    DUE(stripe == sealed(), true);

    Bytes zeros(512);
    DUE(update(three, 0, zeros, stripe), 0);
    DUE(stripe[512] << 8 | stripe[513], 0x9CD9);
    DUE(stripe[520 + 512] << 8 | stripe[520 + 513], 0);
}

// The stripe of the table by checksum: the parity's guard is that of the blocks combined.
static Bytes sealed_by_sum()
{
    Bytes stripe = joined(ending({3}), {0, 3, 0x80, 7, 0, 0, 0, 0});
    stripe = joined(stripe, joined(ending({1}), {0, 1, 0, 7, 0, 0, 0, 0}));
    return joined(stripe, joined(ending({2}), {0, 2, 0, 7, 0, 0, 0, 1}));
}

static void jobs_by_sum()
{
    Bytes stripe(1560, 0xFF), out(512, 0xFF);
    DUE(seal(summed, 0, joined(ending({1}), ending({2})), stripe), 0);
    DUE(stripe == sealed_by_sum(), true);
    due_verdict(scrub(summed, 0, stripe), 0, 0, 0, 0);

    // the parity's guard is not checked by itself, but has to fit the others'
    stripe[513] = 7;
    struct irumbolai_check checked = check(summed, 0, 0, Bytes(stripe.begin(), stripe.begin() + 520));
    DUE(checked.refusal, 0);
    DUE(checked.kind, 0);
    due_field(checked.guard, 7, 7, 1);
    due_field(checked.application, 0x8007, 0x8007, 1);
    due_field(checked.reference, 0, 0, 1);
    due_verdict(scrub(summed, 0, stripe), 0, 2, 512, 0);
    const Bytes unfit(stripe);
    stripe[520] ^= 0x10;
    DUE(read_block(summed, 0, stripe, out).refusal, 9);
    DUE(rebuild(summed, 0, 1, stripe), 9);
    stripe = unfit;
    DUE(rebuild(summed, 0, 0, stripe), 0);
    DUE(stripe == sealed_by_sum(), true);

    stripe[520] ^= 0x10;
    struct irumbolai_read read = read_block(summed, 0, stripe, out);
    DUE(read.refusal, 0);
    DUE(read.kind, 1);
    DUE(out == ending({1}), true);
    DUE(rebuild(summed, 0, 1, stripe), 0);
    DUE(stripe == sealed_by_sum(), true);

    // block 0 written anew without the parity: block 1 cannot be rebuilt from that
    const Bytes zeros(512);
    Bytes anew(stripe);
    DUE(update(summed, 0, zeros, anew), 0);
    DUE(anew[512] << 8 | anew[513], 0xFFFD);
    DUE(anew[520 + 512] << 8 | anew[520 + 513], 0xFFFF);
    due_verdict(scrub(summed, 0, anew), 0, 0, 0, 0);
    std::copy(stripe.begin(), stripe.begin() + 520, anew.begin());
    due_verdict(scrub(summed, 0, anew), 0, 2, 511, 0);
    DUE(rebuild(summed, 0, 2, anew), 9);
}

// Data and a tag of method 3: the guard, kind and volume, the two spare bytes, and the reference, which here is a byte.
static Bytes large_block(std::initializer_list<uint8_t> last, uint32_t guard, uint8_t kind, uint8_t reference)
{
    const Bytes in_bytes = {uint8_t(guard >> 24), uint8_t(guard >> 16), uint8_t(guard >> 8), uint8_t(guard)};
    return joined(ending(last, 4096), joined(in_bytes, {kind, 7, 0, 0, 0, 0, 0, 0, 0, 0, 0, reference}));
}

// The stripe of the table in large blocks.
static Bytes sealed_large()
{
    const Bytes data = joined(large_block({1}, 0x6A92C28A, 0, 0), large_block({2}, 0x79C2317E, 0, 1));
    return joined(large_block({3}, 0x8BA9B27D, 0x80, 0), data);
}

// A stripe of three large zero blocks, but for what the parity ends in, with tags that fit.
static Bytes torn_large(std::initializer_list<uint8_t> last, uint32_t guard)
{
    const Bytes data = joined(large_block({}, 0x98F94189, 0, 0), large_block({}, 0x98F94189, 0, 1));
    return joined(large_block(last, guard, 0x80, 0), data);
}

// A check of the third block of the stripe above with one byte changed: the application tag or the reference as found, which does not fit.
static void due_large_fault(size_t at, uint8_t value, uint64_t application, uint64_t reference)
{
    Bytes block = large_block({2}, 0x79C2317E, 0, 1);
    block[at] = value;
    const struct irumbolai_check checked = check(large, 0, 2, block);
    DUE(checked.refusal, 0);
    DUE(checked.kind, application == 0x70000 && reference == 1 ? 0 : 1);
    due_field(checked.guard, 0x79C2317E, 0x79C2317E, 1);
    due_field(checked.application, application, 0x70000, application == 0x70000);
    due_field(checked.reference, reference, 1, reference == 1);
    block[4100] = block[4101] = 0xFF;
    due_untold(check(large, 0, 2, block), 0, 2);
}

static void large_checks()
{
    due_large_fault(4101, 7, 0x70000, 1);
    due_large_fault(4101, 8, 0x80000, 1);
    due_large_fault(4102, 1, 0x70100, 1);
    due_large_fault(4103, 0xFF, 0x700FF, 1);
    due_large_fault(4104, 1, 0x70000, 0x0100000000000001);
    due_large_fault(4107, 1, 0x70000, 0x0000000100000001);
    due_large_fault(4111, 0, 0x70000, 0);
    Bytes block = large_block({1}, 0x79C2317E, 0, 1);
    const struct irumbolai_check checked = check(large, 0, 2, block);
    DUE(checked.kind, 1);
    due_field(checked.guard, 0x79C2317E, 0x6A92C28A, 0);
    due_field(check({16, 268435456, 9, 3, 1}, 268435455, 14, block).reference, 1, 4026531839, 0);
    due_field(check({16, 68719476736, 9, 3, 1}, 68719476735, 14, block).reference, 1, 1030792151039, 0);
    block.pop_back();
    due_untold(check(large, 0, 2, block), 6, 0);
    due_untold(check(large, 0, 2, Bytes(520)), 6, 0);
    due_untold(check(three, 0, 2, Bytes(4112)), 6, 0);
}

static void large_jobs()
{
    const Bytes data = joined(ending({1}, 4096), ending({2}, 4096)), zeros(4096);
    Bytes stripe(3 * 4112, 0xFF), out(4096, 0xFF), small(3 * 520, 0xFF), short_out(512, 0xFF);
    DUE(seal(large, 0, Bytes(2 * 512), stripe), 6);
    DUE(seal(large, 0, data, small), 6);
    DUE(stripe == Bytes(3 * 4112, 0xFF), true);
    DUE(small == Bytes(3 * 520, 0xFF), true);
    DUE(seal(large, 0, data, stripe), 0);
    DUE(stripe == sealed_large(), true);
    due_verdict(scrub(large, 0, stripe), 0, 0, 0, 0);
    due_verdict(scrub(large, 0, small), 6, 0, 0, 0);

    DUE(read_block(large, 1, stripe, short_out).refusal, 6);
    DUE(short_out == Bytes(512, 0xFF), true);
    struct irumbolai_read read = read_block(large, 1, stripe, out);
    DUE(read.refusal, 0);
    DUE(read.kind, 0);
    DUE(out == ending({2}, 4096), true);
    stripe[4112 + 4103] = 1;
    due_verdict(scrub(large, 0, stripe), 0, 1, 1, 1, "-A-");
    read = read_block(large, 0, stripe, out);
    DUE(read.refusal, 0);
    DUE(read.kind, 1);
    DUE(out == ending({1}, 4096), true);
    DUE(update(large, 0, zeros, stripe), 9);
    DUE(rebuild(large, 0, 2, stripe), 9);
    DUE(rebuild(large, 0, 1, stripe), 0);
    DUE(stripe == sealed_large(), true);
    DUE(rebuild(large, 0, 0, small), 6);

    DUE(update(large, 0, Bytes(512), stripe), 6);
    DUE(update(large, 0, zeros, stripe), 0);
    DUE(stripe == joined(large_block({2}, 0x79C2317E, 0x80, 0), joined(large_block({}, 0x98F94189, 0, 0), large_block({2}, 0x79C2317E, 0, 1))), true);
    due_verdict(scrub(large, 0, torn_large({0xF1, 0x76, 0xEC, 0x05, 0x01}, 0x98F94189)), 0, 2, 4091, 0);
}

// The block with data ending in 01 marked as not to be checked.
static Bytes marked(Bytes stripe)
{
    stripe[520 + 514] = stripe[520 + 515] = 0xFF;
    return stripe;
}

static void unchecked()
{
    Bytes stripe = marked(sealed()), out(512, 0xFF);
    stripe[520] ^= 0x10;
    struct irumbolai_read read = read_block(three, 0, stripe, out);
    DUE(read.refusal, 0);
    DUE(read.kind, 2);
    DUE(out == Bytes(stripe.begin() + 520, stripe.begin() + 520 + 512), true);
    due_verdict(scrub(three, 0, stripe), 0, 3, 1, 1);

    Bytes before(stripe), zeros(512);
    DUE(update(three, 0, zeros, stripe), 9);
    DUE(rebuild(three, 0, 2, stripe), 9);
    DUE(stripe == before, true);
    DUE(rebuild(three, 0, 1, stripe), 0);
    DUE(stripe == sealed(), true);

    stripe = marked(stripe);
    stripe[2 * 520] ^= 1;
    due_verdict(scrub(three, 0, stripe), 0, 1, 2, 1, "G--");
    DUE(read_block(three, 1, stripe, out).refusal, 9);
}

static void scrubs()
{
    Bytes stripe = sealed();
    due_verdict(scrub(three, 0, stripe), 0, 0, 0, 0);
    stripe[2 * 520] ^= 1;
    stripe[520 + 519] ^= 1;
    due_verdict(scrub(three, 0, stripe), 0, 1, 1, 2, "--R");
    stripe[520 + 515] ^= 1;
    due_verdict(scrub(three, 0, stripe), 0, 1, 1, 2, "-AR");
    stripe[520 + 513] ^= 1;
    due_verdict(scrub(three, 0, stripe), 0, 1, 1, 2, "GAR");
    stripe[514] = 0;
    due_verdict(scrub(three, 0, stripe), 0, 1, 0, 3, "-A-");
    due_verdict(scrub({3, 0, 7, 1, 1}, 0, stripe), 2, 0, 0, 0);
    due_verdict(scrub({3, 1, 7, 0, 1}, 0, stripe), 12, 0, 0, 0);
    stripe = torn({0x01, 0x8B, 0xB7}, 0, 0);
    due_verdict(scrub(three, 0, stripe), 0, 2, 509, 0);
    DUE(update(three, 0, Bytes(512, 0xFF), stripe), 0);
    due_verdict(scrub(three, 0, stripe), 0, 2, 509, 0);
    stripe = torn({0x01, 0x8B, 0xB6}, 0x8B, 0xB7);
    DUE(update(three, 0, Bytes(512, 0xFF), stripe), 9);
    DUE(stripe == torn({0x01, 0x8B, 0xB6}, 0x8B, 0xB7), true);
    stripe = sealed();
    stripe[2 * 520 + 514] = stripe[2 * 520 + 515] = 0xFF;
    DUE(update(three, 0, Bytes(512), stripe), 0);
    stripe[2 * 520 + 513] ^= 1;
    DUE(update(three, 0, Bytes(512), stripe), 9);

    std::vector<uint16_t> guards = {0x176E, 0x8BB7, 0x9CD9};
    struct irumbolai_quick quick = irumbolai_quick_scrub(guards.data(), guards.size());
    DUE(quick.refusal, 0);
    DUE(quick.differs, 0);
    DUE(quick.combination, 0);
    guards = {0x8BB7, 0, 0};
    quick = irumbolai_quick_scrub(guards.data(), guards.size());
    DUE(quick.refusal, 0);
    DUE(quick.differs, 1);
    DUE(quick.combination, 0x8BB7);
    DUE(irumbolai_quick_scrub(guards.data(), 2).refusal, 1);
}

// The power goes after each number of stores, the parity is lost where the stripe is entered, and it is recovered.
static void records()
{
    const Bytes zeros(512), none(512);
    for (size_t stores = 0; stores <= 5; stores++) {
        Bytes stripe = sealed(), record(512), out(512, 0xFF);
        DUE(update_recorded(three, 0, zeros, stripe, record, stores), 0);
        const bool open = stores >= 1 && stores <= 3;
        DUE(record[7], open);
        DUE((stripe == sealed()), stores < 2);
        if (open) {
            DUE(update_recorded(three, 1, zeros, stripe, record, 4), 15);
            std::fill(stripe.begin(), stripe.begin() + 520, 0xA5);
        }
        due_recovery(three, 0, stripe, record, 0, open, 0);
        DUE(record == none, true);
        due_verdict(scrub(three, 0, stripe), 0, 0, 0, 0);
        DUE(read_block(three, 0, stripe, out).kind, 0);
        DUE(out == (stores < 2 ? ending({1}) : zeros), true);
        DUE(read_block(three, 1, stripe, out).kind, 0);
        DUE(out == ending({2}), true);
    }
    Bytes stripe = sealed(), record(512), small(511);
    DUE(update_recorded(three, 0, zeros, stripe, small, 4), 6);
    record[7] = 2;
    DUE(update_recorded(three, 0, zeros, stripe, record, 4), 16);
    due_recovery(three, 0, stripe, record, 16, 0, 0);
    due_recovery(three, 1, stripe, record, 3, 0, 0);
    DUE(stripe == sealed(), true);
    const Array many = {3, 65, 7, 1, 1};
    for (int i = 0; i < 64; i++)
        record[8 * i + 7] = i + 1;
    DUE(update_recorded(many, 0, zeros, stripe, record, 4), 14);
    record[8 * 63 + 7] = 0;
    DUE(update_recorded(many, 0, zeros, stripe, record, 4), 15);
    record[8 * 63 + 7] = 1;
    DUE(update_recorded(many, 0, zeros, stripe, record, 4), 16);
    record = none;
    record[7] = 1;
    stripe[2 * 520] ^= 1;
    due_recovery(three, 0, stripe, record, 0, 2, 2);
    stripe[520 + 514] = stripe[520 + 515] = 0xFF;
    due_recovery(three, 0, stripe, record, 0, 2, 1);
    DUE(record[7], 1);
}

static void due_wide(const std::vector<uint32_t> &guards, uint32_t refusal, uint32_t differs, uint32_t combination)
{
    struct irumbolai_quick quick = irumbolai_quick_scrub_wide(guards.data(), guards.size());
    DUE(quick.refusal, refusal);
    DUE(quick.differs, differs);
    DUE(quick.combination, combination);
}

// Four guards have to combine to zero, three to the guard of a block of zeros.
static void wide_scrubs()
{
    due_wide({0xFFFFFFFF, 0xFFFF0000, 0x0000FF00, 0x000000FF}, 0, 0, 0);
    due_wide({0xFFFFFFFF, 0xFFFF0000, 0x0000FF00, 0x100000FF}, 0, 1, 0x10000000);
    due_wide({0x98F94189, 0x98F94189, 0x98F94189}, 0, 0, 0);
    due_wide({0x98F94189, 0x98F94189, 0}, 0, 1, 0);
    due_wide({0x8BA9B27D, 0x6A92C28A, 0x79C2317E}, 0, 0, 0);
    due_wide({0xA0E82E25, 0x98F94189, 0x98F94189}, 0, 1, 0xA0E82E25);
    due_wide({0, 0}, 1, 0, 0);
    due_wide(std::vector<uint32_t>(17), 1, 0, 0);
}

// Numbers that all differ, so that no field of the state can stand for another.
static void states()
{
    Bytes work(512, 0xFF), piece = joined(ending({2}), {0xA1, 0xB2, 0xC3});
    struct irumbolai_taken taken = start({5, 70000, 7, 1, 8}, 65536, work);
    DUE(taken.refusal, 0);
    DUE(work == Bytes(512), true);
    taken = irumbolai_piece(taken.state, 4, piece.data(), piece.size(), work.data(), work.size());
    for (int again = 0; again < 2; again++) {
        DUE(taken.refusal, again == 0 ? 0 : 7);
        DUE(taken.state.members, 5);
        DUE(taken.state.stripes, 70000);
        DUE(taken.state.volume, 7);
        DUE(taken.state.method, 1);
        DUE(taken.state.row, 8);
        DUE(taken.state.stripe, 65536);
        for (int i = 0; i < 16; i++) {
            DUE(taken.state.at[i], i == 4 ? 515 : 0);
            DUE(taken.state.register_[i], i == 4 ? 0x9CD9 : 0);
            DUE(taken.state.waiting[i], 0);
        }
        for (int i = 0; i < 256; i++)
            DUE(taken.state.tag[i], i == 32 ? 0xA1 : i == 33 ? 0xB2 : i == 34 ? 0xC3 : 0);
        DUE(work == ending({2}), true);
        taken = irumbolai_piece(taken.state, 4, piece.data(), 6, work.data(), work.size());
    }
    DUE(irumbolai_piece(taken.state, 5, piece.data(), 0, work.data(), work.size()).refusal, 5);
    due_verdict(irumbolai_finish(taken.state, work.data(), work.size()), 8, 0, 0, 0);
    due_verdict(irumbolai_finish(taken.state, work.data(), 511), 6, 0, 0, 0);
    taken.state.method = 4;
    due_verdict(irumbolai_finish(taken.state, work.data(), work.size()), 4, 0, 0, 0);
    taken.state.method = 3;
    due_verdict(irumbolai_finish(taken.state, work.data(), work.size()), 6, 0, 0, 0);
    taken.state.method = 1;
    for (uint8_t row : {0, 3, 32, 255}) {
        taken.state.row = row;
        due_verdict(irumbolai_finish(taken.state, work.data(), work.size()), 4, 0, 0, 0);
        DUE(irumbolai_piece(taken.state, 4, piece.data(), 0, work.data(), work.size()).refusal, 4);
    }
    taken.state.row = 8;
    due_verdict(irumbolai_finish(taken.state, work.data(), work.size()), 8, 0, 0, 0);
    taken.state.members = 2;
    due_verdict(irumbolai_finish(taken.state, work.data(), work.size()), 4, 0, 0, 0);
}

// The same by method 3: registers before the end step, sixteen tag bytes a member, and a work buffer of 4,096 bytes.
static void large_states()
{
    Bytes work(4096, 0xFF), piece = joined(ending({2}, 4096), {0xA1, 0xB2, 0xC3}), small(512, 0xFF);
    const struct irumbolai_taken refused = start({5, 70000, 7, 3, 16}, 65536, small);
    DUE(refused.refusal, 6);
    DUE(refused.state.method, 0);
    DUE(refused.state.row, 0);
    DUE(refused.state.register_[0], 0);
    DUE(small == Bytes(512, 0xFF), true);
    struct irumbolai_taken taken = start({5, 70000, 7, 3, 16}, 65536, work);
    DUE(taken.refusal, 0);
    DUE(work == Bytes(4096), true);
    for (int i = 0; i < 16; i++)
        DUE(taken.state.register_[i], 0xFFFFFFFF);
    taken = irumbolai_piece(taken.state, 4, piece.data(), piece.size(), work.data(), work.size());
    for (int again = 0; again < 2; again++) {
        DUE(taken.refusal, again == 0 ? 0 : 7);
        DUE(taken.state.method, 3);
        DUE(taken.state.row, 16);
        DUE(taken.state.stripe, 65536);
        for (int i = 0; i < 16; i++) {
            DUE(taken.state.at[i], i == 4 ? 4099 : 0);
            DUE(taken.state.register_[i], i == 4 ? 0x863DCE81 : 0xFFFFFFFF);
            DUE(taken.state.waiting[i], 0);
        }
        for (int i = 0; i < 256; i++)
            DUE(taken.state.tag[i], i == 64 ? 0xA1 : i == 65 ? 0xB2 : i == 66 ? 0xC3 : 0);
        DUE(work == ending({2}, 4096), true);
        taken = irumbolai_piece(taken.state, 4, piece.data(), 14, work.data(), work.size());
    }
    due_verdict(irumbolai_finish(taken.state, work.data(), work.size()), 8, 0, 0, 0);
    due_verdict(irumbolai_finish(taken.state, small.data(), small.size()), 6, 0, 0, 0);

    struct irumbolai_scan unfit = taken.state;
    unfit.at[3] = 4113;
    DUE(irumbolai_piece(unfit, 4, piece.data(), 0, work.data(), work.size()).refusal, 4);
    unfit.at[3] = 4112;
    DUE(irumbolai_piece(unfit, 4, piece.data(), 0, work.data(), work.size()).refusal, 0);
    unfit.at[3] = 1;
    unfit.waiting[3] = 1;
    DUE(irumbolai_piece(unfit, 4, piece.data(), 0, work.data(), work.size()).refusal, 4);
}

// A byte that waits for its pair: at an odd place of the data, by checksum, and nowhere else.
static void waiting()
{
    Bytes work(512, 0xFF);
    const Bytes piece = {0x12, 0x34, 0x56}, last = {0x78};
    struct irumbolai_taken taken = start({5, 70000, 7, 2, 1}, 65536, work);
    DUE(taken.refusal, 0);
    DUE(taken.state.method, 2);
    for (int i = 0; i < 16; i++)
        DUE(taken.state.register_[i], 0xFFFF);
    taken = irumbolai_piece(taken.state, 3, piece.data(), piece.size(), work.data(), work.size());
    DUE(taken.refusal, 0);
    for (int i = 0; i < 16; i++) {
        DUE(taken.state.at[i], i == 3 ? 3 : 0);
        DUE(taken.state.register_[i], i == 3 ? 0x1234 : 0xFFFF);
        DUE(taken.state.waiting[i], i == 3 ? 0x56 : 0);
    }
    const struct irumbolai_scan odd = taken.state;
    taken = irumbolai_piece(odd, 3, last.data(), last.size(), work.data(), work.size());
    DUE(taken.refusal, 0);
    DUE(taken.state.at[3], 4);
    DUE(taken.state.register_[3], 0x7AE0);
    DUE(taken.state.waiting[3], 0);

    struct irumbolai_scan unfit = taken.state;
    unfit.waiting[3] = 1;
    DUE(irumbolai_piece(unfit, 3, last.data(), 0, work.data(), work.size()).refusal, 4);
    unfit = odd;
    unfit.method = 1;
    DUE(irumbolai_piece(unfit, 3, last.data(), 0, work.data(), work.size()).refusal, 4);
    unfit = odd;
    unfit.at[3] = 513;
    DUE(irumbolai_piece(unfit, 3, last.data(), 0, work.data(), work.size()).refusal, 4);
    unfit = odd;
    unfit.waiting[5] = 1;
    DUE(irumbolai_piece(unfit, 3, last.data(), 0, work.data(), work.size()).refusal, 0);
}

// A register has sixteen bits by methods 1 and 2, of each of the members; and no more are looked at. By method 3 it has thirty-two.
static void registers()
{
    const Bytes none = {0};
    for (uint8_t method = 1; method <= 3; method++) {
        const Array five = {5, 70000, 7, method, 4};
        Bytes work(data_length(five), 0xFF);
        const struct irumbolai_scan fit = start(five, 65536, work).state;
        for (int member = 0; member < 16; member++)
            for (uint32_t value : {0xFFFFu, 0x10000u, 0xFFFFFFFFu}) {
                struct irumbolai_scan state = fit;
                state.register_[member] = value;
                const uint32_t unfit = method < 3 && member < 5 && value > 0xFFFF ? 4 : 0;
                const struct irumbolai_taken taken = irumbolai_piece(state, 0, none.data(), 0, work.data(), work.size());
                DUE(taken.refusal, unfit);
                DUE(taken.state.register_[member], value);
                DUE(irumbolai_finish(state, work.data(), work.size()).refusal, unfit == 0 ? 8 : 4);
            }
    }
}

static void due_patrol(struct irumbolai_patrol state, Array array, uint64_t next)
{
    DUE(state.members, array.members);
    DUE(state.stripes, array.stripes);
    DUE(state.volume, array.volume);
    DUE(state.method, array.method);
    DUE(state.row, array.row);
    DUE(state.next, next);
}

static struct irumbolai_patrol_begun begin(Array array)
{
    return irumbolai_patrol_begin(array.members, array.stripes, array.volume, array.method, array.row);
}

// A patrol of two stripes: round and round at idle turns; busy turns, requests and what is refused leave it where it stands.
static void patrols()
{
    const Array two = {3, 2, 7, 1, 1};
    const Bytes first = torn({0x01, 0x8B, 0xB6}, 0x8B, 0xB7), none = {0};
    Bytes second(1560);
    DUE(seal(two, 1, joined(ending({1}), ending({2})), second), 0);
    second[3] ^= 1;
    second[519] ^= 4;

    struct irumbolai_patrol_begun begun = begin({3, 1, 7, 1, 2});
    DUE(begun.refusal, 13);
    due_patrol(begun.state, {0, 0, 0, 0, 0}, 0);
    DUE(begin({2, 0, 7, 4, 3}).refusal, 1);
    DUE(begin({3, 0, 7, 4, 3}).refusal, 2);
    DUE(begin({3, 2, 7, 4, 3}).refusal, 12);
    begun = begin(two);
    DUE(begun.refusal, 0);
    due_patrol(begun.state, two, 0);

    struct irumbolai_patrol state = begun.state;
    for (uint32_t idle : {1u, 256u, 0x80000000u, 0xFFFFFFFFu, 7u}) {
        const uint64_t here = state.next, next = 1 - here;
        struct irumbolai_patrolled seen = irumbolai_patrol_turn(state, 0, none.data(), 1);
        due_verdict(seen.verdict, 0, 0, 0, 0);
        DUE(seen.stripe, 0);
        due_patrol(seen.state, two, here);
        seen = irumbolai_patrol_turn(seen.state, idle, first.data(), 1559);
        due_verdict(seen.verdict, 6, 0, 0, 0);
        DUE(seen.stripe, 0);
        due_patrol(seen.state, two, here);
        seen = irumbolai_patrol_request(seen.state, 1, second.data(), second.size());
        due_verdict(seen.verdict, 0, 1, 0, 1, "G-R");
        DUE(seen.stripe, 1);
        due_patrol(seen.state, two, here);
        seen = irumbolai_patrol_turn(seen.state, idle, here == 0 ? first.data() : second.data(), 1560);
        if (here == 0)
            due_verdict(seen.verdict, 0, 2, 509, 0);
        else
            due_verdict(seen.verdict, 0, 1, 0, 1, "G-R");
        DUE(seen.stripe, here);
        due_patrol(seen.state, two, next);
        state = seen.state;
    }

    const Bytes large_stripe = sealed_large();
    const struct irumbolai_patrolled seen = irumbolai_patrol_turn(begin(large).state, 1, large_stripe.data(), large_stripe.size());
    due_verdict(seen.verdict, 0, 0, 0, 0);
    due_patrol(seen.state, large, 0);

    // 3 goes before 4, by the number of stripes in the state, and 4 before 6
    state.next = 2;
    for (uint32_t idle : {0u, 1u})
        due_verdict(irumbolai_patrol_turn(state, idle, none.data(), 1).verdict, 4, 0, 0, 0);
    due_verdict(irumbolai_patrol_request(state, 1, none.data(), 1).verdict, 4, 0, 0, 0);
    due_verdict(irumbolai_patrol_request(state, 2, none.data(), 1).verdict, 3, 0, 0, 0);
    due_patrol(irumbolai_patrol_request(state, 2, none.data(), 1).state, two, 2);
    due_patrol(irumbolai_patrol_turn(state, 1, first.data(), first.size()).state, two, 2);
    state.next = 1;
    due_verdict(irumbolai_patrol_request(state, 0xFFFFFFFFFFFFFFFF, first.data(), first.size()).verdict, 3, 0, 0, 0);
    due_verdict(irumbolai_patrol_request(state, 1, first.data(), 1559).verdict, 6, 0, 0, 0);
}

// A stripe in pieces of at most seven bytes, each a buffer of its own, the last member first.
static struct irumbolai_verdict scanned(const Bytes &stripe, Array array = three)
{
    const size_t length = block_length(array);
    Bytes work(data_length(array), 0xFF);
    struct irumbolai_taken taken = start(array, 0, work);
    for (size_t at = 0; at < length; at += 7)
        for (size_t member = 3; member-- > 0;) {
            const uint8_t *block = stripe.data() + length * member;
            const Bytes piece(block + at, block + std::min(at + 7, length));
            taken = irumbolai_piece(taken.state, member, piece.data(), piece.size(), work.data(), work.size());
            DUE(taken.refusal, 0);
        }
    return irumbolai_finish(taken.state, work.data(), work.size());
}

int main()
{
    places();
    rows();
    checks();
    jobs();
    jobs_in_rows();
    jobs_by_sum();
    large_checks();
    large_jobs();
    unchecked();
    scrubs();
    records();
    wide_scrubs();
    states();
    large_states();
    waiting();
    registers();
    patrols();
    due_verdict(scanned(sealed()), 0, 0, 0, 0);
    due_verdict(scanned(torn({0x01, 0x8B, 0xB6}, 0x8B, 0xB7)), 0, 2, 509, 0);
    due_verdict(scanned(torn({0x01, 0x8B, 0xB6}, 0x8B, 0xB6)), 0, 1, 0, 1, "G--");
    due_verdict(scanned(marked(torn({0x01, 0x8B, 0xB6}, 0x8B, 0xB7))), 0, 3, 1, 1);
    due_verdict(scanned(marked(torn({0x01, 0x8B, 0xB6}, 0x8B, 0xB6))), 0, 1, 0, 1, "G--");
    Bytes spoilt = marked(sealed());
    spoilt[2 * 520 + 512] ^= 0x80;
    spoilt[2 * 520 + 519] ^= 1;
    due_verdict(scanned(spoilt), 0, 1, 2, 1, "G-R");
    due_verdict(scanned(sealed_by_sum(), summed), 0, 0, 0, 0);
    Bytes unfit = sealed_by_sum();
    unfit[513] ^= 4;
    due_verdict(scanned(unfit, summed), 0, 2, 512, 0);
    unfit[520] ^= 1;
    due_verdict(scanned(unfit, summed), 0, 1, 1, 1, "G--");
    due_verdict(scanned(sealed_large(), large), 0, 0, 0, 0);
    due_verdict(scanned(torn_large({0xF0, 0x76, 0xEC, 0x05, 0x01}, 0xA0E82E25), large), 0, 2, 4091, 0);
    due_verdict(scanned(torn_large({0xF0, 0x76, 0xEC, 0x05, 0x01}, 0x98F94189), large), 0, 1, 0, 1, "G--");
    Bytes spare = sealed_large();
    spare[2 * 4112 + 4102] = 0x80;
    due_verdict(scanned(spare, large), 0, 1, 2, 1, "-A-");
    spare[2 * 4112 + 4104] = 1;
    due_verdict(scanned(spare, large), 0, 1, 2, 1, "-AR");
    spare[2 * 4112 + 4100] = spare[2 * 4112 + 4101] = 0xFF;
    due_verdict(scanned(spare, large), 0, 3, 2, 1);
    std::printf("every call from C++, %d values as due\n", compared);
    return 0;
}
