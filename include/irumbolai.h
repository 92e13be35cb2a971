/*
 * Irumbolai: the stripe code of a RAID-5 recorder, proved. Link with libirumbolai.a, which runs on every x86-64 with
 * Linux, or with libirumbolai-v3.a, the same code compiled for processors with AVX2 (x86-64-v3), where the guards of
 * method 1 take about half the time. What is proved is the code; of either archive the compiler has to be trusted.
 * rig/rig.c and examples/recorder.c are examples.
 *
 * Calls. Every call takes any bytes and any numbers, and returns. None allocates memory, keeps a pointer, or holds
 * anything from one call to the next, so calls may run at once where none writes a buffer that another is lent. Of the
 * C library they use memcpy, memmove, memset and memcmp at most.
 *
 * Buffers. A buffer is lent for the call: a pointer, and after it the length in bytes (of guards, their number). The
 * pointer must not be NULL, not even where the length is 0 and nothing is read. What is lent as const is only read.
 * Each comment says what is written; nothing else changes. A buffer that is written must not overlap another one of
 * the same call.
 *
 * Structs go in and come back by value, as any C compiler does it. The largest, of a scan, are 400 and 408 bytes, which
 * each of its calls copies. Bytes between the fields hold nothing: compare structs by their fields, not with memcmp.
 * In C++ the word struct is needed before a name that is a call's too.
 *
 * The array. It is named by five numbers: `members` (drives, n), `stripes` (S), `volume` (any byte), `method`, the
 * guard method of all its blocks: 1 (CRC), 2 (checksum) or 3 (large blocks), and `row` (c), how many successive blocks
 * lie on one drive. Stripes, members and blocks are counted from 0. A stripe has one block on each member. One of these holds
 * the parity, the exclusive-or of the others' data; the other n - 1 hold data, so the array's block numbers run from 0
 * to S x (n - 1) - 1.
 *
 * Rows. A row is c successive stripes, c one of 1, 2, 4 .. 128. With g = s / c rounded down and k = s mod c, the parity
 * of stripe s lies on member g mod n, its lowest block is g x (n - 1) x c + k, and on the other members in rising order
 * lie that block and each c-th after it. So within a row every drive holds c successive blocks, and a sequential read
 * stays on it. At c = 1 the parity is on member s mod n, and the data are the blocks from s x (n - 1) on. This is the
 * layout that Linux md calls right-asymmetric, with a chunk of c blocks.
 *
 * A block is D bytes of data, then its tag, B bytes together. In the tag every field has its highest byte first. Of the
 * guard (of the data, but see method 2), the application tag (00h for data or 80h for parity, then the volume) and the
 * reference tag (the block number; for parity, the lowest block number in its stripe) it holds, in bytes:
 *
 *   method      D      B   guard   application   reference
 *   1, 2      512    520       2             2           4
 *   3       4,096  4,112       4             4           8
 *
 * The four bytes of a reference tag hold the low thirty-two bits of the number. Of an array of more than 4,294,967,296
 * blocks, methods 1 and 2 therefore cannot tell two blocks of data, or two of parity, whose numbers differ by a multiple
 * of that: one that lies in the other's place is good there. Method 3 tells them all.
 *
 * In method 3 the last two bytes of the application tag are spare and due as 0: a block with another byte there has a
 * wrong application tag. A stripe in memory is its n blocks in the order of the members, n x B bytes.
 *
 * Method 1, the CRC (irumbolai_guard). It notices every change of a block's data within sixteen successive bits, in the
 * parity too. Its guards combine as the data do: the guard of the parity is the exclusive-or of the data members'
 * guards. The price: where power was lost between the write of a data block and that of its parity, another member that
 * is rebuilt gets wrong data with a guard that fits. A scrub before the loss says torn; afterwards no call can tell.
 *
 * Method 2, the checksum (irumbolai_checksum). It notices every change of a data block within one of its 256 words of
 * two bytes, unless that turns 0000h into FFFFh or back. It does not combine as the data do, and that is what it is
 * for: the guard in the parity's tag is not the checksum of the parity's data but the exclusive-or of the data members'
 * guards. It cannot be checked on the parity alone, so a check of the parity always finds that it fits, and does not
 * notice a change of the parity's data; a scrub does, and says torn. What it tells is whether the blocks of a stripe
 * belong together. Each call keeps to that:
 *
 *   seal     the parity gets the exclusive-or of the data members' guards
 *   update   the parity gets the exclusive-or of its old guard and of the block's old and new guards
 *   read     data are handed out as rebuilt only if the guards stored on all other members combine, by exclusive-or, to
 *            the checksum of these data, else the refusal is 9
 *   rebuild  of a data member as for a read; the parity gets the exclusive-or of the data members' guards
 *   scrub    a stripe is torn, and `first` is 512, if its data fit together but the n stored guards do not combine to 0
 *
 * So of a stripe that was only half written a rebuild is as a rule refused by 9 where method 1 would make wrong data.
 * This is a check of sixteen bits and no proof: some such stripes go unseen, by a rough estimate one in 65,535, and all
 * in which the lost block held the same data as the one half written did before or was to hold after, as where both
 * were still empty. A scrub before the loss says torn by either method.
 *
 * Method 3, large blocks with CRC-32C (irumbolai_crc32c). As method 1 in all but the lengths, the guard and the quick
 * scrub (irumbolai_quick_scrub_wide). It notices every change of a block's data within thirty-two successive bits, each
 * byte's lowest bit first, in the parity too. The guard of a block of zeros is not zero, so the n guards of a clean
 * stripe combine to zero only where n is even; where n is odd they combine to that guard.
 *
 * Good, bad, unchecked. On a member of a stripe a block is just one of these. It is unchecked if FFFFh stands in the
 * first two bytes of its application tag, whatever its other bytes are: by T10's rule such a block is not to be
 * checked. Else it is good if all three fields fit, which is to say that each is the one due there (in method 2 the
 * parity's guard always fits), and bad if one does not. Nobody vouches for the data of an unchecked block: they can be
 * read and replaced, but no call makes other data from them. No call sets the mark: write the two bytes to do so. A
 * rebuild of the block takes it away. A drive that was wiped with FFh reads as unchecked throughout.
 *
 * Faults. Which fields of a bad block do not fit hints at what happened. The guard: data changed on the drive. The
 * application tag: the block is of another volume, or parity where data are due or the other way round. The reference
 * tag: the block belongs to another place. Several at once are told at once, by a check and by a scrub.
 *
 * Refusals. A call that can be refused says so by number, 0 where it is done. It makes its tests in the order in
 * which its numbers are listed, and the first that fails decides. A refused call leaves every buffer as it was
 * and gives 0 in all other fields; a refused piece of a scan gives the state as it came, and so does a refused turn or
 * request of a patrol.
 *
 *    1  members, or the number of guards, is not 3 to 16
 *    2  stripes is not 1 to 68,719,476,736
 *   12  method is not 1 to 3; tested next after 2
 *   13  row is not one of 1, 2, 4 .. 128, or does not divide stripes; tested next after 12
 *    3  the array has no such stripe, or no such block
 *    4  the state of a scan is not fit: 1, 2, 12, 13 or 3 holds of its numbers; or, of one of its first n members, the
 *       position is above B, the register is above FFFFh in method 1 or 2, or a byte waits where none can: `waiting`
 *       has to be 0 unless the method is 2 and the position is odd and below 512. Of a patrol: 1, 2, 12, 13 or 3 holds
 *       of the numbers in its state
 *    5  the array has no such member
 *    6  a buffer has not the length that its call asks for
 *    7  a piece is longer than what its member still lacks of a block
 *    8  a member has not given all its B bytes
 *    9  the blocks that the call needs are not all good: one is bad or unchecked; or, in method 2, their guards do not
 *       combine to that of the rebuilt data; or, of an update, the stripe's guards tell that it is torn
 *   14  no entry of the record is free
 *   15  the stripe is entered in the record already
 *   16  the record names a stripe that the array has not, or one twice; tested before 14, and all three before 9
 */
#ifndef IRUMBOLAI_H
#define IRUMBOLAI_H

#include <stddef.h>
#include <stdint.h>

#ifdef __cplusplus
extern "C" {
#endif

/*
 * The guard of method 1 of a run of bytes: CRC-16/T10-DIF, generator 8BB7h, register started at 0, highest bit first,
 * nothing added at the end. That of no bytes is 0, that of the nine characters 123456789 is D0DBh.
 *
 *   lent      bytes: any number, read
 *   refusals  none
 */
uint16_t irumbolai_guard(const uint8_t *bytes, size_t length);

/*
 * The guards of method 1 of sixteen blocks at once, which takes a fraction of the time of as many calls of
 * irumbolai_guard. guard[i] is that of the 512 bytes that begin i x stride bytes after the first: with a stride of 520,
 * of the data of member i of a stripe in memory. Where the buffer ends before the 512 bytes do, it is the guard of
 * those that are there, so 0 where there are none.
 *
 *   lent      bytes: any number, read
 *   refusals  none
 */
struct irumbolai_guards {
    uint16_t guard[16];
};
struct irumbolai_guards irumbolai_guards(const uint8_t *bytes, size_t length, size_t stride);

/*
 * The guard of method 2 of a run of bytes, in `guard`. The bytes are taken as words of two, the first byte the higher.
 * The sum starts at FFFFh; for each word it is rotated left by one bit, then the word is added, and a carry out of the
 * sixteen bits is added at the bottom. It is never 0: that of no bytes is FFFFh, and so is that of 512 zeros; that of
 * the eight characters 12345678 is F806h.
 *
 *   lent      bytes: any even number, read
 *   refusals  6 (an odd length)
 */
struct irumbolai_sum {
    uint32_t refusal;
    uint32_t guard;
};
struct irumbolai_sum irumbolai_checksum(const uint8_t *bytes, size_t length);

/*
 * The guard of method 3 of a run of bytes: CRC-32C, as published with iSCSI, generator 1EDC6F41h, register started at
 * all ones, lowest bit of each byte first, every bit turned at the end. That of no bytes is 0, that of the
 * nine characters 123456789 is E3069283h, that of 4,096 zeros is 98F94189h. A run of just 4,096 bytes takes a fraction
 * of the time that another of about that length takes.
 *
 *   lent      bytes: any number, read
 *   refusals  none
 */
uint32_t irumbolai_crc32c(const uint8_t *bytes, size_t length);

/*
 * Guards of method 1 from guards and lengths, without the bytes. Checksums do not go by these rules. These four refuse
 * nothing: any numbers go through the same sums, whether or not a run has that guard and length. A length is a number
 * of bytes. They look at no byte: a call costs one multiplication for each bit of the length that is one, so 32 at
 * most.
 *
 * A guard does not tell how long its run is: 65,535 zero bytes more at the end leave it as it was.
 */

/* The guard of two runs joined, `a` that of the first, `b` that of the second. At length 0 it is a combined with b. */
uint16_t irumbolai_join(uint16_t a, uint16_t b, uint32_t length_of_b);

/* The guard of a run with `n` zero bytes after it. */
uint16_t irumbolai_add_zeros(uint16_t guard, uint32_t n);

/* The guard of a run before `n` zero bytes were added to it: what irumbolai_add_zeros gave, taken back. */
uint16_t irumbolai_remove_zeros(uint16_t guard, uint32_t n);

/* The guard of two equally long runs combined by exclusive-or. */
uint16_t irumbolai_combine(uint16_t a, uint16_t b);

/*
 * Where a block lies: its stripe, and the member of it.
 *
 *   refusals  1, 2, 12, 13, 3
 */
struct irumbolai_place {
    uint32_t refusal;
    uint32_t member;
    uint64_t stripe;
};
struct irumbolai_place irumbolai_place(size_t members, uint64_t stripes, uint8_t volume, uint8_t method, uint8_t row,
                                       uint64_t block);

/*
 * What lies on a member of a stripe: with `parity` 0 the block of that number; with `parity` 1 the parity, and
 * `block` is the lowest block number in the stripe.
 *
 *   refusals  1, 2, 12, 13, 3, 5
 */
struct irumbolai_owner {
    uint32_t refusal;
    uint32_t parity;
    uint64_t block;
};
struct irumbolai_owner irumbolai_owner(size_t members, uint64_t stripes, uint8_t volume, uint8_t method, uint8_t row,
                                       uint64_t stripe, size_t member);

/*
 * Checks a block against the tag due on a member of a stripe, and tells of each of the three fields what stands in the
 * block (`found`), what is due there (`expected`; for the guard, that of the block's data, but in method 2 for the
 * parity's the one found), and whether the two are the same (`fits` 1, else 0). The fields are told of good blocks too.
 * `kind` says how the block stands:
 *
 *   0  good: all three fields fit
 *   1  bad: at least one does not
 *   2  unchecked: no field is told, all their numbers are 0. Look at `kind` first: `fits` 0 does not mean bad here
 *
 *   lent      block: B bytes, read
 *   refusals  1, 2, 12, 13, 3, 5, 6
 */
struct irumbolai_field {
    uint64_t found;
    uint64_t expected;
    uint32_t fits;
};
struct irumbolai_check {
    uint32_t refusal;
    uint32_t kind;
    struct irumbolai_field guard;
    struct irumbolai_field application;
    struct irumbolai_field reference;
};
struct irumbolai_check irumbolai_check(size_t members, uint64_t stripes, uint8_t volume, uint8_t method, uint8_t row,
                                       uint64_t stripe, size_t member, const uint8_t *block, size_t length);

/*
 * Makes a stripe from its data: n - 1 times D bytes in the order of the block numbers. Each block gets its tag,
 * and the parity is made, with its tag by the method. Gives the refusal.
 *
 *   lent      data: (n - 1) x D bytes, read; bytes: the stripe, n x B bytes, every byte written
 *   refusals  1, 2, 12, 13, 3, 6
 */
uint32_t irumbolai_seal(size_t members, uint64_t stripes, uint8_t volume, uint8_t method, uint8_t row, uint64_t stripe,
                        const uint8_t *data, size_t data_length, uint8_t *bytes, size_t length);

/*
 * Reads the data of a block out of its stripe. `kind` says what comes out:
 *
 *   0  stored: the block is good, and its data come out, whatever the other members hold
 *   1  rebuilt: the block is bad and all others are good, and the exclusive-or of the others' data comes out: the lost
 *      data, if parity was right before the loss. In methods 1 and 3 no check can tell afterwards; in method 2 the
 *      guards stored on the others combine to the checksum of these data, which tells with the strength of sixteen bits
 *   2  unchecked: the block is unchecked, and its data come out as they stand, whatever the other members hold
 *
 * If the block is bad and another one is bad or unchecked, the refusal is 9; in method 2 also if the stored guards do
 * not combine to that checksum.
 *
 *   lent      bytes: the stripe, n x B bytes, read; out: D bytes, every byte written
 *   refusals  1, 2, 12, 13, 3, 6, 9
 */
struct irumbolai_read {
    uint32_t refusal;
    uint32_t kind;
};
struct irumbolai_read irumbolai_read(size_t members, uint64_t stripes, uint8_t volume, uint8_t method, uint8_t row,
                                     uint64_t block, const uint8_t *bytes, size_t length, uint8_t *out,
                                     size_t out_length);

/*
 * Makes the block of a member from the others, whatever stood there, good, bad or unchecked: the exclusive-or of their
 * data, and the tag due there. The others must all be good, else the refusal is 9; in method 2, where the member holds
 * data, the guards stored on the others must also combine to the checksum of these data, as for a read. The data are
 * the lost ones if parity was right before the loss. Gives the refusal.
 *
 *   lent      bytes: the stripe, n x B bytes, read; of them the member's B bytes, written
 *   refusals  1, 2, 12, 13, 3, 5, 6, 9
 */
uint32_t irumbolai_rebuild(size_t members, uint64_t stripes, uint8_t volume, uint8_t method, uint8_t row,
                           uint64_t stripe, size_t member, uint8_t *bytes, size_t length);

/*
 * Puts new data into a block and brings the parity of its stripe along, its guard by the method. Both blocks must be
 * good, else the refusal is 9, also where one is unchecked. And nothing is built on a torn stripe, as far as its guards
 * tell of it: the n guards as they stand, those of bad and unchecked members too, must combine by exclusive-or to zero,
 * in method 3 with an odd n to the guard of a block of zeros, else the refusal is 9. That is what the quick scrub asks.
 * So in methods 1 and 3 a stripe that is torn within as many successive bits as the guard reaches over is never
 * updated; one torn otherwise may be, and stays torn. A clean stripe is always updated, and stays clean. The data of
 * the other members are not looked at. Gives the refusal.
 *
 *   lent      data: D bytes, read; bytes: the stripe, n x B bytes, of which the B of the block and the B of the parity
 *             are read and written, and the guards of all members read
 *   refusals  1, 2, 12, 13, 3, 6, 9
 */
uint32_t irumbolai_update(size_t members, uint64_t stripes, uint8_t volume, uint8_t method, uint8_t row, uint64_t block,
                          const uint8_t *data, size_t data_length, uint8_t *bytes, size_t length);

/*
 * The same update, with its stripe entered in a record while it is open, so that a loss of power in the middle can be
 * recovered from. It goes in four stores, in this order:
 *
 *   1  the stripe is entered in the record, in the lowest free entry
 *   2  the block is written
 *   3  the block of the parity is written
 *   4  the entry is struck out
 *
 * `stores` tells after how many of them to stop; four or more are all. With 0 all tests are made and nothing is stored.
 * The record is 64 entries of eight bytes, the highest byte first: 0 is a free entry, any other number a stripe plus
 * one. 512 bytes of zero are an empty record. It belongs to one array. A struck entry is used again.
 *
 * Each store must be on the drives, whole, before the next one begins: README.md, "When the power goes", tells how to
 * drive the four stores with this call. Other refusals than of irumbolai_update come before 9. Gives the refusal.
 *
 *   lent      data: D bytes, read; bytes: the stripe, n x B bytes, as for irumbolai_update; record: 512 bytes, read, of
 *             which the eight of one entry are written
 *   refusals  1, 2, 12, 13, 3, 6, 16, 14, 15, 9
 */
uint32_t irumbolai_update_recorded(size_t members, uint64_t stripes, uint8_t volume, uint8_t method, uint8_t row,
                                   uint64_t block, const uint8_t *data, size_t data_length, uint8_t *bytes,
                                   size_t length, uint8_t *record, size_t record_length, size_t stores);

/*
 * Recovers a stripe after a loss of power. `kind` is
 *
 *   0  not entered: the record does not name the stripe; nothing is changed
 *   1  recovered: the parity and its tag were made from the data members, whatever stood there, and the entry struck out
 *   2  left: a data member is bad or unchecked, the lowest such is `member`; nothing is changed, and the stripe stays
 *      entered. Rebuild or write that block, then recover
 *
 * Where the stripe was clean before its update was entered, and no data block was changed since, it is clean
 * afterwards; the block of the update reads as before if its store was not made, else as new, and every other block
 * reads as before. On the drives the parity must be written before the record.
 *
 *   lent      bytes: the stripe, n x B bytes, read, of which the B of the parity are written; record: 512 bytes, read,
 *             of which the eight of one entry are written
 *   refusals  1, 2, 12, 13, 3, 6, 16
 */
struct irumbolai_recovery {
    uint32_t refusal;
    uint32_t kind;
    uint32_t member;
};
struct irumbolai_recovery irumbolai_recover(size_t members, uint64_t stripes, uint8_t volume, uint8_t method,
                                            uint8_t row, uint64_t stripe, uint8_t *bytes, size_t length,
                                            uint8_t *record, size_t record_length);

/*
 * The full scrub of a stripe. `kind` is the first of these that fits, in this order:
 *
 *   1  bad: blocks are bad; `first` is the lowest member with one, `count` how many they are, unchecked ones left out.
 *      `guard_fits`, `application_fits` and `reference_fits` are 1 for each field of the block on `first` that fits and
 *      0 for each that does not, as irumbolai_check says of that block; of other bad ones ask that call
 *   3  unchecked: blocks are unchecked, and none is bad; `first` is the lowest member with one, `count` how many they
 *      are. Whether the stripe is torn is not said
 *   2  torn: all blocks are good, but the data of all members do not combine to zero by exclusive-or; `first` is the
 *      first byte, 0 to D - 1, at which they do not, and `count` is 0. In method 2 also if the data do combine to zero,
 *      but the guards stored on the n members do not; `first` is 512 then
 *   0  clean: all blocks are good, and the data combine to zero, in method 2 the stored guards too; `first` and `count`
 *      are 0
 *
 * Where the kind is not bad the last three are 0, for a clean stripe too.
 *
 *   lent      bytes: the stripe, n x B bytes, read
 *   refusals  1, 2, 12, 13, 3, 6
 */
struct irumbolai_verdict {
    uint32_t refusal;
    uint32_t kind;
    uint32_t first;
    uint32_t count;
    uint32_t guard_fits;
    uint32_t application_fits;
    uint32_t reference_fits;
};
struct irumbolai_verdict irumbolai_scrub(size_t members, uint64_t stripes, uint8_t volume, uint8_t method, uint8_t row,
                                         uint64_t stripe, const uint8_t *bytes, size_t length);

/*
 * The quick scrub: the guards stored in the blocks of a stripe, one a member, without the data. `combination` is their
 * exclusive-or, and `differs` is 1 if it is not zero. Of methods 1 and 2: the guards of a clean stripe do not differ.
 * In method 1 those of a torn one do if what its data combine to has all its one bits within sixteen successive bits,
 * each byte's highest bit first; other torn stripes can go unseen. In method 2 those of a stripe that is torn at 512
 * do; of one that is torn at another byte nothing is said. Of a stripe with bad or unchecked blocks it tells nothing:
 * it takes their guards as they stand.
 *
 *   lent      guards: `count` numbers, each made from its two bytes in the tag, the first the higher; read
 *   refusals  1
 */
struct irumbolai_quick {
    uint32_t refusal;
    uint32_t differs;
    uint32_t combination;
};
struct irumbolai_quick irumbolai_quick_scrub(const uint16_t *guards, size_t count);

/*
 * The same of method 3, whose guards have thirty-two bits. That of a block of zeros is not zero, and so guards of
 * blocks that combine to zeros have an exclusive-or of zero only where they are even in number; where they are odd it
 * is 98F94189h, the guard of a block of zeros. `differs` is 1 if it is not the one due; `combination` is then what it
 * is, which can be 0. Where the guards fit it is 0, for an odd number of them too. Those of a clean stripe fit; those
 * of a torn one differ if what its data combine to has all its one bits within thirty-two successive bits, each byte's
 * lowest bit first.
 *
 *   lent      guards: `count` numbers, each made from its four bytes in the tag, the first the highest; read
 *   refusals  1
 */
struct irumbolai_quick irumbolai_quick_scrub_wide(const uint32_t *guards, size_t count);

/*
 * A scan: the full scrub of a stripe whose bytes come in pieces. The caller keeps the state and a work buffer of D
 * bytes between the calls, and hands the state of the last answer to the next call. Of member m the state holds the
 * position in its block (`at[m]`: how many bytes it has given), the guard's register over its data so far
 * (`register_[m]`: in methods 1 and 2 sixteen bits, in method 2 the sum of its whole words, in method 3 the CRC before
 * its bits are turned), the data byte that waits for the other one of its word (`waiting[m]`: 0 where none waits, so
 * always in methods 1 and 3), and its tag bytes (8 from `tag[8m]`; in method 3, 16 from `tag[16m]`). The work buffer
 * holds what all data so far combine to. Any state may be handed in: one that is not fit is refused by number 4, and a
 * fit one that no scan led to goes on from what it holds. A kept copy of state and work buffer is a scan that can be
 * taken up again.
 */
struct irumbolai_scan {
    size_t members;
    uint64_t stripes;
    uint8_t volume;
    uint8_t method;
    uint8_t row;
    uint64_t stripe;
    uint16_t at[16];
    uint32_t register_[16];
    uint8_t waiting[16];
    uint8_t tag[256];
};
struct irumbolai_taken {
    uint32_t refusal;
    struct irumbolai_scan state;
};

/*
 * Begins a scan: the state has nothing taken, and all sixteen registers stand where the guard starts: at 0 in method 1,
 * at FFFFh in method 2, at FFFFFFFFh in method 3. Where it is refused the whole state is zero.
 *
 *   lent      work: D bytes, every byte set to zero
 *   refusals  1, 2, 12, 13, 3, 6
 */
struct irumbolai_taken irumbolai_start(size_t members, uint64_t stripes, uint8_t volume, uint8_t method, uint8_t row,
                                       uint64_t stripe, uint8_t *work, size_t work_length);

/*
 * Takes in the next bytes of a member, from none to all that its block still lacks; in method 2 too they may be cut
 * anywhere. Data bytes go into the member's register, or one waits for the next, tag bytes go into its tag bytes, and
 * its position moves on; nothing else of the state changes.
 *
 *   lent      bytes: the piece, read; work: D bytes, the data bytes combined into those at their places in the block
 *   refusals  4, 5, 6 (of the work buffer), 7
 */
struct irumbolai_taken irumbolai_piece(struct irumbolai_scan state, size_t member, const uint8_t *bytes, size_t length,
                                       uint8_t *work, size_t work_length);

/*
 * Ends a scan once every member has given its B bytes: the verdict that irumbolai_scrub gives of those blocks, by
 * the state and the work buffer alone. It changes nothing, and may be asked again.
 *
 *   lent      work: D bytes, read
 *   refusals  4, 6, 8
 */
struct irumbolai_verdict irumbolai_finish(struct irumbolai_scan state, const uint8_t *work, size_t work_length);

/*
 * A patrol: the scrub of a whole array beside the work, a stripe at a time. The caller keeps the state, and hands the
 * state of the last answer to the next call. `next` is the stripe that comes next: read that one and lend it. Any S
 * successive idle turns that are not refused scrub each stripe once, in order from `next` on and after the last from 0,
 * whatever busy turns, requests and refused calls lie between; then it goes round again. Any state may be handed in:
 * one that is not fit is refused by number 4 (but see the request), and a fit one that no patrol led to goes on from
 * its `next`. A kept copy of the state is a patrol that can be taken up again.
 */
struct irumbolai_patrol {
    size_t members;
    uint64_t stripes;
    uint8_t volume;
    uint8_t method;
    uint8_t row;
    uint64_t next;
};

/*
 * Begins a patrol: the state comes to stripe 0 next. Where it is refused the whole state is zero.
 *
 *   refusals  1, 2, 12, 13
 */
struct irumbolai_patrol_begun {
    uint32_t refusal;
    struct irumbolai_patrol state;
};
struct irumbolai_patrol_begun irumbolai_patrol_begin(size_t members, uint64_t stripes, uint8_t volume, uint8_t method,
                                                     uint8_t row);

/*
 * A turn of a patrol: busy where `idle` is 0, idle where it is any other number. An idle turn scrubs the bytes as the
 * stripe that comes next: `verdict` is what irumbolai_scrub says of them, `stripe` is that number, and the state comes
 * to the stripe that follows, after the last to 0. A busy turn looks at no byte and moves nothing: `stripe` and all of
 * `verdict` are 0, and the state is as it came. That does not mean that stripe 0 is clean: which turn it was only the
 * caller knows.
 *
 *   lent      bytes: the stripe, n x B bytes, read; at a busy turn any number, and not read
 *   refusals  4, 6 (of an idle turn), in verdict.refusal
 */
struct irumbolai_patrolled {
    struct irumbolai_verdict verdict;
    uint64_t stripe;
    struct irumbolai_patrol state;
};
struct irumbolai_patrolled irumbolai_patrol_turn(struct irumbolai_patrol state, uint32_t idle, const uint8_t *bytes,
                                                 size_t length);

/*
 * A stripe out of turn: scrubs the bytes as that stripe and does not move the patrol. `verdict` is what irumbolai_scrub
 * says of them, `stripe` is the number that was asked for, and the state is as it came, refused or not. Refusal 3 is
 * tested first, by `stripes` as it stands in the state, fit or not.
 *
 *   lent      bytes: the stripe, n x B bytes, read
 *   refusals  3, 4, 6, in verdict.refusal
 */
struct irumbolai_patrolled irumbolai_patrol_request(struct irumbolai_patrol state, uint64_t stripe,
                                                    const uint8_t *bytes, size_t length);

#ifdef __cplusplus
}
#endif

#endif
