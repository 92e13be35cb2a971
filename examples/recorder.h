/*
 * The recorder of this folder: recorder.c is what a firmware can copy, box.c is the box around it, with plain files for
 * drives and standard input for the host.
 */
#ifndef RECORDER_H
#define RECORDER_H

#include <stdbool.h>
#include <stddef.h>
#include <stdint.h>

#include "irumbolai.h"

enum { LARGE = 3, MOST_MEMBERS = 16, MOST_DATA = 4096, MOST_BLOCK = 4112 };
enum { RECORD_BYTES = 512, ENTRY_BYTES = 8 };

/* A block full of this is bad wherever it lies: no application tag begins so. Zeros could be a good block. */
enum { NO_BLOCK = 0x55 };

/* The box: the array's numbers and lengths, its files, the record as it stands in its file, and one stripe. */
struct box {
    size_t members;
    uint64_t stripes;
    uint8_t volume, method, row;
    size_t data_length, block_length, length; /* of a block's data (D), a block (B), a stripe */
    int folder, record_file;
    int drive[MOST_MEMBERS]; /* -1 where none answers */
    uint8_t record[RECORD_BYTES];
    uint8_t bytes[MOST_MEMBERS * MOST_BLOCK];
    uint8_t data[MOST_DATA]; /* of the block that a request is about */
    struct irumbolai_patrol patrol;
    bool found; /* something is not as it should be */
};

/* The five numbers with which a call begins. */
#define ARRAY(box) (box)->members, (box)->stripes, (box)->volume, (box)->method, (box)->row

/*
 * What the box gives the recorder. A store has returned only once the bytes are on the drive: the next one must not
 * begin before. And it is whole: after a loss of power the drive holds all its old bytes or all its new ones. That is
 * what the theorem assumes, and what a drive promises of a sector: so let a block be one sector, and the record too. A
 * store that fails does not return: the run ends as by a loss of power, and the next one recovers.
 */
bool answers(const struct box *box, size_t member);
bool fetch_block(const struct box *box, uint64_t stripe, size_t member, uint8_t *block);
void store_block(const struct box *box, uint64_t stripe, size_t member, const uint8_t *block);
void store_record(const struct box *box, const uint8_t *record);
void fail(const char *why); /* ends the run */

/* What the recorder does, each with its lines on standard output. */
void begin(struct box *box);
void seal(struct box *box, uint64_t stripe, const uint8_t *data, size_t length);
void recover_all(struct box *box);
void write_block(struct box *box, uint64_t block);
void read_block(struct box *box, uint64_t block);
void patrol(struct box *box, uint64_t turns);
void repair(struct box *box, uint64_t member);
void bring(struct box *box, uint64_t block);

/* Lines and numbers that both files need. */
void say_refused(struct box *box, const char *what, uint64_t number, uint32_t refusal);
uint64_t number_at(const uint8_t *bytes, size_t count);
void put_number(uint8_t *bytes, size_t count, uint64_t number);

#endif
