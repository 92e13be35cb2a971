/*
 * The box around the recorder: a folder, with plain files for its drives, and standard input for the host.
 *
 *     recorder [--stores N] make FOLDER MEMBERS STRIPES VOLUME METHOD ROW < data
 *     recorder [--stores N] run FOLDER < requests
 *
 * In the folder drive-0, drive-1 .. are the drives: the block of stripe s begins at byte s x B. The file record is the
 * record of stripes at risk. The file array has the array's numbers, as the header of an image (version 4) has them.
 * A run is the time from power on to power off, and the only one in its folder; with --stores N the power goes before
 * store N + 1. README.md beside this has the requests and the lines.
 */
#define _POSIX_C_SOURCE 200809L
#include <errno.h>
#include <fcntl.h>
#include <stdio.h>
#include <stdlib.h>
#include <string.h>
#include <sys/stat.h>
#include <unistd.h>

#include "recorder.h"

enum { HEADER_BYTES = 15, HEADER_VERSION = 4 };
enum exit_code { DONE = 0, FOUND = 1, FAILED = 2, POWER_CUT = 3 };

static uint64_t stores_left = UINT64_MAX;

void fail(const char *why)
{
    fflush(stdout);
    fprintf(stderr, "recorder: %s\n", why);
    exit(FAILED);
}

/* Everything is stored by this: written, and flushed out of every cache. */
static void store(int file, const uint8_t *bytes, size_t length, uint64_t at)
{
    if (stores_left-- == 0)
        _exit(POWER_CUT);
    if (pwrite(file, bytes, length, (off_t)at) != (ssize_t)length || fsync(file) != 0)
        fail("a store was not made");
}

void store_block(const struct box *box, uint64_t stripe, size_t member, const uint8_t *block)
{
    store(box->drive[member], block, box->block_length, stripe * box->block_length);
}

void store_record(const struct box *box, const uint8_t *record)
{
    store(box->record_file, record, RECORD_BYTES, 0);
}

bool fetch_block(const struct box *box, uint64_t stripe, size_t member, uint8_t *block)
{
    off_t at = (off_t)(stripe * box->block_length);

    return pread(box->drive[member], block, box->block_length, at) == (ssize_t)box->block_length;
}

bool answers(const struct box *box, size_t member)
{
    return box->drive[member] >= 0;
}

static int open_file(const struct box *box, const char *name, int how)
{
    return openat(box->folder, name, how, 0666);
}

static int create_file(const struct box *box, const char *name)
{
    int file = open_file(box, name, O_RDWR | O_CREAT | O_TRUNC);

    if (file < 0)
        fail("a file cannot be made");
    return file;
}

static const char *drive_name(size_t member)
{
    static char name[32];

    snprintf(name, sizeof name, "drive-%zu", member);
    return name;
}

/* A file gets its name when it is whole, and when all that was made before it is on the drive. */
static void put_in_place(const struct box *box, const char *from, const char *to)
{
    if (fsync(box->folder) != 0 || renameat(box->folder, from, box->folder, to) != 0 || fsync(box->folder) != 0)
        fail("a file cannot be put in place");
}

/* All of a file, which has to have just so many bytes. */
static bool read_file(int file, uint8_t *bytes, size_t length)
{
    uint8_t more;

    return file >= 0 && read(file, bytes, length) == (ssize_t)length && read(file, &more, 1) == 0;
}

/* A decimal number, at most `most`. */
static uint64_t number_of(const char *text, uint64_t most)
{
    char *end = NULL;
    unsigned long long number = 0;

    errno = 0;
    if (text != NULL && text[0] >= '0' && text[0] <= '9')
        number = strtoull(text, &end, 10);
    if (end == NULL || *end != '\0' || errno != 0 || number > most)
        fail("a number was expected");
    return number;
}

static void take_data(uint8_t *data, size_t length)
{
    if (fread(data, 1, length, stdin) != length)
        fail("the data end early");
}

/* Seals every stripe, makes an empty record, and last puts the array's numbers in place: before, there is no array. */
static void make(struct box *box)
{
    static uint8_t data[(MOST_MEMBERS - 1) * MOST_DATA];
    uint8_t header[HEADER_BYTES] = {0, HEADER_BYTES - 2, HEADER_VERSION, (uint8_t)box->members, box->volume};
    size_t length = (box->members - 1) * box->data_length;

    for (size_t member = 0; member < box->members; member++)
        box->drive[member] = create_file(box, drive_name(member));
    for (uint64_t stripe = 0; stripe < box->stripes; stripe++) {
        take_data(data, length);
        seal(box, stripe, data, length);
    }
    if (getchar() != EOF)
        fail("there are more data than the array holds");
    box->record_file = create_file(box, "record");
    store_record(box, box->record);
    put_number(header + 5, 8, box->stripes);
    header[13] = box->method;
    header[14] = box->row;
    store(create_file(box, "array.new"), header, HEADER_BYTES, 0);
    put_in_place(box, "array.new", "array");
}

static void power_on(struct box *box)
{
    static const uint8_t begins[] = {0, HEADER_BYTES - 2, HEADER_VERSION};
    uint8_t header[HEADER_BYTES];

    if (!read_file(open_file(box, "array", O_RDONLY), header, HEADER_BYTES) ||
        memcmp(header, begins, sizeof begins) != 0)
        fail("there is no whole array");
    box->members = header[3];
    box->volume = header[4];
    box->stripes = number_at(header + 5, 8);
    box->method = header[13];
    box->row = header[14];
    begin(box);
    for (size_t member = 0; member < box->members; member++)
        box->drive[member] = open_file(box, drive_name(member), O_RDWR);
    box->record_file = open_file(box, "record", O_RDWR);
    if (!read_file(box->record_file, box->record, RECORD_BYTES))
        fail("there is no whole record");
}

/* A new drive where there is none. Until its blocks are made again they are bad, and none passes for data. */
static void replace(struct box *box, uint64_t member)
{
    uint8_t nothing[MOST_BLOCK];

    if (member >= box->members || answers(box, (size_t)member)) {
        say_refused(box, "replace", member, 5);
        return;
    }
    int file = create_file(box, "drive.new");
    memset(nothing, NO_BLOCK, sizeof nothing);
    for (uint64_t stripe = 0; stripe < box->stripes; stripe++)
        store(file, nothing, box->block_length, stripe * box->block_length);
    put_in_place(box, "drive.new", drive_name((size_t)member));
    box->drive[member] = file;
    repair(box, member);
}

/* A request is a line with a word and a number; after that of a write or a bring come the block's data. */
static void serve(struct box *box, char *line)
{
    static const struct {
        const char *word;
        bool has_data;
        void (*answer)(struct box *box, uint64_t number);
    } requests[] = {
        {"write", true, write_block}, {"read", false, read_block}, {"idle", false, patrol},
        {"repair", false, repair},    {"replace", false, replace}, {"bring", true, bring},
    };
    const char *word = strtok(line, " \n"), *rest = strtok(NULL, "\n");

    for (size_t at = 0; word != NULL && at < sizeof requests / sizeof requests[0]; at++)
        if (strcmp(word, requests[at].word) == 0) {
            uint64_t number = number_of(rest, UINT64_MAX);

            if (requests[at].has_data)
                take_data(box->data, box->data_length);
            requests[at].answer(box, number);
            return;
        }
    fail("no such request");
}

/* Recovers before anything else is written, then answers one request after the other. */
static void run(struct box *box)
{
    char line[64];

    power_on(box);
    recover_all(box);
    while (fflush(stdout) == 0 && fgets(line, sizeof line, stdin) != NULL) {
        if (strchr(line, '\n') == NULL)
            fail("a request ends early");
        serve(box, line);
    }
}

int main(int argc, char **argv)
{
    static struct box box;
    bool cut = argc > 2 && strcmp(argv[1], "--stores") == 0;
    char **words = argv + (cut ? 2 : 0);
    int count = argc - (cut ? 2 : 0);
    bool makes = count == 8 && strcmp(words[1], "make") == 0;

    if (!makes && !(count == 3 && strcmp(words[1], "run") == 0))
        fail("usage: recorder [--stores N] make FOLDER MEMBERS STRIPES VOLUME METHOD ROW < data\n"
             "                 recorder [--stores N] run FOLDER < requests");
    if (cut)
        stores_left = number_of(argv[2], UINT64_MAX);
    if (makes) {
        box.members = (size_t)number_of(words[3], UINT8_MAX);
        box.stripes = number_of(words[4], UINT64_MAX);
        box.volume = (uint8_t)number_of(words[5], UINT8_MAX);
        box.method = (uint8_t)number_of(words[6], UINT8_MAX);
        box.row = (uint8_t)number_of(words[7], UINT8_MAX);
        begin(&box);
        if (mkdir(words[2], 0777) != 0)
            fail("the folder is there already, or cannot be made");
    }
    box.folder = open(words[2], O_RDONLY | O_DIRECTORY);
    if (box.folder < 0)
        fail("there is no such folder");
    if (makes)
        make(&box);
    else
        run(&box);
    if (fflush(stdout) != 0 || ferror(stdout))
        fail("the answers cannot be written");
    return box.found ? FOUND : DONE;
}
