/*
 * Drives with a cache, for tests/recorder: linked in place of pwrite and fsync (ld's --wrap), so that a loss of power
 * also loses what was written and not flushed. IRUMBOLAI_CUT says before which of these calls, counted from 0, the
 * power goes, IRUMBOLAI_LOST what becomes of the writes that were not flushed by then: none is lost, all are, the
 * oldest alone, or half of the latest.
 */
#define _POSIX_C_SOURCE 200809L
#include <stdint.h>
#include <stdlib.h>
#include <string.h>
#include <sys/types.h>
#include <unistd.h>

ssize_t __real_pwrite(int file, const void *bytes, size_t length, off_t at);
int __real_fsync(int file);

/* A write that is not flushed, and the bytes that it overwrote. */
static struct {
    int file;
    off_t at;
    size_t length;
    uint8_t old[4112];
} waiting[256];
static size_t count, calls;

/* Takes the bytes of a write back, from some of them on. Past the end of the file as it was they are others, AAh. */
static void undo(size_t which, size_t from)
{
    size_t length = waiting[which].length;
    off_t at = waiting[which].at + (off_t)from;

    if (from < length && __real_pwrite(waiting[which].file, waiting[which].old + from, length - from, at) < 0)
        abort();
}

static void call_made(void)
{
    const char *cut = getenv("IRUMBOLAI_CUT"), *lost = getenv("IRUMBOLAI_LOST");

    if (cut == NULL || lost == NULL || calls++ != strtoull(cut, NULL, 10))
        return;
    for (size_t which = count; which > 0; which--) {
        if (strcmp(lost, "all") == 0 || (strcmp(lost, "oldest") == 0 && which == 1))
            undo(which - 1, 0);
        if (strcmp(lost, "half") == 0 && which == count)
            undo(which - 1, waiting[which - 1].length / 2);
    }
    _exit(3);
}

ssize_t __wrap_pwrite(int file, const void *bytes, size_t length, off_t at)
{
    call_made();
    if (count == sizeof waiting / sizeof waiting[0] || length > sizeof waiting[0].old)
        abort();
    waiting[count].file = file;
    waiting[count].at = at;
    waiting[count].length = length;
    memset(waiting[count].old, 0xAA, sizeof waiting[count].old);
    if (pread(file, waiting[count].old, length, at) < 0)
        abort();
    count++;
    return __real_pwrite(file, bytes, length, at);
}

int __wrap_fsync(int file)
{
    size_t kept = 0;

    call_made();
    for (size_t which = 0; which < count; which++)
        if (waiting[which].file != file)
            waiting[kept++] = waiting[which];
    count = kept;
    return __real_fsync(file);
}
