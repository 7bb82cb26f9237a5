/*
 * Preloaded into the sheet program by tests/sheet_faults: makes one call of C's `read` from standard input, of `write`
 * to standard output, or of `close` of standard output go wrong, and leaves all others as they are.
 *
 *   FAULT="CALL NUMBER HOW"   the call, which one of its kind, counted from 1, and how it goes wrong:
 *       ERROR     a number: it moves no byte and fails with that errno
 *       nothing   it moves no byte and answers 0
 *       one       it moves one byte
 *       but-one   it moves all bytes but one
 *       cut       it moves one byte, and the next call of its kind moves none and fails with EIO
 *   FAULT_TOLD=FILE           then gets a line with the number of bytes that were read before that
 */
#define _GNU_SOURCE
#include <errno.h>
#include <fcntl.h>
#include <stdio.h>
#include <stdlib.h>
#include <string.h>
#include <sys/syscall.h>
#include <sys/types.h>
#include <unistd.h>

enum { INPUT = 0, OUTPUT = 1 };

static long calls_before;
static long bytes_read;

/* Says that the fault came. */
static void tell(void)
{
    const char *path = getenv("FAULT_TOLD");
    int file = path == NULL ? -1 : open(path, O_WRONLY | O_CREAT | O_TRUNC, 0600);
    if (file < 0) {
        static const char words[] = "faults.c: FAULT_TOLD names no file that can be written\n";
        syscall(SYS_write, 2, words, sizeof words - 1);
        _exit(99);
    }
    char line[32];
    int length = snprintf(line, sizeof line, "%ld\n", bytes_read);
    syscall(SYS_write, file, line, (size_t)length);
    syscall(SYS_close, file);
}

/* How a call of this name goes wrong, or NULL where it goes well. */
static const char *fault_of(const char *name)
{
    static char call[8], how[16];
    long number;
    const char *asked = getenv("FAULT");
    if (asked == NULL || sscanf(asked, "%7s %ld %15s", call, &number, how) != 3 || strcmp(call, name) != 0)
        return NULL;
    calls_before++;
    if (calls_before == number) {
        tell();
        return how;
    }
    return calls_before == number + 1 && strcmp(how, "cut") == 0 ? "5" : NULL;
}

/* Sets how many of `count` bytes are moved; answers 0 where none is, with `answer` for the caller. */
static int moves(const char *how, size_t *count, ssize_t *answer)
{
    if (how == NULL)
        return 1;
    if (strcmp(how, "one") == 0 || strcmp(how, "cut") == 0)
        *count = *count < 1 ? *count : 1;
    else if (strcmp(how, "but-one") == 0)
        *count = *count < 2 ? *count : *count - 1;
    else {
        *answer = 0;
        if (strcmp(how, "nothing") != 0) {
            errno = atoi(how);
            *answer = -1;
        }
        return 0;
    }
    return 1;
}

ssize_t read(int file, void *bytes, size_t count)
{
    ssize_t answer;
    if (file == INPUT && !moves(fault_of("read"), &count, &answer))
        return answer;
    answer = syscall(SYS_read, file, bytes, count);
    if (file == INPUT && answer > 0)
        bytes_read += answer;
    return answer;
}

ssize_t write(int file, const void *bytes, size_t count)
{
    ssize_t answer;
    if (file == OUTPUT && !moves(fault_of("write"), &count, &answer))
        return answer;
    return syscall(SYS_write, file, bytes, count);
}

int close(int file)
{
    const char *how = file == OUTPUT ? fault_of("close") : NULL;
    if (how == NULL)
        return (int)syscall(SYS_close, file);
    errno = atoi(how);
    return -1;
}
