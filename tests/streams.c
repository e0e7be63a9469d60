/* Standard streams in pieces, and that fail, preloaded (LD_PRELOAD) into the program, by variables of three numbers each.
 *
 * INPUT=CUT,MOST,LENGTH: the first reads give CUT bytes, no read more than MOST, and behind LENGTH bytes they fail; where
 * LENGTH is -1 what stands there is given over and over, without an end. OUTPUT=MOST,ROOM,FAILS and ERRORS: no write takes
 * more than MOST bytes, and behind ROOM bytes they fail, or take none where FAILS is 0. Where a variable isn't there the
 * stream is as it is. How many reads there were is put to the file that READS names, at the end. */
#define _GNU_SOURCE
#include <errno.h>
#include <fcntl.h>
#include <stdio.h>
#include <stdlib.h>
#include <string.h>
#include <sys/syscall.h>
#include <unistd.h>

static char text[1 << 20];
static long held, given, reads, taken[3];

static int numbers_of(const char *name, long told[3]) {
    const char *words = getenv(name);
    if (!words) return 0;
    if (sscanf(words, "%ld,%ld,%ld", &told[0], &told[1], &told[2]) != 3) abort();
    return 1;
}

static long least(long one, long other) { return one < other ? one : other; }

static void hold(void) {
    long count;
    while ((count = syscall(SYS_read, 0, text + held, sizeof text - held)) > 0) held += count;
}

ssize_t read(int file, void *to, size_t length) {
    static long in[3];
    static int known;
    if (file != STDIN_FILENO || !(known = known ? known : numbers_of("INPUT", in)))
        return syscall(SYS_read, file, to, length);
    if (!reads++) hold();
    errno = EIO;
    if (in[2] == -1 && given == held) given = 0;
    if (in[2] != -1 && given >= in[2]) return -1;
    long count = least(least((long)length, in[1]), held - given);
    if (given < in[0]) count = least(count, in[0] - given);
    if (in[2] != -1) count = least(count, in[2] - given);
    memcpy(to, text + given, count);
    given += count;
    return count;
}

ssize_t write(int file, const void *from, size_t length) {
    long out[3];
    const char *name = file == STDOUT_FILENO ? "OUTPUT" : "ERRORS";
    if ((file != STDOUT_FILENO && file != STDERR_FILENO) || !numbers_of(name, out))
        return syscall(SYS_write, file, from, length);
    long count = least(least((long)length, out[0]), out[1] - taken[file]);
    errno = ENOSPC;
    if (!count && length && out[2]) return -1;
    if (count) count = syscall(SYS_write, file, from, count);
    if (count > 0) taken[file] += count;
    return count;
}

__attribute__((destructor)) static void tell_reads(void) {
    const char *name = getenv("READS");
    int file = name ? (int)syscall(SYS_openat, AT_FDCWD, name, O_WRONLY | O_CREAT | O_TRUNC, 0600) : -1;
    if (file >= 0) dprintf(file, "%ld", reads);
}
