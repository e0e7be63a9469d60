/* A disk that fails, or at which a program stops, preloaded (LD_PRELOAD) into the program: while the file that FAILING
 * names is there, calls on files fail with EIO from one of them on. The file has letters (r reads, w writes, s syncs, t
 * truncates, n takes a name away or gives another one) and, behind them, how many calls of these letters still succeed,
 * counted from when the file came; with the word `log` behind the number, of those on a store's log alone, with `store`
 * of those on other files. Where another word stands there, the program kills itself instead: `before` that call,
 * `behind` it, `halfway`, when the first half of a write is done; or as a power cut may leave it: `torn`, with other
 * bytes than were there or written in the place of that write and of each that no sync of its file has followed, or
 * `lost`, as if those writes and changes of a length had never been. (It aborts where some are of a store's file and
 * others of its log: of these either might be lost alone.) */
#define _GNU_SOURCE
#include <errno.h>
#include <fcntl.h>
#include <signal.h>
#include <stdio.h>
#include <stdlib.h>
#include <string.h>
#include <sys/stat.h>
#include <sys/syscall.h>
#include <unistd.h>

enum turn { SUCCEEDS, FAILS, STOPS_HALFWAY, STOPS_BEHIND, STOPS_TORN, STOPS_LOST };

static long met;

/* The files that were written, each with the path that it had then. */
static struct {
    dev_t device;
    ino_t number;
    char path[4097];
} files[64];
static size_t known;

/* The writes and changes of a length that no sync of their file has followed: of what is there now in the place of the
 * bytes that were there before, and how long the file was. */
static struct {
    size_t file;
    off_t at;
    size_t length;
    char *before;
    size_t kept;
    off_t end;
} unsynced[65536];
static size_t changes;

static size_t file_of(int file) {
    struct stat its;
    char link[64];
    if (fstat(file, &its)) abort();
    for (size_t it = 0; it < known; it++)
        if (files[it].device == its.st_dev && files[it].number == its.st_ino) return it;
    snprintf(link, sizeof link, "/proc/self/fd/%d", file);
    if (known == sizeof files / sizeof *files || readlink(link, files[known].path, sizeof files->path - 1) < 0) abort();
    files[known].device = its.st_dev;
    files[known].number = its.st_ino;
    return known++;
}

/* A file that was written, opened again; -1 where it has lost its name. */
static int opened(size_t file) {
    struct stat its;
    int again = (int)syscall(SYS_openat, AT_FDCWD, files[file].path, O_RDWR);
    if (again < 0 || fstat(again, &its)) return -1;
    return its.st_dev == files[file].device && its.st_ino == files[file].number ? again : -1;
}

/* Notes a change of so many bytes of a file, which puts others in the place of so many. */
static void note_change(int file, off_t at, size_t length, size_t others) {
    struct stat its;
    if (fstat(file, &its) || changes == sizeof unsynced / sizeof *unsynced) abort();
    char *before = malloc(others + 1);
    long kept = before ? syscall(SYS_pread64, file, before, others, at) : -1;
    if (kept < 0) abort();
    unsynced[changes].file = file_of(file);
    unsynced[changes].at = at;
    unsynced[changes].length = length;
    unsynced[changes].before = before;
    unsynced[changes].kept = (size_t)kept;
    unsynced[changes++].end = its.st_size;
}

static void note_length(int file, off_t length) {
    struct stat its;
    if (fstat(file, &its)) abort();
    note_change(file, length, 0, its.st_size > length ? (size_t)(its.st_size - length) : 0);
}

static void note_sync(int file) {
    size_t kept = 0, synced = file_of(file);
    for (size_t it = 0; it < changes; it++)
        if (unsynced[it].file != synced)
            unsynced[kept++] = unsynced[it];
        else
            free(unsynced[it].before);
    changes = kept;
}

static void tear(void) {
    char other[4096];
    memset(other, 0xA5, sizeof other);
    for (size_t it = 0; it < changes; it++) {
        int file = opened(unsynced[it].file);
        for (size_t done = 0; done < unsynced[it].length; done += sizeof other) {
            size_t rest = unsynced[it].length - done;
            syscall(SYS_pwrite64, file, other, rest < sizeof other ? rest : sizeof other,
                    unsynced[it].at + (off_t)done);
        }
        syscall(SYS_close, file);
    }
}

/* How long a path is without what a log's name has behind its store's. */
static size_t length_of_store(const char *path) {
    size_t length = strlen(path);
    return length >= 4 && !strcmp(path + length - 4, "-wal") ? length - 4 : length;
}

static int are_store_and_log(size_t one, size_t other) {
    const char *first = files[one].path, *second = files[other].path;
    size_t length = length_of_store(first);
    return one != other && length == length_of_store(second) && !strncmp(first, second, length);
}

static void lose(void) {
    for (size_t it = changes; it-- > 0;) {
        int file = opened(unsynced[it].file);
        for (size_t other = 0; other < it; other++)
            if (are_store_and_log(unsynced[it].file, unsynced[other].file)) abort();
        if (file < 0) continue;
        long length = syscall(SYS_pwrite64, file, unsynced[it].before, unsynced[it].kept, unsynced[it].at);
        if (length != (long)unsynced[it].kept || syscall(SYS_ftruncate, file, unsynced[it].end)) abort();
        syscall(SYS_close, file);
    }
}

static void stop(void) { kill(getpid(), SIGKILL); }

static enum turn turn_by(const char *way) {
    if (!strcmp(way, "before")) stop();
    if (!strcmp(way, "halfway")) return STOPS_HALFWAY;
    if (!strcmp(way, "behind")) return STOPS_BEHIND;
    if (!strcmp(way, "torn")) return STOPS_TORN;
    if (!strcmp(way, "lost")) return STOPS_LOST;
    errno = EIO;
    return FAILS;
}

/* Whether calls on a file may fail: by the word `log` those on a store's log alone, by `store` those on others. */
static int is_meant(const char *way, int file) {
    if (strcmp(way, "log") && strcmp(way, "store")) return 1;
    const char *path = file < 0 ? "" : files[file_of(file)].path;
    return (length_of_store(path) < strlen(path)) == !strcmp(way, "log");
}

static enum turn turn_of(int letter, int called) {
    char words[32] = "", letters[8] = "", way[8] = "";
    long number = 0;
    const char *name = getenv("FAILING");
    int file = name ? (int)syscall(SYS_openat, AT_FDCWD, name, O_RDONLY) : -1;
    if (file < 0) {
        met = 0;
        return SUCCEEDS;
    }
    long length = syscall(SYS_read, file, words, sizeof words - 1);
    syscall(SYS_close, file);
    if (length <= 0) return SUCCEEDS;
    sscanf(words, "%7[rwstn]%ld%7s", letters, &number, way);
    if (!strchr(letters, letter) || !is_meant(way, called) || met++ < number) return SUCCEEDS;
    return turn_by(way);
}

static long done(enum turn turn, long answer) {
    if (turn == STOPS_TORN) tear();
    if (turn == STOPS_LOST) lose();
    if (turn != SUCCEEDS) stop();
    return answer;
}

/* What a power cut leaves behind the program's end, where LOST is set. */
__attribute__((destructor)) static void lose_at_end(void) {
    if (getenv("LOST")) lose();
}

ssize_t pread(int file, void *to, size_t length, off_t at) {
    enum turn turn = turn_of('r', file);
    return turn == FAILS ? -1 : done(turn, syscall(SYS_pread64, file, to, length, at));
}

ssize_t pread64(int file, void *to, size_t length, off_t at) { return pread(file, to, length, at); }

ssize_t pwrite(int file, const void *from, size_t length, off_t at) {
    enum turn turn = turn_of('w', file);
    if (turn == STOPS_HALFWAY) length /= 2;
    if (turn == FAILS) return -1;
    note_change(file, at, length, length);
    return done(turn, syscall(SYS_pwrite64, file, from, length, at));
}

ssize_t pwrite64(int file, const void *from, size_t length, off_t at) { return pwrite(file, from, length, at); }

int fdatasync(int file) {
    enum turn turn = turn_of('s', file);
    if (turn == FAILS) return -1;
    if (turn == STOPS_TORN || turn == STOPS_LOST) return (int)done(turn, 0);
    long answer = syscall(SYS_fdatasync, file);
    if (answer == 0) note_sync(file);
    return (int)done(turn, answer);
}

int fsync(int file) {
    enum turn turn = turn_of('s', file);
    if (turn == FAILS) return -1;
    if (turn == STOPS_TORN || turn == STOPS_LOST) return (int)done(turn, 0);
    long answer = syscall(SYS_fsync, file);
    if (answer == 0) note_sync(file);
    return (int)done(turn, answer);
}

int ftruncate(int file, off_t length) {
    enum turn turn = turn_of('t', file);
    if (turn == FAILS) return -1;
    note_length(file, length);
    return (int)done(turn, syscall(SYS_ftruncate, file, length));
}

int unlink(const char *path) {
    enum turn turn = turn_of('n', -1);
    return turn == FAILS ? -1 : (int)done(turn, syscall(SYS_unlink, path));
}

int rename(const char *from, const char *to) {
    enum turn turn = turn_of('n', -1);
    return turn == FAILS ? -1 : (int)done(turn, syscall(SYS_rename, from, to));
}
