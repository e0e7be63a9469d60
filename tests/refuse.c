/* An allocator that refuses requests for memory between two lines of a program's output, and tells of it.
 *
 * Preloaded (LD_PRELOAD) into a program that writes the lines `no memory` and `memory again`: a request between them is
 * refused and counted, and at the second line the program ends with status 9 where any was made. Between lines `one may be
 * refused` and `all is given` the request of the number that REFUSED_REQUEST names is refused, counted from 1 over all of
 * them; at the line `done` the program ends with status 8 where fewer were made.
 *
 * Preloaded into any other program: where REQUESTS names a file of three numbers of 8 bytes, each request from the number
 * that is the first to the number that is the second is refused, counted from 1 from the program's start; the third, 0 at
 * the start, is kept as how many were made. */
#define _GNU_SOURCE
#include <errno.h>
#include <fcntl.h>
#include <stddef.h>
#include <stdint.h>
#include <stdlib.h>
#include <string.h>
#include <sys/mman.h>
#include <sys/syscall.h>
#include <unistd.h>

extern void *__libc_malloc(size_t);
extern void *__libc_calloc(size_t, size_t);
extern void *__libc_realloc(void *, size_t);
extern void *__libc_memalign(size_t, size_t);

static int refusing;
static int counting;
static unsigned long asked;
static unsigned long counted;
static unsigned long wanted;
static volatile struct { uint64_t first, last, made; } *requests;

__attribute__((constructor)) static void count_requests(void) {
    const char *name = getenv("REQUESTS");
    int file = name ? open(name, O_RDWR) : -1;
    if (file < 0) return;
    void *place = mmap(NULL, sizeof *requests, PROT_READ | PROT_WRITE, MAP_SHARED, file, 0);
    close(file);
    if (place != MAP_FAILED) requests = place;
}

static int is_one_refused(void) {
    if (!requests) return 0;
    uint64_t number = ++requests->made;
    return requests->first <= number && number <= requests->last;
}

static int refused(void) {
    if (refusing) asked++;
    if (counting) counted++;
    if (!is_one_refused() && !refusing && !(counting && counted == wanted)) return 0;
    errno = ENOMEM;
    return 1;
}

void *malloc(size_t size) { return refused() ? NULL : __libc_malloc(size); }

void *calloc(size_t count, size_t size) { return refused() ? NULL : __libc_calloc(count, size); }

void *realloc(void *old, size_t size) { return refused() ? NULL : __libc_realloc(old, size); }

void *aligned_alloc(size_t alignment, size_t size) { return refused() ? NULL : __libc_memalign(alignment, size); }

int posix_memalign(void **place, size_t alignment, size_t size) {
    void *memory = refused() ? NULL : __libc_memalign(alignment, size);
    if (!memory) return ENOMEM;
    *place = memory;
    return 0;
}

static int begins(const void *text, size_t length, const char *line) {
    return length >= strlen(line) && memcmp(text, line, strlen(line)) == 0;
}

static void watch(const void *text, size_t length) {
    static const char told[] = "memory was asked for\n";
    if (begins(text, length, "no memory\n")) refusing = 1;
    if (begins(text, length, "one may be refused\n")) {
        const char *number = getenv("REFUSED_REQUEST");
        wanted = number ? strtoul(number, NULL, 10) : 0;
        counting = 1;
    }
    if (begins(text, length, "all is given\n")) counting = 0;
    if (begins(text, length, "done\n") && counted < wanted) _exit(8);
    if (!begins(text, length, "memory again\n")) return;
    refusing = 0;
    if (asked) {
        syscall(SYS_write, 2, told, sizeof told - 1);
        _exit(9);
    }
}

ssize_t write(int file, const void *text, size_t length) {
    watch(text, length);
    return syscall(SYS_write, file, text, length);
}

ssize_t __write(int file, const void *text, size_t length) { return write(file, text, length); }
