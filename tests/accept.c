/* Connections that can't be accepted, preloaded (LD_PRELOAD) into the program: while the file that ACCEPTING names has
 * numbers, the next of them, 4 bytes each, is taken away with each call of accept4, which fails with it as its error;
 * 0 lets the call through. Behind the last one all calls go through. */
#define _GNU_SOURCE
#include <errno.h>
#include <fcntl.h>
#include <stdint.h>
#include <stdlib.h>
#include <sys/socket.h>
#include <sys/syscall.h>
#include <unistd.h>

static int32_t next_error(void) {
    static off_t taken;
    int32_t error = 0;
    const char *name = getenv("ACCEPTING");
    int file = name ? open(name, O_RDONLY) : -1;
    if (file < 0) return 0;
    if (pread(file, &error, sizeof error, taken) == sizeof error) taken += sizeof error;
    close(file);
    return error;
}

int accept4(int listener, struct sockaddr *restrict address, socklen_t *restrict length, int flags) {
    int32_t error = next_error();
    if (!error) return (int)syscall(SYS_accept4, listener, address, length, flags);
    errno = error;
    return -1;
}
