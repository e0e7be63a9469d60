/* A clock that a test sets, preloaded (LD_PRELOAD) into the program: the monotonic clock stands at as many seconds as the
 * file says that CLOCK names, in digits; any other clock goes on. And each connection that is accepted takes as few bytes
 * as the system lets it, so that a client which doesn't read soon holds its reply up. */
#define _GNU_SOURCE
#include <fcntl.h>
#include <stdlib.h>
#include <sys/socket.h>
#include <sys/syscall.h>
#include <time.h>
#include <unistd.h>

int clock_gettime(clockid_t clock, struct timespec *told) {
    char digits[32] = "";
    if (clock != CLOCK_MONOTONIC) return (int)syscall(SYS_clock_gettime, clock, told);
    const char *name = getenv("CLOCK");
    int file = name ? open(name, O_RDONLY) : -1;
    if (file < 0 || read(file, digits, sizeof digits - 1) <= 0) abort();
    close(file);
    told->tv_sec = atol(digits);
    told->tv_nsec = 0;
    return 0;
}

int accept4(int listener, struct sockaddr *restrict address, socklen_t *restrict length, int flags) {
    int least = 1, made = (int)syscall(SYS_accept4, listener, address, length, flags);
    if (made >= 0) setsockopt(made, SOL_SOCKET, SO_SNDBUF, &least, sizeof least);
    return made;
}
