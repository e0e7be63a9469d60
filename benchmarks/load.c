/* load PORT SECONDS FILE CONNECTIONS [FILE CONNECTIONS]..: asks a server of this machine over so many connections at
 * once, each of which sends its next request behind the reply to the one before, for so many seconds or until a file
 * has no more. A file has requests, each behind its length in 4 bytes (of this machine); connections with one file
 * share it, and a file of one request is sent again and again. Each reply has to be 200.
 *
 * Told are the seconds that all took, and the processor time of this program in seconds; then a line for each file: how
 * many requests, the mean wait and the longest one for a reply, in microseconds. */
#define _GNU_SOURCE
#include <arpa/inet.h>
#include <errno.h>
#include <netinet/tcp.h>
#include <stdint.h>
#include <stdio.h>
#include <stdlib.h>
#include <string.h>
#include <sys/epoll.h>
#include <sys/socket.h>
#include <time.h>
#include <unistd.h>

enum { ROOM = 1 << 16, EVENTS = 64 };

struct group {
    char *bytes;
    size_t length, next;
    int is_one;
    uint64_t count, waited, longest;
};

struct client {
    int wire;
    struct group *group;
    uint64_t begun;
    size_t got, wanted;
    char reply[ROOM + 1];
};

static void refuse(const char *why) {
    fprintf(stderr, "load: %s\n", why);
    exit(1);
}

static uint64_t now(clockid_t clock) {
    struct timespec it;
    clock_gettime(clock, &it);
    return (uint64_t)it.tv_sec * 1000000000u + (uint64_t)it.tv_nsec;
}

static void read_group(struct group *group, const char *path) {
    FILE *file = fopen(path, "rb");
    uint32_t first;
    if (!file || fseek(file, 0, SEEK_END)) refuse(path);
    group->length = (size_t)ftell(file);
    group->bytes = malloc(group->length);
    rewind(file);
    if (!group->bytes || fread(group->bytes, 1, group->length, file) != group->length) refuse(path);
    fclose(file);
    memcpy(&first, group->bytes, 4);
    group->is_one = 4 + first == group->length;
}

/* Sends the next request; 0 where the file has no more. */
static int ask(struct client *client) {
    struct group *group = client->group;
    uint32_t length;
    if (group->next == group->length) {
        if (!group->is_one) return 0;
        group->next = 0;
    }
    memcpy(&length, group->bytes + group->next, 4);
    client->begun = now(CLOCK_MONOTONIC);
    if (send(client->wire, group->bytes + group->next + 4, length, MSG_NOSIGNAL) != (ssize_t)length) refuse("send");
    group->next += 4 + length;
    client->got = client->wanted = 0;
    return 1;
}

/* Reads what is there; 1 where that is the end of a reply. */
static int is_answered(struct client *client) {
    ssize_t got = recv(client->wire, client->reply + client->got, ROOM - client->got, 0);
    if (got <= 0) refuse(got ? strerror(errno) : "a connection was ended");
    client->got += (size_t)got;
    client->reply[client->got] = 0;
    if (!client->wanted) {
        const char *end = strstr(client->reply, "\r\n\r\n");
        const char *length = strcasestr(client->reply, "\r\nContent-Length: ");
        if (!end || !length || length > end) return 0;
        if (strncmp(client->reply, "HTTP/1.1 200 ", 13)) refuse(client->reply);
        client->wanted = (size_t)(end + 4 - client->reply) + strtoul(length + 18, NULL, 10);
        if (client->wanted > ROOM) refuse("a reply is too long");
    }
    return client->got == client->wanted;
}

static void connect_to(struct client *client, uint16_t port, int poll) {
    struct sockaddr_in to = {.sin_family = AF_INET, .sin_port = htons(port), .sin_addr = {htonl(INADDR_LOOPBACK)}};
    struct epoll_event event = {.events = EPOLLIN, .data = {.ptr = client}};
    int one = 1;
    client->wire = socket(AF_INET, SOCK_STREAM, 0);
    if (client->wire < 0 || connect(client->wire, (struct sockaddr *)&to, sizeof to)) refuse("connect");
    setsockopt(client->wire, IPPROTO_TCP, TCP_NODELAY, &one, sizeof one);
    if (epoll_ctl(poll, EPOLL_CTL_ADD, client->wire, &event)) refuse("epoll_ctl");
}

static void take(struct client *client) {
    struct group *group = client->group;
    uint64_t wait = now(CLOCK_MONOTONIC) - client->begun;
    group->count++;
    group->waited += wait;
    if (wait > group->longest) group->longest = wait;
}

int main(int argc, char **argv) {
    if (argc < 5 || argc % 2 == 0) refuse("usage: load PORT SECONDS FILE CONNECTIONS [FILE CONNECTIONS]..");
    int groups = (argc - 3) / 2, poll = epoll_create1(0), asking = 0;
    struct group *group = calloc((size_t)groups, sizeof *group);
    struct epoll_event events[EVENTS];
    for (int it = 0; it < groups; it++) read_group(group + it, argv[3 + 2 * it]);
    uint64_t begun = now(CLOCK_MONOTONIC), end = begun + (uint64_t)(atof(argv[2]) * 1e9);
    for (int it = 0; it < groups; it++) {
        for (int left = atoi(argv[4 + 2 * it]); left > 0; left--) {
            struct client *client = calloc(1, sizeof *client);
            if (!client) refuse("memory");
            client->group = group + it;
            connect_to(client, (uint16_t)atoi(argv[1]), poll);
            asking += ask(client);
        }
    }
    while (asking > 0) {
        int count = epoll_wait(poll, events, EVENTS, 1000 * 60);
        if (count <= 0) refuse("nothing comes");
        for (int it = 0; it < count; it++) {
            struct client *client = events[it].data.ptr;
            if (!is_answered(client)) continue;
            take(client);
            if (now(CLOCK_MONOTONIC) >= end || !ask(client)) asking--;
        }
    }
    printf("%.6f %.6f\n", (double)(now(CLOCK_MONOTONIC) - begun) / 1e9, (double)now(CLOCK_PROCESS_CPUTIME_ID) / 1e9);
    for (int it = 0; it < groups; it++) {
        struct group *told = group + it;
        uint64_t mean = told->count ? told->waited / told->count : 0;
        printf("%llu %.1f %.1f\n", (unsigned long long)told->count, (double)mean / 1e3, (double)told->longest / 1e3);
    }
    return 0;
}
