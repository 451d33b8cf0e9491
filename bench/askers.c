/* Asks a service of this machine for one target again and again: askers PORT CONNECTIONS SECONDS TARGET. Each connection
   asks as soon as its reply is whole. Printed are how many replies came in how many seconds, and of the answers the median
   and the longest in microseconds; those that were asked for and did not come by the end count as long as they waited. */
#define _GNU_SOURCE
#include <arpa/inet.h>
#include <netinet/tcp.h>
#include <stdio.h>
#include <stdlib.h>
#include <string.h>
#include <strings.h>
#include <sys/epoll.h>
#include <sys/socket.h>
#include <time.h>
#include <unistd.h>

enum { MOST = 1024, HEAD = 2048, ROOM = 1 << 18, ANSWERS = 1 << 22 };

struct asker {
    int socket;
    double asked;
    size_t length, left; /* of the head so far; of the body, once the head is whole */
    char head[HEAD + 1];
};

static struct asker askers[MOST];
static char request[HEAD], room[ROOM];
static float answers[ANSWERS];
static size_t replies;

static double now(void) {
    struct timespec time;
    clock_gettime(CLOCK_MONOTONIC, &time);
    return time.tv_sec + time.tv_nsec * 1e-9;
}

static void fail(const char *what) {
    perror(what);
    exit(1);
}

static void ask(struct asker *it) {
    it->length = it->left = 0;
    it->asked = now();
    ssize_t size = strlen(request);
    if (write(it->socket, request, size) != size) fail("ask");
}

static void answered(struct asker *it) {
    if (replies < ANSWERS) answers[replies] = (now() - it->asked) * 1e6;
    replies++;
    ask(it);
}

/* Takes in bytes that came: the end of the head, where it was not whole, and of the body. */
static void take(struct asker *it, const char *bytes, size_t size) {
    if (!it->left) {
        size_t before = it->length, copied = size < HEAD - before ? size : HEAD - before;
        memcpy(it->head + before, bytes, copied);
        it->head[it->length = before + copied] = 0;
        char *end = strstr(it->head, "\r\n\r\n"), *told = strcasestr(it->head, "\r\nContent-Length:");
        if (!end && it->length < HEAD) return;
        if (!end || !told || strncmp(it->head, "HTTP/1.1 200", 12)) {
            fprintf(stderr, "another reply: %.200s\n", it->head);
            exit(1);
        }
        it->left = strtoul(told + 17, NULL, 10);
        size -= end + 4 - it->head - before;
    }
    if (size > it->left) fail("a longer reply");
    it->left -= size;
    if (!it->left) answered(it);
}

static int by_length(const void *one, const void *other) {
    return (*(const float *)one > *(const float *)other) - (*(const float *)one < *(const float *)other);
}

int main(int count, char **words) {
    if (count != 5 || atoi(words[2]) > MOST) return 2;
    struct sockaddr_in place = {.sin_family = AF_INET, .sin_port = htons(atoi(words[1])), .sin_addr.s_addr = htonl(INADDR_LOOPBACK)};
    int peers = atoi(words[2]), poll = epoll_create1(0), one = 1;
    snprintf(request, sizeof request, "GET %s HTTP/1.1\r\nHost: h\r\n\r\n", words[4]);
    for (int at = 0; at < peers; at++) {
        askers[at].socket = socket(AF_INET, SOCK_STREAM, 0);
        if (connect(askers[at].socket, (struct sockaddr *)&place, sizeof place)) fail("connect");
        setsockopt(askers[at].socket, IPPROTO_TCP, TCP_NODELAY, &one, sizeof one);
        struct epoll_event event = {.events = EPOLLIN, .data.ptr = &askers[at]};
        if (epoll_ctl(poll, EPOLL_CTL_ADD, askers[at].socket, &event)) fail("poll");
    }
    double begun = now(), end = begun + atof(words[3]);
    for (int at = 0; at < peers; at++) ask(&askers[at]);
    while (now() < end) {
        struct epoll_event events[64];
        int ready = epoll_wait(poll, events, 64, 100);
        for (int at = 0; at < ready; at++) {
            struct asker *it = events[at].data.ptr;
            ssize_t size = read(it->socket, room, ROOM);
            if (size <= 0) fail("a connection ended");
            take(it, room, size);
        }
    }
    double ended = now(), longest = 0;
    size_t kept = replies < ANSWERS ? replies : ANSWERS;
    qsort(answers, kept, sizeof *answers, by_length);
    if (kept) longest = answers[kept - 1];
    for (int at = 0; at < peers; at++)
        if ((ended - askers[at].asked) * 1e6 > longest) longest = (ended - askers[at].asked) * 1e6;
    printf("%zu %.6f %.1f %.1f\n", replies, ended - begun, kept ? answers[kept / 2] : 0, longest);
    return 0;
}
