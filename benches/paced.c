/* A client that keeps a pace: the k-th request is due k / RATE seconds after the first, and goes out on the next connection
   that has none under way. How long its reply takes counts from when it was due, so that a server which falls behind shows
   it. Words: a port of 127.0.0.1, how many connections, requests a second, for how many seconds; the request's bytes are
   standard input. Prints the half, the 99 % and the 99.9 % of the replies' times and the longest, in microseconds, and how many
   replies were not 200. It never sleeps, so it wants a core of its own. */
#define _GNU_SOURCE
#include <arpa/inet.h>
#include <errno.h>
#include <netinet/tcp.h>
#include <stdint.h>
#include <stdio.h>
#include <stdlib.h>
#include <string.h>
#include <sys/epoll.h>
#include <sys/socket.h>
#include <time.h>
#include <unistd.h>

struct connection {
    int socket;
    double due;
    size_t held;
    char bytes[4096];
};

static char request[4096];
static size_t length;
static float *times;
static long replies, faults;

static double now(void)
{
    struct timespec t;
    clock_gettime(CLOCK_MONOTONIC, &t);
    return t.tv_sec + t.tv_nsec / 1e9;
}

static void must(int is_so, const char *what)
{
    if (!is_so) {
        fprintf(stderr, "paced: %s: %s\n", what, strerror(errno));
        exit(2);
    }
}

static int open_one(int port)
{
    struct sockaddr_in to = {.sin_family = AF_INET, .sin_port = htons(port), .sin_addr = {htonl(INADDR_LOOPBACK)}};
    int one = 1, it = socket(AF_INET, SOCK_STREAM, 0);
    must(it >= 0 && connect(it, (struct sockaddr *)&to, sizeof to) == 0, "connect");
    setsockopt(it, IPPROTO_TCP, TCP_NODELAY, &one, sizeof one);
    return it;
}

/* Whether a whole reply has come. */
static int is_whole(struct connection *c)
{
    char *end, *size;
    c->bytes[c->held] = 0;
    end = strstr(c->bytes, "\r\n\r\n");
    size = strcasestr(c->bytes, "content-length:");
    return end && size && c->held >= (size_t)(end + 4 - c->bytes) + strtoul(size + 15, NULL, 10);
}

/* Reads what has come; the answer is whether the connection is free again. */
static int hear(struct connection *c)
{
    ssize_t n = recv(c->socket, c->bytes + c->held, sizeof c->bytes - 1 - c->held, 0);
    must(n > 0, "a reply");
    c->held += n;
    if (!is_whole(c))
        return 0;
    faults += strncmp(c->bytes, "HTTP/1.1 200", 12) != 0;
    times[replies++] = (now() - c->due) * 1e6;
    c->held = 0;
    return 1;
}

static int in_order(const void *a, const void *b)
{
    return (*(float *)a > *(float *)b) - (*(float *)a < *(float *)b);
}

int main(int count, char **words)
{
    must(count == 5, "four words are wanted");
    int connections = atoi(words[2]), idle = 0, ready;
    double rate = atof(words[3]), seconds = atof(words[4]);
    long all = rate * seconds, sent = 0;
    struct connection *each = calloc(connections, sizeof *each);
    struct connection **free_ones = calloc(connections, sizeof *free_ones);
    struct epoll_event events[64];
    int ring = epoll_create1(0);
    times = calloc(all + 1, sizeof *times);
    length = fread(request, 1, sizeof request, stdin);
    for (int i = 0; i < connections; i++) {
        each[i].socket = open_one(atoi(words[1]));
        struct epoll_event in = {.events = EPOLLIN, .data = {.ptr = &each[i]}};
        must(epoll_ctl(ring, EPOLL_CTL_ADD, each[i].socket, &in) == 0, "epoll");
        free_ones[idle++] = &each[i];
    }
    double start = now();
    while (replies < all) {
        while (sent < all && idle > 0 && now() >= start + sent / rate) {
            struct connection *c = free_ones[--idle];
            c->due = start + sent++ / rate;
            must(send(c->socket, request, length, MSG_NOSIGNAL) == (ssize_t)length, "a request");
        }
        ready = epoll_wait(ring, events, 64, 0);
        for (int i = 0; i < ready; i++)
            if (hear(events[i].data.ptr))
                free_ones[idle++] = events[i].data.ptr;
        must(now() < start + seconds + 10, "replies in time");
    }
    qsort(times, replies, sizeof *times, in_order);
    printf("%.0f %.0f %.0f %.0f %ld\n", times[replies / 2], times[replies * 99 / 100], times[replies * 999 / 1000],
        times[replies - 1], faults);
    return 0;
}
