/* mu_server: a server of clients of Redis. It moves bytes between sockets and replicas (mu_server.h), in one thread. */
#define _GNU_SOURCE
#include "clients.h"

#include <arpa/inet.h>
#include <errno.h>
#include <getopt.h>
#include <malloc.h>
#include <signal.h>
#include <stdio.h>
#include <stdlib.h>
#include <string.h>
#include <sys/epoll.h>
#include <sys/signalfd.h>
#include <sys/socket.h>
#include <time.h>
#include <unistd.h>

enum {
    ROUNDS = 64, /* between two looks at the sockets */
    MOST_EVENTS = 256,
    SOON = 10, /* after how many milliseconds is tried again what lacked memory, or a descriptor */
    LAST_SECONDS = 1,
    BACKLOG = 511,
    USUAL_PORT = 6379,
    MOST_REPLICAS = 7
};

struct words {
    const char *address;
    long port, replicas;
};

/* A number of digits up to a greatest one; else -1. */
static long number_in(const char *digits, long greatest)
{
    char *end = NULL;
    long number = strtol(digits, &end, 10);
    return digits[0] >= '0' && digits[0] <= '9' && *end == '\0' && number <= greatest ? number : -1;
}

/* Whether the words of the command line are some. */
static bool read_words(struct words *words, int count, char **word)
{
    static const struct option options[] = { { "bind", 1, NULL, 'b' }, { "replicas", 1, NULL, 'r' }, { 0 } };
    for (int it; (it = getopt_long(count, word, "", options, NULL)) != -1;) {
        if (it == 'b')
            words->address = optarg;
        else if (it != 'r' || (words->replicas = number_in(optarg, MOST_REPLICAS)) < 1)
            return false;
    }
    if (optind < count)
        words->port = number_in(word[optind++], UINT16_MAX);
    return optind >= count && words->port >= 0;
}

/* A socket that listens there; or -1, and a line on standard error. Port 0 becomes one that is free. */
static int listener_at(struct words *words)
{
    struct sockaddr_in at = { .sin_family = AF_INET, .sin_port = htons((uint16_t)words->port) };
    socklen_t size = sizeof at;
    int one = 1, fd = socket(AF_INET, SOCK_STREAM | SOCK_NONBLOCK | SOCK_CLOEXEC, 0);
    need(fd >= 0 && setsockopt(fd, SOL_SOCKET, SO_REUSEADDR, &one, sizeof one) == 0, "socket");
    errno = EINVAL;
    if (inet_pton(AF_INET, words->address, &at.sin_addr) != 1 || bind(fd, (struct sockaddr *)&at, size) != 0 ||
        listen(fd, BACKLOG) != 0 || getsockname(fd, (struct sockaddr *)&at, &size) != 0) {
        const char *more = errno == EADDRINUSE ? ": name another port, as in ./mu_server 6380" : "";
        fprintf(stderr, "mu_server: %s, port %ld: %s%s\n", words->address, words->port, strerror(errno), more);
        close(fd);
        return -1;
    }
    words->port = ntohs(at.sin_port);
    return fd;
}

/* A descriptor that can be read once SIGTERM or SIGINT came. */
static int told_of_ends(void)
{
    sigset_t set;
    sigemptyset(&set);
    sigaddset(&set, SIGTERM);
    sigaddset(&set, SIGINT);
    sigprocmask(SIG_BLOCK, &set, NULL);
    return signalfd(-1, &set, SFD_CLOEXEC | SFD_NONBLOCK);
}

/* Serves until a signal comes. */
static void serve_all(struct clients *clients, int *listener, int *ends)
{
    struct epoll_event events[MOST_EVENTS];
    bool is_due = false, lacks = false;
    uint32_t waits = 0;
    for (;;) {
        int found = epoll_wait(clients->poll, events, MOST_EVENTS, lacks ? SOON : is_due ? 0 : -1);
        lacks = false;
        for (int k = 0; k < found; k++) {
            if (events[k].data.ptr == ends)
                return;
            if (events[k].data.ptr == listener)
                lacks = !accept_clients(clients, *listener);
            else
                serve_events(clients, events[k].data.ptr, events[k].events);
        }
        lacks |= mu_server_play(&clients->server, ROUNDS, &waits) != MU_DONE;
        is_due = serve_active(clients) || waits;
    }
}

/* Answers what was taken, and sends it, for a second or two. */
static void end_all(struct clients *clients)
{
    time_t began = time(NULL);
    uint32_t waits = 0;
    while (clients->active > 0 && time(NULL) - began <= LAST_SECONDS) {
        mu_server_play(&clients->server, ROUNDS, &waits);
        if (!serve_active(clients) && !waits)
            usleep(SOON * 100);
    }
    mu_server_free(&clients->server);
}

int main(int count, char **word)
{
    static struct clients clients;
    struct words words = { .address = "127.0.0.1", .port = USUAL_PORT, .replicas = 3 };
    int listener, ends = told_of_ends();
    if (!read_words(&words, count, word)) {
        fprintf(stderr, "usage: mu_server [PORT] [--bind ADDRESS] [--replicas N], N from 1 to %d\n", MOST_REPLICAS);
        return 1;
    }
    listener = listener_at(&words);
    if (listener < 0)
        return 1;
    mallopt(M_MMAP_THRESHOLD, 1 << 30); /* what an era lets go is for the next one */
    mallopt(M_TRIM_THRESHOLD, 1 << 30);
    need(mu_server_new(&clients.server, (uint32_t)words.replicas) == MU_DONE, "mu_server: memory");
    clients.poll = epoll_create1(EPOLL_CLOEXEC);
    ask(&clients, EPOLL_CTL_ADD, listener, EPOLLIN, &listener);
    ask(&clients, EPOLL_CTL_ADD, ends, EPOLLIN, &ends);
    printf("mu_server: %ld replicas at %s, port %ld. Now type, in another terminal: redis-cli -p %ld\n", words.replicas,
           words.address, words.port, words.port);
    fflush(stdout);
    serve_all(&clients, &listener, &ends);
    close(listener);
    end_all(&clients);
    return 0;
}
