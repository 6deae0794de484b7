/* clients.c: moves the bytes of connections. Nothing here waits, and nothing looks at what bytes mean. */
#define _GNU_SOURCE
#include "clients.h"

#include <errno.h>
#include <netinet/in.h>
#include <netinet/tcp.h>
#include <stdio.h>
#include <stdlib.h>
#include <sys/epoll.h>
#include <sys/socket.h>
#include <unistd.h>

enum { MOST_ACCEPTED = 64 /* at a time, so that those that have gone are noticed in between */ };

/* A connection, with the bytes that the server gave and that aren't sent. */
struct client {
    int fd, place; /* its place among all */
    uint32_t number, asked;
    bool is_over; /* its client sends nothing more */
    size_t from, to;
    char out[MU_SERVER_PIECE];
};

void need(bool is_well, const char *what)
{
    if (is_well)
        return;
    perror(what);
    exit(70);
}

void ask(const struct clients *clients, int how, int fd, uint32_t events, void *who)
{
    struct epoll_event event = { .events = events, .data.ptr = who };
    need(fd >= 0 && epoll_ctl(clients->poll, how, fd, &event) == 0, "epoll_ctl");
}

static void swap_to(struct clients *clients, struct client *client, int place)
{
    struct client *other = clients->all[place];
    clients->all[client->place] = other;
    clients->all[place] = client;
    other->place = client->place;
    client->place = place;
}

static void be_at_rest(struct clients *clients, struct client *client)
{
    if (client->place < clients->active)
        swap_to(clients, client, --clients->active);
}

static void let_go(struct clients *clients, struct client *client)
{
    mu_server_close(&clients->server, client->number);
    close(client->fd);
    be_at_rest(clients, client);
    swap_to(clients, client, --clients->count);
    free(client);
}

static bool begin(struct clients *clients, int fd)
{
    int one = 1;
    struct client *client = clients->count < MU_SERVER_CONNECTIONS ? calloc(1, sizeof *client) : NULL;
    if (client == NULL || mu_server_open(&clients->server, &client->number) != MU_DONE) {
        free(client);
        return false;
    }
    setsockopt(fd, IPPROTO_TCP, TCP_NODELAY, &one, sizeof one);
    ask(clients, EPOLL_CTL_ADD, fd, EPOLLIN, client);
    client->fd = fd;
    client->asked = EPOLLIN;
    client->place = clients->count++;
    clients->all[client->place] = client;
    return true;
}

bool accept_clients(struct clients *clients, int listener)
{
    static const char full[] = "-ERR max number of clients reached\r\n";
    for (int k = 0; k < MOST_ACCEPTED; k++) {
        int fd = accept4(listener, NULL, NULL, SOCK_NONBLOCK | SOCK_CLOEXEC);
        if (fd < 0)
            return errno != EMFILE && errno != ENFILE;
        if (!begin(clients, fd)) {
            (void)!send(fd, full, sizeof full - 1, MSG_NOSIGNAL);
            close(fd);
        }
    }
    return true;
}

/* Hands on what came. Whether the connection goes on. */
static bool take_on(struct clients *clients, struct client *client)
{
    char in[MU_SERVER_PIECE];
    size_t taken = 0;
    ssize_t got = recv(client->fd, in, sizeof in, 0);
    if (got < 0)
        return errno == EAGAIN || errno == EINTR;
    client->is_over = got == 0;
    if (got > 0)
        mu_server_take(&clients->server, client->number, in, (size_t)got, &taken);
    return taken == (size_t)got; /* all, unless there was no memory */
}

/* Sends what can be sent. Whether the connection goes on. */
static bool give_on(struct clients *clients, struct client *client)
{
    for (;;) {
        ssize_t sent;
        if (client->from == client->to) {
            client->from = 0;
            mu_server_give(&clients->server, client->number, client->out, sizeof client->out, &client->to);
            if (client->to == 0)
                return true;
        }
        sent = send(client->fd, client->out + client->from, client->to - client->from, MSG_NOSIGNAL);
        if (sent < 0)
            return errno == EAGAIN || errno == EINTR;
        client->from += (size_t)sent;
    }
}

/* Serves a connection as far as it goes. Whether it goes on; whether the server has something to do for it at once. */
static bool serve(struct clients *clients, struct client *client, bool *is_due)
{
    uint32_t state = 0, events = 0;
    if (!give_on(clients, client))
        return false;
    mu_server_state(&clients->server, client->number, &state);
    if (client->from != client->to)
        events |= EPOLLOUT;
    else if (state & MU_SERVER_ENDS || (client->is_over && state & MU_SERVER_RESTS))
        return false;
    else if (state & MU_SERVER_RESTS)
        be_at_rest(clients, client);
    else
        *is_due = true;
    if (state & MU_SERVER_TAKES && !client->is_over)
        events |= EPOLLIN;
    if (events != client->asked)
        ask(clients, EPOLL_CTL_MOD, client->fd, events, client);
    client->asked = events;
    return true;
}

void serve_events(struct clients *clients, struct client *client, uint32_t events)
{
    bool goes_on = !(events & (EPOLLERR | EPOLLHUP));
    if (client->place >= clients->active)
        swap_to(clients, client, clients->active++);
    if (goes_on && events & EPOLLIN)
        goes_on = take_on(clients, client);
    if (!goes_on)
        let_go(clients, client);
}

bool serve_active(struct clients *clients)
{
    bool is_due = false;
    for (int k = clients->active - 1; k >= 0; k--)
        if (!serve(clients, clients->all[k], &is_due))
            let_go(clients, clients->all[k]);
    return is_due;
}
