/* clients.h: connections, whose bytes go to a server (mu_server.h) and come from it. */
#ifndef CLIENTS_H
#define CLIENTS_H

#include "mu_server.h"

#include <stdbool.h>

struct client;

struct clients {
    mu_server server;
    int poll; /* what waits for all */
    int count, active;
    struct client *all[MU_SERVER_CONNECTIONS]; /* those on which something is to be done come first */
};

/* Accepts those that wait: false if no more descriptors are to be had. */
bool accept_clients(struct clients *clients, int listener);

/* What came on a connection, by the kinds of events that epoll tells. */
void serve_events(struct clients *clients, struct client *client, uint32_t events);

/* Sends what is to be sent. Whether for some client the server has something to do at once. */
bool serve_active(struct clients *clients);

/* Waits for these events of a descriptor; `how` is as epoll_ctl has it. */
void ask(const struct clients *clients, int how, int fd, uint32_t events, void *who);

/* Ends the program with a line on standard error, unless a call of the system went well. */
void need(bool is_well, const char *what);

#endif
