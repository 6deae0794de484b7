/* mu_server.h: a server of clients of Redis (RESP2) over replicas in your own process, without sockets:
 * you give it the bytes that came on each connection, and it gives the bytes to send. c/server/ is one
 * that is finished. docs/SERVER.md says what it promises.
 *
 * What mu.h says of pointers, handles, threads and the heap holds here too. A call on a server that
 * isn't there changes nothing, tells 0, and answers MU_USAGE. */
#ifndef MU_SERVER_H
#define MU_SERVER_H

#include "mu.h"

#ifdef __cplusplus
extern "C" {
#endif

typedef struct mu_server {
    void *at; /* the library's */
} mu_server;
#define MU_NO_SERVER { NULL }

/* The most connections at a time, and how many bytes one always takes that is said to take some. */
#define MU_SERVER_CONNECTIONS 1024
#define MU_SERVER_PIECE 16384

/* Starts a server of 1 to 7 replicas, which begin empty. MU_DONE, and it is there; or MU_USAGE (there
 * can't be so many) or MU_NO_MEMORY, and `*server` is MU_NO_SERVER. What it was before isn't read. */
uint32_t mu_server_new(mu_server *server, uint32_t replicas);

/* Opens a connection. MU_DONE, and `*number` is its number, which no open one has; MU_FULL if there are
 * as many as may be, those counted whose clients have gone while a command of theirs waits; or
 * MU_NO_MEMORY. */
uint32_t mu_server_open(mu_server *server, uint32_t *number);

/* Takes the first `*taken` of the bytes that came on a connection: all that there is room for. MU_DONE,
 * or MU_NO_MEMORY, and none is taken. `length` isn't 0. Takes none by a number that no connection had;
 * what is taken of one that was closed is let go. */
uint32_t mu_server_take(mu_server *server, uint32_t number, const void *bytes, size_t length,
                        size_t *taken);

/* Reads the requests that came, and plays rounds of the replicas while some command waits for its
 * reply, but at most so many. `*waits` is 1 if one still does, or waits for room in the log: then call
 * it again. MU_DONE, or MU_NO_MEMORY: nothing is lost, and it may be called again. */
uint32_t mu_server_play(mu_server *server, uint32_t rounds, uint32_t *waits);

/* Gives the next `*given` bytes to be sent on a connection, as many as `out` has room for: the server
 * keeps them no longer. MU_DONE; wants no memory. */
uint32_t mu_server_give(mu_server *server, uint32_t number, void *out, size_t room, size_t *given);

/* What is to be done for a connection: a sum. */
enum mu_server_state {
    MU_SERVER_TAKES = 1, /* it takes MU_SERVER_PIECE bytes; else wait, and leave them in the socket */
    MU_SERVER_GIVES = 2, /* it has bytes to send */
    MU_SERVER_ENDS = 4,  /* it is to be closed once these are sent */
    MU_SERVER_RESTS = 8  /* all whole requests that came are answered, and the answers given */
};

/* What is to be done for a connection. MU_DONE; wants no memory. */
uint32_t mu_server_state(mu_server *server, uint32_t number, uint32_t *state);

/* The client of a connection has gone. What it submitted goes on. MU_DONE; wants no memory. */
uint32_t mu_server_close(mu_server *server, uint32_t number);

/* Lets a server go, with its memory, if there is one. It is MU_NO_SERVER then. */
void mu_server_free(mu_server *server);

#ifdef __cplusplus
}
#endif

#endif
