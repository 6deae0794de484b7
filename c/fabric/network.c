/* network.c: accesses over the card, and waiting to be asked. */
#define _GNU_SOURCE
#include "network.h"

#include "memory.h"
#include "segment.h"

#include <time.h>

/* How long it sleeps before it looks at its asks again, in nanoseconds: twice as long each time. */
enum { LEAST_NAP = 1000000, MOST_NAP = 64000000 };

int network_opened(struct network *network)
{
    struct host own = network->hosts->host[network->card.self];
    own.service[0] = '\0';
    if (card_open(&network->card, &own))
        return -1;
    for (uint32_t host = 0; host < network->hosts->count; host++)
        if (memory_met(&network->card, host, &network->hosts->host[host]))
            return -1;
    return 0;
}

/* What a store found isn't told to the replica, as by a store of the processor; a trace notes it. */
static int network_make(void *with, const mu_operation *op, uint64_t *found, struct event *event)
{
    struct network *network = with;
    if (card_made(&network->card, op, found))
        return -1;
    if (event)
        event->found = *found;
    if (op->kind == MU_STORE)
        *found = 0;
    return 0;
}

/* Whether an ask came since it last looked: 1 or 0; -1 if its memory gives no answer. */
static int is_asked(struct network *network)
{
    int is_new = 0;
    for (uint32_t id = 0; id < network->hosts->count; id++) {
        mu_operation load = { .kind = MU_LOAD, .host = network->card.self, .place = ASKS + id };
        uint64_t found = 0;
        if (card_made(&network->card, &load, &found))
            return -1;
        is_new = is_new || found != network->asks[id];
        network->asks[id] = found;
    }
    return is_new;
}

static int await_ask(void *with)
{
    struct network *network = with;
    uint64_t began = now();
    for (long nap = LEAST_NAP; now() - began < network->linger; nap = nap < MOST_NAP ? 2 * nap : nap) {
        struct timespec asleep = { .tv_nsec = nap };
        int is_new = is_asked(network);
        if (is_new)
            return is_new > 0;
        nanosleep(&asleep, NULL);
    }
    return 0;
}

int run_networked(struct segment *segment, struct network *network, int is_alone)
{
    struct memory memory = { .make = network_make, .await_ask = is_alone ? await_ask : NULL, .with = network };
    return run_replica(segment, network->card.self, &memory);
}
