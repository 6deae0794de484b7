/* network.h: a replica whose accesses go to the memories of all hosts. */
#ifndef NETWORK_H
#define NETWORK_H

#include "card.h"
#include "run.h"

struct network {
    struct card card;
    const struct hosts *hosts;
    uint64_t linger;              /* how long it answers others after it has finished, if it is by itself, in nanoseconds */
    uint64_t asks[MOST_REPLICAS]; /* as they were when it last looked */
};

/* Opens the card and says hello to the memory of each host, its own among them: 0, or -1 and a line. The card's plan,
 * provider, limit, replica and size of words are set before. */
int network_opened(struct network *network);

/* Runs the replica over the network: as run_replica. One that is by itself has no bell that others can ring, so it looks at
 * its own asks from time to time. */
int run_networked(struct segment *segment, struct network *network, int is_alone);

#endif
