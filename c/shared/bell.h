/* bell.h: a doorbell between processes. Who has nothing to do sleeps at its own until somebody rings. */
#ifndef BELL_H
#define BELL_H

#include "segment.h"

/* How often it was rung so far: to be read before looking at what a ring would tell. */
uint32_t bell_count(struct bell *bell);

/* Sleeps until it was rung more often than that. */
void bell_await(struct bell *bell, uint32_t count);

/* Rings: a system call only if its owner sleeps. */
void bell_ring(struct bell *bell);

/* Whether its owner sleeps, and no ring is on its way to it. */
int bell_is_quiet(struct bell *bell);

#endif
