/* rests.h: a process lets others on for as long as the library says (mu_rests_due of mu.h). Here is only what it is told of the
 * machine, and how it waits. */
#ifndef RESTS_H
#define RESTS_H

#include "mu.h"

/* Begins the rests of one of so many replicas on this machine. They are at most so many microseconds, if that isn't 0. */
void rests_begin(mu_rests *rests, uint32_t replicas, uint32_t longest_nap);

/* Rests as is due after the last access, asleep or awake. */
void rest(mu_rests *rests);

#endif
