/* memory.h: the process that has the words of a host. It is to a host what a network card is to a machine whose program
 * died: it knows nothing of Mu, and goes on if the replica is killed. */
#ifndef MEMORY_H
#define MEMORY_H

#include "card.h"

/* Offers words to all who say hello, for ever: -1 and a line if it can't. */
int memory_serve(struct card *card, const struct host *at, void *words, size_t bytes);

/* The words of the largest job, as they are at the start: NULL if there is no memory. */
void *memory_new(size_t *bytes);

/* Says hello to a host's memory, which may still be starting, and gets the key and base of its words: 0, or -1 and a line. */
int memory_met(struct card *card, uint32_t host, const struct host *at);

#endif
