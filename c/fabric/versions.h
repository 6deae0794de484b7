/* versions.h: which version of its word each event read or made, found after the run. */
#ifndef VERSIONS_H
#define VERSIONS_H

#include "segment.h"

/* How many reads and writes may have found more than one version: the first is taken. */
struct doubts {
    uint32_t reads, writes;
};

/* Sets the tags of all events and words, for merge.c: 0, or -1 and a line if the events of a word have no order. */
int versions_found(struct segment *segment, struct doubts *doubts);

#endif
