/* merge.h: the events of all processes in one order, as a trace that `mu check` judges. */
#ifndef MERGE_H
#define MERGE_H

#include "group.h"
#include "segment.h"

#include <stdio.h>

/* Prints the trace of a run whose events have the versions of their words. 0; or -1 and a line if they have no order, or one
 * in which some event didn't find the word that stood. `cut_off` is how many accesses a kill cut off before they were told,
 * but not before they were made. */
int print_trace(FILE *out, struct segment *segment, const struct group *group, uint32_t *cut_off);

#endif
