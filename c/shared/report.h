/* report.h: what a run comes to, as `mu run` reports it (docs/FORMATS.md). */
#ifndef REPORT_H
#define REPORT_H

#include "group.h"
#include "segment.h"

#include <stdio.h>

/* Prints the report of the replicas from `first` up to `end`, and answers its status: 0 if all commands are in the longest
 * log, 3 if not; 70 for want of memory. */
int print_report(FILE *out, struct segment *segment, const struct group *group, uint32_t first, uint32_t end);

#endif
