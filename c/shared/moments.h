/* moments.h: when replicas asked, were granted and committed, and when they were killed or stopped. */
#ifndef MOMENTS_H
#define MOMENTS_H

#include "group.h"
#include "mu.h"
#include "segment.h"

#include <stdio.h>

/* What a replica has noted last. */
struct last_seen {
    uint64_t put, raise;
};

/* Notes the moment of an access, if it is one of a change of leaders, or a commit. */
void note_moment(struct page *page, const struct layout *layout, struct last_seen *seen, const mu_operation *op,
                 uint64_t found);

/* Prints the moments of all, in microseconds after they went. */
void print_moments(FILE *out, struct segment *segment, const struct group *group);

#endif
