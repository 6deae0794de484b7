/* mapped.h: the accesses of a replica whose process maps the words of all hosts. */
#ifndef MAPPED_H
#define MAPPED_H

#include "group.h"
#include "run.h"

struct mapped {
    struct segment *segment;
    uint32_t id;
};

/* Makes an access on the mapped words, for struct memory; `with` is a struct mapped. */
int mapped_make(void *with, const mu_operation *op, uint64_t *found, struct event *event);

/* The mapping of a run, in a file of this name or, if that is NULL, in one that only processes started here reach: NULL, and
 * a line, if it can't be made. */
struct segment *mapped_new(const struct plan *plan, const char *name, const struct wanted *wanted);

/* Runs a replica over the mapping: as run_replica. */
int run_mapped(struct segment *segment, uint32_t id);

/* Starts a process for each replica: 0, or -1. */
int start_mapped(struct segment *segment, struct group *group);

#endif
