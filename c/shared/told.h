/* told.h: what is told of a run in the end, or of a job that is none. */
#ifndef TOLD_H
#define TOLD_H

#include "group.h"
#include "plan.h"
#include "segment.h"

/* Tells the trace, the moments and the report, as the plan wants them: the status of the run, or of what went wrong. */
int told_all(const struct plan *plan, struct segment *segment, struct group *group);

/* What a run of this job needs room for: 0; else the status of a job that is none, or whose replicas the plan doesn't fit, and
 * what is to be printed of it. */
int wanted_for(const struct plan *plan, const char *job, size_t length, struct wanted *wanted);

/* Reads the job of this name and runs it: the status. `with` is handed on. */
typedef int job_runner(const void *with, const char *job, size_t length);
int job_run(const struct plan *plan, const char *name, job_runner *run, const void *with);

/* Prints what `mu run` prints of a job that it refuses, and answers its status. */
int print_refusal(const struct plan *plan, const char *job, size_t length);

#endif
