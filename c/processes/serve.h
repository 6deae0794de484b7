/* serve.h: replicas as processes that take commands while they run. */
#ifndef SERVE_H
#define SERVE_H

#include "plan.h"

/* A command stands in the list that all read before a replica can know it. Each reads the list after an access and before it
 * takes the word that this found: so it knows each command that whoever left the word knew, and the law of rows that come
 * (lone_replica) holds, also of one that was stopped in the midst of a step.
 *
 * Starts so many replicas, and answers the lines of standard input one by one, up to its end; then tells the report: its
 * status, or what went wrong. */
int serve(const struct plan *plan, uint32_t replicas);

#endif
