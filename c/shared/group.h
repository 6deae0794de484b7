/* group.h: the processes of a run, what is done to them, and waiting for their end. */
#ifndef GROUP_H
#define GROUP_H

#include "plan.h"
#include "segment.h"

#include <sys/types.h>

struct group {
    pid_t child[MOST_REPLICAS];   /* 0 if somebody else started it */
    pid_t process[MOST_REPLICAS];
    pid_t memory[MOST_REPLICAS];  /* of a host's words, if a process of its own has them */
    int is_gone[MOST_REPLICAS], is_over[MOST_REPLICAS];
    int is_killed[MOST_REPLICAS]; /* by a deed, or by somebody else */
    int signal[MOST_REPLICAS];    /* that ended it otherwise; 0 if none did */
    uint64_t began, lost[MOST_REPLICAS], killed[MOST_REPLICAS], stopped[MOST_REPLICAS], continued[MOST_REPLICAS];
    uint64_t until[MOST_REPLICAS]; /* when a stop is over; 0 if it isn't stopped */
};

/* Starts a process that ends with this one: 1 in the new one; 0 here, and its id; -1 if there is none. */
int started(pid_t *process);

/* Waits until each replica has its process, and lets all go: 0, or -1 if one has ended before. */
int let_go(struct segment *segment, struct group *group);

/* Does what is planned, and waits until each process has ended, is gone or has nothing more to do. Then all tell. */
void carry_out(struct segment *segment, const struct plan *plan, struct group *group);

/* The owner of most regions whose fences are open: the leader, as far as words tell it; else 0. */
uint32_t leader_in(struct segment *segment);

/* Kills the replica's process, unless it is over. */
void kill_replica(struct group *group, uint32_t id);

/* Whether the process of a replica is gone; how it went is noted. */
int is_gone(struct group *group, uint32_t id);

/* Whether all at once have ended, are gone, or sleep since they have nothing to do. */
int are_at_rest(struct segment *segment, struct group *group);

/* Says that all are over, and waits until each that isn't gone has told. */
void let_tell(struct segment *segment, struct group *group);

#endif
