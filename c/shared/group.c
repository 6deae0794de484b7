/* group.c: starts, kills, stops, and the end of all processes. */
#define _GNU_SOURCE
#include "group.h"

#include "bell.h"

#include <errno.h>
#include <signal.h>
#include <sys/prctl.h>
#include <sys/wait.h>
#include <time.h>
#include <unistd.h>

/* How long the parent sleeps before it looks again, in nanoseconds. */
enum { LOOK_AGAIN = 20000 };

static void wait_a_little(void)
{
    struct timespec nap = { .tv_nsec = LOOK_AGAIN };
    nanosleep(&nap, NULL);
}

int started(pid_t *process)
{
    pid_t parent = getpid();
    *process = fork();
    if (*process != 0)
        return *process < 0 ? -1 : 0;
    prctl(PR_SET_PDEATHSIG, SIGKILL);
    if (getppid() != parent)
        _exit(1);
    return 1;
}

static void ring_all(struct segment *segment)
{
    for (uint32_t id = 0; id < segment->layout.replicas; id++)
        bell_ring(&page_of(segment, id)->bell);
}

static void note_killed(struct group *group, uint32_t id)
{
    group->killed[id] = group->is_killed[id] ? group->killed[id] : now();
    group->is_killed[id] = 1;
}

int is_gone(struct group *group, uint32_t id)
{
    int status = 0;
    if (group->is_gone[id])
        return 1;
    if (group->child[id] == 0) { /* somebody else started it, and nobody here can wait for it */
        group->is_gone[id] = group->process[id] > 0 && kill(group->process[id], 0) != 0 && errno == ESRCH;
        if (group->is_gone[id])
            note_killed(group, id);
        return group->is_gone[id];
    }
    if (waitpid(group->child[id], &status, WNOHANG) == 0)
        return 0;
    group->is_gone[id] = 1;
    if (WIFSIGNALED(status) && WTERMSIG(status) == SIGKILL)
        note_killed(group, id);
    else if (WIFSIGNALED(status))
        group->signal[id] = WTERMSIG(status);
    return 1;
}

int let_go(struct segment *segment, struct group *group)
{
    for (uint32_t id = 0; id < segment->layout.replicas; id++) {
        struct page *page = page_of(segment, id);
        while (atomic_load(&page->state) == ABSENT) {
            if (is_gone(group, id))
                return -1;
            wait_a_little();
        }
        group->process[id] = atomic_load(&page->process);
    }
    group->began = now();
    atomic_store(&segment->go, 1);
    ring_all(segment);
    return 0;
}

uint32_t leader_in(struct segment *segment)
{
    uint32_t owned[NOBODY + 1] = { 0 }, leader = 0;
    for (uint32_t host = 0; host < segment->layout.replicas; host++) {
        uint64_t fence = word_in(segment, host, FENCE);
        if (!is_closing(fence))
            owned[owner_in(fence)]++;
    }
    for (uint32_t id = 1; id < segment->layout.replicas; id++)
        leader = owned[id] > owned[leader] ? id : leader;
    return leader;
}

/* How many entries are decided, as the FUOs tell it. */
static uint64_t decided_in(struct segment *segment)
{
    uint64_t most = 0;
    for (uint32_t host = 0; host < segment->layout.replicas; host++) {
        uint64_t fuo = word_in(segment, host, FUO);
        most = fuo > most ? fuo : most;
    }
    return most;
}

/* How often all were rung. */
static uint64_t rings(struct segment *segment)
{
    uint64_t count = 0;
    for (uint32_t id = 0; id < segment->layout.replicas; id++)
        count += bell_count(&page_of(segment, id)->bell);
    return count;
}

static int is_at_rest(struct segment *segment, struct group *group, uint32_t id)
{
    struct page *page = page_of(segment, id);
    group->is_over[id] = group->is_over[id] || atomic_load(&page->state) >= ENDED || is_gone(group, id);
    return group->is_over[id] || (atomic_load(&page->state) == GOING && bell_is_quiet(&page->bell));
}

/* If nobody was rung while it looks at one after the other, they are at rest all at once. */
int are_at_rest(struct segment *segment, struct group *group)
{
    uint64_t before = rings(segment);
    for (uint32_t id = 0; id < segment->layout.replicas; id++)
        if (!is_at_rest(segment, group, id))
            return 0;
    return rings(segment) == before;
}

void kill_replica(struct group *group, uint32_t id)
{
    if (group->is_over[id] || group->is_killed[id])
        return;
    uint64_t at = now();
    if (kill(group->process[id], SIGKILL) == 0) {
        group->is_killed[id] = 1;
        group->killed[id] = at;
    }
}

/* Continues those whose stop is over. Whether one is still stopped. */
static int is_some_stopped(struct group *group)
{
    int some = 0;
    for (uint32_t id = 0; id < MOST_REPLICAS; id++) {
        int is_due = group->until[id] != 0 && now() >= group->until[id];
        some = some || (group->until[id] != 0 && !is_due);
        if (!is_due)
            continue;
        kill(group->process[id], SIGCONT);
        group->continued[id] = now();
        group->until[id] = 0;
    }
    return some;
}

/* Waits until the deed is due, and continues whose stop is over. Whether it still can be done. */
static int is_awaited(struct segment *segment, const struct deed *deed, struct group *group)
{
    for (;;) {
        int is_some = is_some_stopped(group);
        if (deed->is_by_entries ? decided_in(segment) >= deed->entries : now() - group->began >= deed->after)
            return 1;
        if (!is_some && are_at_rest(segment, group))
            return 0;
        wait_a_little();
    }
}

static void do_deed(struct segment *segment, const struct deed *deed, struct group *group)
{
    uint32_t id = deed->replica == LEADER ? leader_in(segment) : deed->replica;
    if (deed->kind == LOSE && group->memory[id] > 0 && kill(group->memory[id], SIGKILL) == 0)
        group->lost[id] = now();
    if (deed->kind == KILL)
        kill_replica(group, id);
    if (deed->kind == STOP && !group->is_over[id] && kill(group->process[id], SIGSTOP) == 0) {
        group->stopped[id] = now();
        group->until[id] = group->stopped[id] + deed->lasts;
    }
}

void let_tell(struct segment *segment, struct group *group)
{
    atomic_store(&segment->over, 1);
    ring_all(segment);
    for (uint32_t id = 0; id < segment->layout.replicas; id++)
        while (atomic_load(&page_of(segment, id)->state) != TOLD && !is_gone(group, id))
            wait_a_little();
}

void carry_out(struct segment *segment, const struct plan *plan, struct group *group)
{
    for (int k = 0; k < plan->count && is_awaited(segment, &plan->deeds[k], group); k++)
        do_deed(segment, &plan->deeds[k], group);
    while (is_some_stopped(group) || !are_at_rest(segment, group))
        wait_a_little();
    let_tell(segment, group);
}
