/* serve.c: a session. Commands go into one list that all processes read; a reply is the first that a replica tells. */
#define _GNU_SOURCE
#include "serve.h"

#include "bell.h"
#include "job.h"
#include "mapped.h"
#include "mu.h"
#include "told.h"

#include <signal.h>
#include <stdio.h>
#include <string.h>
#include <time.h>
#include <unistd.h>

/* How long a command waits for its reply, and how long it sleeps before it looks again, in nanoseconds. */
#define LONGEST_WAIT UINT64_C(10000000000)
enum { LOOK_AGAIN = 5000 };

struct session {
    const struct plan *plan;
    struct segment *segment;
    struct group group;
    mu_replica reader; /* takes no steps: it says whether a line is a command */
};

static void print_reply(uint32_t number, const struct reply *reply)
{
    static const char *const names[] = { "no reply", "done", "value ", "none", "kept " };
    uint32_t is = reply ? atomic_load(&reply->is) : 0;
    printf("0.%u %s%.*s\n", number, names[is], is ? (int)reply->length : 0, reply ? reply->text : "");
}

/* The first reply to a row that some replica tells; NULL if none does. */
static const struct reply *awaited(struct segment *segment, uint32_t row)
{
    struct timespec nap = { .tv_nsec = LOOK_AGAIN };
    for (uint64_t began = now(); now() - began < LONGEST_WAIT; nanosleep(&nap, NULL))
        for (uint32_t id = 0; id < segment->layout.replicas; id++) {
            const struct reply *reply = &page_of(segment, id)->replies[row];
            if (atomic_load_explicit(&reply->is, memory_order_acquire))
                return reply;
        }
    return NULL;
}

/* Puts a command into the list, rings at all, and prints the reply. */
static void submit(struct session *it, const char *line, size_t length)
{
    uint32_t row = 0, status = length < MOST_LINE ? mu_replica_append(&it->reader, 0, line, length, &row) : MU_REFUSED;
    if (status != MU_DONE) {
        printf(status == MU_FULL ? "full\n" : status == MU_REFUSED ? "refused\n" : "no memory\n");
        return;
    }
    struct command_line *command = &commands_of(it->segment)[row];
    command->length = (uint32_t)length;
    memcpy(command->text, line, length);
    atomic_store(&it->segment->commands, row + 1);
    for (uint32_t id = 0; id < it->segment->layout.replicas; id++)
        bell_ring(&page_of(it->segment, id)->bell);
    print_reply(row + 1, awaited(it->segment, row));
}

/* Whether the line is this word and a replica, or `leader`: which. */
static int is_about(const struct session *it, const char *line, const char *word, uint32_t *id)
{
    size_t length = strlen(word);
    uint64_t number = 0;
    if (strncmp(line, word, length) || line[length] != ' ')
        return 0;
    if (strcmp(line + length + 1, "leader") == 0)
        number = leader_in(it->segment);
    else if (sscanf(line + length + 1, "%lu", &number) != 1 || number >= it->segment->layout.replicas)
        return 0;
    *id = (uint32_t)number;
    return 1;
}

static void answer(struct session *it, const char *line, size_t length)
{
    uint32_t id = 0;
    if (is_about(it, line, "kill", &id)) {
        kill_replica(&it->group, id);
        printf("replica %u is killed\n", id);
    } else if (is_about(it, line, "stop", &id) && kill(it->group.process[id], SIGSTOP) == 0) {
        printf("replica %u is stopped\n", id);
    } else if (is_about(it, line, "continue", &id) && kill(it->group.process[id], SIGCONT) == 0) {
        printf("replica %u goes on\n", id);
    } else {
        submit(it, line, length);
    }
    fflush(stdout);
}

/* Makes the segment and starts the replicas: 0, or -1. */
static int is_begun(struct session *it, uint32_t replicas)
{
    char job[128];
    int length = snprintf(job, sizeof job, "mu 2\nreplicas %u\nring 1024\nbudget %d\nbatch 1\nend\n", replicas, MOST_STEPS);
    struct wanted wanted = { .job = job, .length = (size_t)length, .commands = MOST_ROWS, .flags = IS_LIVE };
    wanted.flags |= (it->plan->trace ? IS_TRACED : 0) | (it->plan->wants_moments ? WANTS_MOMENTS : 0);
    if (layout_of(job, wanted.length, MOST_ROWS, &wanted.layout) != MU_DONE ||
        mu_replica_new(&it->reader, job, wanted.length, 0, 1, MOST_ROWS) != MU_DONE)
        return -1;
    it->segment = mapped_new(it->plan, NULL, &wanted);
    return it->segment == NULL || start_mapped(it->segment, &it->group) || let_go(it->segment, &it->group) ? -1 : 0;
}

/* Lets all come to their end: those that are stopped too. */
static int ended(struct session *it)
{
    for (uint32_t id = 0; id < it->segment->layout.replicas; id++)
        if (!it->group.is_killed[id])
            kill(it->group.process[id], SIGCONT);
    struct plan rest = *it->plan;
    rest.count = 0;
    carry_out(it->segment, &rest, &it->group);
    return told_all(it->plan, it->segment, &it->group);
}

int serve(const struct plan *plan, uint32_t replicas)
{
    struct session session = { .plan = plan, .reader = MU_NO_REPLICA };
    char line[2 * MOST_LINE];
    int status = STATUS_NO_ANSWER;
    if (is_begun(&session, replicas) == 0) {
        while (fgets(line, sizeof line, stdin)) {
            size_t length = strcspn(line, "\n");
            line[length] = '\0';
            answer(&session, line, length);
        }
        status = ended(&session);
    }
    mu_replica_free(&session.reader);
    return status;
}
