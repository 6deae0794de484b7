/* mu_fabric.c: replicas over libfabric. tools/launchers/program_help.bash has what --help says. */
#define _GNU_SOURCE
#include "memory.h"
#include "network.h"
#include "report.h"
#include "told.h"
#include "versions.h"

#include <signal.h>
#include <stdlib.h>
#include <string.h>
#include <sys/mman.h>
#include <sys/wait.h>
#include <unistd.h>

enum { USUAL_LIMIT = 2000, USUAL_LINGER = 5000, MOST_LIMIT = 3600000, MILLISECOND = 1000000 };

struct asked {
    struct plan plan;
    const char *provider;
    uint64_t limit, linger; /* in milliseconds */
};

/* Reads `provider`, `limit` or `linger` and what follows, as plan_read does the words that all know. */
static int own_read(void *with, char *const *words)
{
    struct asked *asked = with;
    struct plan *plan = &asked->plan;
    if (strcmp(words[0], "limit") == 0)
        return number_read(plan, "limit", words[1], 1, MOST_LIMIT, &asked->limit) ? -1 : 2;
    if (strcmp(words[0], "linger") == 0)
        return number_read(plan, "linger", words[1], 0, MOST_LIMIT, &asked->linger) ? -1 : 2;
    if (strcmp(words[0], "provider"))
        return 0;
    asked->provider = words[1];
    if (words[1] == NULL)
        say(plan, "provider: a name should follow, as tcp;ofi_rxm");
    return words[1] ? 2 : -1;
}

static int all_read(struct asked *asked, char *const *words)
{
    return words_read(&asked->plan, words, own_read, asked);
}

/* A card that isn't open yet. */
static struct card card_asked(const struct asked *asked, const struct segment *segment, uint32_t self)
{
    return (struct card){ .plan = &asked->plan,
                          .provider = asked->provider,
                          .limit = asked->limit * MILLISECOND,
                          .self = self,
                          .word_bytes = segment ? word_bytes(segment) : 8 };
}

/* The notes of a run, and on one machine the words: 0, or a status. */
static int segment_made(const struct asked *asked, const char *job, size_t length, struct segment **segment)
{
    const struct plan *plan = &asked->plan;
    struct wanted wanted;
    int status = wanted_for(plan, job, length, &wanted);
    if (status)
        return status;
    int file = memfd_create("mu notes", 0);
    *segment = file < 0 ? NULL : segment_new(file, &wanted);
    if (*segment == NULL) {
        say(plan, "no memory for the words");
        return STATUS_NO_ANSWER;
    }
    (*segment)->longest_nap = plan->longest_nap;
    return 0;
}

/* Opens the way to all hosts and runs the replica: 0, or 1 if it can't. */
static int one_replica(const struct asked *asked, struct segment *segment, const struct hosts *hosts, uint32_t id, int is_alone)
{
    struct network network = { .card = card_asked(asked, segment, id), .hosts = hosts, .linger = asked->linger * MILLISECOND };
    int status = network_opened(&network) || run_networked(segment, &network, is_alone);
    card_close(&network.card);
    return status;
}

/* Serves words, until somebody ends it: 1 if it can't. */
static int one_memory(const struct asked *asked, const struct segment *segment, const struct host *at, void *words, size_t bytes)
{
    struct card card = card_asked(asked, segment, 0);
    int status = words == NULL || memory_serve(&card, at, words, bytes);
    card_close(&card);
    return status;
}

/* Whether the provider is here and has all that is wanted, as a process tells that ends then: else it says a line. */
static int is_provider(const struct asked *asked)
{
    pid_t process;
    int status = 0, is_child = started(&process);
    if (is_child > 0) {
        struct card card = card_asked(asked, NULL, 0);
        status = card_open(&card, NULL);
        card_close(&card);
        _exit(status != 0);
    }
    return is_child == 0 && waitpid(process, &status, 0) == process && WIFEXITED(status) && WEXITSTATUS(status) == 0;
}

/* Starts a memory and a replica for each host: 0, or -1. */
static int start_all(const struct asked *asked, struct segment *segment, const struct hosts *hosts, struct group *group)
{
    for (uint32_t host = 0; host < hosts->count; host++) {
        int is_child = started(&group->memory[host]);
        if (is_child < 0)
            return -1;
        if (is_child)
            _exit(one_memory(asked, segment, &hosts->host[host], word_at(segment, host, 0), segment->host_bytes));
    }
    for (uint32_t id = 0; id < hosts->count; id++) {
        int is_child = started(&group->child[id]);
        if (is_child < 0)
            return -1;
        if (is_child)
            _exit(one_replica(asked, segment, hosts, id, 0));
    }
    return 0;
}

static void end_memories(const struct hosts *hosts, struct group *group)
{
    for (uint32_t host = 0; host < hosts->count; host++)
        if (group->memory[host] > 0) {
            kill(group->memory[host], SIGKILL);
            waitpid(group->memory[host], NULL, 0);
        }
}

/* All on this machine. */
static int run_job(const void *with, const char *job, size_t length)
{
    const struct asked *asked = with;
    struct group group = { 0 };
    struct hosts hosts;
    struct segment *segment = NULL;
    struct doubts doubts = { 0 };
    int status = segment_made(asked, job, length, &segment);
    if (status)
        return status;
    if (!is_provider(asked))
        return STATUS_USAGE;
    if (hosts_here(&asked->plan, &hosts, segment->layout.replicas) || start_all(asked, segment, &hosts, &group) ||
        let_go(segment, &group)) {
        say(&asked->plan, "the replicas can't be started");
        return STATUS_NO_ANSWER;
    }
    carry_out(segment, &asked->plan, &group);
    end_memories(&hosts, &group);
    if (asked->plan.trace && versions_found(segment, &doubts))
        status = STATUS_NO_ANSWER;
    if (doubts.reads || doubts.writes)
        say(&asked->plan, "trace: %u reads and %u writes could stand elsewhere too", doubts.reads, doubts.writes);
    int told = told_all(&asked->plan, segment, &group);
    return status ? status : told;
}

/* A host of a file, by itself. */
struct lone {
    const struct asked *asked;
    const char *name; /* of the file */
    struct hosts hosts;
    uint64_t id;
};

/* Reads the host's id, the file of hosts, the job if one is to follow, and the words behind: 0; or -1 and a line. */
static int lone_read(struct lone *lone, struct asked *asked, char *const *words, int has_job)
{
    for (int k = 1; k < 3 + has_job; k++)
        if (words[k] == NULL) {
            say(&asked->plan, "%s: it should be `%s ID HOSTS%s`", words[0], words[0], has_job ? " JOB" : "");
            return -1;
        }
    lone->asked = asked;
    lone->name = words[2];
    if (all_read(asked, words + 3 + has_job) || hosts_read(&asked->plan, &lone->hosts, lone->name))
        return -1;
    return number_read(&asked->plan, "host", words[1], 0, lone->hosts.count - 1, &lone->id);
}

static int run_memory(struct asked *asked, char *const *words)
{
    struct lone lone;
    size_t bytes = 0;
    if (lone_read(&lone, asked, words, 0))
        return STATUS_USAGE;
    void *at = memory_new(&bytes);
    return one_memory(asked, NULL, &lone.hosts.host[lone.id], at, bytes) ? STATUS_NO_ANSWER : STATUS_DONE;
}

/* One replica of a job: when it has an end, what it has. */
static int run_one(const void *with, const char *job, size_t length)
{
    const struct lone *lone = with;
    const struct asked *asked = lone->asked;
    struct group group = { 0 };
    struct segment *segment = NULL;
    uint32_t id = (uint32_t)lone->id;
    int status = segment_made(asked, job, length, &segment);
    if (status)
        return status;
    if (lone->hosts.count != segment->layout.replicas) {
        say(&asked->plan, "the job has %u replicas, and %s %u hosts", segment->layout.replicas, lone->name, lone->hosts.count);
        return STATUS_USAGE;
    }
    atomic_store(&segment->go, 1);
    return one_replica(asked, segment, &lone->hosts, id, 1) ? STATUS_NO_ANSWER
                                                            : print_report(stdout, segment, &group, id, id + 1);
}

static int run_replica_alone(struct asked *asked, char *const *words)
{
    struct lone lone;
    if (lone_read(&lone, asked, words, 1))
        return STATUS_USAGE;
    if (asked->plan.trace || asked->plan.count) {
        say(&asked->plan, "replica: kills, stops and a trace are for all on one machine");
        return STATUS_USAGE;
    }
    return job_run(&asked->plan, words[3], run_one, &lone);
}

int main(int count, char **words)
{
    struct asked asked = { .plan = { .program = "mu_fabric", .can_lose = 1 }, .provider = "tcp;ofi_rxm",
                           .limit = USUAL_LIMIT, .linger = USUAL_LINGER };
    if (count < 2) {
        say(&asked.plan, "a job should follow; --help says what else");
        return STATUS_USAGE;
    }
    if (strcmp(words[1], "memory") == 0)
        return run_memory(&asked, words + 1);
    if (strcmp(words[1], "replica") == 0)
        return run_replica_alone(&asked, words + 1);
    return all_read(&asked, words + 2) ? STATUS_USAGE : job_run(&asked.plan, words[1], run_job, &asked);
}
