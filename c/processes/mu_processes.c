/* mu_processes.c: a process for each replica of a job. tools/launchers/program_help.bash has what --help says. */
#define _GNU_SOURCE
#include "mapped.h"
#include "serve.h"
#include "told.h"

#include <fcntl.h>
#include <string.h>
#include <unistd.h>

struct asked {
    struct plan plan;
    const char *job, *file; /* the file that all map, if it is to have a name */
    int is_by_hand;         /* nobody is started here */
};

/* Reads `wait` or `file NAME`, as plan_read does the words that all know. */
static int own_read(void *with, char *const *words)
{
    struct asked *asked = with;
    if (strcmp(*words, "wait") == 0)
        return asked->is_by_hand = 1;
    if (strcmp(*words, "file"))
        return 0;
    asked->file = words[1];
    if (words[1] == NULL)
        say(&asked->plan, "file: the name of a file should follow");
    return words[1] ? 2 : -1;
}

/* Reads the words after the job: 0; or -1 and a line. */
static int all_read(struct asked *asked, char *const *words)
{
    if (words_read(&asked->plan, words, own_read, asked))
        return -1;
    if (asked->is_by_hand && asked->file == NULL) {
        say(&asked->plan, "wait: processes that others start need `file NAME`");
        return -1;
    }
    return 0;
}

static int run_job(const void *with, const char *job, size_t length)
{
    const struct asked *asked = with;
    const struct plan *plan = &asked->plan;
    struct group group = { 0 };
    struct wanted wanted;
    int status = wanted_for(plan, job, length, &wanted);
    if (status)
        return status;
    struct segment *segment = mapped_new(plan, asked->file, &wanted);
    if (segment == NULL || (!asked->is_by_hand && start_mapped(segment, &group)) || let_go(segment, &group)) {
        say(plan, "the replicas can't be started");
        return STATUS_NO_ANSWER;
    }
    carry_out(segment, plan, &group);
    return told_all(plan, segment, &group);
}

/* One replica, in the file of a run that waits for it. */
static int run_by_hand(const struct plan *plan, char *const *words)
{
    uint64_t id = 0;
    if (words[0] == NULL || words[1] == NULL || words[2] != NULL) {
        say(plan, "replica: it should be `replica ID FILE`");
        return STATUS_USAGE;
    }
    if (number_read(plan, "replica", words[0], 0, MOST_REPLICAS - 1, &id))
        return STATUS_USAGE;
    int file = open(words[1], O_RDWR);
    struct segment *segment = file < 0 ? NULL : segment_of(file);
    if (segment == NULL || id >= segment->layout.replicas || run_mapped(segment, (uint32_t)id)) {
        say(plan, "%s has no place for replica %s", words[1], words[0]);
        return STATUS_USAGE;
    }
    return STATUS_DONE;
}

/* A session of so many replicas. */
static int run_session(struct asked *asked, char *const *words)
{
    uint64_t replicas = 0;
    if (number_read(&asked->plan, "serve", words[0], 1, MOST_REPLICAS, &replicas) || all_read(asked, words + 1))
        return STATUS_USAGE;
    if (asked->plan.count || asked->file) {
        say(&asked->plan, "serve: kills and stops are lines of the session, and nobody else maps its words");
        return STATUS_USAGE;
    }
    return serve(&asked->plan, (uint32_t)replicas);
}

int main(int count, char **words)
{
    struct asked asked = { .plan = { .program = "mu_processes" } };
    if (count < 2) {
        say(&asked.plan, "a job should follow; --help says what else");
        return STATUS_USAGE;
    }
    if (strcmp(words[1], "replica") == 0)
        return run_by_hand(&asked.plan, words + 2);
    if (strcmp(words[1], "serve") == 0)
        return run_session(&asked, words + 2);
    return all_read(&asked, words + 2) ? STATUS_USAGE : job_run(&asked.plan, words[1], run_job, &asked);
}
