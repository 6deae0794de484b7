/* Replicas on threads, each over the same array of words by c/shared/access.h, as processes have them: for the thread sanitizer,
 * which sees one process alone. Some are cut off; what the others tell has to agree.
 *
 *     cc -std=c11 -pthread -fsanitize=thread -Ic -Ic/shared tools/library/threads.c out/libmu.a -o threads && ./threads RUNS SEED */
#define _GNU_SOURCE
#include "access.h"
#define made made_alone /* that of chance.h is for one thread */
#include "chance.h"
#undef made

#include <pthread.h>
#include <sched.h>

uint64_t chance;

enum { MOST = 7, COMMANDS = 12, TEXT = 64, JOB = 1024, BUDGET = 30000, ENTRIES = 64 };

struct one {
    pthread_t thread;
    mu_replica replica;
    mu_rests rests;
    _Atomic uint64_t *memory;
    uint32_t self, words, rows_at, steps; /* it is cut off after so many steps */
    uint32_t is_cut;
};

static void need(int is_so, const char *what)
{
    if (is_so)
        return;
    printf("threads: %s\n", what);
    exit(1);
}

/* Goes on until it has ended or is cut off: between its access and the word that it takes, if the number is odd. */
static void *run_one(void *of)
{
    struct one *one = of;
    mu_operation o;
    uint32_t how, region, position, awake;
    for (uint32_t k = 0; mu_replica_next(&one->replica, &o) == MU_DONE; k++) {
        uint64_t found = made(&one->memory[(size_t)o.host * one->words + o.place], &o);
        one->is_cut = k >= one->steps;
        if (one->is_cut && one->steps % 2)
            break;
        need(mu_replica_take(&one->replica, found) == MU_DONE, "a word is refused");
        if (mu_rests_take(&one->rests, &o, found, one->self, one->rows_at) != MU_NOT_DUE) {
            mu_rests_due(&one->rests, k, &awake);
            sched_yield();
        }
        if (one->is_cut || mu_replica_end(&one->replica, &how, &region, &position) == MU_DONE)
            break;
    }
    return NULL;
}

static void draw_job(char *job, uint32_t replicas)
{
    static const char *const forms[] = { "put %c %u\n", "swap %c %u\n", "cas %c %u 7\n" };
    int used = snprintf(job, JOB, "mu 1\nreplicas %u\nring %u\nbudget %u\nclient 0\n", replicas, 2 * COMMANDS, BUDGET);
    for (uint32_t k = 0; k < COMMANDS; k++)
        used += snprintf(job + used, JOB - (size_t)used, forms[below(3)], 'a' + (int)below(3), below(9));
    snprintf(job + used, JOB - (size_t)used, "end\n");
}

/* As far as both tell them, the logs of two replicas and their replies are alike. */
static void need_agreement(struct one *one, struct one *other)
{
    char text[2][TEXT];
    for (uint32_t k = 0, it[2]; k < ENTRIES && mu_replica_applied(&one->replica, k, &it[0]) == MU_DONE &&
                                mu_replica_applied(&other->replica, k, &it[1]) == MU_DONE; k++)
        need(it[0] == it[1], "two logs");
    for (uint32_t row = 0; row < COMMANDS; row++) {
        uint32_t kind[2];
        size_t taken[2];
        if (mu_replica_reply(&one->replica, row, &kind[0], text[0], TEXT, &taken[0]) == MU_DONE &&
            mu_replica_reply(&other->replica, row, &kind[1], text[1], TEXT, &taken[1]) == MU_DONE)
            need(kind[0] == kind[1] && taken[0] == taken[1] && memcmp(text[0], text[1], taken[0]) == 0, "two replies");
    }
}

/* One run: how many replies its first replica that wasn't cut off tells. */
static uint32_t run(uint32_t replicas)
{
    static struct one each[MOST];
    char job[JOB], text[TEXT];
    uint32_t hosts = 0, words = 0, told = 0, kind;
    size_t taken;
    draw_job(job, replicas);
    for (uint32_t r = 0; r < replicas; r++) {
        need(mu_replica_new(&each[r].replica, job, strlen(job), r, 1, 0) == MU_DONE, "no replica");
        mu_replica_shape(&each[r].replica, &hosts, &words);
    }
    _Atomic uint64_t *memory = calloc((size_t)hosts * words, sizeof *memory);
    for (uint32_t r = 0; r < replicas; r++) {
        struct one *one = &each[r];
        atomic_store(&memory[(size_t)r * words], MU_FIRST_FENCE);
        one->memory = memory;
        one->self = r;
        one->words = words;
        one->rows_at = words - COMMANDS * 12;
        one->steps = r < (replicas - 1) / 2 ? below(4000) : UINT32_MAX;
        mu_rests_begin(&one->rests, 0, replicas, replicas, 4, 0);
    }
    for (uint32_t r = 0; r < replicas; r++)
        need(pthread_create(&each[r].thread, NULL, run_one, &each[r]) == 0, "no thread");
    for (uint32_t r = 0; r < replicas; r++)
        pthread_join(each[r].thread, NULL);
    for (uint32_t r = 1; r < replicas; r++)
        for (uint32_t other = 0; other < r; other++)
            need_agreement(&each[other], &each[r]);
    for (uint32_t row = 0; row < COMMANDS; row++)
        told += mu_replica_reply(&each[replicas - 1].replica, row, &kind, text, TEXT, &taken) == MU_DONE;
    for (uint32_t r = 0; r < replicas; r++)
        mu_replica_free(&each[r].replica);
    free(memory);
    return told;
}

int main(int count, char **given)
{
    uint32_t runs = count > 1 ? (uint32_t)atoi(given[1]) : 10, told = 0;
    chance_begin(count > 2 ? (uint64_t)atoll(given[2]) : 1);
    for (uint32_t k = 0; k < runs; k++)
        told += run(3 + 2 * below(3));
    printf("%u runs on threads, %u replies of %u: no two differ\n", runs, told, runs * COMMANDS);
    return 0;
}
