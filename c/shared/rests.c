/* rests.c: what wants to run here, and waiting. */
#define _GNU_SOURCE
#include "rests.h"

#include "segment.h"

#include <sched.h>
#include <stdio.h>
#include <sys/prctl.h>
#include <time.h>
#include <unistd.h>

enum { MICROSECOND = 1000, SECOND = 1000000000 };

/* How many tasks want to run that may keep this one from a processor: at a real-time rank none is known of. */
static uint32_t tasks_running(void)
{
    FILE *from = sched_getscheduler(0) == SCHED_OTHER ? fopen("/proc/loadavg", "r") : NULL;
    unsigned running = 0;
    if (from == NULL || fscanf(from, "%*f %*f %*f %u", &running) != 1)
        running = 0;
    if (from)
        fclose(from);
    return running;
}

void rests_begin(mu_rests *rests, uint32_t replicas, uint32_t longest_nap)
{
    uint32_t processors = (uint32_t)sysconf(_SC_NPROCESSORS_ONLN);
    mu_rests_begin(rests, now(), replicas, tasks_running(), processors, (uint64_t)longest_nap * MICROSECOND);
    prctl(PR_SET_TIMERSLACK, 1);
}

void rest(mu_rests *rests)
{
    uint64_t began = now();
    uint32_t awake = 0;
    uint64_t nap = mu_rests_due(rests, began, &awake);
    struct timespec asleep = { .tv_sec = (time_t)(nap / SECOND), .tv_nsec = (long)(nap % SECOND) };
    if (!awake && nap)
        clock_nanosleep(CLOCK_MONOTONIC, 0, &asleep, NULL);
    while (awake && now() - began < nap)
        ;
}
