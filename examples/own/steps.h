/* The job of replicas.c, the words that its threads share, and the log of the steps on them. */
#ifndef STEPS_H
#define STEPS_H
#include <stdarg.h>
#include <stdatomic.h>
#include <stdint.h>
#include <stdio.h>
#include <stdlib.h>
#include <string.h>

enum { REPLICAS = 3, RING = 8, COMMANDS = 2, WORDS = 12, NOBODY = 255, MOST_EVENTS = 40000 };
enum { NO_TARGET = 0, MINIMUM = 1, FIRST_PLACE = 2 };

static const char JOB[] =
    "mu 1\nreplicas 3\nring 8\nbudget 1000\nclient 0\nput a 5\nget a\nend\n";

/* The words of both rows: the head word, the key and the value. */
static const uint64_t ROWS[COMMANDS][WORDS] = {
    {1 | 1 << 16 | 1ull << 32 | 1ull << 40, 'a', 0, 0, '5'},
    {2 | 2 << 16 | 1ull << 32, 'a'},
};

/* ---- The shared words: a region for each replica. ---- */

static struct region {
    _Atomic uint64_t fence;       /* owner, closing, target and grant, from the low bytes */
    _Atomic uint64_t minimum;     /* a number, and above it a stamp of 16 bits */
    _Atomic uint64_t slots[RING]; /* a number, a value of 16 bits, and above them a stamp */
    _Atomic uint64_t fuo, head;
    _Atomic uint64_t asks[REPLICAS];
    _Atomic uint64_t rows[COMMANDS][WORDS]; /* of the replica's own commands */
} regions[REPLICAS];

/* What a drain adds to a word, so that a late put fails. */
static const uint64_t STAMP = 1ull << 48;

static uint64_t fence_of(int owner, uint64_t grant, int closing, int target)
{
    return (uint64_t)owner | (uint64_t)closing << 8 | (uint64_t)target << 16 | grant << 32;
}
static int owner_of(uint64_t fence) { return fence & 255; }
static int is_closing(uint64_t fence) { return fence >> 8 & 1; }
static int target_of(uint64_t fence) { return fence >> 16 & 255; }
static uint64_t grant_of(uint64_t fence) { return fence >> 32; }
static uint64_t number_of(uint64_t slot) { return slot & 0xffffffff; }
static int value_of(uint64_t slot) { return slot >> 32 & 0xffff; }

/* ---- The log: a step and its line are one section under a lock, so that the lines stand in the
 * order of the steps. That is for the test alone: the steps themselves are single atomics. ---- */

static atomic_flag stepping = ATOMIC_FLAG_INIT;
static char events[MOST_EVENTS][80];
static int event_count; /* the counter that each step takes its place from */

#ifdef WITH_MU
#include "mu.h"

/* The judge takes each line in the step that makes it, so it knows of a mistake at once. */
static mu_judge judge = MU_NO_JUDGE;

static void begin_judging(void)
{
    char why[64];
    size_t taken;
    if (mu_judge_new(&judge, JOB, strlen(JOB), why, sizeof why, &taken) != MU_DONE) abort();
}

static void judge_line(const char *line) { mu_judge_take(&judge, line, strlen(line)); }
#else
static void begin_judging(void) {}
static void judge_line(const char *line) { (void)line; }
#endif

static void begin_step(void) { while (atomic_flag_test_and_set(&stepping)) ; }
static void end_step(void) { atomic_flag_clear(&stepping); }

static void say(const char *form, ...)
{
    va_list words;
    if (event_count == MOST_EVENTS) abort();
    va_start(words, form);
    vsnprintf(events[event_count], sizeof events[0], form, words);
    va_end(words);
    judge_line(events[event_count++]);
}

#define STEP(made, ...) (begin_step(), (void)(made), say(__VA_ARGS__), end_step())

static const char *spelled_target(char *text, int target)
{
    if (target >= FIRST_PLACE) sprintf(text, "place %d", target - FIRST_PLACE);
    else strcpy(text, target == MINIMUM ? "min" : "none");
    return text;
}

static const char *spelled_fence(char *text, uint64_t fence)
{
    char owner[8] = "none", target[16];
    if (owner_of(fence) != NOBODY) sprintf(owner, "%d", owner_of(fence));
    sprintf(text, "%s %d %s %s", owner, (int)grant_of(fence),
            is_closing(fence) ? "closing" : "open", spelled_target(target, target_of(fence)));
    return text;
}

#endif
