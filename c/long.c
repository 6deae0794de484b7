/* Plays a long session of a live engine: every command waits for its reply, which has to be that of a store of
 * its own; every 10,000 commands a replica stops, each in its turn, and is called back later.
 *
 *     cc -std=c11 -O2 -Ic c/long.c out/libmu.a -o long && ./long 1000000
 *
 * It tells the time a command of the first and of the last block took, and how much memory was resident. */
#define _POSIX_C_SOURCE 200809L
#include "mu.h"

#include <stdio.h>
#include <stdlib.h>
#include <string.h>
#include <time.h>

enum { KEYS = 100, BLOCK = 10000, MOST_ROUNDS = 10000, REPLICAS = 3, TEXT_BYTES = 64 };

/* The text of each key, or an empty one. */
static char texts[KEYS][TEXT_BYTES + 1];
static unsigned state = 1;

static unsigned chance(unsigned below)
{
    state = state * 1103515245u + 12345u;
    return (state >> 16) % below;
}

/* A reply that is wanted: its number, and its text. */
static uint32_t wanted;
static char wanted_text[TEXT_BYTES + 1];

static void want(uint32_t reply, const char *text)
{
    wanted = reply;
    strcpy(wanted_text, text);
}

/* Writes a command into the line, and what a store replies to it. */
static void command(char *line, size_t room, unsigned number)
{
    unsigned key = chance(KEYS), kind = chance(5);
    char *had = texts[key], new[TEXT_BYTES + 1];

    snprintf(new, sizeof new, "v%u", number);
    if (kind == 0) {
        snprintf(line, room, "put k%u %s", key, new);
        want(MU_REPLY_DONE, "");
        strcpy(had, new);
    } else if (kind == 1) {
        snprintf(line, room, "get k%u", key);
        want(*had ? MU_REPLY_VALUE : MU_REPLY_NONE, had);
    } else if (kind == 2) {
        snprintf(line, room, "del k%u", key);
        want(*had ? MU_REPLY_DONE : MU_REPLY_NONE, "");
        *had = 0;
    } else if (kind == 3) {
        snprintf(line, room, "swap k%u %s", key, new);
        want(*had ? MU_REPLY_VALUE : MU_REPLY_NONE, had);
        strcpy(had, new);
    } else {
        /* Every other one names the text that the key has. */
        int named = *had && chance(2);
        snprintf(line, room, "cas k%u %s %s", key, named ? had : "other", new);
        want(!*had ? MU_REPLY_NONE : named ? MU_REPLY_DONE : MU_REPLY_KEPT, *had && !named ? had : "");
        if (named)
            strcpy(had, new);
    }
}

/* Whether the next command gets the reply of the store, in its row. */
static int play(mu_engine *engine, unsigned number)
{
    char line[256], out[TEXT_BYTES];
    uint64_t row;
    uint32_t reply, status;
    size_t taken;

    command(line, sizeof line, number);
    while ((status = mu_engine_submit(engine, number % 4, line, strlen(line), &row)) == MU_FULL)
        if (mu_engine_round(engine) != MU_DONE)
            return 0;
    if (status != MU_DONE || row != number)
        return 0;
    if (mu_engine_until(engine, row, MOST_ROUNDS, &reply, out, sizeof out, &taken) != MU_DONE)
        return 0;
    return reply == wanted && taken == strlen(wanted_text) && memcmp(out, wanted_text, taken) == 0;
}

static double seconds(void)
{
    struct timespec now;
    clock_gettime(CLOCK_PROCESS_CPUTIME_ID, &now);
    return (double)now.tv_sec + (double)now.tv_nsec / 1e9;
}

/* How many KiB are resident. */
static long resident(void)
{
    long whole = 0, pages = 0;
    FILE *file = fopen("/proc/self/statm", "r");

    if (file == NULL || fscanf(file, "%ld %ld", &whole, &pages) != 2)
        pages = 0;
    if (file != NULL)
        fclose(file);
    return pages * 4;
}

/* Stops a replica at the beginning of a block, and calls it back in its middle. */
static int disturb(mu_engine *engine, unsigned number)
{
    uint32_t replica = number / BLOCK % REPLICAS;

    if (number % BLOCK == BLOCK / 10)
        return mu_engine_stop(engine, replica) == MU_DONE;
    if (number % BLOCK == BLOCK / 2)
        return mu_engine_back(engine, replica) == MU_DONE;
    return 1;
}

int main(int count, char **words)
{
    unsigned commands = count > 1 ? (unsigned)strtoul(words[1], NULL, 10) : 10 * BLOCK, wrong = 0, number;
    double began = seconds(), first = 0, last = 0;
    long early = 0, most = 0;
    mu_engine engine;
    mu_state now;

    if (mu_engine_new(&engine, REPLICAS, MU_ENGINE_SHAPE) != MU_DONE)
        return 1;
    for (number = 0; number < commands; number++) {
        wrong += !disturb(&engine, number) || !play(&engine, number);
        if ((number + 1) % BLOCK == 0) {
            last = seconds() - began;
            began = seconds();
            if (number < BLOCK)
                first = last;
            if (number < 3 * BLOCK)
                early = resident();
            if (resident() > most)
                most = resident();
        }
    }
    mu_engine_state(&engine, &now);
    printf("%u commands in %llu eras, %u wrong; %.1f us a command of the first block, %.1f of the last; %ld KiB, at most %ld\n",
           commands, (unsigned long long)now.eras, wrong, first / BLOCK * 1e6, last / BLOCK * 1e6, early, most);
    mu_engine_free(&engine);
    /* The memory is flat: within an eighth. */
    return wrong > 0 || most > early + early / 8;
}
