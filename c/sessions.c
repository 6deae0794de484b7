/* Drives a live engine by lines from the standard input, and answers each with a line: the status, and
 * what the call told. tools/library/try_library.py asks the same of C, of C++ and of Python. */
#include "mu.h"

#include <stdio.h>
#include <stdlib.h>
#include <string.h>

static char room[1 << 22];
static mu_engine engine = MU_NO_ENGINE;

static unsigned number(const char **words)
{
    char *rest;
    unsigned long value = strtoul(*words, &rest, 10);
    *words = *rest == ' ' ? rest + 1 : rest;
    return (unsigned)value;
}

static void submit(const char *words)
{
    uint32_t client = number(&words);
    uint64_t row = 0;
    unsigned status = mu_engine_submit(&engine, client, words, strlen(words), &row);
    printf("%u %llu\n", status, (unsigned long long)row);
}

static unsigned play(unsigned rounds)
{
    unsigned status = MU_DONE;
    while (rounds-- > 0 && status == MU_DONE)
        status = mu_engine_round(&engine);
    return status;
}

static void reply(uint32_t row)
{
    uint32_t which = 0;
    size_t taken = 0;
    unsigned status = mu_engine_reply(&engine, row, &which, room, sizeof room, &taken);
    printf("%u %u %.*s\n", status, (unsigned)which, (int)taken, room);
}

static void until(uint32_t row, uint32_t rounds)
{
    uint32_t which = 0;
    size_t taken = 0;
    unsigned status = mu_engine_until(&engine, row, rounds, &which, room, sizeof room, &taken);
    printf("%u %u %.*s\n", status, (unsigned)which, (int)taken, room);
}

/* The status, and the numbers of the state. */
static void state(void)
{
    mu_state now;
    unsigned status = mu_engine_state(&engine, &now);
    printf("%u %llu %llu %llu %u %u %u %u\n", status, (unsigned long long)now.commands, (unsigned long long)now.first_row,
           (unsigned long long)now.eras, (unsigned)now.replicas, (unsigned)now.leader, (unsigned)now.free, (unsigned)now.room);
}

/* The status, and what holds a replica. */
static void hold(uint32_t replica)
{
    mu_hold now;
    unsigned status = mu_engine_hold(&engine, replica, &now);
    printf("%u %u %u\n", status, (unsigned)now.stopped, (unsigned)now.rounds);
}

/* The status, the length, and then the bytes. */
static void trace(void)
{
    size_t taken = 0;
    unsigned status = mu_engine_trace(&engine, room, sizeof room, &taken);
    size_t told = taken < sizeof room ? taken : sizeof room;
    printf("%u %lu\n", status, (unsigned long)told);
    fwrite(room, 1, told, stdout);
}

static void answer(const char *word, const char *words)
{
    unsigned first = number(&words), second, third;
    if (strcmp(word, "new") == 0) {
        second = number(&words);
        third = number(&words);
        printf("%u\n", (unsigned)mu_engine_new(&engine, first, second, third, number(&words)));
    } else if (strcmp(word, "rounds") == 0) {
        printf("%u\n", play(first));
    } else if (strcmp(word, "stop") == 0) {
        printf("%u\n", (unsigned)mu_engine_stop(&engine, first));
    } else if (strcmp(word, "pause") == 0) {
        printf("%u\n", (unsigned)mu_engine_pause(&engine, first, number(&words)));
    } else if (strcmp(word, "back") == 0) {
        printf("%u\n", (unsigned)mu_engine_back(&engine, first));
    } else if (strcmp(word, "until") == 0) {
        until(first, number(&words));
    } else if (strcmp(word, "state") == 0) {
        state();
    } else if (strcmp(word, "hold") == 0) {
        hold(first);
    } else if (strcmp(word, "reply") == 0) {
        reply(first);
    } else if (strcmp(word, "trace") == 0) {
        trace();
    } else {
        mu_engine_free(&engine);
        puts("0");
    }
}

int main(void)
{
    static char line[256];
    while (fgets(line, sizeof line, stdin) != NULL) {
        char *words;
        line[strcspn(line, "\n")] = 0;
        words = strchr(line, ' ');
        if (words != NULL)
            *words++ = 0;
        if (strcmp(line, "submit") == 0)
            submit(words != NULL ? words : "");
        else
            answer(line, words != NULL ? words : "");
        fflush(stdout);
    }
    mu_engine_free(&engine);
    return 0;
}
