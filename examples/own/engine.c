/* A live engine of three replicas: its leader is stopped, and the others answer on.
 *
 *     cc -std=c11 -Ic examples/own/engine.c out/libmu.a -o engine && ./engine */
#include "mu.h"
#include <stdio.h>
#include <string.h>

/* The most bytes of a text, and for how many rounds a reply is waited for. */
enum { TEXT_BYTES = 64, MOST_ROUNDS = 10000 };

static const char *const COMMANDS[] = { "put a 5", "get a", "swap a 6", "get a", "cas a 6 7", "del a", "get a" };
static const char *const REPLIES[] = { "", "done", "value ", "none", "kept " };

int main(void)
{
    mu_engine engine;
    size_t count = sizeof COMMANDS / sizeof *COMMANDS;
    if (mu_engine_new(&engine, 3, MU_ENGINE_SHAPE) != MU_DONE)
        return 1;
    for (size_t k = 0; k < count; k++) {
        char text[TEXT_BYTES];
        size_t taken = 0;
        uint64_t row;
        uint32_t reply;
        if (k == 3 && mu_engine_stop(&engine, 0) == MU_DONE)
            puts("replica 0 is stopped");
        if (mu_engine_submit(&engine, 0, COMMANDS[k], strlen(COMMANDS[k]), &row) != MU_DONE)
            return 1;
        if (mu_engine_until(&engine, row, MOST_ROUNDS, &reply, text, TEXT_BYTES, &taken) != MU_DONE)
            return 1;
        printf("%u %s -> %s%.*s\n", (unsigned)row, COMMANDS[k], REPLIES[reply], (int)taken, text);
    }
    mu_engine_free(&engine);
    return 0;
}
