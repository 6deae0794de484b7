/* Random calls of mu.h and mu_server.h in random order: on what is there and what isn't, with wrong numbers and lines, and room
 * for all of a text, some or none. After a refusal what can be seen of a judge, an engine, a replica or a server has to be as it
 * was; nothing may be written behind the room of a text, nor a number told by a call that tells none. Built with sanitizers, or
 * run by valgrind, it finds more.
 *
 *     cc -std=c11 -Ic tools/library/calls/calls.c (and the others there) out/libmu.a -o calls && ./calls CALLS SEED */
#include "calls.h"

static void ask_input(void)
{
    char text[4096];
    size_t length = job_drawn(text, sizeof text), taken = 9;
    uint32_t which = below(3), status;
    give_room();
    char *out = calls.room ? calls.out : NULL;
    if (which == 0)
        status = mu_answer(below(2) ? MU_CHECK + below(2) : any_number(9), text, length, out, calls.room, &taken);
    else if (which == 1)
        status = mu_show_answer(any_number(MU_LAST_STEP), text, length, out, calls.room, &taken);
    else
        status = mu_draw_answer(any_number(MU_LAST_STEP), any_number(MU_LAST_STEP), text, length, out, calls.room, &taken);
    calls.refusals += status == MU_USAGE || status == MU_REFUSED;
    expect(status <= MU_TOO_LONG, "a status of an answer");
    told(taken, "a text behind its room");
}

int main(int count, char **given)
{
    uint64_t most = count > 1 ? (uint64_t)atoll(given[1]) : 10000;
    chance_begin(count > 2 ? (uint64_t)atoll(given[2]) : 1);
    calls.out = malloc(ROOM + 8);
    mu_rests_begin(&calls.rests, 0, 1, 1, 1, 0);
    for (; calls.count < most; calls.count++) {
        uint32_t kind = below(64);
        calls.is_wild = below(3) == 0;
        if (kind == 0)
            ask_input();
        else if (kind == 1)
            play_rests();
        else if (kind < 16)
            play_judge();
        else if (kind < 36)
            play_engine();
        else if (kind < 44)
            play_server();
        else
            play_replica();
    }
    for (uint32_t k = 0; k < HELD; k++) {
        mu_judge_free(&calls.judges[k]);
        mu_engine_free(&calls.engines[k]);
    }
    end_replicas();
    end_servers();
    free(calls.out);
    printf("%llu calls, %llu refused or asked: nothing changed by these\n", (unsigned long long)calls.count,
           (unsigned long long)calls.refusals);
    return 0;
}
