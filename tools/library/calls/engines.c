/* engines.c: calls on live engines. */
#include "calls.h"

static void submit(uint32_t k)
{
    char line[64];
    size_t length = command_drawn(line, sizeof line);
    uint32_t client = any_number(15), status;
    uint64_t row = 9;
    watch(AN_ENGINE, k);
    status = mu_engine_submit(&calls.engines[k], client, line, length, &row);
    expect(status != MU_DONE || client < 16, "a client that there isn't");
    expect(status == MU_DONE || row == 0, "a row of a command that was refused");
    if (status != MU_DONE)
        refused("an engine changed by a command that it refused");
}

static void hold(uint32_t k)
{
    uint32_t replica = any_number(4), which = below(4), status;
    watch(AN_ENGINE, k);
    if (which == 0)
        status = mu_engine_stop(&calls.engines[k], replica);
    else if (which == 1)
        status = mu_engine_pause(&calls.engines[k], replica, below(50));
    else
        status = mu_engine_back(&calls.engines[k], replica);
    expect(status != MU_DONE || replica < 7, "a replica that there isn't");
    if (status != MU_DONE)
        refused("an engine changed by a stop that it refused");
}

/* Asks for a reply, a state, what holds a replica, or the trace. */
static void ask(uint32_t k)
{
    uint32_t reply = 9, status, which = below(4);
    size_t taken = 0;
    mu_state state;
    mu_hold held;
    watch(AN_ENGINE, k);
    give_room();
    char *out = calls.room ? calls.out : NULL;
    if (which == 0) {
        status = mu_engine_reply(&calls.engines[k], any_number(40), &reply, out, calls.room, &taken);
        expect(status == MU_DONE || (reply == 0 && taken == 0), "a reply that isn't there");
    } else if (which == 1) {
        status = mu_engine_state(&calls.engines[k], &state);
        expect((status == MU_DONE) == (calls.engines[k].at != NULL), "a state of nothing");
    } else if (which == 2) {
        status = mu_engine_hold(&calls.engines[k], any_number(4), &held);
        expect(status != MU_DONE || calls.engines[k].at, "a hold of nothing");
    } else {
        mu_engine_trace(&calls.engines[k], out, calls.room, &taken);
    }
    told(taken, "a text behind its room");
    refused("an engine changed by being asked");
}

static void wait_for(uint32_t k)
{
    uint32_t reply = 9, status;
    size_t taken = 9;
    give_room();
    status = mu_engine_until(&calls.engines[k], any_number(40), below(60), &reply, calls.room ? calls.out : NULL, calls.room,
                             &taken);
    expect(status == MU_DONE || (reply == 0 && taken == 0), "a reply that didn't come");
    told(taken, "a reply behind its room");
}

static void begin(uint32_t k)
{
    if (calls.engines[k].at)
        return;
    memset(&calls.engines[k], below(256) & 0xff, sizeof calls.engines[k]);
    uint32_t steps = below(3) ? BUDGET : any_number(131071);
    uint32_t status = mu_engine_new(&calls.engines[k], any_number(4), 8 + any_number(40), steps, any_number(12));
    expect((status == MU_DONE) == (calls.engines[k].at != NULL), "a new engine");
}

void play_engine(void)
{
    uint32_t k = below(HELD), status;
    switch (below(8)) {
    case 0:
        if (below(4) == 0)
            mu_engine_free(&calls.engines[k]);
        break;
    case 1: begin(k); break;
    case 2: hold(k); break;
    case 3: ask(k); break;
    case 4: submit(k); break;
    case 5: wait_for(k); break;
    default:
        status = mu_engine_round(&calls.engines[k]);
        expect((status == MU_EMPTY) == (calls.engines[k].at == NULL), "an engine that isn't there");
    }
}
