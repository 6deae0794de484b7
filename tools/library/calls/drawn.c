/* drawn.c: numbers, lines, jobs and room; and what may not change. */
#include "calls.h"

uint64_t chance;
struct calls calls;
static char before[SEEN + 128], after[SEEN + 128];
static size_t length_before;
static enum watched watched;
static uint32_t watched_at;

void expect(int is_so, const char *what)
{
    if (is_so)
        return;
    printf("calls: %s, after %llu calls\n", what, (unsigned long long)calls.count);
    exit(1);
}

uint32_t any_number(uint32_t most)
{
    switch (calls.is_wild ? below(8) : 4) {
    case 0: return (uint32_t)any_word();
    case 1: return UINT32_MAX - below(3);
    case 2: return 255 + below(3);
    case 3: return most + below(3);
    default: return below(most + 1);
    }
}

void give_room(void)
{
    calls.room = below(3) == 0 ? 0 : below(2) ? below(64) : ROOM;
    memset(calls.out, GUARD, below(4) ? calls.room : ROOM);
    memset(calls.out + calls.room, GUARD, 8);
}

void told(size_t taken, const char *what)
{
    for (size_t k = calls.room; k < calls.room + 8; k++)
        expect(calls.out[k] == GUARD, what);
    expect(taken <= SEEN, what);
}

size_t command_drawn(char *line, size_t most)
{
    static const char *const forms[] = { "put %c %u", "get %c", "swap %c %u", "del %c", "cas %c %u 7",
                                         "put %c", "", "get %c\n", "put %c %u %u" };
    uint32_t kind = below(calls.is_wild ? 9 : 5);
    int length = snprintf(line, most, forms[kind], 'a' + (int)below(3), below(100), below(9));
    if (calls.is_wild && length > 0 && below(4) == 0)
        line[below((uint32_t)length)] = (char)any_word();
    return (size_t)length;
}

size_t job_drawn(char *text, size_t most)
{
    char line[64];
    size_t used = (size_t)snprintf(text, most, "mu 1\nreplicas %u\nring %u\nbudget %u\n", 1 + below(HOSTS), 8 + below(16), BUDGET);
    for (uint32_t client = 0; client < 1 + below(2); client++) {
        used += (size_t)snprintf(text + used, most - used, "client %u\n", client);
        for (uint32_t k = 0; k < 1 + below(3); k++) {
            command_drawn(line, sizeof line);
            used += (size_t)snprintf(text + used, most - used, "%s\n", line);
        }
    }
    used += (size_t)snprintf(text + used, most - used, "end\n");
    if (calls.is_wild && below(2))
        text[below((uint32_t)used)] = (char)any_word();
    return calls.is_wild && below(4) == 0 ? below((uint32_t)used + 1) : used;
}

/* What can be seen of a judge, an engine or a replica, as a text. */
static size_t seen_of(char *text, enum watched what, uint32_t k)
{
    size_t taken = 0, used = 0;
    uint32_t each[6] = { 0 };
    mu_operation o = { 0 };
    if (what == A_JUDGE)
        each[0] = mu_judge_why(&calls.judges[k], text, SEEN, &taken);
    if (what == AN_ENGINE)
        each[0] = mu_engine_trace(&calls.engines[k], text, SEEN, &taken);
    if (what == A_REPLICA) {
        each[0] = mu_replica_next(&calls.replicas[k], &o);
        mu_replica_event(&calls.replicas[k], text, SEEN, &taken);
        mu_replica_state(&calls.replicas[k], &each[1], &each[2], &each[3], &each[4], &each[5]);
    }
    used = taken < SEEN ? taken : SEEN;
    memcpy(text + used, each, sizeof each);
    memcpy(text + used + sizeof each, &o, sizeof o);
    return used + sizeof each + sizeof o;
}

void watch(enum watched what, uint32_t k)
{
    watched = what;
    watched_at = k;
    length_before = below(16) ? 0 : seen_of(before, what, k);
}

void refused(const char *what)
{
    calls.refusals++;
    if (length_before == 0)
        return;
    size_t length = seen_of(after, watched, watched_at);
    expect(length == length_before && memcmp(before, after, length) == 0, what);
}
