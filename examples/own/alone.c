/* Three replicas in turn over an array of words: prints their trace, which is then found to be legal. How an access is made
 * stands in c/shared/access.h.
 *
 *     cc -std=c11 -Ic examples/own/alone.c out/libmu.a -o alone && ./alone */
#include "mu.h"
#include "shared/access.h"
#include <stdio.h>
#include <stdlib.h>
#include <string.h>

enum { REPLICAS = 3, LINE_BYTES = 192, TRACE_BYTES = 1 << 17 };

static const char JOB[] = "mu 1\nreplicas 3\nring 8\nbudget 100000\nclient 0\nput a 5\nget a\nend\n";

int main(void)
{
    static char trace[TRACE_BYTES], verdict[LINE_BYTES];
    static mu_replica group[REPLICAS];
    size_t used = sizeof JOB - 1, taken;
    uint32_t hosts = 0, words = 0, how = 0, region, position;
    memcpy(trace, JOB, used);
    for (uint32_t r = 0; r < REPLICAS; r++)
        if (mu_replica_new(&group[r], JOB, used, r, 0, 0) != MU_DONE)
            return 1;
    mu_replica_shape(&group[0], &hosts, &words);
    _Atomic uint64_t *memory = calloc((size_t)hosts * words, sizeof *memory);
    for (uint32_t p = 0; memory && p < hosts; p++)
        memory[(size_t)p * words] = MU_FIRST_FENCE;
    for (uint32_t ended = 0; memory && ended < REPLICAS;) {
        ended = 0;
        for (uint32_t r = 0; r < REPLICAS; r++) {
            mu_operation o;
            if (mu_replica_end(&group[r], &how, &region, &position) == MU_DONE || used + LINE_BYTES > TRACE_BYTES ||
                mu_replica_next(&group[r], &o) != MU_DONE) {
                ended++;
                continue;
            }
            if (mu_replica_take(&group[r], made(&memory[(size_t)o.host * words + o.place], &o)) != MU_DONE)
                return 1;
            mu_replica_event(&group[r], trace + used, LINE_BYTES, &taken);
            used += taken;
            trace[used++] = '\n';
        }
    }
    memcpy(trace + used, "end\n", 4);
    used += 4;
    fwrite(trace, 1, used, stdout);
    uint32_t status = mu_answer(MU_CHECK, trace, used, verdict, sizeof verdict, &taken);
    fwrite(verdict, 1, taken < sizeof verdict ? taken : sizeof verdict, stdout);
    for (uint32_t r = 0; r < REPLICAS; r++)
        mu_replica_free(&group[r]);
    free(memory);
    return (int)status;
}
