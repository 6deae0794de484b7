/* judges.c: calls on judges of lists. */
#include "calls.h"

void play_judge(void)
{
    static const char *const lines[] = { "0 ask 1", "0 fence 1", "1 beat", "0 readbeat 1 = 0",
                                         "", "9 beat", "0 beat = 1", "0 beat" };
    uint32_t k = below(HELD), status;
    char text[4096];
    size_t taken = 9, length;
    switch (below(6)) {
    case 0:
        mu_judge_free(&calls.judges[k]);
        expect(calls.judges[k].at == NULL, "a judge that was let go");
        break;
    case 1:
        if (calls.judges[k].at)
            return;
        memset(&calls.judges[k], below(256) & 0xff, sizeof calls.judges[k]);
        length = job_drawn(text, sizeof text);
        give_room();
        status = mu_judge_new(&calls.judges[k], text, length, calls.room ? calls.out : NULL, calls.room, &taken);
        expect((status == MU_DONE) == (calls.judges[k].at != NULL) && (status || taken == 0), "a new judge");
        told(taken, "why there is no judge");
        break;
    case 2:
        watch(A_JUDGE, k);
        give_room();
        status = mu_judge_why(&calls.judges[k], calls.room ? calls.out : NULL, calls.room, &taken);
        expect((status == MU_USAGE) == (calls.judges[k].at == NULL), "a judge that isn't there");
        told(taken, "a judge's why");
        if (status == MU_USAGE)
            refused("a judge changed by a wrong use");
        break;
    default:
        watch(A_JUDGE, k);
        length = below(4) ? strlen(strcpy(text, lines[below(8)])) : command_drawn(text, sizeof text);
        status = mu_judge_take(&calls.judges[k], text, length);
        if (status == MU_REFUSED || status == MU_USAGE)
            refused("a judge changed by a line that it refused");
    }
}
