/* What replicas.c prints at the end: the trace, or with the library what the judge says of it. */
#ifndef TOLD_H
#define TOLD_H
#include "steps.h"

static void print_trace(FILE *out)
{
    fputs(JOB, out);
    for (int k = 0; k < event_count; k++) fprintf(out, "%s\n", events[k]);
    fputs("end\n", out);
}

#ifdef WITH_MU
/* The picture of the trace that this file holds, into one of that name. */
static void draw(FILE *trace, const char *name)
{
    enum { ROOM = 1 << 20 };
    static char input[ROOM], picture[ROOM];
    size_t length, taken;
    FILE *out = fopen(name, "w");
    rewind(trace);
    length = fread(input, 1, ROOM, trace);
    if (!out || mu_draw_answer(0, MU_LAST_STEP, input, length, picture, ROOM, &taken) != MU_DONE
        || taken > ROOM)
        abort();
    fwrite(picture, 1, taken, out);
    fclose(out);
}

/* What the judge says, and the picture of a legal run. */
static void tell(const char *name)
{
    char why[1024];
    size_t taken;
    uint32_t status = mu_judge_why(&judge, why, sizeof why, &taken);
    fwrite(why, 1, taken < sizeof why ? taken : sizeof why, stdout);
    if (status == MU_DONE && name) {
        FILE *trace = tmpfile();
        if (!trace) abort();
        print_trace(trace);
        draw(trace, name);
        fclose(trace);
    }
    mu_judge_free(&judge);
}
#else
static void tell(const char *name)
{
    (void)name;
    print_trace(stdout);
}
#endif

#endif
