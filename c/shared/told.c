/* told.c: trace, moments, report, and what became of processes. */
#include "told.h"

#include "job.h"
#include "merge.h"
#include "moments.h"
#include "mu.h"
#include "report.h"

#include <stdlib.h>

int print_refusal(const struct plan *plan, const char *job, size_t length)
{
    char text[256];
    size_t taken = 0;
    uint32_t status = mu_answer(MU_REPLAY, job, length, text, sizeof text, &taken);
    fwrite(text, 1, taken < sizeof text ? taken : sizeof text, stdout);
    say(plan, "./mu why, given the same input, says what is expected there");
    return (int)status;
}

int wanted_for(const struct plan *plan, const char *job, size_t length, struct wanted *wanted)
{
    *wanted = (struct wanted){ .job = job, .length = length };
    wanted->flags = (plan->trace ? IS_TRACED : 0) | (plan->wants_moments ? WANTS_MOMENTS : 0);
    uint32_t status = layout_of(job, length, 0, &wanted->layout);
    if (status == MU_REFUSED)
        return print_refusal(plan, job, length);
    if (status == MU_DONE && !plan_fits(plan, wanted->layout.replicas))
        return STATUS_USAGE;
    return (int)status;
}

int job_run(const struct plan *plan, const char *name, job_runner *run, const void *with)
{
    size_t length = 0;
    char *job = text_read(plan, name, &length);
    int status = job ? run(with, job, length) : STATUS_USAGE;
    free(job);
    return status;
}

/* Writes the trace, if one is wanted: 0, or -1 and a line. */
static int trace_written(const struct plan *plan, struct segment *segment, const struct group *group)
{
    uint32_t cut_off = 0;
    FILE *out = plan->trace ? fopen(plan->trace, "w") : NULL;
    if (plan->trace == NULL)
        return 0;
    int status = out ? print_trace(out, segment, group, &cut_off) : -1;
    if (out && fclose(out))
        status = -1;
    if (status)
        say(plan, "the trace isn't in %s", plan->trace);
    if (cut_off)
        say(plan, "%u accesses were made by replicas that were killed before they told them", cut_off);
    return status;
}

int told_all(const struct plan *plan, struct segment *segment, struct group *group)
{
    int wrong = trace_written(plan, segment, group);
    for (uint32_t id = 0; id < segment->layout.replicas; id++)
        if (group->signal[id])
            say(plan, "the process of replica %u ended by signal %d", id, group->signal[id]);
    if (plan->wants_moments)
        print_moments(stderr, segment, group);
    int status = print_report(stdout, segment, group, 0, segment->layout.replicas);
    if (fflush(stdout) != 0)
        return STATUS_NOT_WRITTEN;
    return wrong ? STATUS_NO_ANSWER : status;
}
