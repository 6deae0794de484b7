/* report.c: logs and replies, put together from the pages of all processes. */
#include "report.h"

#include "job.h"

#include <stdlib.h>

/* A payload number: who wrote the entry, and the first row of its batch, or 4080 and the replica that it marks as gone. */
enum { PAYLOADS = 4096, MARKS = 4080 };

static void print_entry(FILE *out, const struct commands *commands, uint32_t i, uint32_t value)
{
    uint32_t row = value % PAYLOADS;
    if (row >= MARKS) {
        fprintf(out, "%u gone %u\n", i, row - MARKS);
        return;
    }
    for (uint32_t k = row; k <= row + commands->command[row].rest; k++) {
        const struct command *it = &commands->command[k];
        fprintf(out, "%u %u.%u %.*s\n", i, it->client, it->number, (int)it->length, it->line);
    }
}

static const char *end_of(struct page *page, const struct group *group, uint32_t id)
{
    static const char *const names[] = { "running", "stopped", "budget", "outrun", "finished", "unanswered", "refused" };
    if (atomic_load(&page->state) == TOLD)
        return names[page->end];
    return group->is_killed[id] ? "stopped" : "lost";
}

static void print_log(FILE *out, struct segment *segment, const struct group *group, const struct commands *commands,
                      uint32_t id)
{
    struct page *page = page_of(segment, id);
    uint32_t applied = atomic_load(&page->applied);
    fprintf(out, "log %u entries %u commits %u %s", id, applied, page->commits, end_of(page, group, id));
    fprintf(out, page->end == OUTRUN ? " %u %u\n" : "\n", page->region, page->position);
    for (uint32_t i = 0; i < applied; i++)
        print_entry(out, commands, i, page->log[i]);
}

static void print_reply(FILE *out, const struct command *it, const struct reply *reply)
{
    static const char *const names[] = { "lost", "done", "value ", "none", "kept " };
    fprintf(out, "%u.%u %s%.*s\n", it->client, it->number, names[atomic_load(&reply->is)], (int)reply->length,
            reply->text);
}

/* Of those that told by themselves, the replica with the longest log: the least at a tie. */
static uint32_t longest_of(struct segment *segment, uint32_t first, uint32_t end)
{
    uint32_t best = first, most = 0;
    for (uint32_t id = first; id < end; id++) {
        struct page *page = page_of(segment, id);
        uint32_t length = atomic_load(&page->state) == TOLD ? atomic_load(&page->applied) + 1 : 0;
        if (length > most)
            most = length, best = id;
    }
    return best;
}

/* The replies of a replica to what it has applied: how many. */
static uint32_t print_replies(FILE *out, struct page *page, const struct commands *commands)
{
    uint32_t applied = atomic_load(&page->applied), count = 0;
    for (uint32_t i = 0; i < applied; i++)
        if (page->log[i] % PAYLOADS < MARKS)
            count += 1 + commands->command[page->log[i] % PAYLOADS].rest;
    fprintf(out, "replies %u\n", count);
    for (uint32_t i = 0; i < applied; i++)
        for (uint32_t row = page->log[i] % PAYLOADS, k = 0; row < MARKS && k <= commands->command[row].rest; k++)
            print_reply(out, &commands->command[row + k], &page->replies[row + k]);
    return count;
}

/* Commands that came while the replicas ran. */
static void add_live(struct segment *segment, struct commands *commands)
{
    uint32_t count = atomic_load(&segment->commands);
    for (uint32_t k = 0; k < count; k++) {
        const struct command_line *line = &commands_of(segment)[k];
        command_add(commands, line->client, line->text, line->length);
    }
}

int print_report(FILE *out, struct segment *segment, const struct group *group, uint32_t first, uint32_t end)
{
    struct commands *commands = malloc(sizeof *commands);
    if (commands == NULL)
        return STATUS_NO_ANSWER;
    commands_read(job_in(segment), commands);
    add_live(segment, commands);
    fprintf(out, "report %u\n", commands->version);
    for (uint32_t id = first; id < end; id++)
        print_log(out, segment, group, commands, id);
    uint32_t count = print_replies(out, page_of(segment, longest_of(segment, first, end)), commands);
    int status = count == commands->count ? STATUS_DONE : STATUS_UNFINISHED;
    fprintf(out, "status %d\n", status);
    free(commands);
    return status;
}
