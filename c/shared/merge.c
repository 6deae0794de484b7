/* merge.c: the events of all processes in one order.
 *
 * Each access tells the version of its word that it read or made. So an order is one in which the events went on if each
 * process keeps its own order, and each access comes after the write that it found and before the next one. The steps had
 * such an order, so there is one; if it leaves a choice, the clock decides. A killed process may have made an access and not
 * told it: then its version is missing, and the event that it was about to make stands for it. In this order each event has
 * to find the word that the one before it left there: that is what the proof asks of a memory. */
#include "merge.h"

#include "lines.h"
#include "traced.h"

#include <stdlib.h>
#include <string.h>

struct merging {
    struct segment *segment;
    struct event *events[MOST_REPLICAS];
    uint32_t count[MOST_REPLICAS], next[MOST_REPLICAS], cut_off;
    size_t not_found;           /* events that didn't find the word that stood */
    uint64_t *version, *word;   /* of each word, so far: its version, and the word itself */
    uint64_t *first;            /* of each word, its first version's place in the next two */
    const struct event **maker; /* of each version of each word, the event that made it */
    uint32_t *reads;            /* of each version of each word, the reads that are still to come */
};

static size_t word_of(const struct merging *it, const struct event *event)
{
    return (size_t)event->host * it->segment->layout.words + event->place;
}

static const struct versioned *versioned_at(const struct merging *it, size_t word)
{
    uint32_t words = it->segment->layout.words;
    return word_at(it->segment, (uint32_t)(word / words), (uint32_t)(word % words));
}

/* The word that stood as this version. */
static uint64_t word_as(const struct merging *it, size_t word, uint64_t version)
{
    const struct event *maker = it->maker[it->first[word] + version];
    if (version == 0 || maker == NULL)
        return word % it->segment->layout.words == FENCE ? MU_FIRST_FENCE : 0;
    mu_operation op = access_of(maker);
    return left_by(&op, maker->found);
}

/* The version that a cut off access has made: one that nobody told of, and that is between its neighbours what this access
 * makes. 0 if there is none: the kill came before the access. */
static uint64_t untold(const struct merging *it, const struct event *event)
{
    size_t word = word_of(it, event);
    const struct versioned *last = versioned_at(it, word);
    const struct event **maker = it->maker + it->first[word];
    uint64_t versions = version_in(last->tag);
    mu_operation op = access_of(event);
    for (uint64_t version = 1; version <= versions; version++) {
        const struct event *next = version < versions ? maker[version + 1] : NULL;
        uint64_t before = word_as(it, word, version - 1), after = next ? next->found : last->word;
        if (maker[version] == NULL && writes(&op, before) && left_by(&op, before) == after)
            return version;
    }
    return 0;
}

static void note_maker(struct merging *it, const struct event *event)
{
    size_t at = it->first[word_of(it, event)] + version_in(event->tag);
    if (event->wrote)
        it->maker[at] = event;
    else
        it->reads[at]++;
}

/* Counts the events that a process told. */
static void count_events(struct merging *it, uint32_t id)
{
    uint32_t count = 0;
    it->events[id] = events_of(it->segment, id);
    while (count < MOST_STEPS && atomic_load(&it->events[id][count].state) == 2)
        count++;
    it->count[id] = count;
}

/* The access that a kill cut off, if it was made. Of one that only read nothing is left. */
static void add_cut_off(struct merging *it, uint32_t id)
{
    struct event *event = &it->events[id][it->count[id]];
    if (it->count[id] == MOST_STEPS || atomic_load(&event->state) != 1 || event->kind == MU_LOAD)
        return;
    uint64_t version = untold(it, event);
    if (version == 0)
        return;
    event->found = word_as(it, word_of(it, event), version - 1);
    event->tag = tag_of(version, id);
    event->wrote = 1;
    write_spelled(&it->segment->layout, id, event);
    note_maker(it, event);
    it->count[id]++;
    it->cut_off++;
}

/* Takes memory for all versions of all words: 0, or -1. */
static int has_room(struct merging *it)
{
    const struct layout *layout = &it->segment->layout;
    size_t words = (size_t)layout->replicas * layout->words, all = 0;
    it->version = calloc(words, sizeof *it->version);
    it->word = calloc(words, sizeof *it->word);
    it->first = calloc(words, sizeof *it->first);
    if (it->version == NULL || it->word == NULL || it->first == NULL)
        return -1;
    for (uint32_t host = 0; host < layout->replicas; host++)
        it->word[(size_t)host * layout->words + FENCE] = MU_FIRST_FENCE;
    for (size_t word = 0; word < words; word++) {
        it->first[word] = all;
        all += version_in(versioned_at(it, word)->tag) + 1;
    }
    it->reads = calloc(all, sizeof *it->reads);
    it->maker = calloc(all, sizeof *it->maker);
    return it->reads && it->maker ? 0 : -1;
}

static void let_go_of(struct merging *it)
{
    free(it->version), free(it->word), free(it->first), free(it->reads), free(it->maker);
    free(it);
}

/* Finds the makers and reads of all versions, and the accesses that were cut off. */
static int is_gathered(struct merging *it)
{
    uint32_t replicas = it->segment->layout.replicas;
    for (uint32_t id = 0; id < replicas; id++)
        count_events(it, id);
    if (has_room(it))
        return 0;
    for (uint32_t id = 0; id < replicas; id++)
        for (uint32_t k = 0; k < it->count[id]; k++)
            note_maker(it, &it->events[id][k]);
    for (uint32_t id = 0; id < replicas; id++)
        add_cut_off(it, id);
    return 1;
}

/* Whether the next event of a process may come now. */
static int may_come(const struct merging *it, uint32_t id)
{
    if (it->next[id] == it->count[id])
        return 0;
    const struct event *event = &it->events[id][it->next[id]];
    size_t word = word_of(it, event);
    uint64_t stands = it->version[word], version = version_in(event->tag);
    if (!event->wrote)
        return stands == version;
    return stands + 1 == version && it->reads[it->first[word] + stands] == 0;
}

/* Takes the next event: the earliest by the clock of those that may come; NULL if none may. */
static const struct event *taken(struct merging *it)
{
    const struct event *best = NULL;
    uint32_t who = 0;
    for (uint32_t id = 0; id < it->segment->layout.replicas; id++)
        if (may_come(it, id) && (best == NULL || it->events[id][it->next[id]].began < best->began))
            best = &it->events[id][it->next[id]], who = id;
    if (best == NULL)
        return NULL;
    size_t word = word_of(it, best);
    it->not_found += it->word[word] != best->found;
    if (best->wrote)
        it->version[word]++, it->word[word] = word_as(it, word, it->version[word]);
    else
        it->reads[it->first[word] + version_in(best->tag)]--;
    it->next[who]++;
    return best;
}

/* Whether a replica was killed, and in the end had nothing to tell. */
static int is_stopped(const struct merging *it, const struct group *group, uint32_t id)
{
    return group->is_killed[id] && atomic_load(&page_of(it->segment, id)->state) != TOLD;
}

/* The script of the job, but with a stop after its last event for each replica that was killed. */
static void print_script(FILE *out, const struct merging *it, const struct group *group, const char *line)
{
    int is_begun = *line != '\0' && strncmp(line, "end", 3) != 0;
    uint32_t id = 0;
    for (; *line && strncmp(line, "end", 3); line += strcspn(line, "\n") + 1)
        if (sscanf(line, "stop %u", &id) != 1 || !is_stopped(it, group, id))
            fprintf(out, "%.*s\n", (int)strcspn(line, "\n"), line);
    for (id = 0; id < it->segment->layout.replicas; id++)
        if (is_stopped(it, group, id)) {
            fprintf(out, "%sstop %u %u\n", is_begun ? "" : "script\n", id, it->count[id]);
            is_begun = 1;
        }
    fprintf(out, "end\n");
}

static void print_job(FILE *out, const struct merging *it, const struct group *group)
{
    const char *job = job_in(it->segment), *script = strstr(job, "\nscript\n"), *end = script ? script : strstr(job, "\nend");
    fprintf(out, "%.*s\n", (int)(end - job), job);
    uint32_t commands = atomic_load(&it->segment->commands);
    for (uint32_t k = 0; k < commands; k++) {
        const struct command_line *line = &commands_of(it->segment)[k];
        fprintf(out, "%s%.*s\n", k ? "" : "client 0\n", (int)line->length, line->text);
    }
    print_script(out, it, group, end + 1);
}

/* Prints the trace: 0, or -1 and a line. */
static int printed(FILE *out, struct merging *it, const struct group *group)
{
    const struct event *event;
    size_t all = 0, count = 0;
    print_job(out, it, group);
    for (uint32_t id = 0; id < it->segment->layout.replicas; id++)
        all += it->count[id];
    for (; (event = taken(it)) != NULL; count++)
        fprintf(out, "%.*s\n", (int)event->length, event->text);
    fprintf(out, "end\n");
    if (count != all)
        fprintf(stderr, "trace: only %zu of %zu events have an order\n", count, all);
    if (it->not_found)
        fprintf(stderr, "trace: %zu events found another word than stood\n", it->not_found);
    return count != all || it->not_found ? -1 : 0;
}

int print_trace(FILE *out, struct segment *segment, const struct group *group, uint32_t *cut_off)
{
    struct merging *it = calloc(1, sizeof *it);
    if (it == NULL)
        return -1;
    it->segment = segment;
    int status = is_gathered(it) ? printed(out, it, group) : -1;
    *cut_off = it->cut_off;
    let_go_of(it);
    return status;
}
