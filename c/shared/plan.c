/* plan.c: reading the words, each refused by its own name. */
#include "plan.h"

#include <stdarg.h>
#include <stdio.h>
#include <stdlib.h>
#include <string.h>

#define NANOSECONDS UINT64_C(1000)

enum { MOST_NAP = 8192 };

/* An hour, in microseconds. */
#define MOST_TIME UINT64_C(3600000000)

void say(const struct plan *plan, const char *form, ...)
{
    va_list parts;
    va_start(parts, form);
    fprintf(stderr, "%s: ", plan->program);
    vfprintf(stderr, form, parts);
    fputc('\n', stderr);
    va_end(parts);
}

/* The digits at the beginning of a text as a number: what follows them, or NULL if there are none or too many. */
static const char *digits_read(const char *text, uint64_t *number)
{
    size_t count = strspn(text, "0123456789");
    if (count == 0 || count > 15)
        return NULL;
    *number = strtoull(text, NULL, 10);
    return text + count;
}

int number_read(const struct plan *plan, const char *name, const char *word, uint64_t least, uint64_t most, uint64_t *number)
{
    const char *rest = word ? digits_read(word, number) : NULL;
    if (rest && *rest == '\0' && *number >= least && *number <= most)
        return 0;
    say(plan, "%s %s: a number from %llu to %llu should follow", name, word ? word : "", (unsigned long long)least,
        (unsigned long long)most);
    return -1;
}

/* Reads whom: what follows it, or NULL. */
static const char *whom_read(const char *word, struct deed *deed)
{
    uint64_t replica = 0;
    if (strncmp(word, "leader", 6) == 0 && deed->kind != LOSE) {
        deed->replica = LEADER;
        return word + 6;
    }
    const char *rest = digits_read(word, &replica);
    deed->replica = replica < LEADER ? (uint32_t)replica : LEADER - 1;
    return rest;
}

/* Reads when: what follows it, or NULL. */
static const char *when_read(const char *word, struct deed *deed)
{
    uint64_t number = 0;
    deed->is_by_entries = *word == '#';
    const char *rest = digits_read(word + deed->is_by_entries, &number);
    if (number > MOST_TIME)
        return NULL;
    deed->entries = (uint32_t)number;
    deed->after = number * NANOSECONDS;
    return rest;
}

/* Reads how long, if the deed is a stop: 0 if all is as it should be. */
static int length_read(const char *word, struct deed *deed)
{
    uint64_t number = 0;
    if (deed->kind != STOP)
        return *word != '\0';
    const char *rest = *word == '+' ? digits_read(word + 1, &number) : NULL;
    deed->lasts = number * NANOSECONDS;
    return rest == NULL || *rest != '\0' || number > MOST_TIME;
}

static int deed_read(struct plan *plan, enum deed_kind kind, const char *name, const char *word)
{
    static const char *const forms[] = { "R@MICROSECONDS or R@#ENTRIES, R a replica or `leader`",
                                         "R@WHEN+MICROSECONDS, R a replica or `leader`", "H@MICROSECONDS or H@#ENTRIES" };
    struct deed *deed = &plan->deeds[plan->count];
    if (plan->count == MOST_DEEDS) {
        say(plan, "%s: at most %d kills and stops are taken", name, MOST_DEEDS);
        return -1;
    }
    *deed = (struct deed){ .kind = kind };
    const char *rest = word ? whom_read(word, deed) : NULL;
    rest = rest && *rest == '@' ? when_read(rest + 1, deed) : NULL;
    if (rest == NULL || length_read(rest, deed)) {
        say(plan, "%s %s: it should be %s %s", name, word ? word : "", name, forms[kind]);
        return -1;
    }
    plan->count++;
    return 2;
}

int plan_read(struct plan *plan, char *const *words)
{
    const char *word = words[0], *next = words[1];
    uint64_t number = 0;
    if (strcmp(word, "kill") == 0)
        return deed_read(plan, KILL, word, next);
    if (strcmp(word, "stop") == 0)
        return deed_read(plan, STOP, word, next);
    if (plan->can_lose && strcmp(word, "lose") == 0)
        return deed_read(plan, LOSE, word, next);
    if (strcmp(word, "moments") == 0) {
        plan->wants_moments = 1;
        return 1;
    }
    if (strcmp(word, "trace") == 0) {
        plan->trace = next;
        if (next == NULL)
            say(plan, "trace: the name of a file should follow");
        return next ? 2 : -1;
    }
    if (strcmp(word, "nap"))
        return 0;
    if (number_read(plan, word, next, 1, MOST_NAP, &number))
        return -1;
    plan->longest_nap = (uint32_t)number;
    return 2;
}

int words_read(struct plan *plan, char *const *words, own_words *own, void *with)
{
    while (*words) {
        int count = plan_read(plan, words);
        if (count == 0)
            count = own(with, words);
        if (count == 0)
            say(plan, "%s is no word; --help tells those that there are", *words);
        if (count <= 0)
            return -1;
        words += count;
    }
    return 0;
}

int plan_fits(const struct plan *plan, uint32_t replicas)
{
    for (int k = 0; k < plan->count; k++)
        if (plan->deeds[k].replica != LEADER && plan->deeds[k].replica >= replicas) {
            say(plan, "there is no replica %u: the job has replicas 0 to %u", plan->deeds[k].replica, replicas - 1);
            return 0;
        }
    return 1;
}

char *text_read(const struct plan *plan, const char *name, size_t *length)
{
    FILE *from = strcmp(name, "-") ? fopen(name, "r") : stdin;
    char *text = malloc(MOST_JOB + 2);
    *length = from && text ? fread(text, 1, MOST_JOB + 1, from) : 0;
    int is_read = from && text && !ferror(from);
    if (!is_read)
        say(plan, "there is no file %s, or none that can be read", name);
    else if (*length > MOST_JOB)
        say(plan, "%s has more than %d bytes", name, MOST_JOB);
    if (from && from != stdin)
        fclose(from);
    if (is_read && *length <= MOST_JOB) {
        text[*length] = '\0';
        return text;
    }
    free(text);
    return NULL;
}
