/* plan.h: what the words of the command line want done to the processes, and told of them. */
#ifndef PLAN_H
#define PLAN_H

#include "segment.h"

enum { MOST_DEEDS = 64, LEADER = 255 };

/* What is done to a replica, or to the memory of its host. */
enum deed_kind { KILL, STOP, LOSE };

struct deed {
    enum deed_kind kind;
    uint32_t replica;   /* LEADER is whoever leads then */
    int is_by_entries;  /* due once `entries` are decided; else `after` nanoseconds after all went */
    uint32_t entries;
    uint64_t after, lasts;
};

struct plan {
    const char *program; /* begins each line that is said */
    struct deed deeds[MOST_DEEDS];
    int count, wants_moments;
    int can_lose; /* `lose` is a word too: memories are processes */
    uint32_t longest_nap; /* in microseconds; 0 if it isn't fixed */
    const char *trace;
};

/* Statuses of the programs: those of `mu`, and from 70 on what kept a run from an answer. */
enum { STATUS_DONE = 0, STATUS_USAGE = 1, STATUS_REFUSED = 2, STATUS_UNFINISHED = 3, STATUS_NOT_WRITTEN = 5, STATUS_NO_ANSWER = 70 };

/* Reads the first of these words, and the one behind it if it has one: how many were read. 0 if it is no word that all
 * programs know; -1 and a line if there is something wrong with it. The last word is NULL. */
int plan_read(struct plan *plan, char *const *words);

/* Reads a program's own first words, as plan_read does those that all know; `with` is what it was given. */
typedef int own_words(void *with, char *const *words);

/* Reads all words, those of the plan and the program's own: 0; or -1, and a line. */
int words_read(struct plan *plan, char *const *words, own_words *own, void *with);

/* Whether the deeds are of replicas that there are; else a line says what is wrong. */
int plan_fits(const struct plan *plan, uint32_t replicas);

/* A number of decimal digits, up to `most`: 0 if it is one, else -1 and a line. */
int number_read(const struct plan *plan, const char *name, const char *word, uint64_t least, uint64_t most, uint64_t *number);

/* Says a line on standard error, after the program's name. */
void say(const struct plan *plan, const char *form, ...) __attribute__((format(printf, 2, 3)));

/* A whole file, or standard input for `-`, with a zero behind; NULL and a line if there is none, or if it is too long. */
char *text_read(const struct plan *plan, const char *name, size_t *length);

#endif
