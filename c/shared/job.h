/* job.h: what a run needs to know of a job that the library has read. */
#ifndef JOB_H
#define JOB_H

#include "words.h"

#include <stddef.h>

/* A command: its line, its client and number, and how many of its batch follow. */
struct command {
    const char *line;
    uint32_t length, client, number, rest;
};

struct commands {
    uint32_t version, width, count;
    struct command command[MOST_ROWS];
};

/* Where a job's words are, if there is room for some more commands: the status that mu_replica_new answers. */
uint32_t layout_of(const char *job, size_t length, uint32_t more, struct layout *layout);

/* The commands of a job, whose text stays where it is. It has to be in the grammar. */
void commands_read(const char *job, struct commands *commands);

/* Adds the next command of a client. */
void command_add(struct commands *commands, uint32_t client, const char *line, size_t length);

#endif
