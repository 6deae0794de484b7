/* job.c: the numbers and the commands of a job. */
#include "job.h"

#include "mu.h"

#include <stdio.h>
#include <string.h>

/* How many words a host has if there is room for so many rows: 0 if there is no such replica. */
static uint32_t words_for(const char *job, size_t length, uint32_t rows, uint32_t *hosts, uint32_t *status)
{
    mu_replica replica = MU_NO_REPLICA;
    uint32_t words = 0;
    *status = mu_replica_new(&replica, job, length, 0, 1, rows);
    if (*status == MU_DONE)
        *status = mu_replica_shape(&replica, hosts, &words);
    mu_replica_free(&replica);
    return words;
}

/* With room for the most rows the words tell the ring, and with room for none beside the job's its rows. */
uint32_t layout_of(const char *job, size_t length, uint32_t more, struct layout *layout)
{
    uint32_t status, hosts = 0, all = words_for(job, length, MOST_ROWS, &hosts, &status);
    if (status != MU_DONE)
        return status;
    uint32_t least = words_for(job, length, 0, &hosts, &status);
    if (status != MU_DONE)
        return status;
    layout->replicas = hosts;
    layout->ring = all - ROW_WORDS * MOST_ROWS - ASKS - hosts;
    layout->rows = (least - rows_at(layout)) / ROW_WORDS + more;
    layout->words = least + ROW_WORDS * more;
    return layout->rows > MOST_ROWS ? MU_USAGE : MU_DONE;
}

/* Commands of one client, up to so many, are a batch. */
static void tell_rests(struct commands *commands)
{
    for (uint32_t row = commands->count; row-- > 0;) {
        struct command *it = &commands->command[row];
        int is_last = row + 1 == commands->count || it[1].client != it->client || it->number % commands->width == 0;
        it->rest = is_last ? 0 : it[1].rest + 1;
    }
}

void command_add(struct commands *commands, uint32_t client, const char *line, size_t length)
{
    uint32_t number = 1;
    for (uint32_t row = 0; row < commands->count; row++)
        number += commands->command[row].client == client;
    if (commands->count < MOST_ROWS)
        commands->command[commands->count++] =
            (struct command){ .line = line, .length = (uint32_t)length, .client = client, .number = number };
}

void commands_read(const char *job, struct commands *commands)
{
    uint32_t client = 0, unused;
    memset(commands, 0, sizeof *commands);
    commands->width = 1;
    for (const char *line = job, *next; *line; line = next) {
        size_t length = strcspn(line, "\n");
        next = line[length] ? line + length + 1 : line + length;
        if (strncmp(line, "script\n", 7) == 0 || strncmp(line, "end", 3) == 0)
            break;
        if (sscanf(line, "mu %u", &commands->version) == 1 || sscanf(line, "batch %u", &commands->width) == 1 ||
            sscanf(line, "replicas %u", &unused) == 1 || sscanf(line, "ring %u", &unused) == 1 ||
            sscanf(line, "budget %u", &unused) == 1 || sscanf(line, "client %u", &client) == 1)
            continue;
        command_add(commands, client, line, length);
    }
    tell_rests(commands);
}
