/* traced.h: an access of a traced run. Beside each word stands its version, how often it was written, and both are changed
 * in one step of 16 bytes: so the versions tell the order of all accesses to a word, with no counter or lock that a killed
 * process could leave taken. */
#ifndef TRACED_H
#define TRACED_H

#include "access.h"
#include "segment.h"

struct versioned {
    uint64_t word, tag;
};

/* A tag is a version, and below it who wrote it. */
static inline uint64_t tag_of(uint64_t version, uint32_t by)
{
    return version << 8 | by;
}

static inline uint64_t version_in(uint64_t tag)
{
    return tag >> 8;
}

/* The access whose event this is. */
static inline mu_operation access_of(const struct event *event)
{
    return (mu_operation){ .kind = event->kind, .host = event->host, .place = event->place,
                           .value = event->value, .expected = event->expected };
}

/* Makes an access of this replica, and notes in the event what it found and which version it read or made. */
uint64_t made_versioned(void *word, const mu_operation *op, uint32_t by, struct event *event);

/* Notes an access before it is made, so that a kill can't lose it. */
void note_begun(struct event *event, const mu_operation *op);

/* Notes the line of an access that was made. */
void note_made(struct event *event, mu_replica *replica);

#endif
