/* words.h: which word of a host is what. docs/WORDS.md says what stands in each. */
#ifndef WORDS_H
#define WORDS_H

#include <stdint.h>

enum { MOST_REPLICAS = 7, MOST_ROWS = 1500, MOST_STEPS = 131071, ROW_WORDS = 12 };

/* Places of a host's words. The asks of each replica are followed by the slots of the log, and these by the rows. */
enum { FENCE = 0, MINIMUM = 1, FUO = 2, HEAD = 3, BEATS = 4, ASKS = 5 };

/* How many words there are, and where slots and rows begin. */
struct layout {
    uint32_t replicas, ring, rows, words;
};

static inline uint32_t slots_at(const struct layout *layout)
{
    return ASKS + layout->replicas;
}

static inline uint32_t rows_at(const struct layout *layout)
{
    return ASKS + layout->replicas + layout->ring;
}

/* What stands in a fence: 7 is nobody. */
enum { NOBODY = 7 };

static inline uint32_t owner_in(uint64_t fence)
{
    return (uint32_t)(fence >> 11 & 7);
}

static inline int is_closing(uint64_t fence)
{
    return (int)(fence >> 14 & 1);
}

static inline uint32_t grant_in(uint64_t fence)
{
    return (uint32_t)(fence >> 15 & 131071);
}

/* The place that somebody has entered: 0 none, 1 the minimum, and from 2 on a place of the log. */
static inline uint32_t target_in(uint64_t fence)
{
    return (uint32_t)(fence & 2047);
}

#endif
