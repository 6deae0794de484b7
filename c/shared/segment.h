/* segment.h: what all processes of a run map: a head, the job, a page for each replica, commands that come while they
 * run, the words of each host, and, if the run is traced, a list of events for each replica.
 *
 * Only the words are the protocol's. The rest is for who starts the processes, and no replica looks at what another
 * wrote there. */
#ifndef SEGMENT_H
#define SEGMENT_H

#include "words.h"

#include <stdatomic.h>
#include <stddef.h>

enum { MOST_ENTRIES = MOST_ROWS + MOST_REPLICAS, MOST_MOMENTS = 8192, MOST_REPLY = 64, MOST_LINE = 192, MOST_JOB = 1048576 };

/* How a replica has ended, as mu_replica_end tells it; or because a host gave no answer, or a word that no run leaves, or
 * commands came while it was stopped in the midst of a step. */
enum { RUNNING = 0, STOPPED = 1, BUDGET = 2, OUTRUN = 3, FINISHED = 4, UNANSWERED = 5, REFUSED = 6 };

/* What a process is doing. */
enum { ABSENT = 0, READY = 1, GOING = 2, ENDED = 3, TOLD = 4 };

/* What is noted with its time, if moments are wanted. */
enum { ASKED = 1, NUMBERED = 2, RAISED = 3, GRANTED = 4 };

struct moment {
    uint64_t at;  /* nanoseconds of CLOCK_MONOTONIC */
    uint64_t put; /* when the last put before it was made */
    uint32_t what;
    uint32_t value;
};

struct reply {
    _Atomic uint8_t is; /* an enum mu_reply; 0 if there is none yet */
    uint8_t length;
    char text[MOST_REPLY];
};

/* A command that came while the replicas run. */
struct command_line {
    uint32_t client, length;
    char text[MOST_LINE];
};

/* A doorbell: how often it was rung, and at which of these counts its owner sleeps, if it does. */
#define AWAKE UINT32_MAX

struct bell {
    _Atomic uint32_t rung, heard;
};

/* What a process tells of its replica. It alone writes here, but for rings. */
struct page {
    _Atomic uint32_t state, steps, applied, moments;
    _Atomic int32_t process;
    struct bell bell;
    uint32_t end, region, position, commits; /* `region` and `position` are of one that was outrun */
    uint64_t began, ended;
    uint16_t log[MOST_ENTRIES];
    struct reply replies[MOST_ROWS];
    struct moment moment[MOST_MOMENTS];
};

/* An event of a traced run: first what is about to be done, then what it found. `tag` is the version of its word that it
 * read or, if it wrote, made. */
struct event {
    _Atomic uint32_t state; /* 0 none, 1 about to be made, 2 made */
    uint32_t host, place, kind;
    uint64_t value, expected, found, tag, began, ended;
    uint32_t wrote, length;
    char text[72];
};

enum { IS_TRACED = 1, WANTS_MOMENTS = 2, IS_LIVE = 4 };

struct segment {
    char magic[8];
    struct layout layout;
    uint32_t flags, longest_nap; /* in microseconds; 0 if naps go by what turns take */
    _Atomic uint32_t commands;   /* how many came while the replicas run */
    _Atomic uint32_t go, over;   /* all may go; all have an end or are gone, and may tell their replies */
    uint64_t job_at, job_length, pages_at, commands_at, words_at, host_bytes, events_at, bytes;
};

/* What a run needs room for. */
struct wanted {
    const char *job;
    size_t length;
    struct layout layout;
    uint32_t flags, commands; /* how many may come while it runs */
};

/* Lays a new file out for a run, and maps it: NULL if it can't. All words are as at the start. */
struct segment *segment_new(int file, const struct wanted *wanted);

/* Maps the file of another process: NULL if it isn't one. */
struct segment *segment_of(int file);

static inline const char *job_in(const struct segment *segment)
{
    return (const char *)segment + segment->job_at;
}

static inline struct page *page_of(struct segment *segment, uint32_t replica)
{
    return (struct page *)((char *)segment + segment->pages_at) + replica;
}

static inline struct command_line *commands_of(struct segment *segment)
{
    return (struct command_line *)((char *)segment + segment->commands_at);
}

/* How far apart words are: in a traced run a version stands beside each. */
static inline uint32_t word_bytes(const struct segment *segment)
{
    return segment->flags & IS_TRACED ? 16 : 8;
}

static inline void *word_at(struct segment *segment, uint32_t host, uint32_t place)
{
    return (char *)segment + segment->words_at + host * segment->host_bytes + (size_t)place * word_bytes(segment);
}

static inline uint64_t word_in(struct segment *segment, uint32_t host, uint32_t place)
{
    return atomic_load((_Atomic uint64_t *)word_at(segment, host, place));
}

static inline struct event *events_of(struct segment *segment, uint32_t replica)
{
    return (struct event *)((char *)segment + segment->events_at) + (size_t)replica * MOST_STEPS;
}

/* Nanoseconds of CLOCK_MONOTONIC, which all processes of a machine share. */
uint64_t now(void);

#endif
