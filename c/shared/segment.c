/* segment.c: laying out and mapping what all processes of a run share. */
#define _GNU_SOURCE
#include "segment.h"

#include "mu.h"

#include <string.h>
#include <sys/mman.h>
#include <sys/stat.h>
#include <time.h>
#include <unistd.h>

enum { PAGE = 4096 };

static const char MAGIC[8] = "mu words";

uint64_t now(void)
{
    struct timespec at;
    clock_gettime(CLOCK_MONOTONIC, &at);
    return (uint64_t)at.tv_sec * 1000000000u + (uint64_t)at.tv_nsec;
}

static uint64_t paged(uint64_t bytes)
{
    return (bytes + PAGE - 1) / PAGE * PAGE;
}

static struct segment laid_out(const struct wanted *wanted)
{
    struct segment made = { .layout = wanted->layout, .flags = wanted->flags, .job_length = wanted->length };
    uint32_t replicas = made.layout.replicas, traced = made.flags & IS_TRACED ? replicas * MOST_STEPS : 0;
    memcpy(made.magic, MAGIC, sizeof MAGIC);
    made.job_at = paged(sizeof made);
    made.pages_at = made.job_at + paged(made.job_length + 1);
    made.commands_at = paged(made.pages_at + replicas * sizeof(struct page));
    made.words_at = paged(made.commands_at + wanted->commands * sizeof(struct command_line));
    made.host_bytes = paged((uint64_t)made.layout.words * word_bytes(&made));
    made.events_at = made.words_at + replicas * made.host_bytes;
    made.bytes = paged(made.events_at + traced * sizeof(struct event));
    return made;
}

static struct segment *mapped(int file, uint64_t bytes)
{
    void *at = mmap(NULL, bytes, PROT_READ | PROT_WRITE, MAP_SHARED, file, 0);
    return at == MAP_FAILED ? NULL : at;
}

struct segment *segment_new(int file, const struct wanted *wanted)
{
    struct segment made = laid_out(wanted);
    struct segment *segment = ftruncate(file, (off_t)made.bytes) ? NULL : mapped(file, made.bytes);
    if (segment == NULL)
        return NULL;
    memcpy((char *)segment + made.job_at, wanted->job, wanted->length);
    memcpy(segment, &made, sizeof made);
    for (uint32_t host = 0; host < made.layout.replicas; host++) {
        atomic_store((_Atomic uint64_t *)word_at(segment, host, FENCE), MU_FIRST_FENCE);
        atomic_store(&page_of(segment, host)->bell.heard, AWAKE);
    }
    return segment;
}

struct segment *segment_of(int file)
{
    struct stat status;
    if (fstat(file, &status) != 0 || status.st_size < (off_t)sizeof(struct segment))
        return NULL;
    struct segment *segment = mapped(file, (uint64_t)status.st_size);
    if (segment == NULL)
        return NULL;
    int is_ours = memcmp(segment->magic, MAGIC, sizeof MAGIC) == 0 && segment->bytes == (uint64_t)status.st_size;
    return is_ours ? segment : NULL;
}
