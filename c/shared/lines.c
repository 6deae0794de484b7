/* lines.c: which verb a write is follows from its place and kind (docs/WORDS.md). */
#include "lines.h"

#include "mu.h"

#include <stdarg.h>
#include <stdio.h>

/* What a drain adds to a minimum or slot. */
#define STAMP (UINT64_C(1) << 47)

static void spell(struct event *event, const char *form, ...) __attribute__((format(printf, 2, 3)));

static void spell(struct event *event, const char *form, ...)
{
    va_list parts;
    va_start(parts, form);
    int length = vsnprintf(event->text, sizeof event->text, form, parts);
    va_end(parts);
    event->length = length < (int)sizeof event->text ? (uint32_t)length : 0;
}

/* A fence as a trace has it: owner, grant, state and target. */
static void spell_close(uint32_t by, struct event *event)
{
    uint64_t fence = event->found;
    char owner[8] = "none", target[24] = "none";
    if (owner_in(fence) != NOBODY)
        snprintf(owner, sizeof owner, "%u", owner_in(fence));
    if (target_in(fence) == 1)
        snprintf(target, sizeof target, "min");
    if (target_in(fence) > 1)
        snprintf(target, sizeof target, "place %u", target_in(fence) - 2);
    spell(event, "%u close = fence %s %u %s %s", by, owner, grant_in(fence), is_closing(fence) ? "closing" : "open", target);
}

static void spell_of_fence(uint32_t by, struct event *event)
{
    uint32_t target = target_in(event->value);
    if (event->kind == MU_SWAP)
        spell(event, "%u grant %u = done", by, owner_in(event->value));
    else if (event->kind == MU_SET_BITS)
        spell_close(by, event);
    else if (target == 1)
        spell(event, "%u enter %u min = entered", by, event->host);
    else
        spell(event, "%u enter %u place %u = entered", by, event->host, target - 2);
}

static void spell_of_slot(const struct layout *layout, uint32_t by, struct event *event)
{
    unsigned long word = (unsigned long)event->value;
    unsigned long position = (word >> 38 & 511) * layout->ring + (event->place - slots_at(layout));
    spell(event, "%u putslot %u %lu %lu %lu = done", by, event->host, position, word >> 15 & 0x7fffff, word & 32767);
}

void write_spelled(const struct layout *layout, uint32_t by, struct event *event)
{
    uint32_t place = event->place, rows = rows_at(layout), row = place - rows;
    unsigned long word = (unsigned long)event->value;
    if (event->kind == MU_COMPARE && event->value - event->expected == STAMP)
        spell(event, "%u drain = done", by);
    else if (place >= rows)
        spell(event, "%u writerow %u %u %lu = done", by, row / ROW_WORDS, row % ROW_WORDS, word);
    else if (place >= slots_at(layout))
        spell_of_slot(layout, by, event);
    else if (place >= ASKS)
        spell(event, "%u ask %u = done", by, event->host);
    else if (place == BEATS)
        spell(event, "%u beat = done", by);
    else if (place == HEAD)
        spell(event, "%u raisehead %lu = done", by, word);
    else if (place == FUO)
        spell(event, "%u raisefuo %u %lu = done", by, event->host, word);
    else if (place == MINIMUM)
        spell(event, "%u putmin %u %lu = done", by, event->host, word & 0x7fffff);
    else
        spell_of_fence(by, event);
}
