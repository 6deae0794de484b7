/* moments.c: moments of a run. Only the accesses that matter ask for the time. */
#include "moments.h"

/* A drain makes the next stamp, and changes nothing else of a word. */
#define STAMP (UINT64_C(1) << 47)

/* Which moment it is: 0 if none; and what it is about. */
static uint32_t moment_of(const struct layout *layout, struct last_seen *seen, const mu_operation *op, uint64_t found,
                          uint32_t *value)
{
    int is_slot = op->place >= slots_at(layout) && op->place < rows_at(layout);
    int takes = op->kind == MU_COMPARE && found == op->expected && op->value - op->expected != STAMP;
    *value = op->host;
    if (takes && is_slot)
        seen->put = now();
    if (takes && op->place == MINIMUM)
        return NUMBERED;
    if (op->kind == MU_ADD && op->place >= ASKS && op->host == 0)
        return ASKED;
    if (op->kind == MU_SWAP) {
        *value = owner_in(op->value);
        return GRANTED;
    }
    if (op->kind != MU_RAISE || op->place != FUO || op->value <= seen->raise)
        return 0;
    seen->raise = op->value;
    *value = (uint32_t)op->value;
    return RAISED;
}

void note_moment(struct page *page, const struct layout *layout, struct last_seen *seen, const mu_operation *op,
                 uint64_t found)
{
    uint32_t value, count = atomic_load_explicit(&page->moments, memory_order_relaxed);
    uint32_t what = moment_of(layout, seen, op, found, &value);
    if (what == 0 || count == MOST_MOMENTS)
        return;
    page->moment[count] = (struct moment){ .at = now(), .put = seen->put, .what = what, .value = value };
    atomic_store_explicit(&page->moments, count + 1, memory_order_release);
}

static double after(const struct group *group, uint64_t at)
{
    return ((double)at - (double)group->began) / 1e3;
}

void print_moments(FILE *out, struct segment *segment, const struct group *group)
{
    static const char *const names[] = { "", "asks", "numbers", "raises", "grants" };
    for (uint32_t id = 0; id < segment->layout.replicas; id++) {
        struct page *page = page_of(segment, id);
        uint32_t count = atomic_load(&page->moments);
        if (group->lost[id])
            fprintf(out, "moment %u memory lost at %.1f\n", id, after(group, group->lost[id]));
        if (group->is_killed[id])
            fprintf(out, "moment %u killed at %.1f\n", id, after(group, group->killed[id]));
        if (group->stopped[id])
            fprintf(out, "moment %u stopped at %.1f until %.1f\n", id, after(group, group->stopped[id]),
                    after(group, group->continued[id]));
        for (uint32_t k = 0; k < count; k++) {
            const struct moment *it = &page->moment[k];
            fprintf(out, "moment %u %s %u at %.1f", id, names[it->what], it->value, after(group, it->at));
            fprintf(out, it->what == RAISED && it->put ? " put at %.1f\n" : "\n", after(group, it->put));
        }
        fprintf(out, "moment %u went at %.1f ended at %.1f after %u steps\n", id, after(group, page->began),
                page->ended ? after(group, page->ended) : -1.0, atomic_load(&page->steps));
    }
}
