/* traced.c: accesses to words with versions, and the notes that a traced run keeps of them. */
#include "traced.h"

__extension__ typedef unsigned __int128 pair;

uint64_t made_versioned(void *word, const mu_operation *op, uint32_t by, struct event *event)
{
    union {
        struct versioned parts;
        pair whole;
    } was, is;
    volatile pair *at = word;
    was.whole = __sync_val_compare_and_swap(at, 0, 0);
    for (;;) {
        uint64_t found = was.parts.word;
        int wrote = writes(op, found);
        is.parts.word = left_by(op, found);
        is.parts.tag = wrote ? tag_of(version_in(was.parts.tag) + 1, by) : was.parts.tag;
        pair stood = __sync_val_compare_and_swap(at, was.whole, is.whole);
        if (stood == was.whole) {
            event->found = found;
            event->tag = is.parts.tag;
            event->wrote = (uint32_t)wrote;
            return op->kind == MU_STORE ? 0 : found;
        }
        was.whole = stood;
    }
}

void note_begun(struct event *event, const mu_operation *op)
{
    event->host = op->host, event->place = op->place, event->kind = op->kind;
    event->value = op->value, event->expected = op->expected;
    event->began = now();
    atomic_store_explicit(&event->state, 1, memory_order_release);
}

void note_made(struct event *event, mu_replica *replica)
{
    size_t taken = 0;
    mu_replica_event(replica, event->text, sizeof event->text, &taken);
    event->length = (uint32_t)taken;
    atomic_store_explicit(&event->state, 2, memory_order_release);
}
