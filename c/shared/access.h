/* access.h: one access as one atomic step on one word. It is tried once, and tells the word that it found.
 *
 * This is all that a run owes the proof (docs/PROCESSES.md): `made` here, and `card_made` over a network. */
#ifndef ACCESS_H
#define ACCESS_H

#include "mu.h"

#include <stdatomic.h>

/* The greater of two, for which C11 has no step: repeated until nobody comes between. */
static inline uint64_t raised(_Atomic uint64_t *word, uint64_t least)
{
    uint64_t found = atomic_load(word);
    while (found < least && !atomic_compare_exchange_weak(word, &found, least))
        ;
    return found;
}

/* Makes the access. All orders are sequentially consistent, as the proof of the words has them. */
static inline uint64_t made(_Atomic uint64_t *word, const mu_operation *op)
{
    uint64_t found = op->expected;
    switch (op->kind) {
    case MU_STORE:
        atomic_store(word, op->value);
        return 0;
    case MU_RAISE:
        return raised(word, op->value);
    case MU_ADD:
        return atomic_fetch_add(word, 1);
    case MU_SET_BITS:
        return atomic_fetch_or(word, op->value);
    case MU_COMPARE:
        atomic_compare_exchange_strong(word, &found, op->value);
        return found;
    case MU_SWAP:
        return atomic_exchange(word, op->value);
    default:
        return atomic_load(word);
    }
}

/* Whether an access that found this word writes one, if only the same. */
static inline int writes(const mu_operation *op, uint64_t found)
{
    if (op->kind == MU_COMPARE)
        return found == op->expected;
    return op->kind != MU_LOAD && !(op->kind == MU_RAISE && found >= op->value);
}

/* The word that an access leaves, by the one that it found. */
static inline uint64_t left_by(const mu_operation *op, uint64_t found)
{
    if (!writes(op, found))
        return found;
    if (op->kind == MU_ADD)
        return found + 1;
    return op->kind == MU_SET_BITS ? found | op->value : op->value;
}

#endif
