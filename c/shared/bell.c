/* bell.c: a futex. Its owner says that it sleeps, and then looks once more; who rings counts, and then looks whether it
 * sleeps: so one of both sees the other. */
#define _GNU_SOURCE
#include "bell.h"

#include <linux/futex.h>
#include <sys/syscall.h>
#include <unistd.h>

uint32_t bell_count(struct bell *bell)
{
    return atomic_load(&bell->rung);
}

void bell_await(struct bell *bell, uint32_t count)
{
    atomic_store(&bell->heard, count);
    while (atomic_load(&bell->rung) == count)
        syscall(SYS_futex, &bell->rung, FUTEX_WAIT, count, NULL, NULL, 0);
    atomic_store(&bell->heard, AWAKE);
}

void bell_ring(struct bell *bell)
{
    atomic_fetch_add(&bell->rung, 1);
    if (atomic_load(&bell->heard) != AWAKE)
        syscall(SYS_futex, &bell->rung, FUTEX_WAKE, 1, NULL, NULL, 0);
}

int bell_is_quiet(struct bell *bell)
{
    uint32_t heard = atomic_load(&bell->heard);
    return heard != AWAKE && heard == atomic_load(&bell->rung);
}
