/* Three replicas as threads over C11 atomics, and the trace of their run.
 *
 *     cc -std=c11 -O2 -pthread examples/own/replicas.c -o replicas
 *     ./replicas | ./mu why             a run as it should be
 *     ./replicas no-enter | ./mu why    a leader puts an entry at a region that it did not enter
 *     ./replicas no-drain | ./mu why    the host of region 1 grants on without the drain
 *
 * With the library each step is judged as it is made, in this process; what the judge says is printed
 * in place of the trace, and a legal run is drawn into the file that the last word names:
 *
 *     cc -std=c11 -O2 -pthread -DWITH_MU -Ic examples/own/replicas.c out/libmu.a -o judged
 *     ./judged right run.svg            legal 177, and its picture
 *     ./judged no-drain run.svg         the event that breaks the list, and why
 *
 * Replica 0 leads and commits the first command. In the midst of the second it is slow: it has
 * entered region 1, and puts its entry only once the region is granted on. Replica 1 takes over.
 * The ring is larger than the job, so no place is used twice here. docs/TRACING.md says what the
 * lines of a trace mean. The words and the log stand in steps.h, what is told at the end in told.h. */
#define _POSIX_C_SOURCE 200809L
#include "steps.h"
#include "told.h"
#include <pthread.h>
#include <stdbool.h>
#include <time.h>

/* ---- A replica. ---- */

struct replica {
    int id;
    uint64_t seen_asks[REPLICAS];  /* as a host */
    int served[REPLICAS];
    uint64_t grants[REPLICAS];     /* as a leader: the noted grants, */
    int entered[REPLICAS];         /* what was entered last there, */
    uint64_t minima[REPLICAS], looked[REPLICAS]; /* and the words seen before an enter */
    int known;                     /* how many positions it knows */
} replicas[REPLICAS];

static bool skips_enter, skips_drain, is_slow;
static atomic_bool is_taken_over, may_take_over;
static atomic_int finished;

static _Atomic uint64_t *word_of(int p, int target)
{
    return target == MINIMUM ? &regions[p].minimum : &regions[p].slots[target - FIRST_PLACE];
}

/* The host: serves the least replica that has asked for its region and was not served. A read of
 * asks that shows nothing new need not be in the trace. */
static void serve(struct replica *me)
{
    struct region *mine = &regions[me->id];
    char text[48];
    for (int w = 0; w < REPLICAS; w++) {
        begin_step();
        uint64_t asks = atomic_load(&mine->asks[w]);
        if (asks != me->seen_asks[w]) say("%d readask %d = %d", me->id, w, (int)asks);
        end_step();
        me->seen_asks[w] = asks;
        if ((int)asks == me->served[w]) continue;

        uint64_t old;
        STEP(old = atomic_fetch_or(&mine->fence, 1 << 8), "%d close = fence %s", me->id,
             spelled_fence(text, old));
        if (target_of(old) != NO_TARGET && !(skips_drain && me->id == 1)) {
            _Atomic uint64_t *word = word_of(me->id, target_of(old));
            uint64_t seen;
            STEP(seen = atomic_load(word), "%d looktarget = done", me->id);
            STEP(atomic_compare_exchange_strong(word, &seen, seen + STAMP), "%d drain = done",
                 me->id);
        }
        STEP(atomic_store(&mine->fence, fence_of(w, grant_of(old) + 1, 0, NO_TARGET)),
             "%d grant %d = done", me->id, w);
        me->served[w] = (int)asks;
        return;
    }
}

static void read_row(struct replica *me, int value)
{
    for (int k = 0; k < WORDS; k++) {
        uint64_t word;
        STEP(word = atomic_load(&regions[value / 4096].rows[value % 4096][k]),
             "%d readrow %d %d = %llu", me->id, value, k, (unsigned long long)word);
    }
}

/* The entry is known: its row is fetched, and the own head raised. */
static void apply(struct replica *me, int value)
{
    if (value / 4096 != me->id) read_row(me, value);
    me->known++;
    STEP(atomic_store(&regions[me->id].head, me->known), "%d raisehead %d = done", me->id,
         me->known);
    if (me->known == COMMANDS) atomic_fetch_add(&finished, 1);
}

static uint64_t look(struct replica *me, int p, int i)
{
    begin_step();
    uint64_t slot = atomic_load(&regions[p].slots[i % RING]);
    if (!number_of(slot)) say("%d look %d %d = empty", me->id, p, i);
    else say("%d look %d %d = entry %d %d", me->id, p, i, (int)number_of(slot), value_of(slot));
    end_step();
    return slot;
}

/* The follower: learns what its own FUO says is decided. */
static void follow(struct replica *me)
{
    begin_step();
    int fuo = (int)atomic_load(&regions[me->id].fuo);
    if (fuo > me->known) say("%d fuo %d = %d", me->id, me->id, fuo);
    end_step();
    if (fuo > me->known) apply(me, value_of(look(me, me->id, me->known)));
}

/* ---- The leader. Each call says whether it still leads. ---- */

static bool enter(struct replica *me, int p, int target)
{
    char to[16], text[48];
    uint64_t found = fence_of(me->id, me->grants[p], 0, me->entered[p]);
    begin_step();
    bool is_entered = atomic_compare_exchange_strong(
        &regions[p].fence, &found, fence_of(me->id, me->grants[p], 0, target));
    spelled_target(to, target);
    if (is_entered) say("%d enter %d %s = entered", me->id, p, to);
    else say("%d enter %d %s = lost %s", me->id, p, to, spelled_fence(text, found));
    end_step();
    me->entered[p] = target;
    return is_entered;
}

static bool put(struct replica *me, int p, int target, uint64_t seen, uint64_t word,
                const char *what)
{
    begin_step();
    bool is_done = atomic_compare_exchange_strong(word_of(p, target), &seen, word);
    say("%d %s = %s", me->id, what, is_done ? "done" : "missed");
    end_step();
    return is_done;
}

static void await_grant(struct replica *me, int p)
{
    char text[48];
    for (;;) {
        begin_step();
        uint64_t fence = atomic_load(&regions[p].fence);
        bool is_mine = owner_of(fence) == me->id && !is_closing(fence);
        if (is_mine) say("%d fence %d = fence %s", me->id, p, spelled_fence(text, fence));
        end_step();
        if (is_mine) {
            me->grants[p] = grant_of(fence);
            me->entered[p] = target_of(fence);
            return;
        }
        serve(me);
    }
}

/* All regions under a number above all that was read there; 0 if that is lost. */
static int become_leader(struct replica *me)
{
    char what[32];
    int number = 8 + me->id;
    for (int p = 0; p < REPLICAS; p++)
        STEP(atomic_fetch_add(&regions[p].asks[me->id], 1), "%d ask %d = done", me->id, p);
    for (int p = 0; p < REPLICAS; p++) await_grant(me, p);
    for (int p = 0; p < REPLICAS; p++) {
        STEP(me->minima[p] = atomic_load(&regions[p].minimum), "%d min %d = %d", me->id, p,
             (int)number_of(me->minima[p]));
        while (number <= (int)number_of(me->minima[p])) number += 8;
    }
    for (int p = 0; p < REPLICAS; p++) {
        sprintf(what, "putmin %d %d", p, number);
        uint64_t seen = me->minima[p];
        if (!enter(me, p, MINIMUM)) return 0;
        if (!put(me, p, MINIMUM, seen, seen - number_of(seen) + number, what)) return 0;
    }
    return number;
}

/* One position: what a look shows is kept, of the largest number; else the next own command. */
static bool commit(struct replica *me, int number, int i)
{
    char what[48];
    int value = 4096 * me->id + i;
    uint64_t largest = 0;
    for (int p = 0; p < REPLICAS; p++) {
        me->looked[p] = look(me, p, i);
        if (number_of(me->looked[p]) > largest) {
            largest = number_of(me->looked[p]);
            value = value_of(me->looked[p]);
        }
    }
    for (int k = 0; !largest && k < WORDS; k++)
        STEP(atomic_store(&regions[me->id].rows[i][k], ROWS[i][k]), "%d writerow %d %d %llu = done",
             me->id, i, k, (unsigned long long)ROWS[i][k]);
    for (int p = 0; p < REPLICAS; p++) {
        bool is_left_out = skips_enter && p == 1 && i == 0;
        if (!is_left_out && !enter(me, p, FIRST_PLACE + i % RING)) return false;
        if (is_slow && me->id == 0 && p == 1 && i == 1) {
            atomic_store(&may_take_over, true);
            while (!atomic_load(&is_taken_over)) serve(me);
        }
        uint64_t stamp = me->looked[p] & ~(STAMP - 1);
        sprintf(what, "putslot %d %d %d %d", p, i, number, value);
        if (!put(me, p, FIRST_PLACE + i % RING, me->looked[p],
                 stamp | (uint64_t)value << 32 | (uint64_t)number, what))
            return false;
    }
    for (int p = 0; p < REPLICAS; p++)
        STEP(atomic_store(&regions[p].fuo, i + 1), "%d raisefuo %d %d = done", me->id, p, i + 1);
    apply(me, value);
    return true;
}

static void lead(struct replica *me)
{
    int number = become_leader(me), decided = 0;
    if (!number) return;
    for (int p = 0; p < REPLICAS; p++) {
        int fuo;
        STEP(fuo = (int)atomic_load(&regions[p].fuo), "%d fuo %d = %d", me->id, p, fuo);
        if (fuo > decided) decided = fuo;
    }
    if (me->id == 1) atomic_store(&is_taken_over, true);
    while (me->known < decided) follow(me);
    while (me->known < COMMANDS && commit(me, number, me->known)) serve(me);
}

/* Lets the other threads on. Without it a leader that is at once outrun may fill the list of events. */
static void rest(void)
{
    struct timespec nap = {.tv_nsec = 1000000};
    nanosleep(&nap, NULL);
}

static void *run(void *given)
{
    struct replica *me = given;
    if (me->id == 0) lead(me);
    while (atomic_load(&finished) < REPLICAS) {
        serve(me);
        if (me->id == 1 && atomic_exchange(&may_take_over, false))
            for (lead(me); me->known < COMMANDS; lead(me)) rest();
        if (me->known < COMMANDS) follow(me);
    }
    return NULL;
}

int main(int count, char **words)
{
    pthread_t threads[REPLICAS];
    skips_enter = count > 1 && !strcmp(words[1], "no-enter");
    skips_drain = count > 1 && !strcmp(words[1], "no-drain");
    is_slow = !skips_enter;
    begin_judging();
    for (int r = 0; r < REPLICAS; r++) {
        atomic_store(&regions[r].fence, fence_of(NOBODY, 0, 0, NO_TARGET));
        replicas[r].id = r;
    }
    for (int r = 0; r < REPLICAS; r++)
        if (pthread_create(&threads[r], NULL, run, &replicas[r])) abort();
    for (int r = 0; r < REPLICAS; r++) pthread_join(threads[r], NULL);

    tell(count > 2 ? words[2] : NULL);
    return fflush(stdout) ? 1 : 0;
}
