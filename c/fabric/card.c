/* card.c: opening an endpoint, and accesses as operations of libfabric. */
#define _GNU_SOURCE
#include "card.h"

#include "segment.h"

#include <rdma/fi_atomic.h>
#include <rdma/fi_cm.h>
#include <rdma/fi_endpoint.h>
#include <rdma/fi_errno.h>
#include <sched.h>
#include <stdlib.h>
#include <string.h>
#include <sys/random.h>

/* How often it looks for a completion before it sleeps, and how long it sleeps, in milliseconds. */
enum { SHORT_SPIN = 50, LONGEST_SLEEP = 10 };

enum { MILLISECOND = 1000000 };

int card_tried(const struct card *card, const char *call, int status)
{
    if (status >= 0)
        return 0;
    say(card->plan, "%s: %s: %s", card->provider, call, fi_strerror(-status));
    return -1;
}

#define TRY(card, call)                            \
    do {                                           \
        if (card_tried((card), #call, (int)(call))) \
            return -1;                             \
    } while (0)

struct fi_info *card_hints(const struct card *card)
{
    struct fi_info *hints = fi_allocinfo();
    hints->ep_attr->type = FI_EP_RDM;
    hints->caps = FI_MSG | FI_RMA | FI_ATOMIC;
    hints->domain_attr->mr_mode = FI_MR_LOCAL | FI_MR_VIRT_ADDR | FI_MR_ALLOCATED | FI_MR_PROV_KEY;
    hints->domain_attr->threading = FI_THREAD_DOMAIN;
    hints->fabric_attr->prov_name = strdup(card->provider);
    return hints;
}

/* Whether the provider has all operations that an access may be: 0, or -1 and a line. */
static int has_all(const struct card *card)
{
    static const struct {
        enum fi_op op;
        uint64_t form;
        const char *name;
    } wanted[] = { { FI_ATOMIC_READ, FI_FETCH_ATOMIC, "a load" }, { FI_ATOMIC_WRITE, FI_FETCH_ATOMIC, "a store or swap" },
                   { FI_MAX, FI_FETCH_ATOMIC, "a raise" },        { FI_SUM, FI_FETCH_ATOMIC, "an addition" },
                   { FI_BOR, FI_FETCH_ATOMIC, "setting bits" },   { FI_CSWAP, FI_COMPARE_ATOMIC, "an exchange" } };
    struct fi_atomic_attr attr = { 0 };
    for (size_t k = 0; k < sizeof wanted / sizeof *wanted; k++)
        if (fi_query_atomic(card->domain, FI_UINT64, wanted[k].op, &attr, wanted[k].form)) {
            say(card->plan, "the provider %s has no atomic operation for %s", card->provider, wanted[k].name);
            return -1;
        }
    return 0;
}

/* Makes the buffer, and registers it if the provider wants that. */
static int buffer_made(struct card *card)
{
    uint64_t key = 0;
    card->buffer = calloc(BUFFER_WORDS, sizeof *card->buffer);
    if (card->buffer == NULL)
        return card_tried(card, "calloc", -FI_ENOMEM);
    if (!(card->info->domain_attr->mr_mode & FI_MR_LOCAL))
        return 0;
    getrandom(&key, sizeof key, 0);
    TRY(card, fi_mr_reg(card->domain, card->buffer, BUFFER_WORDS * 8, FI_SEND | FI_RECV | FI_READ | FI_WRITE, 0, key >> 40, 0,
                        &card->buffer_region, NULL));
    card->buffer_key = fi_mr_desc(card->buffer_region);
    return 0;
}

/* Opens the queue of completions, to be slept at if the provider can. */
static int queue_opened(struct card *card)
{
    struct fi_cq_attr attr = { .format = FI_CQ_FORMAT_MSG, .size = 128, .wait_obj = FI_WAIT_FD };
    int status = fi_cq_open(card->domain, &attr, &card->done, NULL);
    if (status == -FI_ENOSYS) {
        card->spins = 1;
        attr.wait_obj = FI_WAIT_NONE;
        status = fi_cq_open(card->domain, &attr, &card->done, NULL);
    }
    return card_tried(card, "fi_cq_open", status);
}

int card_open(struct card *card, const struct host *at)
{
    struct fi_info *hints = card_hints(card);
    struct fi_av_attr addresses = { .type = FI_AV_MAP };
    int status = at ? fi_getinfo(FI_VERSION(1, 17), at->node, at->service, FI_SOURCE, hints, &card->info)
                    : fi_getinfo(FI_VERSION(1, 17), NULL, NULL, 0, hints, &card->info);
    fi_freeinfo(hints);
    if (status == -FI_ENODATA)
        say(card->plan, "there is no provider %s here, or none for what an access needs", card->provider);
    if (status == -FI_ENODATA || card_tried(card, "fi_getinfo", status))
        return -1;
    TRY(card, fi_fabric(card->info->fabric_attr, &card->fabric, NULL));
    TRY(card, fi_domain(card->fabric, card->info, &card->domain, NULL));
    if (has_all(card) || queue_opened(card))
        return -1;
    TRY(card, fi_av_open(card->domain, &addresses, &card->addresses, NULL));
    TRY(card, fi_endpoint(card->domain, card->info, &card->endpoint, NULL));
    TRY(card, fi_ep_bind(card->endpoint, &card->addresses->fid, 0));
    TRY(card, fi_ep_bind(card->endpoint, &card->done->fid, FI_TRANSMIT | FI_RECV));
    TRY(card, fi_enable(card->endpoint));
    return buffer_made(card);
}

void card_close(struct card *card)
{
    struct fid *const open[] = { card->endpoint ? &card->endpoint->fid : NULL,
                                 card->buffer_region ? &card->buffer_region->fid : NULL,
                                 card->done ? &card->done->fid : NULL,
                                 card->addresses ? &card->addresses->fid : NULL,
                                 card->domain ? &card->domain->fid : NULL,
                                 card->fabric ? &card->fabric->fid : NULL };
    for (size_t k = 0; k < sizeof open / sizeof *open; k++)
        if (open[k])
            fi_close(open[k]);
    if (card->info)
        fi_freeinfo(card->info);
    free(card->buffer);
}

ssize_t card_next(struct card *card, struct fi_cq_msg_entry *entry)
{
    ssize_t count = -FI_EAGAIN;
    for (int k = 0; k < SHORT_SPIN && count == -FI_EAGAIN; k++)
        count = fi_cq_read(card->done, entry, 1);
    if (count == -FI_EAGAIN && card->spins)
        sched_yield();
    else if (count == -FI_EAGAIN)
        count = fi_cq_sread(card->done, entry, 1, NULL, LONGEST_SLEEP);
    return count == -FI_EINTR ? -FI_EAGAIN : count; /* a process that was stopped, and goes on */
}

int card_completed(struct card *card, uint64_t began, const void *mark)
{
    struct fi_cq_msg_entry entry;
    struct fi_cq_err_entry wrong = { 0 };
    for (;;) {
        ssize_t count = card_next(card, &entry);
        if (count == 1 && entry.op_context == mark)
            return 0;
        if (count == -FI_EAVAIL)
            return fi_cq_readerr(card->done, &wrong, 0) == 1 ? -wrong.err : -FI_EOTHER;
        if (count < 0 && count != -FI_EAGAIN)
            return (int)count;
        if (now() - began > card->limit)
            return -FI_ETIMEDOUT;
    }
}

int card_is_again(struct card *card, ssize_t status, uint64_t began)
{
    struct fi_cq_msg_entry none;
    if (status != -FI_EAGAIN || now() - began > card->limit)
        return 0;
    fi_cq_read(card->done, &none, 0);
    return 1;
}

int card_told(const struct card *card, uint32_t host, int status, const char *what)
{
    if (status >= 0)
        return 0;
    say(card->plan, "replica %u ends: the memory of host %u gives no answer to %s within %lu ms (%s)", card->self, host, what,
        (unsigned long)(card->limit / MILLISECOND), fi_strerror(-status));
    return -1;
}

int card_made(struct card *card, const mu_operation *op, uint64_t *found)
{
    static const enum fi_op ops[] = { FI_ATOMIC_READ, FI_ATOMIC_WRITE, FI_MAX, FI_SUM, FI_BOR, FI_CSWAP, FI_ATOMIC_WRITE };
    static const char *const names[] = { "a load", "a store", "a raise", "an addition", "setting bits", "an exchange",
                                         "a swap" };
    const struct peer *peer = &card->peer[op->host];
    uint64_t at = peer->base + (uint64_t)op->place * card->word_bytes, *words = card->buffer, began = now();
    void *key = card->buffer_key;
    ssize_t status;
    words[GIVEN] = op->kind == MU_ADD ? 1 : op->value;
    words[COMPARED] = op->expected;
    do {
        if (op->kind == MU_COMPARE)
            status = fi_compare_atomic(card->endpoint, words + GIVEN, 1, key, words + COMPARED, key, words + FOUND, key,
                                       peer->at, at, peer->key, FI_UINT64, FI_CSWAP, words);
        else
            status = fi_fetch_atomic(card->endpoint, words + GIVEN, 1, key, words + FOUND, key, peer->at, at, peer->key,
                                     FI_UINT64, ops[op->kind], words);
    } while (card_is_again(card, status, began));
    status = status < 0 ? status : card_completed(card, began, words);
    *found = words[FOUND];
    return card_told(card, op->host, (int)status, names[op->kind]);
}
