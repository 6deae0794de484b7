/* memory.c: words that others reach, and the hello by which they get the key to them. */
#define _GNU_SOURCE
#include "memory.h"

#include "segment.h"

#include <rdma/fi_cm.h>
#include <rdma/fi_endpoint.h>
#include <rdma/fi_errno.h>
#include <string.h>
#include <sys/mman.h>
#include <sys/random.h>
#include <time.h>

/* A memory may be started later than who says hello: so long they try, in nanoseconds. */
#define HELLO_LIMIT UINT64_C(15000000000)

#define MAGIC UINT64_C(0x6d75206661627269)

enum { MOST_RING = 1024, MOST_WORDS = ASKS + MOST_REPLICAS + MOST_RING + ROW_WORDS * MOST_ROWS };

/* A message of who wants to reach words: the address of its endpoint. And of who has them. */
struct hello {
    uint64_t magic, length;
    char address[112];
};

struct welcome {
    uint64_t magic, key, base, bytes;
};

static void *hello_in(struct card *card)
{
    return card->buffer + HELLO;
}

void *memory_new(size_t *bytes)
{
    *bytes = MOST_WORDS * sizeof(uint64_t);
    void *words = mmap(NULL, *bytes, PROT_READ | PROT_WRITE, MAP_PRIVATE | MAP_ANONYMOUS, -1, 0);
    if (words == MAP_FAILED)
        return NULL;
    *(uint64_t *)words = MU_FIRST_FENCE;
    return words;
}

/* Answers who said hello. One whose address is wrong, or who is gone again, gets no answer. */
static void welcome_sent(struct card *card, const struct welcome *welcome)
{
    struct hello *hello = hello_in(card);
    struct fi_cq_msg_entry entry;
    fi_addr_t who;
    ssize_t status;
    if (hello->magic != MAGIC || fi_av_insert(card->addresses, hello->address, 1, &who, 0, NULL) != 1)
        return;
    memcpy(card->buffer, welcome, sizeof *welcome);
    while ((status = fi_send(card->endpoint, card->buffer, sizeof *welcome, card->buffer_key, who, NULL)) == -FI_EAGAIN)
        fi_cq_read(card->done, &entry, 0);
}

static int hello_awaited(struct card *card)
{
    ssize_t status = fi_recv(card->endpoint, hello_in(card), sizeof(struct hello), card->buffer_key, FI_ADDR_UNSPEC, NULL);
    return card_tried(card, "fi_recv", (int)status);
}

/* Registers the words. The key is drawn anew by each process: a memory that was started again has lost its words, and to who
 * knows the old key it gives no answer. */
static int registered(struct card *card, void *words, size_t bytes, struct welcome *welcome)
{
    struct fid_mr *region;
    uint64_t key = 0;
    getrandom(&key, sizeof key, 0);
    if (card->info->domain_attr->mr_key_size < 8)
        key >>= 64 - 8 * card->info->domain_attr->mr_key_size;
    int status = fi_mr_reg(card->domain, words, bytes, FI_REMOTE_READ | FI_REMOTE_WRITE, 0, key, 0, &region, NULL);
    if (card_tried(card, "fi_mr_reg", status))
        return -1;
    uint64_t base = card->info->domain_attr->mr_mode & FI_MR_VIRT_ADDR ? (uint64_t)(uintptr_t)words : 0;
    *welcome = (struct welcome){ .magic = MAGIC, .key = fi_mr_key(region), .base = base, .bytes = bytes };
    return 0;
}

int memory_serve(struct card *card, const struct host *at, void *words, size_t bytes)
{
    struct fi_cq_msg_entry entry;
    struct fi_cq_err_entry wrong = { 0 };
    struct welcome welcome;
    if (card_open(card, at) || registered(card, words, bytes, &welcome) || hello_awaited(card)) {
        say(card->plan, "there is no memory at %s %s", at->node, at->service);
        return -1;
    }
    for (;;) {
        ssize_t count = card_next(card, &entry);
        if (count == -FI_EAVAIL)
            fi_cq_readerr(card->done, &wrong, 0);
        if (count != 1 || !(entry.flags & FI_RECV))
            continue;
        welcome_sent(card, &welcome);
        if (hello_awaited(card))
            return -1;
    }
}

/* Whether to send a hello again: the memory may not be there yet. */
static int is_sent_again(struct card *card, ssize_t status, uint64_t began)
{
    struct timespec nap = { .tv_nsec = 10000000 };
    if (card_is_again(card, status, began))
        return 1;
    return status < 0 && now() - began < card->limit && nanosleep(&nap, NULL) == 0;
}

/* Asks for key and base: 0, or a negative error. */
static int asked(struct card *card, struct peer *peer, uint64_t began)
{
    struct hello *hello = hello_in(card);
    struct welcome *welcome = (struct welcome *)(card->buffer + FOUND);
    size_t length = sizeof hello->address;
    ssize_t status = fi_getname(&card->endpoint->fid, hello->address, &length);
    hello->magic = MAGIC;
    hello->length = length;
    if (status == 0)
        status = fi_recv(card->endpoint, welcome, sizeof *welcome, card->buffer_key, FI_ADDR_UNSPEC, welcome);
    if (status < 0)
        return (int)status;
    do
        status = fi_send(card->endpoint, hello, sizeof *hello, card->buffer_key, peer->at, NULL);
    while (is_sent_again(card, status, began));
    if (status < 0 || (status = card_completed(card, began, welcome)) < 0)
        return (int)status;
    peer->key = welcome->key;
    peer->base = welcome->base;
    return welcome->magic == MAGIC ? 0 : -FI_EOTHER;
}

int memory_met(struct card *card, uint32_t host, const struct host *at)
{
    struct fi_info *hints = card_hints(card), *there = NULL;
    struct peer *peer = &card->peer[host];
    uint64_t limit = card->limit;
    int status = fi_getinfo(FI_VERSION(1, 17), at->node, at->service, 0, hints, &there);
    fi_freeinfo(hints);
    if (card_tried(card, "fi_getinfo", status))
        return -1;
    int count = fi_av_insert(card->addresses, there->dest_addr, 1, &peer->at, 0, NULL);
    fi_freeinfo(there);
    if (count != 1)
        return card_told(card, host, -FI_EADDRNOTAVAIL, "its address");
    card->limit = limit < HELLO_LIMIT ? HELLO_LIMIT : limit;
    status = card_told(card, host, asked(card, peer, now()), "a hello");
    card->limit = limit;
    return status;
}
