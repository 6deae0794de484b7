/* card.h: the network as libfabric gives it: an endpoint, words that others reach, and one access to a word as one atomic
 * operation. */
#ifndef CARD_H
#define CARD_H

#include "hosts.h"
#include "mu.h"

#include <rdma/fabric.h>
#include <rdma/fi_domain.h>
#include <sys/types.h>

/* The way to the words of a host. */
struct peer {
    fi_addr_t at;
    uint64_t key, base;
};

/* An endpoint, and what it is bound to. Not to be moved once it is open. */
struct card {
    const struct plan *plan; /* for what is said */
    const char *provider;
    uint64_t limit;      /* how long an access may take, in nanoseconds */
    uint32_t self;       /* the replica */
    uint32_t word_bytes; /* how far apart words are */
    struct fi_info *info;
    struct fid_fabric *fabric;
    struct fid_domain *domain;
    struct fid_ep *endpoint;
    struct fid_av *addresses;
    struct fid_cq *done;
    struct fid_mr *buffer_region;
    void *buffer_key;  /* of the buffer, if the provider wants one */
    uint64_t *buffer;
    int spins;         /* the provider has nothing to sleep on */
    struct peer peer[MOST_REPLICAS];
};

/* What stands in the buffer, in words: what is given, what is compared, what was found, and a hello. */
enum { GIVEN = 0, COMPARED = 8, FOUND = 16, HELLO = 64, BUFFER_WORDS = 128 };

/* Opens an endpoint that listens at a host's address, or at one that the provider chooses (NULL): 0, or -1 and a line. A
 * provider that lacks an operation is refused. */
int card_open(struct card *card, const struct host *at);

/* Closes what is open of it. */
void card_close(struct card *card);

/* Has the access made, as one atomic operation: 0, and the word that it found; or -1 and a line, if there is no answer
 * within the limit. Then nobody knows whether it was made, and the card is of no more use. */
int card_made(struct card *card, const mu_operation *op, uint64_t *found);

/* The next completion: 1; or a negative status, -FI_EAGAIN if there is none yet. Sleeps some milliseconds at most. */
ssize_t card_next(struct card *card, struct fi_cq_msg_entry *entry);

/* Waits for the completion of the operation with this mark: 0, or a negative error; -FI_ETIMEDOUT after the limit. */
int card_completed(struct card *card, uint64_t began, const void *mark);

/* Whether to try again: the provider was busy, and the limit isn't over. */
int card_is_again(struct card *card, ssize_t status, uint64_t began);

/* Says which host gives no answer: 0 if the status is none of an error, else -1. */
int card_told(const struct card *card, uint32_t host, int status, const char *what);

/* Says what libfabric answered to a call: 0 if it is no error, else -1. */
int card_tried(const struct card *card, const char *call, int status);

/* What is wanted of a provider. To be freed by fi_freeinfo. */
struct fi_info *card_hints(const struct card *card);

#endif
