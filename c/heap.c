/* The heap of libmu: three functions over malloc, by the names that the compiler gives them. Link
 * another file in place of this one to give the library memory of your own. */
#include <stdbool.h>
#include <stddef.h>
#include <stdlib.h>

/* A block, if there was memory for it; else a place that nobody reads or writes. */
struct block {
    bool is_there;
    void *at;
};

struct block rattle_alloc(size_t size, size_t align);
struct block rattle_realloc(void *at, size_t kept, size_t size, size_t align);
void rattle_dealloc(void *at);

static char nowhere;

static struct block block_at(void *at)
{
    struct block block = { at != NULL, at != NULL ? at : &nowhere };
    return block;
}

/* The alignment is a power of two up to 16, which malloc keeps. A block of no bytes gets some, so that
 * null always means that there was no memory. */
struct block rattle_alloc(size_t size, size_t align)
{
    return block_at(malloc(size != 0 ? size : align));
}

/* The first `kept` bytes stay; realloc keeps all of the smaller block. */
struct block rattle_realloc(void *at, size_t kept, size_t size, size_t align)
{
    (void)kept;
    return block_at(realloc(at, size != 0 ? size : align));
}

void rattle_dealloc(void *at)
{
    free(at);
}
