/* The memory of the library for python/tests/test_memory.py: it refuses the request that was asked for, and counts the
   blocks that were not given back. */
#include <stddef.h>
#include <stdint.h>
#include <stdlib.h>

struct rattle_grant {
    uint64_t granted;
    void *block;
};

static char nothing;
static long left = -1;
static long live;

/* Refuses the request of this number, from 0; none if it is below 0. Gives the number that was still to come. */
long refuse_request(long number)
{
    long before = left;
    left = number;
    return before;
}

long live_blocks(void)
{
    return live;
}

static struct rattle_grant grant(void *block)
{
    return (struct rattle_grant){block != NULL, block != NULL ? block : &nothing};
}

static int is_refused(void)
{
    return left >= 0 && left-- == 0;
}

struct rattle_grant rattle_alloc(size_t size, size_t alignment)
{
    if (is_refused())
        return grant(NULL);
    live++;
    return grant(malloc(size != 0 ? size : alignment));
}

struct rattle_grant rattle_realloc(void *block, size_t kept, size_t size, size_t alignment)
{
    (void)kept;
    return is_refused() ? grant(NULL) : grant(realloc(block, size != 0 ? size : alignment));
}

void rattle_dealloc(void *block)
{
    live--;
    free(block);
}
