/* The memory of the library: the three functions by which it asks for memory, over malloc, realloc and free.

   A host with an allocator of its own links its own three functions in the place of this file's. They all go by one
   allocator, which aligns a block to each power of two up to 16 that divides its size. A request may be refused: the
   call that makes it then ends with FTL_NO_MEMORY, and has given back all that it had. */
#include <stddef.h>
#include <stdint.h>
#include <stdlib.h>

/* Whether a request was granted, and the block; a place that is not null where it was not. */
struct rattle_grant {
    uint64_t granted;
    void *block;
};

static char nothing;

static struct rattle_grant grant(void *block)
{
    return (struct rattle_grant){block != NULL, block != NULL ? block : &nothing};
}

#if defined(__GNUC__)
#define HIDDEN __attribute__((visibility("hidden")))
#else
#define HIDDEN
#endif

HIDDEN struct rattle_grant rattle_alloc(size_t size, size_t alignment)
{
    return grant(malloc(size != 0 ? size : alignment));
}

HIDDEN struct rattle_grant rattle_realloc(void *block, size_t kept, size_t size, size_t alignment)
{
    (void)kept;
    return grant(realloc(block, size != 0 ? size : alignment));
}

HIDDEN void rattle_dealloc(void *block)
{
    free(block);
}
