/* Refuses one request for memory of a program that it is loaded into before the C library.

   `fluent_syntax_checks refusals` speaks to it by requests of sizes that nothing else asks for (its file
   refusals/requests.rt). REFUSE + n: the n-th request from now on is refused. REPORT: none is refused from now on;
   granted where one was. Both words are themselves refused otherwise, as they are without this library.

   For a program that doesn't speak to it, the environment's REFUSE is the number of the request that is
   refused, counting from 1, and a byte goes to descriptor 9 where it was. */
#include <stddef.h>
#include <stdlib.h>
#include <unistd.h>

static const size_t REFUSE = (size_t)1 << 62;
static const size_t REPORT = (size_t)1 << 61;

extern void *__libc_malloc(size_t size);
extern void *__libc_realloc(void *old, size_t size);

static size_t left;
static int has_refused;

__attribute__((constructor)) static void begin(void)
{
    const char *number = getenv("REFUSE");
    left = number ? strtoul(number, NULL, 10) : 0;
}

static int refused(void)
{
    if (left == 0 || --left > 0)
        return 0;
    has_refused = 1;
    if (getenv("REFUSE"))
        return write(9, "r", 1) == 1;
    return 1;
}

static void *told(void)
{
    int tells = has_refused;
    left = 0;
    has_refused = 0;
    return tells ? __libc_malloc(1) : NULL;
}

void *malloc(size_t size)
{
    if (size == REPORT)
        return told();
    if (size > REFUSE) {
        left = size - REFUSE;
        return NULL;
    }
    return refused() ? NULL : __libc_malloc(size);
}

void *realloc(void *old, size_t size)
{
    return refused() ? NULL : __libc_realloc(old, size);
}
