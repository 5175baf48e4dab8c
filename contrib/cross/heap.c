/* Memory: what libc::heap declares. A block of no bytes is one of its alignment's size, so that it has an address of its own. */
#include <stdbool.h>
#include <stdlib.h>

/* Whether there was memory; where there was none, `place` is one that nobody reads or writes. */
struct tried {
    bool ok;
    void *place;
};

static _Alignas(16) char nowhere[16];

static struct tried told(void *place)
{
    return (struct tried){place != NULL, place != NULL ? place : nowhere};
}

struct tried rattle_alloc(size_t size, size_t align)
{
    return told(malloc(size > 0 ? size : align));
}

/* The C library itself knows how much of the block is to be kept. Where it refuses, the block is as it was. */
struct tried rattle_realloc(void *block, size_t kept, size_t size, size_t align)
{
    (void)kept;
    return told(realloc(block, size > 0 ? size : align));
}

void rattle_dealloc(void *block)
{
    free(block);
}
