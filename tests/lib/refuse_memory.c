/* Loaded into a program in front of the C library (LD_PRELOAD), it refuses one of the program's allocations.
 *
 * COUNTS is a file of three numbers of eight bytes, made by whoever runs the program: how many allocations there were, how many were
 * refused, and the number of the one that is refused, from 1 on, or 0 for none, which may be written while the program runs.
 */
#include <errno.h>
#include <fcntl.h>
#include <stddef.h>
#include <stdlib.h>
#include <sys/mman.h>

void *__libc_malloc(size_t size);
void *__libc_realloc(void *old, size_t size);

static volatile long none[3];
static volatile long *counts = none;

__attribute__((constructor)) static void begin(void)
{
    int file = open(getenv("COUNTS"), O_RDWR | O_CLOEXEC);
    void *shared = mmap(NULL, sizeof none, PROT_READ | PROT_WRITE, MAP_SHARED, file, 0);
    if (shared == MAP_FAILED)
        abort();
    counts = shared;
}

static int is_refused(void)
{
    if (__atomic_add_fetch(&counts[0], 1, __ATOMIC_RELAXED) != counts[2])
        return 0;
    __atomic_add_fetch(&counts[1], 1, __ATOMIC_RELAXED);
    errno = ENOMEM;
    return 1;
}

void *malloc(size_t size)
{
    return is_refused() ? NULL : __libc_malloc(size);
}

void *realloc(void *old, size_t size)
{
    return is_refused() ? NULL : __libc_realloc(old, size);
}
