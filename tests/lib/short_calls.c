/* Loaded into a program in front of the C library (LD_PRELOAD): a socket takes and gives few bytes with most calls, 1 to 40. How many
 * depends on how many calls there were before. */
#define _GNU_SOURCE
#include <dlfcn.h>
#include <sys/types.h>

static unsigned drawn = 1;

static unsigned draw(unsigned most)
{
    drawn = drawn * 1664525u + 1013904223u;
    return 1 + (drawn >> 16) % most;
}

static size_t shortened(size_t length)
{
    const size_t most = draw(4) > 1 ? draw(40) : draw(4000);
    return length < most ? length : most;
}

ssize_t send(int socket, const void *bytes, size_t length, int flags)
{
    ssize_t (*next)(int, const void *, size_t, int) = (ssize_t (*)(int, const void *, size_t, int))dlsym(RTLD_NEXT, "send");
    return next(socket, bytes, shortened(length), flags);
}

ssize_t recv(int socket, void *bytes, size_t length, int flags)
{
    ssize_t (*next)(int, void *, size_t, int) = (ssize_t (*)(int, void *, size_t, int))dlsym(RTLD_NEXT, "recv");
    return next(socket, bytes, shortened(length), flags);
}
