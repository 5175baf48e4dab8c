/* Where a test stands, one place a thread: what a failed one prints last. */
#include <stddef.h>
#include <string.h>
#include <sys/types.h>
#include <unistd.h>

static _Thread_local const char *place;

const char *__rattle_keep_place(const char *next)
{
    const char *before = place;
    place = next;
    return before;
}

ssize_t __rattle_write_place(void)
{
    return write(STDOUT_FILENO, place, place != NULL ? strlen(place) : 0);
}
