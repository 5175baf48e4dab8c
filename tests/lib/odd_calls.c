/* Loaded into a program in front of the C library (LD_PRELOAD): a file is removed only a fifth of a second after that was asked for, so that
 * what others do meanwhile comes in between; and where the environment has NO_NULL, `/dev/null` can't be opened. */
#define _GNU_SOURCE
#include <dlfcn.h>
#include <errno.h>
#include <fcntl.h>
#include <stdarg.h>
#include <stdlib.h>
#include <string.h>
#include <sys/types.h>
#include <unistd.h>

#define NEXT(type, name) ((type)dlsym(RTLD_NEXT, name))

int unlink(const char *path)
{
    usleep(200000);
    return NEXT(int (*)(const char *), "unlink")(path);
}

int open(const char *path, int flags, ...)
{
    va_list words;
    va_start(words, flags);
    mode_t mode = va_arg(words, mode_t);
    va_end(words);
    if (getenv("NO_NULL") && !strcmp(path, "/dev/null")) {
        errno = ENXIO;
        return -1;
    }
    return NEXT(int (*)(const char *, int, ...), "open")(path, flags, mode);
}
