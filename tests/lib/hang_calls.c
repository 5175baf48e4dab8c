/* Loaded into a program in front of the C library (LD_PRELOAD), it stands for a file system that hangs: an opening of a path below a folder
 * in which a name begins with `hangs` doesn't come back, and a file `hanging` in the present folder says so. A signal ends the program. */
#define _GNU_SOURCE
#include <dlfcn.h>
#include <fcntl.h>
#include <stdarg.h>
#include <string.h>
#include <sys/types.h>
#include <unistd.h>

#define NEXT(type, name) ((type)dlsym(RTLD_NEXT, name))

static void stand(const char *path)
{
    if (!strstr(path, "/hangs"))
        return;
    NEXT(int (*)(const char *, int, ...), "open")("hanging", O_CREAT | O_WRONLY, 0600);
    for (;;)
        pause();
}

#define MODE(last)             \
    va_list words;             \
    va_start(words, last);     \
    mode_t mode = va_arg(words, mode_t); \
    va_end(words)

int open(const char *path, int flags, ...)
{
    MODE(flags);
    stand(path);
    return NEXT(int (*)(const char *, int, ...), "open")(path, flags, mode);
}

int openat(int folder, const char *path, int flags, ...)
{
    MODE(flags);
    stand(path);
    return NEXT(int (*)(int, const char *, int, ...), "openat")(folder, path, flags, mode);
}
