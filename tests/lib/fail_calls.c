/* Loaded into a program in front of the C library (LD_PRELOAD), it fails calls that the program makes of the two files of a journal, `a`
 * and `b`: reads, writes, cuts and syncs, which are counted together from 1 on. Where FULL is there, only what wants room on the disk is
 * counted: a write that ends behind the file's end, and the sync behind it.
 *
 * FIRST and LAST are the numbers of the first and the last call that fail, by ERRNO, which is EIO if it isn't there; where KILLS is there,
 * the program is killed there instead; KILLED, if it is there, is that of a call before which it is killed; COUNTS is a file of two numbers
 * of eight bytes, made by whoever runs the program: how many calls there were, and how many of them failed.
 */
#define _GNU_SOURCE
#include <dlfcn.h>
#include <errno.h>
#include <fcntl.h>
#include <signal.h>
#include <stdio.h>
#include <stdlib.h>
#include <string.h>
#include <sys/mman.h>
#include <sys/stat.h>
#include <sys/types.h>
#include <unistd.h>

static long none[2];
static long *counts = none;
static long first, last, killed, error = EIO;
static int is_full, kills;
/* Whether the file of this descriptor was made longer since its last sync. */
static char grown[1024];

static long number_of(const char *name, long otherwise)
{
    return getenv(name) ? atol(getenv(name)) : otherwise;
}

__attribute__((constructor)) static void begin(void)
{
    int file = open(getenv("COUNTS"), O_RDWR | O_CLOEXEC);
    void *shared = mmap(NULL, sizeof none, PROT_READ | PROT_WRITE, MAP_SHARED, file, 0);
    if (shared == MAP_FAILED)
        abort();
    counts = shared;
    first = atol(getenv("FIRST"));
    last = atol(getenv("LAST"));
    killed = number_of("KILLED", 0);
    error = number_of("ERRNO", EIO);
    is_full = getenv("FULL") != NULL;
    kills = getenv("KILLS") != NULL;
}

/* Whether a call of this open file is to fail. */
static int fails(int file, int wants_room)
{
    char link[64], path[4096];
    if (is_full && !wants_room)
        return 0;
    snprintf(link, sizeof link, "/proc/self/fd/%d", file);
    ssize_t length = readlink(link, path, sizeof path);
    if (length < 2 || path[length - 2] != '/' || (path[length - 1] != 'a' && path[length - 1] != 'b'))
        return 0;
    long number = __atomic_add_fetch(&counts[0], 1, __ATOMIC_RELAXED);
    if (number == killed)
        raise(SIGKILL);
    if (number < first || last < number)
        return 0;
    __atomic_add_fetch(&counts[1], 1, __ATOMIC_RELAXED);
    if (kills)
        raise(SIGKILL);
    errno = error;
    return 1;
}

/* Whether a write ends behind the file's end. */
static int grows(int file, size_t count, off_t at)
{
    struct stat found;
    return fstat(file, &found) == 0 && found.st_size < at + (off_t)count;
}

/* Whether a sync is of a file that was made longer. */
static int has_grown(int file)
{
    int found = file < (int)sizeof grown && grown[file];
    if (file < (int)sizeof grown)
        grown[file] = 0;
    return found;
}

#define NEXT(type, name) ((type)dlsym(RTLD_NEXT, name))

ssize_t pread(int file, void *bytes, size_t count, off_t at)
{
    return fails(file, 0) ? -1 : NEXT(ssize_t (*)(int, void *, size_t, off_t), "pread")(file, bytes, count, at);
}

/* A write that fails has written a part. */
ssize_t pwrite(int file, const void *bytes, size_t count, off_t at)
{
    ssize_t (*next)(int, const void *, size_t, off_t) = NEXT(ssize_t (*)(int, const void *, size_t, off_t), "pwrite");
    int wants_room = grows(file, count, at);
    if (wants_room && file < (int)sizeof grown)
        grown[file] = 1;
    if (!fails(file, wants_room))
        return next(file, bytes, count, at);
    next(file, bytes, count / 2, at);
    errno = error;
    return -1;
}

/* What was put behind the end is mostly cut off. */
int ftruncate(int file, off_t length)
{
    has_grown(file);
    return fails(file, 0) ? -1 : NEXT(int (*)(int, off_t), "ftruncate")(file, length);
}

int fsync(int file)
{
    return fails(file, has_grown(file)) ? -1 : NEXT(int (*)(int), "fsync")(file);
}

int fdatasync(int file)
{
    return fails(file, has_grown(file)) ? -1 : NEXT(int (*)(int), "fdatasync")(file);
}
