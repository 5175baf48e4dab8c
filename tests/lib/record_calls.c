/* Loaded into a program in front of the C library (LD_PRELOAD), it records what the program does to the two files of a journal, and what it
 * writes to its output, in the order in which that happens.
 *
 * CALLS is the file of the record. Each call is five numbers of eight bytes, and behind them the bytes that were written: the call
 * (`w` a write, `c` a cut, `s` a sync, `o` the output), the name of the file (`a`, `b`; 0 for the output), an offset, a count, and whether
 * the system did it.
 */
#define _GNU_SOURCE
#include <dlfcn.h>
#include <fcntl.h>
#include <stdlib.h>
#include <string.h>
#include <sys/syscall.h>
#include <sys/types.h>
#include <unistd.h>

static int record = -1;

__attribute__((constructor)) static void begin(void)
{
    record = open(getenv("CALLS"), O_WRONLY | O_CREAT | O_APPEND | O_CLOEXEC, 0600);
    if (record < 0)
        abort();
}

/* The name of an open file, where it is of one letter. */
static long name_of(int file)
{
    char link[64] = "/proc/self/fd/", path[4096];
    char *digit = link + strlen(link), digits[16];
    int count = 0;
    do {
        digits[count++] = '0' + file % 10;
        file /= 10;
    } while (file > 0);
    while (count > 0)
        *digit++ = digits[--count];
    ssize_t length = readlink(link, path, sizeof path);
    return length > 1 && path[length - 2] == '/' ? path[length - 1] : 0;
}

/* Writes to the record by the system call itself, since `write` is the one below. */
static void put(const void *bytes, long count)
{
    if (syscall(SYS_write, record, bytes, count) != count)
        abort();
}

static void note(long call, long name, long at, long count, long is_done, const void *bytes)
{
    long numbers[5] = {call, name, at, count, is_done};
    put(numbers, sizeof numbers);
    if (bytes)
        put(bytes, count);
}

ssize_t pwrite(int file, const void *bytes, size_t count, off_t at)
{
    static ssize_t (*next)(int, const void *, size_t, off_t);
    if (!next)
        next = (ssize_t (*)(int, const void *, size_t, off_t))dlsym(RTLD_NEXT, "pwrite");
    ssize_t done = next(file, bytes, count, at);
    note('w', name_of(file), at, (long)count, done == (ssize_t)count, bytes);
    return done;
}

int ftruncate(int file, off_t length)
{
    static int (*next)(int, off_t);
    if (!next)
        next = (int (*)(int, off_t))dlsym(RTLD_NEXT, "ftruncate");
    int done = next(file, length);
    note('c', name_of(file), length, 0, done == 0, NULL);
    return done;
}

static int sync_by(const char *call, int file)
{
    int (*next)(int) = (int (*)(int))dlsym(RTLD_NEXT, call);
    int done = next(file);
    note('s', name_of(file), 0, 0, done == 0, NULL);
    return done;
}

int fsync(int file)
{
    return sync_by("fsync", file);
}

int fdatasync(int file)
{
    return sync_by("fdatasync", file);
}

ssize_t write(int file, const void *bytes, size_t count)
{
    static ssize_t (*next)(int, const void *, size_t);
    if (!next)
        next = (ssize_t (*)(int, const void *, size_t))dlsym(RTLD_NEXT, "write");
    if (file == 1)
        note('o', 0, 0, (long)count, 1, bytes);
    return next(file, bytes, count);
}
