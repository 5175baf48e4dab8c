/* Loaded into a program in front of the C library (LD_PRELOAD), it stands for a disk that takes its time: of the looks at what stands in a
 * folder named `slow`, one waits as long as a file `wait` stands in the present folder. That file has the number of the look, from 1 on,
 * counted since it was made; a file `waiting` says then what is to be looked at. */
#define _GNU_SOURCE
#include <dlfcn.h>
#include <stdio.h>
#include <string.h>
#include <sys/stat.h>
#include <unistd.h>

static long count;

/* The number of the look that is to wait, or 0. */
static long awaited(void)
{
    long number = 0;
    FILE *file = fopen("wait", "r");
    if (!file)
        return 0;
    if (fscanf(file, "%ld", &number) != 1)
        number = 0;
    fclose(file);
    return number;
}

static void tell(const char *path)
{
    FILE *file = fopen("waiting.new", "w");
    if (!file)
        return;
    fputs(path, file);
    fclose(file);
    rename("waiting.new", "waiting");
}

static void stand(const char *path)
{
    if (!strstr(path, "/slow/"))
        return;
    long number = awaited();
    count = number ? count + 1 : 0;
    if (!number || count != number)
        return;
    tell(path);
    while (!access("wait", F_OK))
        usleep(1000);
}

int statx(int folder, const char *restrict path, int flags, unsigned int mask, struct statx *restrict found)
{
    stand(path);
    int (*next)(int, const char *, int, unsigned int, struct statx *) = dlsym(RTLD_NEXT, "statx");
    return next(folder, path, flags, mask, found);
}
