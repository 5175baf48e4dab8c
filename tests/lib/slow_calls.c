/* Loaded into a program in front of the C library (LD_PRELOAD), it stands for a slow disk: a sync of a file's data takes so many
 * milliseconds more as SLOW in the environment says. */
#define _GNU_SOURCE
#include <dlfcn.h>
#include <stdlib.h>
#include <unistd.h>

int fdatasync(int file)
{
    usleep(1000 * atoi(getenv("SLOW")));
    return ((int (*)(int))dlsym(RTLD_NEXT, "fdatasync"))(file);
}
