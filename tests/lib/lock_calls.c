/* Loaded into a program in front of the C library (LD_PRELOAD): locks as over a network (NFS), where only what is open for writing can be
 * locked; where the environment has NO_LOCKS, none at all, with this error; where it has WAIT, each waits while there is a file of that name,
 * and says by a file NAME.met that it does. */
#define _GNU_SOURCE
#include <dlfcn.h>
#include <errno.h>
#include <fcntl.h>
#include <stdio.h>
#include <stdlib.h>
#include <sys/file.h>
#include <unistd.h>

static void wait_for(const char *path)
{
    char met[4096];
    snprintf(met, sizeof met, "%s.met", path);
    close(open(met, O_WRONLY | O_CREAT, 0600));
    while (!access(path, F_OK)) {
        usleep(1000);
    }
}

int flock(int fd, int how)
{
    if (getenv("WAIT")) {
        wait_for(getenv("WAIT"));
    }
    if (getenv("NO_LOCKS")) {
        errno = atoi(getenv("NO_LOCKS"));
        return -1;
    }
    if ((fcntl(fd, F_GETFL) & O_ACCMODE) == O_RDONLY) {
        errno = EBADF;
        return -1;
    }
    return ((int (*)(int, int))dlsym(RTLD_NEXT, "flock"))(fd, how);
}
