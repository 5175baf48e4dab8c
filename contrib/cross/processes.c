/* Threads' names and other programs. The daemon starts none: these are here so that any program of the toolchain can be linked. */
#include <errno.h>
#include <signal.h>
#include <spawn.h>
#include <stdbool.h>
#include <stddef.h>
#include <stdlib.h>
#include <string.h>
#include <sys/prctl.h>
#include <sys/types.h>
#include <sys/wait.h>
#include <time.h>
#include <unistd.h>

static int refused(int number)
{
    errno = number;
    return -1;
}

int rattle_set_thread_name(const char *name)
{
    return prctl(PR_SET_NAME, name, 0L, 0L, 0L);
}

/* A child that was waited for may have given its number to another process: it is looked at first, and stays to be waited for. */
int rattle_kill_child(int child)
{
    siginfo_t told;
    if (child <= 0)
        return refused(EINVAL);
    if (waitid(P_PID, (id_t)child, &told, WEXITED | WNOHANG | WNOWAIT) != 0)
        return -1;
    return kill(child, SIGKILL);
}

/* A write whose SIGPIPE nobody meets: it is blocked meanwhile, and taken back if the write raised it. */
ssize_t rattle_write_no_sigpipe(int file, const void *bytes, size_t length)
{
    sigset_t broken, before, waiting;
    sigemptyset(&broken);
    sigaddset(&broken, SIGPIPE);
    pthread_sigmask(SIG_BLOCK, &broken, &before);
    sigpending(&waiting);
    ssize_t written = write(file, bytes, length);
    int number = errno;
    bool may_be_raised = written < 0 || (size_t)written < length;
    if (may_be_raised && !sigismember(&waiting, SIGPIPE)) {
        static const struct timespec AT_ONCE;
        while (sigtimedwait(&broken, NULL, &AT_ONCE) < 0 && errno == EINTR)
            continue;
    }
    pthread_sigmask(SIG_SETMASK, &before, NULL);
    errno = number;
    return written;
}

/* Texts that stand one behind the other, each ended by a zero, the last one too, as the list that C wants; NULL without memory. */
static char **list_texts(char *texts, size_t length)
{
    size_t count = 0, found = 0;
    for (size_t place = 0; place < length; place++)
        count += texts[place] == '\0';
    char **list = calloc(count + 1, sizeof *list);
    for (size_t place = 0; list != NULL && place < length; place += strlen(texts + place) + 1)
        list[found++] = texts + place;
    return list;
}

static bool is_ended(const char *texts, size_t length)
{
    return length == 0 || texts[length - 1] == '\0';
}

/* What is done in the child before the program begins; 0, or an error's number. */
static int prepare_files(posix_spawn_file_actions_t *actions, const char *folder, const int streams[3])
{
    int fault = 0;
    for (int number = 0; number < 3 && fault == 0; number++)
        if (streams[number] >= 0)
            fault = posix_spawn_file_actions_adddup2(actions, streams[number], number);
    if (fault == 0 && folder[0] != '\0')
        fault = posix_spawn_file_actions_addchdir_np(actions, folder);
    return fault != 0 ? fault : posix_spawn_file_actions_addclosefrom_np(actions, 3);
}

/* No signal is blocked in the child, and SIGPIPE does there what it does by default. */
static int prepare_signals(posix_spawnattr_t *attributes)
{
    sigset_t signals;
    sigemptyset(&signals);
    int fault = posix_spawnattr_setsigmask(attributes, &signals);
    sigaddset(&signals, SIGPIPE);
    if (fault == 0)
        fault = posix_spawnattr_setsigdefault(attributes, &signals);
    return fault != 0 ? fault : posix_spawnattr_setflags(attributes, POSIX_SPAWN_SETSIGMASK | POSIX_SPAWN_SETSIGDEF);
}

static int start(pid_t *child, const char *path, char **words, char **environment, const char *folder, const int streams[3])
{
    posix_spawn_file_actions_t actions;
    posix_spawnattr_t attributes;
    int fault = posix_spawn_file_actions_init(&actions);
    if (fault != 0)
        return fault;
    fault = posix_spawnattr_init(&attributes);
    if (fault == 0) {
        fault = prepare_files(&actions, folder, streams);
        if (fault == 0)
            fault = prepare_signals(&attributes);
        if (fault == 0)
            fault = posix_spawn(child, path, &actions, &attributes, words, environment);
        posix_spawnattr_destroy(&attributes);
    }
    posix_spawn_file_actions_destroy(&actions);
    return fault;
}

int rattle_spawn(const char *path, char *words, size_t words_length, char *environment, size_t environment_length, const char *folder,
                 const int streams[3])
{
    pid_t child = -1;
    if (words_length == 0 || !is_ended(words, words_length) || !is_ended(environment, environment_length))
        return refused(EINVAL);
    char **word_list = list_texts(words, words_length), **entries = list_texts(environment, environment_length);
    bool is_room = word_list != NULL && entries != NULL;
    int fault = is_room ? start(&child, path, word_list, entries, folder, streams) : ENOMEM;
    free(word_list);
    free(entries);
    return fault != 0 ? refused(fault) : child;
}
