/* The C functions of contrib/cross, called as the toolchain's contracts have them called, each on its happy path and at each refusal. It
 * runs in an empty folder. What is wrong is written to standard error with its line; the last line is 'N passed, M failed'. */
#include <errno.h>
#include <fcntl.h>
#include <netinet/in.h>
#include <pthread.h>
#include <signal.h>
#include <stdbool.h>
#include <stdint.h>
#include <stdio.h>
#include <stdlib.h>
#include <string.h>
#include <sys/epoll.h>
#include <sys/eventfd.h>
#include <sys/file.h>
#include <sys/prctl.h>
#include <sys/socket.h>
#include <sys/stat.h>
#include <sys/time.h>
#include <sys/wait.h>
#include <unistd.h>

struct tried {
    bool ok;
    void *place;
};
struct entry {
    uint32_t events;
    uint64_t data;
};
struct address {
    uint8_t bytes[128];
    uint32_t length;
};

struct tried rattle_alloc(size_t, size_t);
struct tried rattle_realloc(void *, size_t, size_t, size_t);
void rattle_dealloc(void *);
int rattle_errno(void);
void rattle_set_errno(int);
size_t rattle_arg_count(void);
ssize_t rattle_arg(size_t, char *, size_t);
ssize_t rattle_env(const char *, char *, size_t);
ssize_t rattle_env_at(size_t, char *, size_t);
int rattle_open_dir_at(int, const char *);
int rattle_lock_range(int, int16_t, int64_t, int64_t);
int rattle_set_nonblocking(int, bool);
ssize_t rattle_write_parts(int, bool, void *, size_t, void *, size_t, void *, size_t, void *, size_t);
int rattle_epoll_ctl(int, int, int, uint32_t, uint64_t);
ssize_t rattle_epoll_wait(int, struct entry *, size_t, int);
int rattle_set_thread_name(const char *);
int rattle_kill_child(int);
ssize_t rattle_write_no_sigpipe(int, const void *, size_t);
int rattle_spawn(const char *, char *, size_t, char *, size_t, const char *, const int[3]);
ssize_t rattle_lookup_host(const char *, struct address *, size_t);
const char *__rattle_keep_place(const char *);
ssize_t __rattle_write_place(void);

static int passed, failed;

static void want(bool is_right, const char *what, int line)
{
    passed += is_right;
    failed += !is_right;
    if (!is_right)
        fprintf(stderr, "line %d: %s (error %d)\n", line, what, errno);
}

#define WANT(what) want(what, #what, __LINE__)
/* A call that is refused with this error, which `rattle_errno` tells. */
#define REFUSED(call, number) (rattle_set_errno(0), WANT((call) == -1 && rattle_errno() == (number)))

static volatile sig_atomic_t signals;

static void count_signal(int number)
{
    (void)number;
    signals++;
}

/* Calls that wait end with EINTR at this signal. */
static void interrupted_by(int number)
{
    struct sigaction action = {.sa_handler = count_signal};
    sigaction(number, &action, NULL);
}

/* Again and again, since the first one may come before the call. */
static void alarm_soon(void)
{
    struct itimerval soon = {.it_value = {.tv_usec = 50000}, .it_interval = {.tv_usec = 50000}};
    setitimer(ITIMER_REAL, &soon, NULL);
}

static void no_alarm(void)
{
    struct itimerval never = {0};
    setitimer(ITIMER_REAL, &never, NULL);
}

static void heap(void)
{
    struct tried first = rattle_alloc(40, 8), empty = rattle_alloc(0, 16), second = rattle_alloc(0, 16);
    WANT(first.ok && empty.ok && second.ok && empty.place != second.place);
    WANT((uintptr_t)first.place % 16 == 0 && (uintptr_t)empty.place % 16 == 0);
    memset(first.place, 7, 40);
    struct tried refused = rattle_realloc(first.place, 40, (size_t)1 << 62, 8);
    WANT(!refused.ok && refused.place != NULL && ((char *)first.place)[39] == 7);
    struct tried larger = rattle_realloc(first.place, 40, 100000, 8);
    WANT(larger.ok && ((char *)larger.place)[0] == 7 && ((char *)larger.place)[39] == 7);
    struct tried none = rattle_realloc(larger.place, 0, 0, 8);
    WANT(none.ok);
    WANT(!rattle_alloc((size_t)1 << 62, 8).ok);
    rattle_dealloc(none.place);
    rattle_dealloc(empty.place);
    rattle_dealloc(second.place);
}

/* The program was begun with the words below, and with an environment of two entries. */
static void words(void)
{
    char text[8];
    memset(text, 'x', sizeof text);
    WANT(rattle_arg_count() == 4);
    WANT(rattle_arg(1, text, sizeof text) == 3 && memcmp(text, "onex", 4) == 0);
    WANT(rattle_arg(2, text, sizeof text) == 0);
    WANT(rattle_arg(3, text, 5) == 5 && rattle_arg(3, text, 4) == -2 && memcmp(text, "thre", 4) == 0);
    WANT(rattle_arg(3, text, 0) == -2 && rattle_arg(2, text, 0) == 0);
    WANT(rattle_arg(4, text, sizeof text) == -1 && rattle_arg(SIZE_MAX, text, sizeof text) == -1);
    WANT(rattle_env("FIRST", text, sizeof text) == 1 && text[0] == '1');
    WANT(rattle_env("FIRST", text, 0) == -2 && rattle_env("NO_SUCH", text, sizeof text) == -1);
    bool is_there = false;
    for (size_t number = 0; number < 2; number++)
        is_there |= rattle_env_at(number, text, sizeof text) == 7 && memcmp(text, "OTHER=2", 7) == 0;
    WANT(is_there);
    WANT(rattle_env_at(2, text, sizeof text) == -1 && rattle_env_at(SIZE_MAX, text, sizeof text) == -1);
}

static void folders(void)
{
    WANT(mkdir("folder", 0700) == 0 && symlink("folder", "link") == 0 && close(open("file", O_WRONLY | O_CREAT, 0600)) == 0);
    int top = open(".", O_RDONLY), folder = rattle_open_dir_at(top, "folder");
    WANT(folder >= 0 && fcntl(folder, F_GETFD) == FD_CLOEXEC && (fcntl(folder, F_GETFL) & O_ACCMODE) == O_RDONLY);
    int through = rattle_open_dir_at(top, "link/");
    WANT(through >= 0);
    REFUSED(rattle_open_dir_at(top, "file"), ENOTDIR);
    REFUSED(rattle_open_dir_at(top, "missing"), ENOENT);
    REFUSED(rattle_open_dir_at(-1, "folder"), EBADF);
    rattle_set_errno(0);
    WANT(rattle_open_dir_at(top, "link") == -1 && (rattle_errno() == ELOOP || rattle_errno() == ENOTDIR));
    close(through);
    close(folder);
    close(top);
}

/* `flock`, with the numbers that the toolchain has for it, and locks of a range. */
static void locks(void)
{
    int first = open("locked", O_RDWR | O_CREAT, 0600), second = open("locked", O_RDWR);
    WANT(flock(first, 2 | 4) == 0);
    REFUSED(flock(second, 2 | 4), EAGAIN);
    WANT(flock(first, 8) == 0 && flock(second, 1 | 4) == 0 && flock(first, 1 | 4) == 0);
    WANT(rattle_lock_range(first, F_WRLCK, 10, 5) == 0 && rattle_lock_range(second, F_WRLCK, 15, 5) == 0);
    REFUSED(rattle_lock_range(second, F_WRLCK, 14, 1), EAGAIN);
    WANT(rattle_lock_range(first, F_UNLCK, 10, 5) == 0 && rattle_lock_range(second, F_WRLCK, 14, 1) == 0);
    REFUSED(rattle_lock_range(second, 77, 0, 1), EINVAL);
    REFUSED(rattle_lock_range(-1, F_WRLCK, 0, 1), EBADF);
    close(second);
    close(first);
}

static void writes(void)
{
    int ends[2];
    static char bytes[4][3000], found[12000];
    for (int number = 0; number < 4; number++)
        memset(bytes[number], 'a' + number, sizeof *bytes);
    WANT(pipe(ends) == 0 && fcntl(ends[1], F_SETPIPE_SZ, 4096) == 4096 && rattle_set_nonblocking(ends[1], true) == 0);
    WANT((fcntl(ends[1], F_GETFL) & O_NONBLOCK) != 0);
    ssize_t written = rattle_write_parts(ends[1], false, bytes[0], 3000, bytes[1], 0, bytes[2], 3000, bytes[3], 3000);
    WANT(written >= 3000 && written < 9000);
    REFUSED(rattle_write_parts(ends[1], false, bytes[0], 3000, bytes[1], 3000, bytes[2], 3000, bytes[3], 3000), EAGAIN);
    WANT(read(ends[0], found, sizeof found) == written && memcmp(found, bytes[0], 3000) == 0);
    WANT(memcmp(found + 3000, bytes[2], (size_t)(written > 6000 ? 3000 : written - 3000)) == 0);
    WANT(rattle_set_nonblocking(ends[1], false) == 0 && (fcntl(ends[1], F_GETFL) & O_NONBLOCK) == 0);
    REFUSED(rattle_set_nonblocking(-1, true), EBADF);
    REFUSED(rattle_write_parts(-1, false, bytes[0], 1, bytes[1], 1, bytes[2], 1, bytes[3], 1), EBADF);

    /* A full pipe holds the call until a signal comes. */
    WANT(rattle_set_nonblocking(ends[1], true) == 0);
    while (write(ends[1], bytes, 1) > 0 || write(ends[1], bytes, sizeof bytes) > 0)
        continue;
    WANT(rattle_set_nonblocking(ends[1], false) == 0);
    interrupted_by(SIGALRM);
    alarm_soon();
    REFUSED(rattle_write_parts(ends[1], false, bytes[0], 1, bytes[1], 0, bytes[2], 0, bytes[3], 0), EINTR);
    no_alarm();
    close(ends[0]);
    interrupted_by(SIGPIPE);
    signals = 0;
    REFUSED(rattle_write_no_sigpipe(ends[1], bytes, 1), EPIPE);
    WANT(signals == 0);
    REFUSED(write(ends[1], bytes, 1), EPIPE);
    WANT(signals == 1);
    REFUSED(rattle_write_no_sigpipe(-1, bytes, 1), EBADF);
    close(ends[1]);

    WANT(socketpair(AF_UNIX, SOCK_STREAM, 0, ends) == 0);
    WANT(rattle_write_parts(ends[0], true, "ab", 2, "", 0, "c", 1, "def", 3) == 6);
    WANT(read(ends[1], found, sizeof found) == 6 && memcmp(found, "abcdef", 6) == 0);
    WANT(rattle_write_no_sigpipe(ends[0], "xy", 2) == 2 && read(ends[1], found, sizeof found) == 2);
    close(ends[1]);
    signals = 0;
    REFUSED(rattle_write_parts(ends[0], true, "ab", 2, "", 0, "", 0, "", 0), EPIPE);
    WANT(signals == 0);
    close(ends[0]);
}

/* Many descriptors that are ready at once, each with a number of its own, of which both halves are told. */
static void readiness(void)
{
    enum { MANY = 40 };
    int epoll = epoll_create1(EPOLL_CLOEXEC), files[MANY];
    struct entry entries[MANY + 1];
    bool met[MANY] = {false};
    for (int number = 0; number < MANY; number++) {
        files[number] = eventfd(1, 0);
        WANT(rattle_epoll_ctl(epoll, EPOLL_CTL_ADD, files[number], EPOLLIN, 0x0123456700000000u * (number % 2) + (uint64_t)number) == 0);
    }
    entries[MANY] = (struct entry){.events = 99, .data = 99};
    WANT(rattle_epoll_wait(epoll, entries, MANY, 0) == MANY);
    for (int number = 0; number < MANY; number++) {
        uint32_t low = (uint32_t)entries[number].data;
        WANT(entries[number].events == EPOLLIN && low < MANY && entries[number].data >> 32 == (low % 2 ? 0x01234567 : 0) && !met[low]);
        met[low < MANY ? low : 0] = true;
    }
    WANT(entries[MANY].events == 99 && entries[MANY].data == 99);
    WANT(rattle_epoll_wait(epoll, entries, 3, 0) == 3);
    REFUSED(rattle_epoll_ctl(epoll, EPOLL_CTL_ADD, files[0], EPOLLIN, 0), EEXIST);
    REFUSED(rattle_epoll_ctl(epoll, EPOLL_CTL_ADD, -1, EPOLLIN, 0), EBADF);
    REFUSED(rattle_epoll_wait(-1, entries, 1, 0), EBADF);
    REFUSED(rattle_epoll_wait(epoll, entries, 0, 0), EINVAL);
    for (int number = 0; number < MANY; number++) {
        WANT(rattle_epoll_ctl(epoll, EPOLL_CTL_DEL, files[number], 0, 0) == 0);
        close(files[number]);
    }
    int other = eventfd(1, 0);
    REFUSED(rattle_epoll_ctl(epoll, EPOLL_CTL_DEL, other, 0, 0), ENOENT);
    close(other);
    WANT(rattle_epoll_wait(epoll, entries, MANY, 1) == 0);
    interrupted_by(SIGALRM);
    alarm_soon();
    REFUSED(rattle_epoll_wait(epoll, entries, MANY, -1), EINTR);
    no_alarm();
    close(epoll);
}

static void *in_another_thread(void *place)
{
    char name[17] = "";
    const char *before = __rattle_keep_place(place);
    WANT(before == NULL);
    WANT(rattle_set_thread_name("scan") == 0 && prctl(PR_GET_NAME, name) == 0 && strcmp(name, "scan") == 0);
    return NULL;
}

static void threads(void)
{
    pthread_t thread;
    int ends[2], output = dup(1);
    char text[16] = "";
    WANT(__rattle_keep_place("first") == NULL && strcmp(__rattle_keep_place("second"), "first") == 0);
    WANT(pthread_create(&thread, NULL, in_another_thread, "third") == 0 && pthread_join(thread, NULL) == 0);
    WANT(pipe(ends) == 0 && dup2(ends[1], 1) == 1);
    WANT(__rattle_write_place() == 6);
    __rattle_keep_place(NULL);
    WANT(__rattle_write_place() == 0);
    dup2(output, 1);
    WANT(read(ends[0], text, sizeof text) == 6 && strcmp(text, "second") == 0);
    close(output);
    close(ends[0]);
    close(ends[1]);
}

static char child_words[4200], environment[] = "FIRST=1\0OTHER=2";

/* Another program: this one again, which says in its folder and with its environment whether it is as `is_right_child` has it. */
static void started(const char *self, size_t length)
{
    int ends[2], streams[3], status = 0;
    char text[64] = "";
    signal(SIGPIPE, SIG_IGN);
    WANT(pipe(ends) == 0);
    int high = fcntl(ends[1], F_DUPFD, 50);
    streams[0] = -1, streams[1] = high, streams[2] = -1;
    int child = rattle_spawn(self, child_words, length, environment, sizeof environment, "folder", streams);
    close(ends[1]);
    close(high);
    WANT(child > 0 && waitpid(child, &status, 0) == child && WIFEXITED(status) && WEXITSTATUS(status) == 0);
    WANT(read(ends[0], text, sizeof text) == 5 && memcmp(text, "right", 5) == 0);
    REFUSED(rattle_kill_child(child), ECHILD);
    close(ends[0]);
    streams[1] = -1;
    REFUSED(rattle_spawn("/no/such/program", child_words, length, environment, sizeof environment, "", streams), ENOENT);
}

static void children(const char *self)
{
    static const int KEPT[3] = {-1, -1, -1};
    int status = 0;
    size_t length = (size_t)snprintf(child_words, sizeof child_words, "%s%cchild", self, 0) + 1;
#ifdef EMULATED
    (void)started;
    puts("programs that it starts: not run: the system can't run one of another machine, and qemu hides why");
#else
    started(self, length);
#endif
    REFUSED(rattle_spawn(self, child_words, 0, environment, sizeof environment, "", KEPT), EINVAL);
    REFUSED(rattle_spawn(self, child_words, length - 1, environment, sizeof environment, "", KEPT), EINVAL);
    REFUSED(rattle_spawn(self, child_words, length, environment, 3, "", KEPT), EINVAL);
    REFUSED(rattle_kill_child(0), EINVAL);
    REFUSED(rattle_kill_child(-1), EINVAL);
    int child = fork();
    if (child == 0)
        for (;;)
            pause();
    siginfo_t told;
    WANT(rattle_kill_child(child) == 0 && waitid(P_PID, (id_t)child, &told, WEXITED | WNOWAIT) == 0);
    /* It has ended, and is there until it is waited for. */
    WANT(rattle_kill_child(child) == 0 && waitpid(child, &status, 0) == child && WIFSIGNALED(status) && WTERMSIG(status) == SIGKILL);
}

/* In a child: it stands in `folder`, has three open files, and no signal is blocked or ignored. */
static int is_right_child(void)
{
    char place[4096], text[8];
    struct sigaction action;
    sigset_t blocked;
    sigprocmask(SIG_BLOCK, NULL, &blocked);
    bool is_right = getcwd(place, sizeof place) != NULL && strcmp(strrchr(place, '/'), "/folder") == 0 && fcntl(50, F_GETFD) == -1 &&
                    sigaction(SIGPIPE, NULL, &action) == 0 && action.sa_handler == SIG_DFL && !sigismember(&blocked, SIGTERM) &&
                    rattle_env("OTHER", text, sizeof text) == 1 && rattle_arg_count() == 2;
    return write(1, is_right ? "right" : "wrong", 5) == 5 ? 0 : 1;
}

static void machines(void)
{
    struct address found[2];
    WANT(rattle_lookup_host("127.0.0.1", found, 2) == 1 && found[0].length == sizeof(struct sockaddr_in));
    WANT(((struct sockaddr_in *)(void *)found[0].bytes)->sin_addr.s_addr == htonl(INADDR_LOOPBACK));
    WANT(rattle_lookup_host("::1", found, 2) == 1 && found[0].length == sizeof(struct sockaddr_in6));
    WANT(rattle_lookup_host("127.0.0.1", found, 0) == 0);
    WANT(rattle_lookup_host("not a name", found, 2) < 0);
}

int main(int count, char **given)
{
    if (count == 2 && strcmp(given[1], "child") == 0)
        return is_right_child();
    heap();
    words();
    folders();
    locks();
    writes();
    readiness();
    threads();
    children(given[0]);
    machines();
    printf("%d passed, %d failed\n", passed, failed);
    return failed == 0 && passed > 0 ? 0 : 1;
}
