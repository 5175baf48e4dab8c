/* Linked in front of the main of a program that is fuzzed by AFL++: runs it over one input after the other, in one process.
 *
 * KIND says what an input is: `lines` of a client, a `wave` file, `journal` files or a `config`. ROOM is the folder in which
 * the program runs, and which it takes for the root of the system; tests/fuzz makes it, with what each run begins with in the folder `keep`:
 *
 *     a, b        the files of a journal
 *     snapshot    a snapshot of a state with songs, a queue, playlists and stickers
 *     c.toml      the configuration
 *     requests    what is asked behind each input; from the line MARKA to the line MARKB they only read
 *
 * A run that ends by a signal is a finding: what the program itself ends by, SIGPROF after two seconds of processor time, SIGUSR1 where it
 * held more than 200 MB, SIGUSR2 where the journal that a run left can't be opened, SIGSYS where it answers the requests that only read
 * otherwise than it did before. A second run looks for the last two, behind every fourth input.
 */
#define _GNU_SOURCE
#include <dirent.h>
#include <fcntl.h>
#include <setjmp.h>
#include <signal.h>
#include <stdint.h>
#include <stdlib.h>
#include <string.h>
#include <sys/mman.h>
#include <sys/resource.h>
#include <sys/stat.h>
#include <sys/time.h>
#include <unistd.h>

enum { MOST = 1 << 20, RUNS = 2000, MOST_KB = 200 * 1024, FRESH = 69, HEAD = 32 };

/* What AFL's run time gives and looks for; by the two texts afl-fuzz sees that the program serves many inputs, and from where on. */
int __afl_sharedmem_fuzzing = 1;
extern unsigned int *__afl_fuzz_len;
extern unsigned char *__afl_fuzz_ptr;
void __afl_manual_init(void);
int __afl_persistent_loop(unsigned int runs);
const char *const volatile signs[] = {"##SIG_AFL_DEFER_FORKSRV##", "##SIG_AFL_PERSISTENT##"};

int __real_main(int count, char **words, char **settings);
void __real__exit(int status);

struct bytes {
    const unsigned char *at;
    size_t length;
};

static unsigned char input[MOST], built[2 * MOST];
static size_t length, fill;
static struct bytes file_a, file_b, snapshot, requests, reads;

/* ---- files */

static struct bytes all_of(const char *path)
{
    struct stat found;
    int file = open(path, O_RDONLY);
    if (file < 0 || fstat(file, &found))
        abort();
    unsigned char *at = malloc(found.st_size + 1);
    if (!at || read(file, at, found.st_size) != found.st_size)
        abort();
    close(file);
    return (struct bytes){at, found.st_size};
}

static void say(int file, struct bytes text)
{
    if (write(file, text.at, text.length) != (ssize_t)text.length)
        abort();
}

static void put(const char *path, struct bytes content)
{
    int file = open(path, O_WRONLY | O_CREAT | O_TRUNC, 0644);
    if (file < 0)
        abort();
    say(file, content);
    close(file);
}

static void put_journal(struct bytes a, struct bytes b)
{
    put("a", a);
    put("b", b);
}

static void remove_files(const char *folder)
{
    DIR *listing = opendir(folder);
    for (struct dirent *it; listing && (it = readdir(listing));)
        unlinkat(dirfd(listing), it->d_name, 0);
    closedir(listing);
}

/* ---- an input as the files of a journal */

static struct bytes part(size_t from, size_t count)
{
    from = from < length ? from : length;
    return (struct bytes){input + from, count < length - from ? count : length - from};
}

static void add(struct bytes it)
{
    memcpy(built + fill, it.at, it.length);
    fill += it.length;
}

static void add_number(uint64_t value, int size)
{
    for (; size; size--, value >>= 8)
        built[fill++] = value & 255;
}

static void add_snapshot(uint64_t generation, struct bytes it)
{
    add((struct bytes){(const unsigned char *)"\xa5MPDJRNL\1\0\0", 11});
    add_number(0, 1);
    add_number(generation, 8);
    add_number(generation - 1, 8);
    add_number(it.length, 4);
    add(it);
}

/* Bodies, each behind its length in two bytes, as records with gates, and the gate that closes them. */
static void add_records(struct bytes it)
{
    while (it.length > 1) {
        size_t size = it.at[0] | it.at[1] << 8;
        size = size < it.length - 2 ? size : it.length - 2;
        add_number(0xa5, 1);
        add_number(size, 4);
        add((struct bytes){it.at + 2, size});
        it = (struct bytes){it.at + 2 + size, it.length - 2 - size};
    }
    add_number(0, 1);
}

/* The first byte says what the others are; so bodies and snapshots behind gates and lengths that are right are tried too. */
static void put_input_as_journal(void)
{
    const struct bytes none = {0}, fresh = {file_a.at + HEAD, FRESH};
    const size_t size = length > 2 ? input[1] | input[2] << 8 : 0;
    const struct bytes whole = part(1, MOST), first = part(3, size), rest = part(3 + first.length, MOST);
    const int kind = length ? input[0] & 7 : 0;
    fill = 0;
    if (kind < 2) {
        put_journal(kind ? first : whole, kind ? rest : none);
        return;
    }
    add_snapshot(kind == 6 ? 2 : 1, kind < 4 ? snapshot : kind == 4 ? whole : kind == 7 ? fresh : first);
    add_records(kind == 4 ? none : kind < 4 || kind == 7 ? whole : rest);
    const struct bytes file = {built, fill};
    put_journal(kind == 6 ? file_a : file, kind == 6 ? file : none);
}

/* ---- a run of the program */

static int own_count;
static char **own_words, **own_settings;
static jmp_buf behind;
static int is_running, status;

/* The program ends by this call. */
void __wrap__exit(int given)
{
    if (!is_running)
        __real__exit(given);
    status = given;
    longjmp(behind, 1);
}

static void look_at_memory(void)
{
    struct rusage used;
    getrusage(RUSAGE_SELF, &used);
    if (used.ru_maxrss > MOST_KB)
        raise(SIGUSR1);
}

static int in_memory(int stream)
{
    int file = memfd_create("stream", 0);
    if (file < 0 || dup2(file, stream) < 0)
        abort();
    close(file);
    return stream;
}

/* What the program writes where these two are its input. */
static struct bytes written(struct bytes one, struct bytes other)
{
    struct stat found;
    say(in_memory(0), one);
    say(0, other);
    lseek(0, 0, SEEK_SET);
    in_memory(1);
    is_running = 1;
    if (!setjmp(behind))
        status = __real_main(own_count, own_words, own_settings);
    is_running = 0;
    look_at_memory();
    fstat(1, &found);
    void *at = found.st_size ? mmap(NULL, found.st_size, PROT_READ, MAP_PRIVATE, 1, 0) : NULL;
    return (struct bytes){at, found.st_size};
}

/* What is answered from the last line MARKA on, if MARKB ends it. */
static struct bytes answers_to_reads(struct bytes it)
{
    static const char begin[] = "ACK [5@0] {} unknown command \"MARKA\"\n", end[] = "ACK [5@0] {} unknown command \"MARKB\"\n";
    const size_t size = sizeof end - 1;
    if (it.length < size || memcmp(it.at + it.length - size, end, size))
        return (struct bytes){0};
    for (size_t at = it.length - size; at > 0; at--)
        if (!memcmp(it.at + at, begin, size))
            return (struct bytes){it.at + at, it.length - at};
    return (struct bytes){0};
}

static int is_looked_at_again(void)
{
    uint32_t sum = 2166136261u;
    for (size_t at = 0; at < length; at++)
        sum = (sum ^ input[at]) * 16777619u;
    return (sum >> 16) % 4 == 0;
}

static void run_twice(struct bytes lines)
{
    struct bytes all = written(lines, requests), first = answers_to_reads(all);
    if (status == 0 && is_looked_at_again()) {
        struct bytes again = written(reads, (struct bytes){0}), second = answers_to_reads(again);
        if (status || !second.at)
            raise(SIGUSR2);
        if (first.at && (first.length != second.length || memcmp(first.at, second.at, first.length)))
            raise(SIGSYS);
        munmap((void *)again.at, again.length);
    }
    if (all.at)
        munmap((void *)all.at, all.length);
}

static void run_input(const char *kind)
{
    const struct itimerval two_seconds = {{0, 0}, {2, 0}};
    const struct bytes whole = part(0, MOST), none = {0};
    setitimer(ITIMER_PROF, &two_seconds, NULL);
    if (!strcmp(kind, "config")) {
        remove_files(".");
        remove_files("music");
        put("c.toml", whole);
        put_journal(file_a, file_b);
        struct bytes all = written(requests, none);
        if (all.at)
            munmap((void *)all.at, all.length);
        return;
    }
    put_journal(file_a, file_b);
    if (!strcmp(kind, "journal"))
        put_input_as_journal();
    if (!strcmp(kind, "wave"))
        put("music/d/f.wav", whole);
    run_twice(strcmp(kind, "lines") ? none : whole);
}

/* AFL++ gives the program a session of its own, and a system that shares processors by session counts it as much as any other. */
static void yield_to_other_sessions(void)
{
    int file = open("/proc/self/autogroup", O_WRONLY);
    if (file >= 0 && write(file, "19", 2) != 2)
        abort();
    close(file);
}

int __wrap_main(int count, char **words, char **settings)
{
    const char *kind = getenv("KIND"), *room = getenv("ROOM");
    const struct rlimit memory = {1 << 30, 1 << 30};
    if (!kind || !room)
        return __real_main(count, words, settings);
    yield_to_other_sessions();
    own_count = count, own_words = words, own_settings = settings;
    if (chdir(room) || chroot(room) || setrlimit(RLIMIT_AS, &memory))
        abort();
    file_a = all_of("keep/a"), file_b = all_of("keep/b"), snapshot = all_of("keep/snapshot"), requests = all_of("keep/requests");
    reads.at = memmem(requests.at, requests.length, "MARKA", 5);
    reads.length = reads.at ? requests.at + requests.length - reads.at : 0;
    /* Each run puts its own input in place of the stream that inputs come by where they don't come in shared memory. */
    const int given = dup(0);
    __afl_manual_init();
    while (__afl_persistent_loop(RUNS)) {
        length = __afl_fuzz_ptr ? *__afl_fuzz_len < MOST ? *__afl_fuzz_len : MOST : 0;
        if (__afl_fuzz_ptr)
            memcpy(input, __afl_fuzz_ptr, length);
        else
            for (ssize_t got; (got = read(given, input + length, MOST - length)) > 0;)
                length += got;
        run_input(kind);
    }
    return 0;
}
