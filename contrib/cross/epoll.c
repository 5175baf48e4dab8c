/* Readiness. The caller's entry has its number at byte 8. C's `epoll_event` has it there too, but on x86-64, where it is packed, at
 * byte 4. */
#include <stddef.h>
#include <stdint.h>
#include <string.h>
#include <sys/epoll.h>
#include <sys/types.h>

struct entry {
    uint32_t events;
    uint64_t data;
};

_Static_assert(sizeof(struct entry) == 16 && offsetof(struct entry, data) == 8, "the caller's entry");
_Static_assert(sizeof(struct epoll_event) <= sizeof(struct entry), "events fit where entries are to stand");

/* More entries than this are never asked for at once. */
static const size_t MOST = 1 << 24;

int rattle_epoll_ctl(int epoll, int change, int file, uint32_t events, uint64_t data)
{
    struct epoll_event event = {.events = events, .data = {.u64 = data}};
    return epoll_ctl(epoll, change, file, &event);
}

/* The system puts its events where the entries are to stand. Each entry begins where its event does or behind it, so the last one is made
 * first, and none is written over an event that is still to be read. */
ssize_t rattle_epoll_wait(int epoll, struct entry *entries, size_t room, int milliseconds)
{
    int count = epoll_wait(epoll, (struct epoll_event *)(void *)entries, (int)(room < MOST ? room : MOST), milliseconds);
    for (int number = count - 1; number >= 0; number--) {
        struct epoll_event event;
        memcpy(&event, (char *)entries + (size_t)number * sizeof event, sizeof event);
        struct entry entry = {.events = event.events, .data = event.data.u64};
        memcpy((char *)entries + (size_t)number * sizeof entry, &entry, sizeof entry);
    }
    return count;
}
