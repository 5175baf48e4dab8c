/* Names of machines. It stands alone: a program that is linked statically and looks names up still wants the C library's own files. */
#include <netdb.h>
#include <stddef.h>
#include <stdint.h>
#include <string.h>
#include <sys/socket.h>
#include <sys/types.h>

struct address {
    uint8_t bytes[128];
    uint32_t length;
};

_Static_assert(sizeof(struct address) == 132, "the caller's address");

/* How many addresses of IP were found, or the negative number of getaddrinfo's error. */
ssize_t rattle_lookup_host(const char *name, struct address *found, size_t room)
{
    struct addrinfo wanted = {.ai_socktype = SOCK_STREAM}, *list = NULL;
    size_t count = 0;
    int fault = getaddrinfo(name, NULL, &wanted, &list);
    if (fault != 0)
        return fault;
    for (struct addrinfo *each = list; each != NULL && count < room; each = each->ai_next) {
        if ((each->ai_family == AF_INET || each->ai_family == AF_INET6) && each->ai_addrlen <= sizeof found->bytes) {
            memcpy(found[count].bytes, each->ai_addr, each->ai_addrlen);
            found[count++].length = each->ai_addrlen;
        }
    }
    freeaddrinfo(list);
    return (ssize_t)count;
}
