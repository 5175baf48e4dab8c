/* Files and sockets: calls whose flags or structures have other numbers or other places on another processor. */
#include <fcntl.h>
#include <stdbool.h>
#include <stddef.h>
#include <stdint.h>
#include <sys/ioctl.h>
#include <sys/socket.h>
#include <sys/types.h>
#include <sys/uio.h>
#include <unistd.h>

/* O_DIRECTORY and O_NOFOLLOW are other bits on aarch64. */
int rattle_open_dir_at(int folder, const char *name)
{
    return openat(folder, name, O_RDONLY | O_DIRECTORY | O_NOFOLLOW | O_CLOEXEC);
}

/* A lock that belongs to the open file and not to the process, counted from the file's start. */
int rattle_lock_range(int file, int16_t kind, int64_t start, int64_t length)
{
    struct flock range = {.l_type = kind, .l_whence = SEEK_SET, .l_start = start, .l_len = length};
    return fcntl(file, F_OFD_SETLK, &range);
}

int rattle_set_nonblocking(int file, bool is_on)
{
    int number = is_on;
    return ioctl(file, FIONBIO, &number);
}

/* Four buffers in their order by one call, which may write fewer bytes than they have. A socket that nobody reads raises no signal. */
ssize_t rattle_write_parts(int file, bool is_socket, void *a, size_t a_length, void *b, size_t b_length, void *c, size_t c_length, void *d,
                           size_t d_length)
{
    struct iovec parts[] = {{a, a_length}, {b, b_length}, {c, c_length}, {d, d_length}};
    struct msghdr message = {.msg_iov = parts, .msg_iovlen = 4};
    return is_socket ? sendmsg(file, &message, MSG_NOSIGNAL) : writev(file, parts, 4);
}
