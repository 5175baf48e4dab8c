/* What a process is told: the last error's number, its arguments, its environment. */
#include <errno.h>
#include <stddef.h>
#include <stdlib.h>
#include <sys/types.h>

extern char **environ;

/* No such text; a text longer than the buffer, which is full then. */
enum { NONE = -1, TOO_LONG = -2 };

static int argument_count;
static char **arguments;

/* glibc calls each function of this section with what `main` is given, in programs linked statically too. */
static void take_arguments(int count, char **words, char **environment)
{
    (void)environment;
    argument_count = count;
    arguments = words;
}

__attribute__((section(".init_array"), used)) static void (*const at_start)(int, char **, char **) = take_arguments;

/* Copies a text without the zero behind it: its length, or what it can't be copied for. */
static ssize_t copy_text(const char *text, char *buffer, size_t room)
{
    size_t length = 0;
    if (text == NULL)
        return NONE;
    for (; text[length] != '\0'; length++) {
        if (length == room)
            return TOO_LONG;
        buffer[length] = text[length];
    }
    return (ssize_t)length;
}

int rattle_errno(void)
{
    return errno;
}

void rattle_set_errno(int number)
{
    errno = number;
}

size_t rattle_arg_count(void)
{
    return (size_t)argument_count;
}

ssize_t rattle_arg(size_t number, char *buffer, size_t room)
{
    return copy_text(number < (size_t)argument_count ? arguments[number] : NULL, buffer, room);
}

ssize_t rattle_env(const char *name, char *buffer, size_t room)
{
    return copy_text(getenv(name), buffer, room);
}

ssize_t rattle_env_at(size_t number, char *buffer, size_t room)
{
    char **entry = environ;
    while (entry != NULL && *entry != NULL && number > 0) {
        entry++;
        number--;
    }
    return copy_text(entry != NULL ? *entry : NULL, buffer, room);
}
