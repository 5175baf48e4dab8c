/* A program of this machine that hands all it is given on to WORDS: an emulator, its options, and the program that it runs. */
#include <errno.h>
#include <stdio.h>
#include <stdlib.h>
#include <string.h>
#include <unistd.h>

static char *const words[] = {WORDS};

int main(int count, char **given)
{
    size_t ours = sizeof words / sizeof *words;
    char **all = calloc(ours + (size_t)count + 1, sizeof *all);
    if (all == NULL || count < 1)
        return 127;
    memcpy(all, words, sizeof words);
    memcpy(all + ours, given + 1, ((size_t)count - 1) * sizeof *all);
    execv(all[0], all);
    fprintf(stderr, "%s: %s\n", all[0], strerror(errno));
    return 127;
}
