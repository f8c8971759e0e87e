/*
 * What the program asks of C beside heap.c, for processors other than x86-64, for which the kit has it itself (args.pic.o and
 * errno.pic.o of its c/libos_c.a); these do the same. No proof speaks of C: this file is trusted, as the C library is.
 */
#include <errno.h>
#include <stddef.h>
#include <sys/types.h>

static size_t count;
static char **words;

size_t rattle_arg_count(void);
ssize_t rattle_arg(size_t at, char *to, size_t room);
int rattle_errno(void);
void rattle_set_errno(int number);

/* Before main, as glibc hands the words to each constructor. */
__attribute__((constructor)) static void keep(int given, char **texts)
{
    count = (size_t)given;
    words = texts;
}

size_t rattle_arg_count(void)
{
    return count;
}

/* Copies a word without its end; gives its length, -1 where there is no such word, -2 where it is longer than the room. */
ssize_t rattle_arg(size_t at, char *to, size_t room)
{
    if (at >= count || !words[at])
        return -1;
    size_t bytes = 0;
    for (const char *from = words[at]; from[bytes]; bytes++) {
        if (bytes == room)
            return -2;
        to[bytes] = from[bytes];
    }
    return (ssize_t)bytes;
}

int rattle_errno(void)
{
    return errno;
}

void rattle_set_errno(int number)
{
    errno = number;
}
