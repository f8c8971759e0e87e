/* Stands in front of the C library of a program that is linked with it at run time, and refuses calls.
 *
 * It is put in by LD_PRELOAD. REFUSE says what is refused, `growth` of memory, `read` or `write`, from which call to which, and
 * the descriptor to which each call is reported by a byte, '-' where it was refused and '+' where not. Calls are counted from 1,
 * over all threads; a read or a write fails with EIO. Where reads or writes are named, each transfers 16 bytes at most. Writes to
 * standard error are left alone.
 */
#include <errno.h>
#include <stdatomic.h>
#include <stdio.h>
#include <stdlib.h>
#include <sys/syscall.h>
#include <unistd.h>

extern void *__libc_malloc(size_t size);
extern void *__libc_calloc(size_t count, size_t size);
extern void *__libc_realloc(void *block, size_t size);

enum { GROWTHS = 'g', READS = 'r', WRITES = 'w' };

static char what;
static atomic_ulong calls;
static unsigned long first, last;
static int told;

__attribute__((constructor)) static void read_environment(void)
{
    const char *text = getenv("REFUSE");
    char kind;
    if (text && sscanf(text, "%c%*s %lu %lu %d", &kind, &first, &last, &told) == 4)
        what = kind;
}

static int is_refused(char kind, int fault)
{
    if (kind != what)
        return 0;
    unsigned long number = atomic_fetch_add(&calls, 1) + 1;
    int refused = first <= number && number <= last;
    int kept = errno;
    if (syscall(SYS_write, told, refused ? "-" : "+", 1) != 1)
        abort();
    errno = refused ? fault : kept;
    return refused;
}

static size_t piece_of(size_t size)
{
    return (what == READS || what == WRITES) && size > 16 ? 16 : size;
}

ssize_t read(int file, void *to, size_t size)
{
    return is_refused(READS, EIO) ? -1 : syscall(SYS_read, file, to, piece_of(size));
}

ssize_t write(int file, const void *from, size_t size)
{
    if (file == STDERR_FILENO)
        return syscall(SYS_write, file, from, size);
    return is_refused(WRITES, EIO) ? -1 : syscall(SYS_write, file, from, piece_of(size));
}

void *malloc(size_t size)
{
    return is_refused(GROWTHS, ENOMEM) ? NULL : __libc_malloc(size);
}

void *calloc(size_t count, size_t size)
{
    return is_refused(GROWTHS, ENOMEM) ? NULL : __libc_calloc(count, size);
}

void *realloc(void *block, size_t size)
{
    return size && is_refused(GROWTHS, ENOMEM) ? NULL : __libc_realloc(block, size);
}
