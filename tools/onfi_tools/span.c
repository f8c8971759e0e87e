/* Stands in front of the C library of a program that is linked with it at run time, and says how long a run would
 * take if each of its threads had a processor of its own.
 *
 * It is put in by LD_PRELOAD. As the program ends, two numbers of ns of processor time are written to the descriptor
 * SPAN_TOLD: the longest chain of work in which each piece waits for the one before it, and the work of all threads
 * together. A thread's chain goes on from its maker's; after a join it is the longer one of the two. Threads end by a
 * return from their function.
 */
#define _GNU_SOURCE
#include <dlfcn.h>
#include <pthread.h>
#include <stdatomic.h>
#include <stdint.h>
#include <stdio.h>
#include <stdlib.h>
#include <sys/syscall.h>
#include <time.h>
#include <unistd.h>

struct thread {
    void *(*run)(void *);
    void *given;
    void *result;
    uint64_t chain;
};

static atomic_ullong ended;
static _Thread_local uint64_t before;

static uint64_t own(void)
{
    struct timespec time;
    clock_gettime(CLOCK_THREAD_CPUTIME_ID, &time);
    return (uint64_t)time.tv_sec * 1000000000 + (uint64_t)time.tv_nsec;
}

/* Gives the thread itself to the one that joins it. */
static void *begin(void *given)
{
    struct thread *thread = given;
    before = thread->chain;
    thread->result = thread->run(thread->given);
    uint64_t used = own();
    atomic_fetch_add(&ended, used);
    thread->chain = before + used;
    return thread;
}

int pthread_create(pthread_t *id, const pthread_attr_t *how, void *(*run)(void *), void *given)
{
    int (*create)(pthread_t *, const pthread_attr_t *, void *(*)(void *), void *) = dlsym(RTLD_NEXT, "pthread_create");
    struct thread *thread = malloc(sizeof *thread);
    if (!thread)
        abort();
    *thread = (struct thread){.run = run, .given = given, .chain = before + own()};
    int fault = create(id, how, begin, thread);
    if (fault)
        free(thread);
    return fault;
}

int pthread_join(pthread_t id, void **result)
{
    int (*join)(pthread_t, void **) = dlsym(RTLD_NEXT, "pthread_join");
    void *joined;
    int fault = join(id, &joined);
    if (fault)
        return fault;
    struct thread *thread = joined;
    uint64_t used = own();
    if (thread->chain > before + used)
        before = thread->chain - used;
    if (result)
        *result = thread->result;
    free(thread);
    return 0;
}

static void tell(void)
{
    const char *told = getenv("SPAN_TOLD");
    uint64_t used = own();
    if (told)
        dprintf(atoi(told), "%llu %llu\n", (unsigned long long)(before + used), (unsigned long long)ended + used);
}

/* A program that returns from its main function ends by way of this, others by _exit. */
__attribute__((destructor)) static void tell_behind_main(void)
{
    tell();
}

void _exit(int status)
{
    tell();
    syscall(SYS_exit_group, status);
    __builtin_unreachable();
}
