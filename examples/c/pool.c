/*
 * malloc, realloc and free over one static array, for a machine without an allocator: libonfi.a asks for no other function.
 *
 *     cc -std=c99 -c pool.c -DPOOL_BYTES=65536
 *     cc -std=c99 -I../../include batch.c pool.o ../../lib/libonfi.a -o batch
 *
 * The first free place that is large enough is taken, and free places beside each other become one. Where none is large enough,
 * the call of the library answers ONFI_MEMORY. It is for one thread. A call of the library gives back all memory before it returns.
 *
 * pool_peak says how much of the array was ever in use. stack_paint and stack_note, around a call, say how deep the stack went.
 */
#include <stdbool.h>
#include <stddef.h>
#include <stdint.h>
#include <string.h>

#ifndef POOL_BYTES
#define POOL_BYTES (1u << 20)
#endif

/* What the array is made of: as large as malloc aligns. A block is a unit that says how many follow, and these. */
typedef union {
    struct {
        size_t units;
        bool is_used;
    } block;
    long double number;
    void *pointer;
} unit;

enum { UNITS = POOL_BYTES / sizeof(unit) };

static unit pool[UNITS];
static size_t peak; /* in units */

void *malloc(size_t bytes);
void *realloc(void *block, size_t bytes);
void free(void *block);
size_t pool_peak(void);

/* How many units hold that many bytes; at least one. */
static size_t units_of(size_t bytes)
{
    return bytes ? (bytes - 1) / sizeof(unit) + 1 : 1;
}

static size_t behind(size_t at)
{
    return at + 1 + pool[at].block.units;
}

/* Joins a block with the free ones after it. */
static void join(size_t at)
{
    while (behind(at) < UNITS && !pool[behind(at)].block.is_used)
        pool[at].block.units += 1 + pool[behind(at)].block.units;
}

/* Takes that many units of a block that has them, and leaves the rest as a free one. */
static void *take(size_t at, size_t units)
{
    if (pool[at].block.units > units) {
        size_t rest = at + 1 + units;
        pool[rest].block.units = pool[at].block.units - units - 1;
        pool[rest].block.is_used = false;
        pool[at].block.units = units;
    }
    pool[at].block.is_used = true;
    if (behind(at) > peak)
        peak = behind(at);
    return &pool[at + 1];
}

void *malloc(size_t bytes)
{
    if (bytes >= sizeof pool)
        return NULL;
    if (pool[0].block.units == 0) /* nothing was asked for before */
        pool[0].block.units = UNITS - 1;
    for (size_t at = 0; at < UNITS; at = behind(at)) {
        if (pool[at].block.is_used)
            continue;
        join(at);
        if (pool[at].block.units >= units_of(bytes))
            return take(at, units_of(bytes));
    }
    return NULL;
}

/* The place of a block of the pool; UNITS where it is none, as what a C library had before. */
static size_t place_of(const void *block)
{
    uintptr_t at = (uintptr_t)block, first = (uintptr_t)pool;
    return at > first && at - first < sizeof pool ? (at - first) / sizeof(unit) - 1 : UNITS;
}

void free(void *block)
{
    size_t at = place_of(block);
    if (at < UNITS)
        pool[at].block.is_used = false;
}

void *realloc(void *block, size_t bytes)
{
    size_t at = place_of(block);
    if (at == UNITS)
        return malloc(bytes);
    size_t old = pool[at].block.units * sizeof(unit);
    if (bytes >= sizeof pool)
        return NULL;
    join(at);
    if (pool[at].block.units >= units_of(bytes))
        return take(at, units_of(bytes));
    (void)take(at, units_of(old)); /* what was joined isn't enough */
    void *moved = malloc(bytes);
    if (!moved)
        return NULL;
    memcpy(moved, block, old);
    free(block);
    return moved;
}

size_t pool_peak(void)
{
    return peak * sizeof(unit);
}

/* The stack. */

enum { PAINTED = 1 << 15, PAINT = 0x5A }; /* words, 256 kilobytes */

static uintptr_t painted; /* the lowest address */
static size_t deepest;

void stack_paint(void);
void stack_note(void);
size_t stack_peak(void);

/* Fills the stack below the caller, as far as 256 kilobytes. */
void stack_paint(void)
{
    volatile uint64_t room[PAINTED];
    for (size_t at = 0; at < PAINTED; at++)
        room[at] = PAINT;
    painted = (uintptr_t)room;
}

/* Looks how much of that was written over since. */
void stack_note(void)
{
    size_t left = 0;
    while (left < PAINTED && ((volatile uint64_t *)painted)[left] == PAINT)
        left++;
    if ((PAINTED - left) * sizeof(uint64_t) > deepest)
        deepest = (PAINTED - left) * sizeof(uint64_t);
}

/* How deep calls between the two went, in bytes. */
size_t stack_peak(void)
{
    return deepest;
}
