/*
 * Random calls of examples/c/pool.c, whose functions are renamed here: each block keeps what was written, overlaps no other and is
 * aligned; what is given back is given out again; too much is refused.
 */
#include <stdint.h>
#include <stdio.h>
#include <string.h>

enum { BLOCKS = 24, MOST = 900, TRIALS = 200000 };

void *pool_malloc(size_t bytes);
void *pool_realloc(void *block, size_t bytes);
void pool_free(void *block);
size_t pool_peak(void);

typedef struct {
    unsigned char *at;
    size_t bytes;
    unsigned char filled;
} block;

static block blocks[BLOCKS];
static unsigned refused, wrong;

static uint32_t drawn(uint32_t below)
{
    static uint64_t state = 1;
    state = state * UINT64_C(6364136223846793005) + UINT64_C(1442695040888963407);
    return (uint32_t)(state >> 33) % below;
}

/* Whether as many bytes are as they were filled. */
static int is_kept(const block *b, size_t bytes)
{
    for (size_t at = 0; at < bytes; at++)
        if (b->at[at] != b->filled)
            return 0;
    return 1;
}

static void fill(block *b, size_t bytes)
{
    static unsigned char next;
    b->bytes = bytes;
    b->filled = ++next;
    memset(b->at, b->filled, bytes);
    wrong += (uintptr_t)b->at % 16 != 0;
}

static void ask(block *b)
{
    size_t bytes = drawn(MOST);
    b->at = pool_malloc(bytes);
    if (b->at)
        fill(b, bytes);
    refused += !b->at;
}

static void ask_anew(block *b)
{
    size_t bytes = drawn(MOST);
    unsigned char *moved = pool_realloc(b->at, bytes);
    refused += !moved;
    if (!moved)
        return;
    b->at = moved;
    wrong += !is_kept(b, b->bytes < bytes ? b->bytes : bytes);
    fill(b, bytes);
}

static void give_back(block *b)
{
    wrong += !is_kept(b, b->bytes);
    pool_free(b->at);
    b->at = NULL;
}

static void give_all_back(void)
{
    for (unsigned at = 0; at < BLOCKS; at++)
        if (blocks[at].at)
            give_back(&blocks[at]);
}

int main(void)
{
    for (unsigned trial = 0; trial < TRIALS; trial++) {
        block *b = &blocks[drawn(BLOCKS)];
        if (!b->at)
            ask(b);
        else if (drawn(3) == 0)
            ask_anew(b);
        else if (drawn(2) == 0)
            give_back(b);
        else
            wrong += !is_kept(b, b->bytes);
    }
    give_all_back();
    int is_refused = !pool_malloc(POOL_BYTES) && !pool_malloc(SIZE_MAX) && !pool_realloc(NULL, POOL_BYTES);
    void *all = pool_malloc(POOL_BYTES - 32);
    printf("wrong %u, some refused %d, too much refused %d, all at once %d, peak %d\n", wrong, refused > 0, is_refused, all != NULL, pool_peak() == POOL_BYTES);
    return 0;
}
