/*
 * The three calls by which the library asks for memory, for processors other than x86-64, for which the kit has them itself
 * (heap.pic.o of its c/liblibc_c.a); these do the same. No proof speaks of C: this file is trusted, as malloc is.
 *
 * An answer says whether there is memory, and where. Where there is none the address is of something: Rattle has no null
 * pointers. A block of no bytes is one of its alignment. The library asks for no alignment that malloc doesn't give.
 */
typedef __SIZE_TYPE__ size;

typedef struct {
    size is_given; /* 0 or 1, in a register of its own */
    void *block;
} answer;

void *malloc(size bytes);
void *realloc(void *block, size bytes);
void free(void *block);

answer rattle_alloc(size bytes, size align);
answer rattle_realloc(void *block, size kept, size bytes, size align);
void rattle_dealloc(void *block);

static answer answer_of(void *block)
{
    static char nothing;
    answer made = {block != 0, block ? block : &nothing};
    return made;
}

answer rattle_alloc(size bytes, size align)
{
    return answer_of(malloc(bytes ? bytes : align));
}

answer rattle_realloc(void *block, size kept, size bytes, size align)
{
    (void)kept;
    return answer_of(realloc(block, bytes ? bytes : align));
}

void rattle_dealloc(void *block)
{
    free(block);
}
