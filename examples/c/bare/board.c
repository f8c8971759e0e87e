/*
 * What a program asks of its board: a byte out, a clock, its words, an end. Here the board is qemu's machine `virt`: a PL011 at
 * 0x09000000, which qemu has set up, the counter that every 64-bit Arm has, and for words and end semihosting, that is calls that
 * qemu or a debugger answers.
 */
#include "bare.h"

#include <time.h>

enum { GET_WORDS = 0x15, EXIT = 0x20, APPLICATION_EXIT = 0x20026 };
enum { WORDS = 64, TEXT = 1024 };

int main(int count, char **texts);
void board_main(void);
void board_fault(uint64_t syndrome, uint64_t place, uint64_t address);

/* A call of semihosting: its number, and where its arguments stand. */
static long ask(unsigned long number, void *arguments)
{
    register unsigned long asked __asm__("x0") = number;
    register void *with __asm__("x1") = arguments;
    __asm__ volatile("hlt #0xf000" : "+r"(asked) : "r"(with) : "memory");
    return (long)asked;
}

void board_put(char byte)
{
    volatile uint32_t *data = (volatile uint32_t *)0x09000000, *flags = (volatile uint32_t *)0x09000018;
    while (*flags & 1 << 5) /* no room */
        continue;
    *data = (unsigned char)byte;
}

static void end(int status)
{
    uint64_t block[2] = {APPLICATION_EXIT, (uint64_t)status};
    for (;;)
        ask(EXIT, block);
}

clock_t clock(void)
{
    uint64_t ticks, a_second;
    __asm__ volatile("isb\n\tmrs %0, cntvct_el0" : "=r"(ticks));
    __asm__ volatile("mrs %0, cntfrq_el0" : "=r"(a_second));
    return (clock_t)((double)ticks / (double)a_second * CLOCKS_PER_SEC);
}

/* Cuts a line at its blanks. */
static int cut(char *line, char **word, int most)
{
    int count = 0;
    while (*line && count < most) {
        while (*line == ' ')
            *line++ = 0;
        if (*line)
            word[count++] = line;
        while (*line && *line != ' ')
            line++;
    }
    return count;
}

void board_main(void)
{
    static char line[TEXT], *word[WORDS + 1];
    struct {
        char *text;
        uint64_t room;
    } words = {line, sizeof line};
    int count = ask(GET_WORDS, &words) == 0 ? cut(line, word, WORDS) : 0;
    end(main(count, word));
}

void board_fault(uint64_t syndrome, uint64_t place, uint64_t address)
{
    printf("exception: syndrome %lu at %lu, address %lu\n", syndrome, place, address);
    end(255);
}
