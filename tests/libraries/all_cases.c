/* all_cases: what onfi_text answers to each case of cases.h, which tools/test-targets writes, in one run: its status, and how many
 * bytes it wrote with a sum of them (FNV-1a). For machines without an operating system, whose programs have no words and no files. */
#include <onfi.h>

#include <inttypes.h>
#include <stdio.h>
#include <stdlib.h>
#include <string.h>

static const struct {
    const char *words;
    size_t bytes;
    const char *script;
} cases[] = {
#include "cases.h"
};

static uint64_t sum_of(const char *text, size_t bytes)
{
    uint64_t sum = UINT64_C(14695981039346656037);
    for (size_t at = 0; at < bytes; at++)
        sum = (sum ^ (unsigned char)text[at]) * UINT64_C(1099511628211);
    return sum;
}

int main(void)
{
    for (size_t at = 0; at < sizeof cases / sizeof cases[0]; at++) {
        size_t size = 1024, wrote = 0;
        char *room = malloc(size);
        uint32_t status = room ? onfi_text(cases[at].words, strlen(cases[at].words), cases[at].script, cases[at].bytes, room, size, &wrote) : ONFI_MEMORY;
        if (status == ONFI_NO_ROOM) {
            free(room);
            room = malloc(size = wrote);
            status = room ? onfi_text(cases[at].words, strlen(cases[at].words), cases[at].script, cases[at].bytes, room, size, &wrote) : ONFI_MEMORY;
        }
        uint64_t sum = room ? sum_of(room, wrote) : 0;
        printf("%u %lu %08lx%08lx\n", (unsigned)status, (unsigned long)wrote, (unsigned long)(sum >> 32), (unsigned long)(sum & 0xFFFFFFFF));
        free(room);
    }
    return 0;
}
