/* plan_scripts ROUNDS SCRIPT..: the seconds of processor time of ROUNDS plans of each script, by onfi_plan; those over the limit are left out. */
#include "script.h"

#include <time.h>

static uint8_t certificate[1 << 22];

static uint32_t plan_of(const problem *p)
{
    static const onfi_options options = ONFI_OPTIONS;
    onfi_planned plan;
    size_t bytes;
    return onfi_plan(&p->channel, p->wants, p->want_count, &options, &plan, certificate, sizeof certificate, &bytes);
}

int main(int count, char **words)
{
    problem *problems = calloc((size_t)count, sizeof *problems);
    unsigned rounds = (unsigned)atoi(words[1]), calls = 0;
    for (int at = 2; at < count; at++) {
        FILE *script = fopen(words[at], "r");
        read_script(&problems[at], script);
        fclose(script);
    }
    clock_t begun = clock();
    for (unsigned round = 0; round < rounds; round++)
        for (int at = 2; at < count; at++)
            calls += plan_of(&problems[at]) == ONFI_DONE;
    printf("%u %.6f\n", calls, (double)(clock() - begun) / CLOCKS_PER_SEC);
    free(problems);
    return 0;
}
