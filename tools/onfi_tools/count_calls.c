/*
 * count_calls plain|within|early LIMIT SCRIPT..: plans each script by onfi_plan, plain, within the limit, or so that requests end early, whose
 * requests count alike, and checks the plan by onfi_check. For each it prints STATUS OPENED NODES TOKENS: of the call that plans, how many nodes its search opened, and
 * how many nodes and tokens its certificate has; zeros where there is no plan. Under callgrind each call has a part of the counts
 * of its own, named `plan N` and `check N` by the script's place.
 */
#include "script.h"

#include <valgrind/callgrind.h>

static uint8_t certificate[1 << 24];

/* A token stands after each LF and each blank but the last, and all but yields are nodes. */
static void print_certificate(size_t bytes)
{
    unsigned tokens = 0, nodes = 0;
    const uint8_t *body = memchr(certificate, '\n', bytes);
    for (const uint8_t *at = body; at + 1 < certificate + bytes; at++)
        if (*at == ' ' || *at == '\n') {
            tokens++;
            nodes += at[1] != 'Y';
        }
    printf("%u %u\n", nodes, tokens);
}

/* The names are made before the counts begin, so that a part holds its call alone. */
static void count_script(const problem *p, int place, const onfi_options *options)
{
    char plan_name[32], check_name[32];
    snprintf(plan_name, sizeof plan_name, "plan %d", place);
    snprintf(check_name, sizeof check_name, "check %d", place);
    onfi_planned planned;
    onfi_verdict verdict;
    size_t bytes;
    CALLGRIND_ZERO_STATS;
    uint32_t status = onfi_plan(&p->channel, p->wants, p->want_count, options, &planned, certificate, sizeof certificate, &bytes);
    CALLGRIND_DUMP_STATS_AT(plan_name);
    if (status != ONFI_DONE) {
        printf("%u 0 0 0\n", status);
        return;
    }
    CALLGRIND_ZERO_STATS;
    status = onfi_check(&p->channel, p->wants, p->want_count, &planned.schedule, planned.below, certificate, bytes, &verdict);
    CALLGRIND_DUMP_STATS_AT(check_name);
    if (status != ONFI_DONE || verdict.finish != planned.finish)
        exit(8);
    printf("%u %u ", ONFI_DONE, planned.opened);
    print_certificate(bytes);
}

int main(int count, char **words)
{
    onfi_options options = ONFI_OPTIONS;
    options.by = strcmp(words[1], "plain") ? ONFI_WITHIN : ONFI_PLAIN;
    options.early = !strcmp(words[1], "early");
    options.limit = (uint32_t)atoi(words[2]);
    for (int at = 3; at < count; at++) {
        problem p = {0};
        FILE *script = fopen(words[at], "r");
        read_script(&p, script);
        fclose(script);
        count_script(&p, at - 3, &options);
    }
    return 0;
}
