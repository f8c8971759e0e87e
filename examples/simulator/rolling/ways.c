/* The ways by name, and one of your own where it is compiled beside (-DWITH_OWN_WAY). */
#include "rolling.h"

#include <string.h>

/* Without the library (-DWITHOUT_LIBRARY) there are greedy ways alone. */
static const way WAYS[] = {
    {"fifo", everything, in_order, NULL, NULL},
    {"round-robin", first_eight, by_rule, &ROUND_ROBIN, NULL},
    {"commands-first", first_eight, by_rule, &COMMANDS_FIRST, NULL},
    {"mqsim", first_eight, by_rule, &MQSIM, NULL},
    {"rfirst:8", first_eight, by_rule, &READS_FIRST, NULL},
    {"rfirst:all", everything, by_rule, &READS_FIRST, NULL},
#ifndef WITHOUT_LIBRARY
    {"steady", everything, phase_by_phase, NULL, NULL},
    {"rule", first_eight, by_plan, NULL, plan_rule},
    {"plan", first_eight, by_plan, NULL, plan_within},
    {"plan-early", first_eight, by_plan, NULL, plan_early_by_age},
#endif
};

const way *way_of(const char *name)
{
#ifdef WITH_OWN_WAY
    if (!strcmp(own_way.name, name))
        return &own_way;
#endif
    for (size_t at = 0; at < sizeof WAYS / sizeof *WAYS; at++)
        if (!strcmp(WAYS[at].name, name))
            return &WAYS[at];
    return NULL;
}

void print_ways(FILE *out)
{
#ifdef WITH_OWN_WAY
    fprintf(out, "%s\n", own_way.name);
#endif
    for (size_t at = 0; at < sizeof WAYS / sizeof *WAYS; at++)
        fprintf(out, "%s\n", WAYS[at].name);
}
