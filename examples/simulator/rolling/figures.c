/* What came of it. */
#include "rolling.h"

#include <inttypes.h>
#include <stdlib.h>

bool figures_begin(figures *figures, const setup *setup)
{
    bool all = true;
    *figures = (struct figures){0};
    for (unsigned kind = 0; kind < KINDS; kind++) {
        figures->latency[kind] = malloc((setup->requests + 1) * sizeof **figures->latency);
        all = all && figures->latency[kind];
    }
    return all;
}

void figures_end(figures *figures)
{
    for (unsigned kind = 0; kind < KINDS; kind++)
        free(figures->latency[kind]);
}

static int by_size(const void *one, const void *other)
{
    uint64_t a = *(const uint64_t *)one, b = *(const uint64_t *)other;
    return (a > b) - (a < b);
}

/* The least latency that this many in a thousand don't pass, in us. */
static double not_passed(const uint64_t *sorted, size_t count, size_t in_a_thousand)
{
    return count ? (double)sorted[(count * in_a_thousand + 999) / 1000 - 1] / 1000 : 0;
}

static double mean(const uint64_t *latency, size_t count)
{
    double sum = 0;
    for (size_t at = 0; at < count; at++)
        sum += (double)latency[at];
    return count ? sum / (double)count / 1000 : 0;
}

static void print_latencies(const figures *figures, unsigned kind, const char *name, FILE *out)
{
    size_t count = figures->answered[kind];
    qsort(figures->latency[kind], count, sizeof **figures->latency, by_size);
    static const struct {
        const char *name;
        size_t in_a_thousand;
    } shares[] = {{"50", 500}, {"95", 950}, {"99", 990}, {"999", 999}, {"most", 1000}};
    fprintf(out, "%ss %zu requests\n", name, count);
    fprintf(out, "%s_mean %.3f us\n", name, mean(figures->latency[kind], count));
    for (size_t at = 0; at < sizeof shares / sizeof *shares; at++)
        fprintf(out, "%s_%s %.3f us\n", name, shares[at].name, not_passed(figures->latency[kind], count, shares[at].in_a_thousand));
}

void figures_print(const figures *figures, FILE *out)
{
    const costs *planning = &figures->planning;
    double span = (double)(figures->to - figures->from), plans = planning->plans ? (double)planning->plans : 1;
    size_t answered = figures->answered[ONFI_READ] + figures->answered[ONFI_PROGRAM] + figures->answered[ONFI_ERASE];
    fprintf(out, "answered %zu requests\n", answered);
    fprintf(out, "rate %.3f requests/s\n", (double)answered * 1e9 / span);
    fprintf(out, "bus %.5f share\n", (double)figures->busy / span);
    fprintf(out, "group %.4f requests\n", figures->groups ? (double)figures->grouped / (double)figures->groups : 0);
    fprintf(out, "erasing %.4f LUNs\n", figures->erasing ? (double)figures->erases / (double)figures->erasing : 0);
    print_latencies(figures, ONFI_READ, "read", out);
    print_latencies(figures, ONFI_PROGRAM, "program", out);
    print_latencies(figures, ONFI_ERASE, "erase", out);
    fprintf(out, "plans %" PRIu64 " plans\nover %" PRIu64 " plans\n", planning->plans, planning->over);
    fprintf(out, "nodes %.3f nodes/plan\n", (double)planning->nodes / plans);
    fprintf(out, "planning_us %.3f us/plan\n", planning->seconds * 1e6 / plans);
    fprintf(out, "planning_longest_us %.3f us\n", planning->longest * 1e6);
}
