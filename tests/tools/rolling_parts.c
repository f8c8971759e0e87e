/*
 * Parts of the simulator of examples/simulator/rolling alone, a line each: what the judge says of steps that were broken on purpose, how a
 * run ends whose way is bad, and how many requests greedy ways look at.
 */
#include "rolling.h"

#include <inttypes.h>
#include <string.h>

enum { STEPS = 7, WANTS = 4 };

static setup setup_of(unsigned luns)
{
    setup made = {.luns = luns, .workload = SEQUENTIAL, .outstanding = 64, .requests = 100, .seed = 1};
    made.least_array = made.most_array = 1;
    put_device("tlc", 2, &made);
    return made;
}

/* Two reads of LUN 0 that run as one, a read of LUN 1, and a program of its block. */
static const onfi_want WANT[WANTS] = {
    {.id = 0, .kind = ONFI_READ, .lun = 0, .block = 0, .page = 5},
    {.id = 1, .kind = ONFI_READ, .lun = 0, .block = 1, .page = 5},
    {.id = 2, .kind = ONFI_READ, .lun = 1, .block = 0, .page = 7},
    {.id = 3, .kind = ONFI_PROGRAM, .lun = 1, .block = 0, .page = 0},
};

/* Legal steps: commands of reads take 175, data outputs 37,639, the gap 600, the array 75,100, the program's data 37,439 ns. */
static const step LEGAL[STEPS] = {
    {.start = 0, .members = 2, .member = {1, 0}},
    {.start = 175, .lun = 1, .members = 1, .member = {2}},
    {.start = 775},
    {.start = 75450, .lun = 1},
    {.start = 113089},
    {.start = 150728},
    {.start = 188367, .lun = 1, .members = 1, .member = {3}},
};

/* Another step in place of a legal one, of a device that takes several planes or not, and requests that were accepted at a time. */
typedef struct {
    const char *name;
    unsigned place;
    step step;
    onfi_rules rules;
    uint64_t since;
} spoilt;

static const onfi_rules FOUR = {true, true, false, 2}, STRICT = {true, true, true, 2}, ONE_BY_ONE = {false, true, false, 2};

static void print_fault(const char *name, const fault *wrong)
{
    printf("%s: %s", name, wrong->what ? wrong->what : "legal");
    if (wrong->what)
        printf(" (%" PRIu64 " ns, LUN %u, request %" PRId64 ", earliest %" PRIu64 ")", wrong->time, wrong->lun, (int64_t)wrong->request, wrong->earliest);
    printf("\n");
}

/* What the judge says of the legal steps with another one in place of one. */
static fault judged(setup *setup, const spoilt *spoilt)
{
    static judge j;
    fault wrong = {.what = NULL};
    setup->channel.rules = spoilt->rules;
    judge_open(&j, setup);
    for (unsigned want = 0; want < WANTS; want++)
        judge_acceptance(&j, &WANT[want], spoilt->since);
    for (unsigned at = 0; at < STEPS && !wrong.what; at++)
        judge_step(&j, at == spoilt->place ? &spoilt->step : &LEGAL[at], &wrong);
    return wrong;
}

static void print_judgements(void)
{
    static const spoilt all[] = {
        {"nothing spoilt", STEPS, {.start = 0}, FOUR, 0},
        {"data output 1 ns sooner", 4, {.start = 113088}, FOUR, 0},
        {"gap 1 ns sooner", 2, {.start = 774}, FOUR, 0},
        {"array 1 ns sooner", 3, {.start = 75449, .lun = 1}, FOUR, 0},
        {"no start", 3, {.start = NEVER, .lun = 1}, FOUR, 0},
        {"another LUN", 1, {.start = 175, .lun = 2}, FOUR, 0},
        {"nothing to go on with", 1, {.start = 175, .lun = 1}, FOUR, 0},
        {"a group in a group", 2, {.start = 775, .members = 1, .member = {2}}, FOUR, 0},
        {"five members", 1, {.start = 175, .lun = 1, .members = 5, .member = {2, 2, 2, 2}}, FOUR, 0},
        {"once more", 6, {.start = 188367, .lun = 1, .members = 1, .member = {2}}, FOUR, 0},
        {"never accepted", 1, {.start = 175, .lun = 1, .members = 1, .member = {9}}, FOUR, 0},
        {"twice at once", 1, {.start = 175, .lun = 1, .members = 2, .member = {2, 2}}, FOUR, 0},
        {"of LUN 1 on LUN 0", 0, {.start = 0, .members = 1, .member = {2}}, FOUR, 0},
        {"later on a block", 1, {.start = 175, .lun = 1, .members = 1, .member = {3}}, FOUR, 0},
        {"accepted later", STEPS, {.start = 0}, FOUR, 1},
        {"two planes one by one", STEPS, {.start = 0}, ONE_BY_ONE, 0},
        {"planes of one block", STEPS, {.start = 0}, STRICT, 0},
    };
    setup setup = setup_of(2);
    for (size_t at = 0; at < sizeof all / sizeof *all; at++) {
        fault wrong = judged(&setup, &all[at]);
        print_fault(all[at].name, &wrong);
    }
}

/* What the judge says of a group of two requests, the second of which is another one than the first on its neighbour. */
static void print_pair(const char *name, onfi_want second, bool is_strict)
{
    static judge j;
    setup setup = setup_of(1);
    onfi_want first = {.id = 0, .kind = ONFI_READ, .block = 4, .page = 5};
    step step = {.start = 0, .members = 2, .member = {0, 1}};
    fault wrong;
    second.id = 1;
    setup.channel.rules.strict = is_strict;
    judge_open(&j, &setup);
    judge_acceptance(&j, &first, 0);
    judge_acceptance(&j, &second, 0);
    judge_step(&j, &step, &wrong);
    print_fault(name, &wrong);
}

static void print_pairs(void)
{
    print_pair("a sector and a page", (onfi_want){.kind = ONFI_KIND(ONFI_READ, 1), .block = 5, .page = 5}, true);
    print_pair("another kind", (onfi_want){.kind = ONFI_PROGRAM, .block = 5, .page = 5}, false);
    print_pair("another page", (onfi_want){.kind = ONFI_READ, .block = 5, .page = 6}, false);
    print_pair("the same plane", (onfi_want){.kind = ONFI_READ, .block = 8, .page = 5}, false);
    print_pair("other blocks", (onfi_want){.kind = ONFI_READ, .block = 9, .page = 5}, false);
    print_pair("other blocks of a strict device", (onfi_want){.kind = ONFI_READ, .block = 9, .page = 5}, true);
}

/* Once the bus has been used, starts 1 ns before it or the LUN is free. */
static bool too_soon(const way *way, mind *mind, const machine *m, const batch *batch, step *step)
{
    bool any = by_rule(way, mind, m, batch, step);
    step->start -= any && step->start > 0;
    return any;
}

static bool never(const way *way, mind *mind, const machine *m, const batch *batch, step *step)
{
    (void)way, (void)mind, (void)m, (void)batch, (void)step;
    return false;
}

/* Names a request twice that begins alone. */
static bool twice(const way *way, mind *mind, const machine *m, const batch *batch, step *step)
{
    bool any = by_rule(way, mind, m, batch, step);
    step->members = step->members == 1 ? 2 : step->members;
    step->member[1] = step->members == 2 ? step->member[0] : step->member[1];
    return any;
}

static void print_runs(void)
{
    const way all[] = {
        {"as it should be", everything, by_rule, &READS_FIRST, NULL},
        {"too soon on the bus", everything, too_soon, &READS_FIRST, NULL},
        {"one twice", everything, twice, &READS_FIRST, NULL},
        {"never", everything, never, NULL, NULL},
    };
    const printed nothing = {NULL, NULL};
    setup setup = setup_of(8);
    setup.workload = MIXED;
    for (size_t at = 0; at < sizeof all / sizeof *all; at++) {
        figures figures;
        fault wrong = {.what = "no memory"};
        if (figures_begin(&figures, &setup) && simulate(&setup, &all[at], &nothing, &figures, &wrong))
            wrong.what = NULL;
        print_fault(all[at].name, &wrong);
        figures_end(&figures);
    }
}

/* Of fifteen requests. */
static void print_choices(void)
{
    setup setup = setup_of(1);
    machine m = {.setup = &setup};
    batch all, eight;
    for (unsigned page = 0; page < 15; page++)
        accept_request(&m, (onfi_want){.id = page, .kind = ONFI_PROGRAM, .page = (uint16_t)page}, 0);
    everything(&m, &all);
    first_eight(&m, &eight);
    printf("everything: %zu up to %zu\nfirst eight: %zu up to %zu\n", all.count, all.place[all.count - 1], eight.count, eight.place[eight.count - 1]);
}

int main(void)
{
    print_judgements();
    print_pairs();
    print_runs();
    print_choices();
    return 0;
}
