/*
 * The driver of firmware.c on a mock of a board; in its place the one by plans, or a greedy way. It prints what came of each.
 *
 *     cc -std=c99 -O2 firmware*.c $(pkg-config --cflags --libs onfi) -lm -o firmware
 *     ./firmware [NAME VALUE]..
 *     ./firmware help
 *
 *   device    tlc, slc, qlc                              tlc
 *   workload  mixed, reads, sequential, erases,          mixed
 *             random-programs, reads-4k, mixed-4k
 *   byte      ns a byte on the bus, 0.001 to 1000        2
 *   luns      1 to 8                                     8
 *   depth     requests outstanding, 1 to 256             64
 *   load      share of the bus that arrivals ask for     0: a new request comes with each answer
 *   array     real array times, in shares of the stated  1-1
 *   told      yes: R/B# shows when a LUN is ready; no;   yes
 *             polled: its status alone does, by phases
 *   late      ns by which phases start later at most     0
 *   slow      ns by which they take longer at most       0
 *   bad       one of so many requests is also asked      0: none is
 *             for on a block that isn't there; by phases
 *   requests  answered before it ends                    2000
 *   seconds   of simulated time, in place of requests    0: as many as are asked for
 *   seed      of all that is random                      1
 *   way       phases, plans, greedy, both, all,          phases; both: plans and greedy
 *             interrupts: by phases, whose transfers end
 *             by interrupts
 *   plan      early: requests end early; within: no;     early
 *             rule: without a search
 *   weights   age, equal; reads: by age, 20 times theirs age
 *   limit     nodes that a search may open               2000
 *   ends      yes prints when each request ends; no      no
 *
 * Reads of `..-4k` want one sector of four: 4 KiB of tlc and qlc, 1 KiB of slc. The first tenth isn't measured. The exit status is 0, 1 where a call refuses or the board is misused, 2 where a word can't be
 * read. Devices, workloads and the greedy way are those of examples/simulator/rolling too.
 */
#include "firmware_board.h"
#include "firmware_interrupts.h"

#include <inttypes.h>
#include <math.h>
#include <stdio.h>
#include <stdlib.h>
#include <string.h>
#include <time.h>

enum { LATENCIES = 1 << 17 }; /* latencies in us; longer ones count as the greatest */
enum { NO_BYTE = 0xA5 }; /* what stands where nothing was put out */

typedef struct {
    const char *name;
    bool (*next)(driver *d, uint64_t now, onfi_phase *phase);
    bool (*run)(driver *d, const onfi_phase *phase, uint64_t start, const transfer *of);
} way;

enum { PHASES, PLANS, GREEDY, INTERRUPTS, WAYS };

static const way WAY_OF[WAYS] = {
    {"phases", driver_next, driver_run}, {"plans", plans_next, plans_run}, {"greedy", greedy_next, greedy_run}, {"interrupts", NULL, NULL},
};

/* A request that the host has sent and that isn't answered. */
typedef struct {
    onfi_want want;
    uint8_t first; /* of the sectors that a read wants */
    bool is_taken; /* whether the driver has it; else it has had no room for it */
    uint64_t arrived;
} sent;

typedef struct {
    size_t answered;
    double sum;
    uint32_t count[LATENCIES];
} latencies;

typedef struct {
    const simulation *of;
    const way *has;
    bool by_dispatcher; /* by the driver of firmware.c */
    driver firmware;
    loop by_interrupts;
    board mock;
    host sender;
    struct onfi_bus bus;
    uint64_t now;
    uint64_t delays; /* a state of random numbers */
    uint64_t came; /* how many requests so far: the number of one is its place among them */
    size_t outstanding;
    sent owed[MOST_WAITING]; /* in order of acceptance */
    uint8_t data[PAGE_BYTES + 1]; /* of the request whose phase is on the bus, and one more byte that no page has */
    uint64_t answered;
    uint64_t begun; /* how many phases, by interrupts */
    latencies latency[KINDS];
    uint64_t from, to; /* what is measured */
    uint64_t busy;     /* how long the bus was busy before */
    double planning, longest; /* processor time of all turns in which was planned, and of the longest, in s */
    const char *wrong;
} run;

/* Of pool.c, with which -DPOOL_BYTES=N says that this is linked. */
#ifdef POOL_BYTES
#ifdef __cplusplus
extern "C" {
#endif
size_t pool_peak(void);
void stack_paint(void);
void stack_note(void);
size_t stack_peak(void);
#ifdef __cplusplus
}
#endif

static void print_costs(const run *r)
{
    double plans = (double)r->firmware.planned;
    printf("  memory %zu bytes, stack %zu bytes", pool_peak(), stack_peak());
    if (r->firmware.planned)
        printf(", a plan %.0f us in the mean, %.0f us at most", r->planning / plans * 1e6, r->longest * 1e6);
    printf("\n");
}
#else
static void stack_paint(void)
{
}

static void stack_note(void)
{
}

static void print_costs(const run *r)
{
    (void)r;
}
#endif

static void open_run(run *r, const simulation *of, const way *has)
{
    memset(r, 0, sizeof *r);
    r->of = of;
    r->has = has;
    r->by_dispatcher = has == &WAY_OF[PHASES] || has == &WAY_OF[INTERRUPTS];
    loop_open(&r->by_interrupts, &r->firmware);
    board_open(&r->mock, of);
    r->bus = board_bus(&r->mock);
    r->firmware.bus = &r->bus;
    r->firmware.plans = of->plans;
    onfi_channel channel = channel_for(&of->made_of, of->byte, of->luns, of->workload);
    r->firmware.channel = has == &WAY_OF[GREEDY] ? channel : channel_of(&of->made_of, of->byte, of->luns);
    r->firmware.sector_bytes = sector_bytes_of(&of->made_of);
    r->firmware.geometry = board_geometry(of);
    host_open(&r->sender, of->workload, of->luns, &channel, of->load, of->seed);
    if (r->by_dispatcher && !driver_begin(&r->firmware))
        r->wrong = "a call refuses the channel";
}

/* What comes in. */

/* Another host asks for a block that isn't there, by the same number: that is its own mistake, and nothing else changes. */
static void send_bad(run *r, onfi_want want)
{
    want.block = BLOCKS;
    if (driver_accept(&r->firmware, &want) != ONFI_BAD_PLACE)
        r->wrong = "a request of a block that isn't there isn't refused";
}

/* Gives the driver what it hasn't taken: in order, as far as there is room for what waits of a LUN. */
static void give(run *r, sent *owed)
{
    uint32_t status = ONFI_DONE;
    if (r->has == &WAY_OF[INTERRUPTS])
        status = note_request(&r->by_interrupts, &owed->want) ? ONFI_DONE : ONFI_TOO_MANY;
    else if (r->by_dispatcher)
        status = driver_accept(&r->firmware, &owed->want);
    else
        plans_accept(&r->firmware, &owed->want, owed->arrived);
    owed->is_taken = status == ONFI_DONE;
    if (status != ONFI_DONE && status != ONFI_TOO_MANY)
        r->wrong = "a request of a page that is there is refused";
}

static void give_all(run *r)
{
    for (size_t at = 0; at < r->outstanding; at++)
        if (!r->owed[at].is_taken)
            give(r, &r->owed[at]);
}

static void accept_next(run *r, uint64_t arrived)
{
    sent *owed = &r->owed[r->outstanding++];
    owed->want = host_want(&r->sender);
    owed->first = host_first(&r->sender, &owed->want);
    owed->want.id = r->came++;
    owed->arrived = arrived;
    owed->is_taken = false;
    if (r->by_dispatcher && r->of->bad && r->came % r->of->bad == 0)
        send_bad(r, owed->want);
}

static bool has_room(const run *r)
{
    return r->outstanding < r->of->outstanding;
}

/* In a closed loop a request comes with each answer, and with an erase those of the other planes. */
static void accept_closed(run *r)
{
    while (has_room(r) || r->sender.mates)
        accept_next(r, r->now);
}

static void accept_open(run *r)
{
    while (has_room(r) && r->sender.next_arrival <= r->now) {
        accept_next(r, r->sender.next_arrival);
        host_arrival(&r->sender);
    }
}

/* The interrupts of R/B# so far. */
static void tell_ready(run *r)
{
    for (unsigned lun = 0; lun < r->of->luns; lun++)
        if (r->mock.lun[lun].rises <= r->now) {
            if (r->has == &WAY_OF[INTERRUPTS])
                note_ready(&r->by_interrupts, lun, r->mock.lun[lun].rises);
            else
                (r->by_dispatcher ? driver_ready : plans_ready)(&r->firmware, lun, r->mock.lun[lun].rises);
            r->mock.lun[lun].rises = NEVER;
        }
}

/* When the next interrupt comes. */
static uint64_t next_event(const run *r)
{
    uint64_t rises = board_next_rise(&r->mock);
    bool comes = r->of->load > 0 && has_room(r) && r->sender.next_arrival < rises;
    return comes ? r->sender.next_arrival : rises;
}

/* What goes out. */

static bool is_measured(const run *r)
{
    return r->of->seconds > 0 ? (double)r->now > r->of->seconds * 1e8 : r->answered > r->of->requests / 10;
}

static void count_answer(run *r, const sent *owed)
{
    latencies *of_kind = &r->latency[operation_of(owed->want.kind)];
    uint64_t latency = r->now - owed->arrived;
    r->to = r->now;
    if (!is_measured(r)) {
        r->from = r->now;
        r->busy = r->mock.busy;
        return;
    }
    of_kind->answered++;
    of_kind->sum += (double)latency;
    of_kind->count[latency / 1000 < LATENCIES ? latency / 1000 : LATENCIES - 1]++;
}

/* The place of the request that a post answers, if it is one that is owed, and no earlier one on its block is; else how many are owed. */
static size_t place_of(const run *r, const onfi_phase *phase)
{
    for (size_t at = 0; at < r->outstanding; at++) {
        const onfi_want *want = &r->owed[at].want;
        bool is_block = want->lun == phase->lun && want->block == phase->block;
        if (want->id == phase->want && is_block && want->page == phase->page && want->kind == phase->kind)
            return at;
        if (is_block)
            break;
    }
    return r->outstanding;
}

/* Whether what a read put out are the bytes that its request asked for, and no more. */
static bool has_its_bytes(const run *r, const sent *owed)
{
    unsigned sector = sector_bytes_of(&r->of->made_of), count = owed->want.kind >> 5, bytes = count ? count * sector : r->mock.page;
    uint32_t row = row_of(owed->want.lun, owed->want.block, owed->want.page);
    return are_bytes_of_page(r->data, row, owed->first * sector, bytes) && r->data[bytes] == NO_BYTE;
}

static const char *take_answer(run *r, const onfi_phase *phase)
{
    size_t at = place_of(r, phase);
    if (at == r->outstanding)
        return "an answer to no request, or before an earlier one on its block";
    if (operation_of(phase->kind) == ONFI_READ ? !has_its_bytes(r, &r->owed[at]) : r->firmware.status != 0xE0)
        return "other bytes than were asked for, or a bad status";
    r->answered++;
    count_answer(r, &r->owed[at]);
    if (r->of->ends)
        printf("%s %" PRIu64 " %" PRIu64 "\n", r->has->name, phase->want, r->now);
    r->outstanding--;
    memmove(r->owed + at, r->owed + at + 1, (r->outstanding - at) * sizeof *r->owed);
    return NULL;
}

/* What is kept of the request of a phase; with its data, where it is a program's. */
static transfer transfer_of(run *r, const onfi_phase *phase)
{
    transfer of = {0, r->data};
    for (size_t at = 0; at < r->outstanding; at++)
        if (r->owed[at].want.id == phase->want)
            of.first = r->owed[at].first;
    if (phase->kind == ONFI_PROGRAM && !phase->is_post)
        put_bytes_of_page(r->data, row_of(phase->lun, phase->block, phase->page), 0, r->mock.page);
    else
        memset(r->data, NO_BYTE, sizeof r->data);
    return of;
}

/* A phase has ended. Where it was a post whose status says not ready, no request is answered. */
static void take_end(run *r, const onfi_phase *phase)
{
    if (r->mock.wrong)
        r->wrong = r->mock.wrong;
    else if (phase->is_post && r->firmware.status & STATUS_READY)
        r->wrong = take_answer(r, phase);
}

static void run_phase(run *r, const onfi_phase *phase)
{
    uint64_t start = later_of(phase->start, r->now) + (uint64_t)(next_share(&r->delays) * r->of->late);
    transfer of = transfer_of(r, phase);
    bool went = r->has->run(&r->firmware, phase, start, &of);
    r->now = r->mock.bus_free;
    if (!went && !r->mock.wrong)
        r->wrong = "a call refuses what has run";
    else if (!r->of->polled && (double)(r->now - start - (phase->end - phase->start)) > r->of->slow)
        r->wrong = "a phase ends at another time than was told";
    else
        take_end(r, phase);
}

/* Asks what is due, and notes what that cost. */
static bool ask_next(run *r, onfi_phase *phase)
{
    uint64_t planned = r->firmware.planned;
    stack_paint();
    clock_t begun = clock();
    bool any = r->has->next(&r->firmware, r->now, phase);
    double seconds = (double)(clock() - begun) / CLOCKS_PER_SEC;
    stack_note();
    if (r->firmware.planned > planned) {
        r->planning += seconds;
        r->longest = seconds > r->longest ? seconds : r->longest;
    }
    return any;
}

/* What the interrupts up to now note. */
static void note_all(run *r)
{
    (r->of->load > 0 ? accept_open : accept_closed)(r);
    give_all(r);
    tell_ready(r);
}

/* The main loop of firmware_interrupts.c, until it waits for an interrupt: what ended is answered, what is next begins, and the next one is decided. */
static void turn_loop(run *r)
{
    onfi_phase phase;
    if (loop_ended(&r->by_interrupts, &phase)) {
        take_end(r, &phase);
        note_all(r);
    }
    while (loop_next(&r->by_interrupts, r->now, &phase) && !r->wrong) {
        transfer of = transfer_of(r, &phase);
        r->begun++;
        if (!loop_start(&r->by_interrupts, &phase, r->now, &of))
            r->wrong = "a call refuses what has run";
    }
}

/* The time goes to what comes first: the end of a transfer, the start of the next phase, or another interrupt. */
static void turn_by_interrupts(run *r)
{
    loop *l = &r->by_interrupts;
    uint64_t event = next_event(r), own = l->is_on_bus ? r->mock.bus_free : l->wakes;
    if (event == NEVER && own == NEVER && r->now > 0)
        r->wrong = "requests are left, and nothing is due";
    else if (event < own || own == NEVER) {
        r->now = event == NEVER ? r->now : later_of(event, r->now);
        note_all(r);
    } else {
        r->now = later_of(own, r->now);
        if (l->is_on_bus)
            note_end(l, r->now);
    }
    turn_loop(r);
    if (r->firmware.refused)
        r->wrong = "a call refuses what is asked";
}

/* Where a status alone shows what is ready, LUNs are asked while nothing may start; so often that the bus has time for other things. */
static bool poll_meanwhile(run *r, uint64_t until)
{
    enum { PAUSE = 2000 };
    if (!r->of->polled || until <= r->now)
        return false;
    uint64_t end = driver_poll(&r->firmware, r->now);
    bool is_asked = end > r->now;
    r->now = is_asked ? later_of(end, r->now + PAUSE < until ? r->now + PAUSE : until) : r->now;
    return is_asked;
}

/* Runs what is due, or waits for an interrupt that comes before it. */
static void turn(run *r)
{
    onfi_phase phase;
    note_all(r);
    bool any = ask_next(r, &phase);
    uint64_t event = next_event(r);
    if (r->wrong)
        return;
    if (r->firmware.refused)
        r->wrong = "a call refuses what is asked";
    else if (r->by_dispatcher && any && poll_meanwhile(r, phase.start < event ? phase.start : event))
        return;
    else if (any && phase.start <= event)
        run_phase(r, &phase);
    else if (event < NEVER)
        r->now = later_of(event, r->now);
    else
        r->wrong = "requests are left, and nothing is due";
}

static bool is_over(const run *r)
{
    return r->of->seconds > 0 ? (double)r->now >= r->of->seconds * 1e9 : r->answered >= r->of->requests;
}

/* What came of it. */

/* The least whole number of us that 99 of 100 requests don't reach. */
static size_t not_reached(const latencies *of_kind)
{
    size_t us = 0, left = (of_kind->answered * 990 + 999) / 1000;
    while (left > of_kind->count[us])
        left -= of_kind->count[us++];
    return us + 1;
}

/* Of the loop by interrupts: how many phases were decided while the bus was in use. */
static void print_ahead(const run *r)
{
    if (r->has == &WAY_OF[INTERRUPTS])
        printf("  %" PRIu64 " of %" PRIu64 " phases decided ahead\n", r->by_interrupts.ahead, r->begun);
}

static void print_run(const run *r)
{
    static const char *const NAMES[KINDS] = {"reads", "programs", "erases"};
    double span = (double)(r->to - r->from), busy = (double)(r->mock.busy - r->busy);
    size_t answered = r->latency[0].answered + r->latency[1].answered + r->latency[2].answered;
    printf("%s: %.3f requests a second, bus busy %.3f %%, %" PRIu64 " plans\n", r->has->name, (double)answered * 1e9 / span, 100 * busy / span,
           r->firmware.planned);
    for (unsigned kind = 0; kind < KINDS; kind++) {
        const latencies *of_kind = &r->latency[kind];
        if (of_kind->answered)
            printf("  %zu %s: %.3f us in the mean, 99 %% within %zu us\n", of_kind->answered, NAMES[kind],
                   of_kind->sum / (double)of_kind->answered / 1000, not_reached(of_kind));
    }
    print_ahead(r);
    print_costs(r);
}

/* Whether all went well by a way. */
static bool run_way(run *r, const simulation *of, const way *has)
{
    open_run(r, of, has);
    while (!r->wrong && !is_over(r))
        (has == &WAY_OF[INTERRUPTS] ? turn_by_interrupts : turn)(r);
    if (r->wrong)
        fprintf(stderr, "firmware: %s: %s (%" PRIu32 ")\n", has->name, r->wrong, r->firmware.refused);
    else if (!of->ends)
        print_run(r);
    return !r->wrong;
}

/* The words. */

enum { BYTE, LUNS, DEPTH, LOAD, LATE, SLOW, BAD, REQUESTS, SECONDS, SEED, LIMIT, NUMBERS };
enum { DEVICE, WORKLOAD, TOLD, WAY, PLAN, WEIGHTS, ENDS, CHOICES };

static const struct {
    const char *name;
    double least, most, usual;
    bool is_whole;
} NUMBER[NUMBERS] = {
    {"byte", 0.001, 1000, 2, false}, {"luns", 1, ONFI_LUNS, 8, true},     {"depth", 1, MOST_OUTSTANDING, 64, true},
    {"load", 0, 100, 0, false},      {"late", 0, 1e9, 0, false},          {"slow", 0, 1e9, 0, false},
    {"bad", 0, 1e9, 0, true},        {"requests", 1, 1e9, 2000, true},    {"seconds", 0, 1000, 0, false},
    {"seed", 1, 1e15, 1, true},
    {"limit", 1, ONFI_NODES, 2000, true},
};

/* The first value is the usual one; of a name with fewer the others are null. */
enum { VALUES = 7 };

static const struct {
    const char *name, *value[VALUES];
} CHOSEN[CHOICES] = {
    {"device", {"tlc", "slc", "qlc"}}, {"workload", {"mixed", "reads", "sequential", "erases", "random-programs", "reads-4k", "mixed-4k"}},
    {"told", {"yes", "no", "polled"}}, {"way", {"phases", "plans", "greedy", "both", "all", "interrupts"}},
    {"plan", {"early", "within", "rule"}}, {"weights", {"age", "equal", "reads"}}, {"ends", {"no", "yes"}},
};

/* Which ways a value of `way` names. */
static const bool IS_ASKED_FOR[][WAYS] = {
    {true, false, false, false}, {false, true, false, false}, {false, false, true, false}, {false, true, true, false}, {true, true, true, false},
    {false, false, false, true},
};

typedef struct {
    double number[NUMBERS];
    unsigned chosen[CHOICES];
    double least_array, most_array;
} words;

/* Two shares with a dash between them. */
static bool put_array(const char *text, words *w)
{
    char *end;
    w->least_array = strtod(text, &end);
    if (end == text || *end != '-')
        return false;
    const char *other = end + 1;
    w->most_array = strtod(other, &end);
    return end != other && !*end && w->least_array >= 0 && w->least_array <= w->most_array && w->most_array <= 1;
}

static bool put_number(const char *name, const char *text, words *w)
{
    char *end;
    double number = strtod(text, &end);
    for (unsigned at = 0; at < NUMBERS; at++)
        if (!strcmp(NUMBER[at].name, name)) {
            w->number[at] = number;
            bool is_in_range = number >= NUMBER[at].least && number <= NUMBER[at].most;
            return end != text && !*end && is_in_range && (!NUMBER[at].is_whole || floor(number) == number);
        }
    return false;
}

static bool put_choice(const char *name, const char *text, words *w)
{
    for (unsigned at = 0; at < VALUES * CHOICES; at++) {
        const char *value = CHOSEN[at / VALUES].value[at % VALUES];
        if (value && !strcmp(CHOSEN[at / VALUES].name, name) && !strcmp(value, text)) {
            w->chosen[at / VALUES] = at % VALUES;
            return true;
        }
    }
    return false;
}

static void put_usual(words *w)
{
    memset(w, 0, sizeof *w);
    w->least_array = w->most_array = 1;
    for (unsigned at = 0; at < NUMBERS; at++)
        w->number[at] = NUMBER[at].usual;
}

static bool put_words(int count, char **texts, words *w)
{
    put_usual(w);
    for (int at = 1; at < count; at += 2) {
        const char *name = texts[at], *text = at + 1 < count ? texts[at + 1] : "";
        bool is_read = strcmp(name, "array") ? put_number(name, text, w) || put_choice(name, text, w) : put_array(text, w);
        if (!is_read) {
            fprintf(stderr, "firmware: can't read %s %s\n", name, text);
            return false;
        }
    }
    return true;
}

/* What help lists: of each word what it may be, the usual value first. */

static void print_name(const char *name)
{
    unsigned length = 0;
    while (name[length])
        length++;
    printf("  %s%.*s", name, length < 10 ? (int)(10 - length) : 1, "          ");
}

static void print_choice(unsigned at)
{
    print_name(CHOSEN[at].name);
    printf("%s", CHOSEN[at].value[0]);
    for (unsigned value = 1; value < VALUES && CHOSEN[at].value[value]; value++)
        printf(", %s", CHOSEN[at].value[value]);
    printf("\n");
}

static void print_choices(void)
{
    for (unsigned at = 0; at < CHOICES; at++)
        print_choice(at);
}

static void print_number(const char *before, double number)
{
    printf("%s%.*f", before, floor(number) == number ? 0 : 3, number);
}

static void print_numbers(void)
{
    for (unsigned at = 0; at < NUMBERS; at++) {
        print_name(NUMBER[at].name);
        print_number("", NUMBER[at].usual);
        print_number(NUMBER[at].is_whole ? "; a whole number from " : "; a number from ", NUMBER[at].least);
        print_number(" to ", NUMBER[at].most);
        printf("\n");
    }
}

static void print_words(void)
{
    printf("firmware [NAME VALUE].., of these names; the value named first is the usual one:\n");
    print_choices();
    print_numbers();
    printf("  array     1-1; two shares from 0 to 1, the lesser one first\n");
}

static planning planning_of(const words *w)
{
    static const uint8_t PLANNER_OF[] = {EARLY, WITHIN, RULE};
    planning made;
    made.planner = PLANNER_OF[w->chosen[PLAN]];
    made.by_age = w->chosen[WEIGHTS] != 1;
    made.reads = w->chosen[WEIGHTS] == 2 ? 20 : 1;
    made.limit = (uint32_t)w->number[LIMIT];
    return made;
}

static simulation setup_of(const words *w)
{
    simulation made;
    memset(&made, 0, sizeof made);
    made.made_of = *device_of(CHOSEN[DEVICE].value[w->chosen[DEVICE]]);
    made.byte = w->number[BYTE];
    made.luns = (unsigned)w->number[LUNS];
    made.workload = w->chosen[WORKLOAD];
    made.outstanding = (size_t)w->number[DEPTH];
    made.load = w->number[LOAD];
    made.late = w->number[LATE];
    made.slow = w->number[SLOW];
    made.bad = (uint64_t)w->number[BAD];
    made.least_array = w->least_array;
    made.most_array = w->most_array;
    made.told = w->chosen[TOLD] == 0;
    made.polled = w->chosen[TOLD] == 2;
    made.ends = w->chosen[ENDS] == 1;
    made.requests = (size_t)w->number[REQUESTS];
    made.seconds = w->number[SECONDS];
    made.seed = (uint64_t)w->number[SEED];
    made.plans = planning_of(w);
    return made;
}

int main(int count, char **texts)
{
    static run r;
    words w;
    if (count == 2 && !strcmp(texts[1], "help")) {
        print_words();
        return EXIT_SUCCESS;
    }
    if (!put_words(count, texts, &w))
        return 2;
    simulation of = setup_of(&w);
    bool is_well = true;
    for (unsigned at = 0; at < WAYS && is_well; at++)
        if (IS_ASKED_FOR[w.chosen[WAY]][at])
            is_well = run_way(&r, &of, &WAY_OF[at]);
    return is_well ? EXIT_SUCCESS : EXIT_FAILURE;
}
