/*
 * Programs that are stopped in their arrays for reads, over the driver of firmware.c: reads' latency with and without.
 *
 *     cc -std=c99 -O2 suspend.c firmware.c firmware_board.c firmware_host.c $(pkg-config --cflags --libs onfi) -lm -o suspend
 *     ./suspend [LOAD [REQUESTS [SEED]]]
 *
 * To stop is a device's own command, and so is to go on: ONFI 4.2 has neither. A LUN that gets that command is ready a while later, may read
 * blocks that the program isn't of, and goes on with what is left of the array and somewhat more.
 *
 * A dispatcher knows no suspends. So this driver keeps what LUNs do and what waits as well, and where a LUN stops or goes on the dispatcher
 * begins anew with that. Until a group goes on one request stands for it among those that wait. That one would have lengths of its own: the
 * command to go on, what is left of the array, the statuses of all its members. The library has no lengths by request but those of reads,
 * so it stands as an erase, whose lengths are made these while a group sleeps: the greatest of all that sleep, so none comes too soon. What
 * the driver must hold back meanwhile (is_held_back): erases, since their lengths are lent; programs of a LUN that sleeps; what is on a
 * block of the group, and what comes after one of these on its block. What is promised of a phase is promised for these lengths.
 */
#include "firmware_board.h"

#include <inttypes.h>
#include <stdio.h>
#include <stdlib.h>
#include <string.h>

enum { LUNS = 8, DEPTH = 64, MOST_REQUESTS = 100000, MOST_STOPS = 4 };

/* In ns: how long until a LUN that stops is ready, how much longer the array takes for it, and how much must be left to be worth it. */
enum { STOP_TIME = 30000, GO_ON_TIME = 20000, WORTH = 100000 };

/* A group that sleeps, as the driver keeps it. */
typedef struct {
    onfi_lun group;   /* no members: none */
    onfi_want stands; /* what stands for it */
    uint64_t left;    /* of its array */
} sleeper;

/* A LUN of the board that was stopped. */
typedef struct {
    bool is_asleep;
    chip at; /* what it was at */
    uint64_t left;
} stopped;

typedef struct {
    onfi_want want;
    uint8_t first; /* of the sectors that a read wants */
    uint64_t arrived;
} sent;

/* What hasn't begun; the dispatcher has all but those that are held back. */
typedef struct {
    onfi_want want;
    bool is_held;
} waiter;

typedef struct {
    simulation of;
    driver firmware; /* its channel is kept as it stands */
    board mock;
    host sender;
    stopped chips[LUNS];
    struct onfi_bus own, bus; /* the mock's, and that whose LUNs may be stopped */
    onfi_spans erase;         /* what an erase takes where nothing sleeps */
    sleeper asleep[LUNS];
    unsigned stops[LUNS], all_stops; /* of the group that a LUN is at or that sleeps there, and of all */
    size_t waiting;
    waiter waits[MOST_WAITING + LUNS]; /* by rising number */
    uint64_t now, accepted;
    size_t outstanding;
    sent owed[MOST_WAITING];
    uint8_t data[PAGE_BYTES];
    size_t answered[KINDS];
    double latency[KINDS][MOST_REQUESTS]; /* in us */
    const char *wrong;
} run;

/* The bus. */

static void find_wrong(run *r, bool is_wrong, const char *what)
{
    if (is_wrong && !r->wrong)
        r->wrong = what;
}

static bool is_of_group(const onfi_lun *group, unsigned block)
{
    bool any = false;
    for (unsigned at = 0; at < group->members; at++)
        any = any || group->member[at].block == block;
    return any;
}

/* Whether a block is one that a stopped LUN was programming. */
static bool is_half_done(const stopped *c, unsigned block)
{
    bool any = false;
    for (unsigned at = 0; c->is_asleep && at < c->at.members; at++)
        any = any || (c->at.row[at] >> PAGE_BITS) % BLOCKS == block;
    return any;
}

/* How long the command to stop or to go on has the bus: its byte and the row. */
static uint64_t own_command(const run *r)
{
    return (1 + ROW_CYCLES) * r->mock.cycle;
}

static uint64_t use_bus(run *r, uint64_t start)
{
    find_wrong(r, start < r->mock.bus_free, "the bus isn't free");
    r->mock.bus_free = start + own_command(r);
    return r->mock.bus_free;
}

/* A LUN stops, which has to program in its array. */
static uint64_t bus_stop(run *r, unsigned lun, uint64_t start)
{
    chip *c = &r->mock.lun[lun];
    uint64_t end = use_bus(r, start);
    find_wrong(r, r->chips[lun].is_asleep || c->opener != 0x80 || !c->is_closed || c->posts || c->may <= end, "a stop of what isn't in its array");
    r->chips[lun].is_asleep = true;
    r->chips[lun].at = *c;
    r->chips[lun].left = c->may - end + GO_ON_TIME;
    memset(c, 0, sizeof *c);
    c->rises = NEVER;
    c->may = end + STOP_TIME;
    return end;
}

/* A LUN goes on with what it was at. */
static uint64_t bus_go_on(run *r, unsigned lun, uint64_t start)
{
    chip *c = &r->mock.lun[lun];
    uint64_t end = use_bus(r, start);
    find_wrong(r, start < c->may || c->members, "a LUN goes on that isn't ready");
    *c = r->chips[lun].at;
    c->may = end + r->chips[lun].left;
    r->chips[lun].is_asleep = false;
    return end;
}

/* Commands of reads and erases. An erase of a LUN that is stopped is what stands for its group. */
static uint64_t bus_command(void *self, uint64_t start, const onfi_phase *phase)
{
    run *r = (run *)self;
    if (r->chips[phase->lun].is_asleep && phase->opener == 0x60)
        return bus_go_on(r, phase->lun, start);
    find_wrong(r, is_half_done(&r->chips[phase->lun], phase->block), "a read of a block whose program is stopped");
    return r->own.command(r->own.board, start, phase);
}

static uint64_t bus_data_in(void *self, uint64_t start, const onfi_phase *phase, const uint8_t *page)
{
    run *r = (run *)self;
    find_wrong(r, r->chips[phase->lun].is_asleep, "a program while another one of its LUN is stopped");
    return r->own.data_in(r->own.board, start, phase, page);
}

static uint64_t bus_data_out(void *self, uint64_t start, const onfi_phase *phase, const onfi_output *output, uint8_t *bytes)
{
    run *r = (run *)self;
    return r->own.data_out(r->own.board, start, phase, output, bytes);
}

static uint64_t bus_status(void *self, uint64_t start, const onfi_phase *phase, uint8_t *byte)
{
    run *r = (run *)self;
    return r->own.status(r->own.board, start, phase, byte);
}

/* What waits. */

/* Puts a request among those that wait, by its number; gives its place. */
static size_t put_waiting(run *r, const onfi_want *want)
{
    size_t at = r->waiting++;
    for (; at > 0 && r->waits[at - 1].want.id > want->id; at--)
        r->waits[at] = r->waits[at - 1];
    r->waits[at].want = *want;
    r->waits[at].is_held = false;
    return at;
}

/* Takes it out. */
static onfi_want take_waiting(run *r, uint64_t id)
{
    size_t at = 0;
    while (at + 1 < r->waiting && r->waits[at].want.id != id)
        at++;
    onfi_want taken = r->waits[at].want;
    find_wrong(r, taken.id != id, "a request begins that doesn't wait");
    r->waiting--;
    memmove(r->waits + at, r->waits + at + 1, (r->waiting - at) * sizeof *r->waits);
    return taken;
}

/* Whether a request must wait until what sleeps has gone on. */
static bool is_held_back(const run *r, size_t place, bool any_sleeps)
{
    const onfi_want *want = &r->waits[place].want;
    const onfi_lun *group = &r->asleep[want->lun].group;
    bool stands_for_it = group->members && want->id == r->asleep[want->lun].stands.id;
    bool is_on_block = is_of_group(group, want->block);
    for (size_t at = 0; at < place; at++) {
        const waiter *before = &r->waits[at];
        is_on_block = is_on_block || (before->is_held && before->want.lun == want->lun && before->want.block == want->block);
    }
    return !stands_for_it && (is_on_block || (want->kind == ONFI_ERASE && any_sleeps) || (want->kind == ONFI_PROGRAM && group->members));
}

/* Gives the dispatcher one that waits, if it needn't be held back. */
static void give(run *r, size_t place, bool any_sleeps)
{
    r->waits[place].is_held = is_held_back(r, place, any_sleeps);
    if (!r->waits[place].is_held)
        find_wrong(r, onfi_dispatcher_accept(&r->firmware.dispatcher, &r->waits[place].want) != ONFI_DONE, "a request is refused");
}

/* What stands for those that sleep has the lengths of the longest of them; erases have their own again where none sleeps. */
static bool lend_lengths(run *r)
{
    onfi_timing *timing = &r->firmware.channel.timing;
    bool any = false;
    timing->erase = r->erase;
    for (unsigned lun = 0; lun < LUNS; lun++) {
        const sleeper *s = &r->asleep[lun];
        uint64_t post = s->group.members * timing->program.post;
        if (!s->group.members)
            continue;
        timing->erase.cmd = own_command(r);
        timing->erase.array = any && timing->erase.array > s->left ? timing->erase.array : s->left;
        timing->erase.post = any && timing->erase.post > post ? timing->erase.post : post;
        any = true;
    }
    return any;
}

/* The dispatcher begins anew, with what LUNs do and what waits as they stand. */
static void restart(run *r)
{
    bool any_sleeps = lend_lengths(r);
    find_wrong(r, !driver_begin(&r->firmware), "a call refuses the channel");
    for (size_t at = 0; at < r->waiting; at++)
        give(r, at, any_sleeps);
}

/* To stop. */

/* Whether a read waits for a LUN whose block isn't of its group. */
static bool is_read_waiting(const run *r, unsigned lun)
{
    bool any = false;
    for (size_t at = 0; at < r->waiting; at++) {
        const onfi_want *want = &r->waits[at].want;
        bool is_read = want->lun == lun && operation_of(want->kind) == ONFI_READ;
        any = any || (is_read && !is_of_group(&r->firmware.channel.lun[lun], want->block));
    }
    return any;
}

/* Nothing is stopped while an erase runs: its status would have the lengths that are lent. */
static bool is_erase_running(const run *r)
{
    bool any = false;
    for (unsigned lun = 0; lun < LUNS; lun++)
        any = any || (r->firmware.channel.lun[lun].members && r->firmware.channel.lun[lun].member[0].kind == ONFI_ERASE);
    return any;
}

static bool does_any_sleep(const run *r)
{
    bool any = false;
    for (unsigned lun = 0; lun < LUNS; lun++)
        any = any || r->asleep[lun].group.members;
    return any;
}

static bool is_worth_it(const run *r, unsigned number, unsigned most)
{
    const onfi_lun *lun = &r->firmware.channel.lun[number];
    bool is_in_array = lun->members && lun->next == lun->members && lun->member[0].kind == ONFI_PROGRAM;
    return is_in_array && lun->since > r->now + WORTH && r->stops[number] < most && is_read_waiting(r, number) && !is_erase_running(r);
}

/* The want of a group's first member, as it stands for all: an erase. */
static onfi_want stand_for(const onfi_lun *group)
{
    onfi_want stands = group->member[0];
    for (unsigned at = 1; at < group->members; at++)
        if (group->member[at].id < stands.id)
            stands = group->member[at];
    stands.kind = ONFI_ERASE;
    stands.page = 0;
    return stands;
}

/* Stops a LUN's program: its group leaves it, and one request stands for it among those that wait. */
static void stop(run *r, unsigned number)
{
    driver *d = &r->firmware;
    onfi_lun *lun = &d->channel.lun[number];
    sleeper *s = &r->asleep[number];
    uint64_t end = bus_stop(r, number, r->now);
    s->group = *lun;
    s->stands = stand_for(lun);
    s->left = lun->since - end + GO_ON_TIME;
    memset(lun, 0, sizeof *lun);
    lun->since = end + STOP_TIME;
    put_waiting(r, &s->stands);
    r->now = d->channel.bus_free = end;
    r->stops[number]++;
    r->all_stops++;
    restart(r);
}

static void stop_for_reads(run *r, unsigned most)
{
    for (unsigned lun = 0; lun < LUNS; lun++)
        if (is_worth_it(r, lun, most))
            stop(r, lun);
}

/* What stood for a group has begun: the group itself is on its LUN again, and has its statuses left. */
static void wake(run *r, unsigned number)
{
    driver *d = &r->firmware;
    sleeper *s = &r->asleep[number];
    d->channel.lun[number] = s->group;
    d->channel.lun[number].since = d->channel.bus_free + s->left;
    s->group.members = 0;
    restart(r);
}

/* What LUNs do. */

/* A group begins with this phase: its members are those of the commands that follow on its LUN, in a copy that runs ahead. */
static void note_group(run *r, const onfi_phase *first)
{
    onfi_lun *lun = &r->firmware.channel.lun[first->lun];
    onfi_dispatcher ahead = r->firmware.dispatcher;
    onfi_phase next = *first;
    uint32_t status = ONFI_DONE;
    while (lun->members < first->members && status == ONFI_DONE) {
        if (next.lun == first->lun)
            lun->member[lun->members++] = take_waiting(r, next.want);
        status = onfi_dispatcher_ran(&ahead, next.start);
        if (status == ONFI_DONE)
            status = onfi_dispatcher_next(&ahead, next.start, &next);
    }
    find_wrong(r, status != ONFI_DONE, "a group isn't whole");
}

/* A phase has run up to now: its LUN goes on, or is free. */
static void note_phase(run *r, const onfi_phase *phase)
{
    onfi_lun *lun = &r->firmware.channel.lun[phase->lun];
    const onfi_spans *spans = spans_of(&r->firmware.channel.timing, operation_of(phase->kind));
    r->firmware.channel.bus_free = r->now;
    lun->next++;
    lun->since = r->now + (lun->next < lun->members ? spans->gap : lun->next == lun->members ? spans->array : 0);
    if (lun->next == 2 * lun->members)
        lun->members = lun->next = 0;
}

/* The loop. */

static void accept_all(run *r)
{
    while (r->outstanding < DEPTH && r->sender.next_arrival <= r->now) {
        sent *owed = &r->owed[r->outstanding++];
        owed->want = host_want(&r->sender);
        owed->want.id = r->accepted++;
        owed->first = host_first(&r->sender, &owed->want);
        owed->arrived = r->sender.next_arrival;
        give(r, put_waiting(r, &owed->want), does_any_sleep(r));
        host_arrival(&r->sender);
    }
}

/* The place of a request among those that are owed; else how many they are. */
static size_t place_of(const run *r, uint64_t id)
{
    size_t at = 0;
    while (at < r->outstanding && r->owed[at].want.id != id)
        at++;
    return at;
}

/* Whether a read put out what its request asked for. */
static bool has_its_bytes(const run *r, const sent *owed)
{
    unsigned count = owed->want.kind >> 5, bytes = count ? count * r->mock.sector : r->mock.page;
    return are_bytes_of_page(r->data, row_of(owed->want.lun, owed->want.block, owed->want.page), owed->first * r->mock.sector, bytes);
}

static void take_answer(run *r, const onfi_phase *phase)
{
    size_t at = place_of(r, phase->want);
    unsigned kind = operation_of(phase->kind);
    find_wrong(r, at == r->outstanding, "an answer to no request");
    if (r->wrong)
        return;
    find_wrong(r, kind == ONFI_READ ? !has_its_bytes(r, &r->owed[at]) : r->firmware.status != 0xE0, "other bytes than were asked for, or a bad status");
    r->latency[kind][r->answered[kind]++] = (double)(r->now - r->owed[at].arrived) / 1000;
    r->outstanding--;
    memmove(r->owed + at, r->owed + at + 1, (r->outstanding - at) * sizeof *r->owed);
}

static transfer transfer_of(run *r, const onfi_phase *phase)
{
    size_t at = place_of(r, phase->want);
    transfer of = {at < r->outstanding ? r->owed[at].first : (uint8_t)0, r->data};
    if (phase->kind == ONFI_PROGRAM && !phase->is_post)
        put_bytes_of_page(r->data, row_of(phase->lun, phase->block, phase->page), 0, r->mock.page);
    return of;
}

static void run_phase(run *r, const onfi_phase *phase)
{
    transfer of = transfer_of(r, phase);
    bool goes_on = r->asleep[phase->lun].group.members && phase->want == r->asleep[phase->lun].stands.id;
    if (phase->number == 0)
        note_group(r, phase);
    bool went = drive(&r->firmware, phase, phase->start, &of, &r->now) && went_well(&r->firmware, onfi_dispatcher_ran(&r->firmware.dispatcher, phase->start));
    find_wrong(r, !went || r->mock.wrong, r->mock.wrong ? r->mock.wrong : "a call refuses what has run");
    if (r->wrong)
        return;
    note_phase(r, phase);
    if (goes_on)
        wake(r, phase->lun);
    else if (phase->number == 0 && !r->asleep[phase->lun].group.members)
        r->stops[phase->lun] = 0;
    if (phase->is_post)
        take_answer(r, phase);
}

/* Stops what is worth it, then runs what is due, or waits for the next request. */
static void turn(run *r, unsigned most)
{
    onfi_phase phase;
    accept_all(r);
    stop_for_reads(r, most);
    bool any = driver_next(&r->firmware, r->now, &phase);
    find_wrong(r, r->firmware.refused != ONFI_DONE, "a call refuses what is asked");
    bool comes = r->outstanding < DEPTH;
    if (r->wrong)
        return;
    if (any && !(comes && r->sender.next_arrival < phase.start))
        run_phase(r, &phase);
    else if (comes)
        r->now = r->sender.next_arrival > r->now ? r->sender.next_arrival : r->now;
    else
        r->wrong = "requests are left, and nothing is due";
}

/* What came of it. */

static int by_size(const void *one, const void *other)
{
    double a = *(const double *)one, b = *(const double *)other;
    return (a > b) - (a < b);
}

static void print_latencies(run *r, unsigned kind, const char *name)
{
    size_t count = r->answered[kind];
    double sum = 0;
    for (size_t at = 0; at < count; at++)
        sum += r->latency[kind][at];
    if (!count)
        return;
    qsort(r->latency[kind], count, sizeof **r->latency, by_size);
    printf("  %zu %s: %.1f us in the mean, 99 %% within %.1f us\n", count, name, sum / (double)count, r->latency[kind][(count * 99 + 99) / 100 - 1]);
}

static void open_run(run *r, const simulation *of)
{
    memset(r, 0, sizeof *r);
    r->of = *of;
    board_open(&r->mock, &r->of);
    r->own = board_bus(&r->mock);
    r->bus.board = r;
    r->bus.command = bus_command;
    r->bus.data_in = bus_data_in;
    r->bus.data_out = bus_data_out;
    r->bus.status = bus_status;
    driver *d = &r->firmware;
    d->bus = &r->bus;
    d->channel = channel_of(&r->of.made_of, r->of.byte, LUNS);
    d->sector_bytes = sector_bytes_of(&r->of.made_of);
    d->geometry = board_geometry(&r->of);
    r->erase = d->channel.timing.erase;
    onfi_channel channel = channel_for(&r->of.made_of, r->of.byte, LUNS, r->of.workload);
    host_open(&r->sender, r->of.workload, LUNS, &channel, r->of.load, r->of.seed);
    restart(r);
}

static bool run_all(run *r, const simulation *of, unsigned most)
{
    open_run(r, of);
    while (!r->wrong && r->answered[ONFI_READ] + r->answered[ONFI_PROGRAM] < of->requests)
        turn(r, most);
    if (r->wrong) {
        fprintf(stderr, "suspend: %s (%" PRIu32 ")\n", r->wrong, r->firmware.refused);
        return false;
    }
    printf("%s: %u stops\n", most ? "with suspends" : "without", r->all_stops);
    print_latencies(r, ONFI_READ, "reads");
    print_latencies(r, ONFI_PROGRAM, "programs");
    return true;
}

int main(int count, char **texts)
{
    static run r;
    simulation of;
    memset(&of, 0, sizeof of);
    of.made_of = *device_of("tlc");
    of.byte = 0.833;
    of.luns = LUNS;
    of.workload = MIXED_4K;
    of.load = count > 1 ? strtod(texts[1], NULL) : 0.2;
    of.requests = count > 2 ? strtoul(texts[2], NULL, 10) : 4000;
    of.seed = count > 3 ? strtoul(texts[3], NULL, 10) : 1;
    of.least_array = of.most_array = 1;
    if (count > 4 || !(of.load > 0) || of.load > 100 || of.requests < 1 || of.requests > MOST_REQUESTS || of.seed < 1) {
        fprintf(stderr, "suspend [LOAD [REQUESTS [SEED]]]: the share of the bus that arrivals ask for, 1 to 100000, a seed from 1\n");
        return 2;
    }
    return run_all(&r, &of, 0) && run_all(&r, &of, MOST_STOPS) ? EXIT_SUCCESS : EXIT_FAILURE;
}
