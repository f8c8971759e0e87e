/*
 * Prints what random programs of a driver say to a dispatcher and what it answers, or problems and their plans by the rule, as lines of
 * numbers for dispatcher_model.py. A want is ID KIND LUN BLOCK PAGE.
 *
 *   0 PLANE_BITS READ WRITE STRICT, for reads, programs, erases CMD GAP ARRAY POST, seven posts of sectors, BLOCKS PAGES LUNS of the
 *     device, BUS LUNS, for each LUN SINCE NEXT MEMBERS and its members     a dispatcher begins
 *   1 STATUS WANT      accept                    2 STATUS WANT      accept again
 *   3 STATUS ID        cancel                    4 STATUS LUN MOMENT     ready
 *   5 STATUS STARTED   ran
 *   6 STATUS NOW, where that is 0 the fields of the phase     next
 *   7 BUS LUNS, for each LUN as in 0, WANTS, each want, then the plan: for each LUN STARTS START.., for each group MEMBERS ID.. START..
 *
 *   dispatcher_trials loops|one-lun|plans PROGRAMS SEED
 */
#include "options.h"

#include <inttypes.h>
#include <stdio.h>
#include <stdlib.h>
#include <string.h>

static uint64_t state;
static onfi_channel channel;
static const onfi_geometry geometry = {.blocks_per_lun = 1000, .page_bits = 2, .block_bits = 10, .lun_bits = 3, .pages_per_block = 3, .data_bytes = 4096,
                                       .spare_bytes = 128, .lun_count = 7, .plane_address_bits = 2, .column_address_cycles = 2, .row_address_cycles = 3};

static uint32_t drawn(uint32_t below)
{
    state = state * UINT64_C(6364136223846793005) + UINT64_C(1442695040888963407);
    return (uint32_t)(state >> 33) % below;
}

static void print_want(const onfi_want *want)
{
    printf(" %" PRIu64 " %u %u %u %u", want->id, want->kind, want->lun, want->block, want->page);
}

static void print_spans(const onfi_spans *s)
{
    printf(" %" PRIu64 " %" PRIu64 " %" PRIu64 " %" PRIu64, s->cmd, s->gap, s->array, s->post);
}

static void print_luns(void)
{
    printf(" %" PRIu64 " %u", channel.bus_free, channel.lun_count);
    for (size_t at = 0; at < channel.lun_count; at++) {
        printf(" %" PRIu64 " %u %u", channel.lun[at].since, channel.lun[at].next, channel.lun[at].members);
        for (unsigned member = 0; member < channel.lun[at].members; member++)
            print_want(&channel.lun[at].member[member]);
    }
}

static void print_begin(void)
{
    const onfi_rules *rules = &channel.rules;
    printf("0 %u %d %d %d", rules->plane_bits, rules->read, rules->write, rules->strict);
    print_spans(&channel.timing.read);
    print_spans(&channel.timing.program);
    print_spans(&channel.timing.erase);
    for (unsigned at = 0; at < ONFI_SECTORS; at++)
        printf(" %" PRIu64, channel.lengths.sectors[at]);
    printf(" %" PRIu32 " %u %u", geometry.blocks_per_lun, geometry.pages_per_block, geometry.lun_count);
    print_luns();
    printf("\n");
}

static onfi_spans drawn_spans(uint32_t post)
{
    return (onfi_spans){1 + drawn(60), drawn(20), drawn(900), 1 + drawn(post)};
}

/* What runs as a channel begins: up to as many members as there are planes, where they may run as one. */
static void draw_running(size_t number)
{
    onfi_lun *lun = &channel.lun[number];
    uint8_t kind = (uint8_t)drawn(3);
    bool may = kind == ONFI_READ ? channel.rules.read : channel.rules.write;
    lun->members = (uint8_t)(1 + (may ? drawn(1u << channel.rules.plane_bits) : 0));
    lun->next = (uint8_t)(1 + drawn(2u * lun->members - 1));
    for (uint8_t at = 0; at < lun->members; at++)
        lun->member[at] = (onfi_want){.id = at, .kind = kind, .lun = (uint8_t)number, .block = at, .page = kind == ONFI_ERASE ? 0 : 1};
}

static void draw_channel(bool one_lun, bool sectors)
{
    memset(&channel, 0, sizeof channel);
    channel.lun_count = (uint8_t)(one_lun ? 1 : 1 + drawn(8));
    channel.timing = (onfi_timing){drawn_spans(300), drawn_spans(20), drawn_spans(20)};
    channel.rules = (onfi_rules){drawn(4) != 0, one_lun || drawn(4) != 0, drawn(4) == 0, (uint8_t)drawn(3)};
    channel.bus_free = drawn(1000);
    for (unsigned at = 0; sectors && at < ONFI_SECTORS; at++)
        channel.lengths.sectors[at] = drawn(5) ? 1 + drawn(200) : 0;
    for (size_t at = 0; at < channel.lun_count; at++) {
        channel.lun[at].since = drawn(2000);
        if (at < geometry.lun_count && drawn(3) == 0)
            draw_running(at);
    }
}

/* A request with an even id; of a few something is wrong, or the id is an odd one that is lower. */
static onfi_want drawn_want(uint64_t id, bool sectors, bool one_lun)
{
    uint8_t kind = (uint8_t)(drawn(10) < (one_lun ? 9 : 5) ? ONFI_READ : drawn(3) ? ONFI_PROGRAM : ONFI_ERASE);
    onfi_want want = {id, kind, (uint8_t)drawn((uint32_t)channel.lun_count), (uint16_t)drawn(one_lun ? 1000 : 12), (uint16_t)(kind == ONFI_ERASE ? 0 : drawn(3))};
    if (sectors && kind == ONFI_READ && drawn(2))
        want.kind = ONFI_KIND(ONFI_READ, drawn(8));
    switch (drawn(60)) {
    case 0: want.page = (uint16_t)(3 + drawn(3)); break;
    case 1: want.block = (uint16_t)(1000 + drawn(3)); break;
    case 2: want.lun = (uint8_t)(channel.lun_count + drawn(3)); break;
    case 3: want.kind = (uint8_t)drawn(256); break;
    case 4: want.id = drawn((uint32_t)id + 1) | 1; break;
    default: break;
    }
    return want;
}

static uint32_t print_next(onfi_dispatcher *dispatcher, uint64_t now, onfi_phase *p)
{
    uint32_t status = onfi_dispatcher_next(dispatcher, now, p);
    printf("6 %" PRIu32 " %" PRIu64, status, now);
    if (status == ONFI_DONE)
        printf(" %" PRIu64 " %" PRIu64 " %" PRIu64 " %" PRIu32 " %u %u %u %u %u %u %u %u %u %d", p->start, p->end, p->want, p->row, p->block, p->page,
               p->lun, p->kind, p->number, p->members, p->opener, p->closer, p->row_cycles, p->is_post);
    printf("\n");
    return status;
}

static uint32_t print_ran(onfi_dispatcher *dispatcher, uint64_t started)
{
    uint32_t status = onfi_dispatcher_ran(dispatcher, started);
    printf("5 %" PRIu32 " %" PRIu64 "\n", status, started);
    return status;
}

static void print_taken(int call, onfi_dispatcher *dispatcher, const onfi_want *want)
{
    uint32_t status = call == 1 ? onfi_dispatcher_accept(dispatcher, want) : onfi_dispatcher_accept_again(dispatcher, want);
    printf("%d %" PRIu32, call, status);
    print_want(want);
    printf("\n");
}

/* What comes seldom: a request goes out or comes again, a LUN is ready early, a phase ran that isn't due, or at no such time. */
static void try_seldom(onfi_dispatcher *dispatcher, uint64_t id, uint64_t now, bool sectors)
{
    onfi_want again = drawn_want(drawn((uint32_t)id) & ~UINT32_C(1), sectors, false);
    uint64_t other = drawn((uint32_t)id) & ~UINT64_C(1);
    uint8_t lun = (uint8_t)drawn((uint32_t)channel.lun_count + 1);
    uint64_t moment = now + drawn(300);
    switch (drawn(6)) {
    case 0: print_taken(2, dispatcher, &again); break;
    case 1: printf("3 %" PRIu32 " %" PRIu64 "\n", onfi_dispatcher_cancel(dispatcher, other), other); break;
    case 2: printf("4 %" PRIu32 " %u %" PRIu64 "\n", onfi_dispatcher_ready(dispatcher, lun, moment), lun, moment); break;
    case 3: print_ran(dispatcher, drawn(2) ? 0 : UINT64_C(1) << 62); break;
    default: break;
    }
}

static void try_loop(bool one_lun, uint64_t requests)
{
    static onfi_dispatcher dispatcher;
    bool sectors = drawn(2);
    draw_channel(one_lun, sectors);
    if (onfi_dispatcher_begin(&dispatcher, &channel, &geometry) != ONFI_DONE)
        exit(9);
    print_begin();
    uint64_t id = 4, now = 0;
    onfi_phase phase;
    for (uint64_t waits = 0; id < requests || waits;) {
        for (unsigned more = id == 4 ? 30 : drawn(3); more && id < requests; more--) {
            onfi_want want = drawn_want(id, sectors, one_lun);
            print_taken(1, &dispatcher, &want);
            id += 2;
        }
        if (drawn(8) == 0)
            try_seldom(&dispatcher, id, now, sectors);
        uint32_t status = print_next(&dispatcher, now, &phase);
        waits = status == ONFI_DONE;
        if (!waits || drawn(12) == 0) {
            now += drawn(200);
            continue;
        }
        uint64_t started = phase.start + (drawn(4) ? 0 : drawn(60));
        if (drawn(4) && print_ran(&dispatcher, started) != ONFI_DONE)
            exit(10);
        now = now < started ? started : now;
    }
}

static void print_plan(const onfi_schedule *schedule)
{
    for (unsigned lun = 0; lun < schedule->luns; lun++) {
        printf(" %u", schedule->rest[lun].starts);
        for (unsigned at = 0; at < schedule->rest[lun].starts; at++)
            printf(" %" PRIu64, schedule->rest[lun].start[at]);
    }
    for (unsigned number = 0; number < schedule->groups; number++) {
        const onfi_group *group = &schedule->group[number];
        printf(" %u", group->members);
        for (unsigned at = 0; at < group->members; at++)
            printf(" %" PRIu64, group->want[at]);
        for (unsigned at = 0; at < 2u * group->members; at++)
            printf(" %" PRIu64, group->start[at]);
    }
    printf("\n");
}

static void try_plan(void)
{
    onfi_want wants[ONFI_WANTS];
    const onfi_options options = options_by(ONFI_RULE, ONFI_NODES);
    onfi_planned plan;
    size_t bytes, count = drawn(9);
    draw_channel(false, false);
    for (size_t at = 0; at < count; at++) {
        uint8_t kind = (uint8_t)drawn(3);
        wants[at] = (onfi_want){at, kind, (uint8_t)drawn((uint32_t)channel.lun_count), (uint16_t)drawn(8), (uint16_t)(kind == ONFI_ERASE ? 0 : drawn(2))};
    }
    if (onfi_plan(&channel, wants, count, &options, &plan, NULL, 0, &bytes) != ONFI_DONE)
        exit(11);
    print_begin();
    printf("7");
    print_luns();
    printf(" %zu", count);
    for (size_t at = 0; at < count; at++)
        print_want(&wants[at]);
    print_plan(&plan.schedule);
}

int main(int count, char **texts)
{
    if (count != 4)
        return 2;
    state = (uint64_t)atoi(texts[3]);
    for (int program = 0; program < atoi(texts[2]); program++)
        if (!strcmp(texts[1], "plans"))
            try_plan();
        else
            try_loop(!strcmp(texts[1], "one-lun"), strcmp(texts[1], "one-lun") ? 80 + drawn(240) : 6000);
    return 0;
}
