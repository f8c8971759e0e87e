/*
 * Reads of some sectors: plans worked by hand, certificates that must know which posts are left, refusals in their order; and that reads of one count of sectors are planned as reads whose page has that post, drawn.
 */
#include "options.h"

#include <stdio.h>
#include <string.h>

static unsigned tried, failed;

static void expect(const char *what, uint64_t got, uint64_t wanted)
{
    tried++;
    if (got != wanted) {
        failed++;
        printf("%s: %llu in place of %llu\n", what, (unsigned long long)got, (unsigned long long)wanted);
    }
}

static const onfi_geometry geometry = {
    .lun_count = 8, .plane_address_bits = 1, .pages_per_block = 64, .blocks_per_lun = 1024, .page_bits = 6, .block_bits = 10, .lun_bits = 3,
    .column_address_cycles = 2, .row_address_cycles = 3, .data_bytes = 512, .spare_bytes = 16,
};

typedef struct {
    onfi_channel channel;
    onfi_want wants[9];
    size_t want_count;
} problem;

/* Two LUNs of two planes each; lengths of one, two and three sectors of 132 bytes. */
static problem usual(void)
{
    return (problem){
        .channel = {.lengths = {.sectors = {3080, 5720, 8360}},
                    .timing = {.read = {140, 600, 25100, 11000}, .program = {10800, 600, 200100, 280}, .erase = {100, 600, 1500100, 280}},
                    .rules = {.read = true, .write = true, .plane_bits = 1},
                    .lun_count = 2},
    };
}

static void add(problem *p, uint8_t kind, uint8_t lun, uint16_t block, uint16_t page)
{
    p->wants[p->want_count] = (onfi_want){.id = p->want_count, .kind = kind, .lun = lun, .block = block, .page = page};
    p->want_count++;
}

#define SECTORS(count) ONFI_KIND(ONFI_READ, count)
#define SAID(p) &(p)->channel, (p)->wants, (p)->want_count

static uint32_t check_of(const problem *p, const onfi_schedule *s, uint64_t below, const char *certificate, onfi_verdict *verdict)
{
    return onfi_check(SAID(p), s, below, (const uint8_t *)certificate, strlen(certificate), verdict);
}

/* The plan of a problem ends then, and the check of its certificate says so; it is what the search with weights and the rule can't beat. */
static onfi_planned planned(const char *what, const problem *p, uint64_t finish)
{
    const onfi_options within = options_by(ONFI_WITHIN, ONFI_NODES), early = options_early(ONFI_WITHIN, ONFI_NODES), rule = options_by(ONFI_RULE, 1);
    onfi_planned plan, other;
    onfi_verdict verdict;
    char text[4096];
    size_t bytes;
    expect(what, onfi_plan(SAID(p), &within, &plan, (uint8_t *)text, sizeof text - 1, &bytes), ONFI_DONE);
    expect(what, plan.finish, finish);
    expect(what, plan.below, finish);
    text[bytes] = 0;
    expect(what, check_of(p, &plan.schedule, finish, text, &verdict), ONFI_DONE);
    expect(what, verdict.finish, finish);
    expect(what, onfi_plan(SAID(p), &early, &other, (uint8_t *)text, sizeof text - 1, &bytes), ONFI_DONE);
    expect(what, other.finish, finish);
    expect(what, onfi_plan(SAID(p), &rule, &other, (uint8_t *)text, sizeof text - 1, &bytes), ONFI_DONE);
    text[bytes] = 0;
    expect(what, check_of(p, &other.schedule, other.below, text, &verdict), ONFI_DONE);
    expect(what, verdict.finish == other.finish && other.below <= finish && finish <= other.finish, 1);
    return plan;
}

static void starts(const char *what, const uint64_t *got, size_t count, const uint64_t *wanted)
{
    for (size_t at = 0; at < count; at++)
        expect(what, got[at], wanted[at]);
}

static void by_hand(void)
{
    onfi_planned plan;
    problem p = usual();
    add(&p, ONFI_READ, 0, 0, 0);
    planned("a page", &p, 36240);
    p.wants[0].kind = SECTORS(1), plan = planned("a sector", &p, 28320);
    starts("a sector", plan.schedule.group[0].start, 2, (uint64_t[]){0, 25240});

    p = usual(), add(&p, SECTORS(3), 0, 0, 0), add(&p, SECTORS(1), 1, 0, 0);
    plan = planned("three sectors and one", &p, 36680);
    starts("three sectors", plan.schedule.group[0].start, 2, (uint64_t[]){0, 25240});
    starts("then one", plan.schedule.group[1].start, 2, (uint64_t[]){140, 33600});

    p = usual(), add(&p, ONFI_READ, 0, 0, 0), add(&p, SECTORS(1), 0, 1, 0);
    plan = planned("a page and a sector as one", &p, 40060);
    starts("a page and a sector", plan.schedule.group[0].start, 4, (uint64_t[]){0, 740, 25980, 36980});
    p.wants[0].kind = SECTORS(1), p.wants[1].kind = ONFI_READ, plan = planned("a sector and a page as one", &p, 40060);
    starts("a sector and a page", plan.schedule.group[0].start, 4, (uint64_t[]){0, 740, 25980, 29060});
    p.wants[1].kind = SECTORS(2), planned("a sector and two as one", &p, 34780);

    p = usual(), add(&p, SECTORS(1), 0, 0, 0), add(&p, SECTORS(1), 0, 0, 0);
    planned("two sectors of one page, apart", &p, 56640);

    p = usual(), add(&p, SECTORS(3), 0, 0, 0), add(&p, SECTORS(1), 1, 0, 0), add(&p, SECTORS(1), 1, 1, 0);
    planned("three sectors beside two groups of one", &p, 39760);
}

/* Posts of running groups are those of their members. */
static void running(void)
{
    problem p = usual();
    p.channel.lun[0] = (onfi_lun){.since = 1000, .members = 2, .next = 1, .member = {{.kind = SECTORS(2)}, {.kind = SECTORS(1), .block = 1}}};
    add(&p, ONFI_READ, 1, 0, 0);
    onfi_planned plan = planned("two sectors and one that run", &p, 45040);
    starts("what is left of them", plan.schedule.rest[0].start, 3, (uint64_t[]){1000, 36240, 41960});

    p = usual();
    p.channel.lun[0] = (onfi_lun){.since = 1000, .members = 2, .next = 3, .member = {{.kind = ONFI_READ}, {.kind = SECTORS(1), .block = 1}}};
    add(&p, ONFI_PROGRAM, 0, 2, 0);
    plan = planned("the sector of the second member", &p, 215260);
    starts("then a program", plan.schedule.group[0].start, 2, (uint64_t[]){4080, 214980});

    p = usual();
    p.channel.lun[0] = (onfi_lun){.since = 5000, .members = 1, .next = 1, .member = {{.kind = ONFI_ERASE}}};
    p.channel.lun[1] = (onfi_lun){.since = 1900, .members = 1, .next = 1, .member = {{.kind = SECTORS(1), .lun = 1}}};
    planned("a status before which a sector fits", &p, 5280);
}

/* A certificate may end a node as another where the same posts are left, and not where others are. */
static void remembered(void)
{
    problem p = usual();
    onfi_verdict verdict;
    p.channel.lun_count = 1, p.channel.rules = (onfi_rules){.read = true, .write = true, .plane_bits = 1};
    add(&p, SECTORS(1), 0, 0, 0), add(&p, ONFI_READ, 0, 1, 1);
    onfi_planned plan = planned("a sector, then a page", &p, 64560);
    expect("another post is left", check_of(&p, &plan.schedule, 64560, "ONFICERT 3 remember\nB2 B1 B1 B1 X B1 B1 R0\n", &verdict), ONFI_OTHER_LEFT);
    expect("at its place", verdict.place, 7);
    expect("to the end", check_of(&p, &plan.schedule, 64560, "ONFICERT 3 remember\nB2 B1 B1 B1 X B1 B1 B1 X\n", &verdict), ONFI_DONE);
    p.wants[1].kind = SECTORS(1), plan = planned("two sectors", &p, 56640);
    expect("the same post is left", check_of(&p, &plan.schedule, 56640, "ONFICERT 3 remember\nB2 B1 B1 B1 X B1 B1 R0\n", &verdict), ONFI_DONE);

    p = usual(), add(&p, SECTORS(1), 0, 0, 0), add(&p, SECTORS(2), 1, 0, 0);
    plan = planned("one and two sectors", &p, 34040);
    expect("a window over both", check_of(&p, &plan.schedule, 34040, "ONFICERT 3 remember\nW25240,0\n", &verdict), ONFI_DONE);
    expect("a window over less", check_of(&p, &plan.schedule, 34040, "ONFICERT 3 remember\nW25241,0\n", &verdict), ONFI_BOUND_LOW);
}

/* Each new call answers that number, and leaves all as it was. */
static void refuses(const char *what, const problem *p, uint32_t wanted)
{
    static const onfi_schedule none = {.luns = 2};
    problem q = *p;
    onfi_planned plan, before;
    onfi_phase phase, same;
    onfi_verdict verdict;
    onfi_schedule left = none;
    size_t bytes = 1, count = p->want_count;
    memset(&plan, 0xA5, sizeof plan), memcpy(&before, &plan, sizeof plan);
    memset(&phase, 0xA5, sizeof phase), memcpy(&same, &phase, sizeof phase);
    for (uint8_t by = ONFI_PLAIN; by <= ONFI_RULE; by++) {
        const onfi_options options = options_by(by, ONFI_NODES), early = options_early(by, ONFI_NODES);
        expect(what, onfi_plan(SAID(p), &options, &plan, NULL, 0, &bytes), wanted);
        expect(what, onfi_plan(SAID(p), &early, &plan, NULL, 0, &bytes), wanted);
    }
    expect(what, bytes, 0);
    expect(what, (uint64_t)memcmp(&plan, &before, sizeof plan), 0);
    expect(what, onfi_check(SAID(p), &none, 0, NULL, 0, &verdict), wanted);
    expect(what, onfi_due(SAID(p), &geometry, &none, &phase), wanted);
    expect(what, (uint64_t)memcmp(&phase, &same, sizeof phase), 0);
    if (p->want_count <= 8) {
        expect(what, onfi_ran(&q.channel, q.wants, &count, &left, 0, 0, 0), wanted);
        expect(what, (uint64_t)memcmp(&q, p, sizeof q) + (uint64_t)memcmp(&left, &none, sizeof left), 0);
    }
}

static void refusals(void)
{
    problem p = usual();
    add(&p, SECTORS(1), 0, 0, 0), add(&p, ONFI_PROGRAM, 1, 0, 0);
    p.channel.lun[1] = (onfi_lun){.since = 1000, .members = 1, .next = 1, .member = {{.kind = SECTORS(2), .lun = 1, .block = 3}}};
    const problem good = p;
    planned("a good one", &good, 217900);
    p.channel.lengths.sectors[6] = UINT64_C(1) << 50, refuses("a long post", &p, ONFI_LONG_SPAN);
    p.channel.timing.erase.post = 0, refuses("an erase without length before it", &p, ONFI_ZERO_SPAN);
    p = good, p.channel.lengths.sectors[0] = UINT64_MAX, p.channel.rules.plane_bits = 3, refuses("a long post before plane bits", &p, ONFI_LONG_SPAN);
    p = good, p.wants[1].kind = 3, refuses("a kind", &p, ONFI_BAD_KIND);
    p.wants[1].kind = ONFI_KIND(3, 1), refuses("a kind with a sector", &p, ONFI_BAD_KIND);
    p.wants[1].kind = 4, refuses("a bit above a read", &p, ONFI_BAD_KIND);
    p.wants[1].kind = 16 + ONFI_KIND(ONFI_ERASE, 7), refuses("a bit above an erase", &p, ONFI_BAD_KIND);
    p = good, p.channel.lun[1].member[0].kind = 31, refuses("a running kind", &p, ONFI_BAD_KIND);
    p.channel.lun[1].members = 5, refuses("five members before it", &p, ONFI_BAD_MEMBERS);

    p = good, p.channel.lengths.sectors[0] = 0, refuses("no length of a sector", &p, ONFI_NO_LENGTHS);
    p.channel.bus_free = UINT64_MAX, refuses("before the end of time", &p, ONFI_NO_LENGTHS);
    p.wants[1].lun = 2, refuses("a LUN that isn't there before it", &p, ONFI_BAD_LUN);
    p.want_count = 9, refuses("nine wants before that", &p, ONFI_TOO_MANY);
    p = good, p.channel.lun_count = 0, p.channel.lengths.sectors[0] = 0, refuses("no LUN", &p, ONFI_TOO_MANY);
    p = good, p.channel.lengths.sectors[1] = 0, refuses("no length of what runs", &p, ONFI_NO_LENGTHS);
    p = good, p.wants[0].kind = SECTORS(7), refuses("seven sectors", &p, ONFI_NO_LENGTHS);
    p = good, p.wants[1].kind = ONFI_KIND(ONFI_PROGRAM, 1), refuses("a sector of a program", &p, ONFI_NO_LENGTHS);
    p.channel.lun[1].next = 2, refuses("a running group that is over before it", &p, ONFI_BAD_LUN);
    p = good, p.channel.lun[1].member[0].kind = ONFI_KIND(ONFI_ERASE, 1), refuses("a sector of an erase that runs", &p, ONFI_NO_LENGTHS);
    p = good, p.wants[1] = (onfi_want){.id = 1, .kind = ONFI_ERASE, .page = 1}, refuses("an erase with a page", &p, ONFI_BAD_LUN);
    p.wants[1].page = 0, p.wants[0].page = 1, planned("a page of a sector", &p, 1528800);
    p = good, p.channel.bus_free = UINT64_MAX, refuses("the end of time", &p, ONFI_CLOCK);
}

/* Phase by phase: bytes and kinds are those of reads, posts are as long as is stated, and what began waits no more. */
static void to_the_end(problem p, const onfi_planned *plan)
{
    onfi_schedule left = plan->schedule;
    uint64_t last = 0;
    onfi_phase phase;
    for (;;) {
        uint32_t status = onfi_due(SAID(&p), &geometry, &left, &phase);
        if (status == ONFI_NOTHING_DUE)
            break;
        expect("a phase is due", status, ONFI_DONE);
        if (status != ONFI_DONE)
            return;
        unsigned sectors = phase.kind >> 5;
        expect("its operation", phase.kind & 31, ONFI_READ);
        expect("its first byte", phase.opener, phase.is_post ? 0x06 : 0x00);
        expect("its length", phase.end - phase.start, !phase.is_post ? 140 : sectors ? p.channel.lengths.sectors[sectors - 1] : 11000);
        onfi_output output;
        expect("an output of what is due", onfi_output_of(&geometry, 132, &phase, 1, &output), ONFI_DONE);
        expect("its column", output.column, phase.is_post && sectors ? 132 : 0);
        expect("its bytes", output.bytes, !phase.is_post ? 0 : sectors ? 132 * sectors : 528);
        expect("ran", onfi_ran(&p.channel, p.wants, &p.want_count, &left, phase.lun, phase.number, phase.start), ONFI_DONE);
        expect("the bus", p.channel.bus_free, phase.end);
        last = phase.end;
    }
    expect("it ends as planned", last, plan->finish);
    expect("nothing waits", p.want_count, 0);
    expect("nothing runs", p.channel.lun[0].members + p.channel.lun[1].members, 0);
}

static void phases(void)
{
    problem p = usual();
    p.channel.lun[0] = (onfi_lun){.since = 1000, .members = 2, .next = 1, .member = {{.kind = SECTORS(2)}, {.kind = SECTORS(1), .block = 1}}};
    add(&p, ONFI_READ, 1, 0, 0), add(&p, SECTORS(3), 1, 1, 0), add(&p, SECTORS(1), 1, 0, 1);
    onfi_planned plan = planned("pages and sectors", &p, 73660);
    to_the_end(p, &plan);
    onfi_phase phase;
    expect("a start in the later half of the clock is looked at too", onfi_due(SAID(&p), &geometry, &plan.schedule, &phase), ONFI_DONE);
}

/* The column and the count of bytes of what a phase puts out, in one number; else the status, or 0 where something was given beside it. */
static uint64_t put_out(uint8_t kind, bool is_post, uint16_t sector_bytes, uint8_t first)
{
    onfi_phase phase;
    onfi_output output = {0xA5A5, 0x5A5A};
    memset(&phase, 0xA5, sizeof phase);
    phase.kind = kind, phase.is_post = is_post;
    uint32_t status = onfi_output_of(&geometry, sector_bytes, &phase, first, &output);
    if (status != ONFI_DONE)
        return output.column == 0xA5A5 && output.bytes == 0x5A5A ? status : 0;
    return (uint64_t)output.column << 32 | (uint64_t)output.bytes << 16;
}

#define OUT(column, bytes) ((uint64_t)(column) << 32 | (uint64_t)(bytes) << 16)

/* Columns and counts of bytes by hand: pages have 528 bytes, four sectors of 132. */
static void outputs(void)
{
    expect("a page", put_out(ONFI_READ, true, 132, 0), OUT(0, 528));
    expect("a page, whatever is first", put_out(ONFI_READ, true, 132, 255), OUT(0, 528));
    expect("a page without sectors", put_out(ONFI_READ, true, 0, 7), OUT(0, 528));
    expect("the first sector", put_out(SECTORS(1), true, 132, 0), OUT(0, 132));
    expect("the last one", put_out(SECTORS(1), true, 132, 3), OUT(396, 132));
    expect("two in the middle", put_out(SECTORS(2), true, 132, 1), OUT(132, 264));
    expect("all four", put_out(SECTORS(4), true, 132, 0), OUT(0, 528));
    expect("one of a whole page", put_out(SECTORS(1), true, 528, 0), OUT(0, 528));
    expect("a byte at the end", put_out(SECTORS(1), true, 2, 255), OUT(510, 2));
    expect("seven at the end", put_out(SECTORS(7), true, 66, 1), OUT(66, 462));
    expect("a command", put_out(SECTORS(2), false, 132, 2), OUT(0, 0));
    expect("a command of a page", put_out(ONFI_READ, false, 132, 9), OUT(0, 0));
    expect("data of a program", put_out(ONFI_PROGRAM, false, 132, 0), OUT(0, 0));
    expect("the status of a program", put_out(ONFI_PROGRAM, true, 132, 9), OUT(0, 0));
    expect("the status of an erase", put_out(ONFI_ERASE, true, 0, 0), OUT(0, 0));

    expect("a sector past the page", put_out(SECTORS(1), true, 132, 4), ONFI_BAD_SECTORS);
    expect("three from the second but one", put_out(SECTORS(3), true, 132, 2), ONFI_BAD_SECTORS);
    expect("that of a command", put_out(SECTORS(3), false, 132, 2), ONFI_BAD_SECTORS);
    expect("five of four", put_out(SECTORS(5), true, 132, 0), ONFI_BAD_SECTORS);
    expect("a sector larger than the page", put_out(SECTORS(1), true, 529, 0), ONFI_BAD_SECTORS);
    expect("seven of the greatest from the last", put_out(SECTORS(7), true, UINT16_MAX, UINT8_MAX), ONFI_BAD_SECTORS);
    expect("a sector without bytes", put_out(SECTORS(1), true, 0, 0), ONFI_BAD_SECTORS);
    expect("a kind", put_out(3, true, 132, 0), ONFI_BAD_KIND);
    expect("a kind with sectors past the page", put_out(ONFI_KIND(31, 7), false, 0, 9), ONFI_BAD_KIND);

    onfi_geometry none = geometry;
    const onfi_phase phase = {.kind = SECTORS(1), .is_post = true}, bad = {.kind = 3};
    onfi_output output = {1, 2};
    none.lun_count = 9;
    expect("a geometry before sectors", onfi_output_of(&none, 0, &phase, 0, &output), ONFI_BAD_GEOMETRY);
    expect("a kind before it", onfi_output_of(&none, 0, &bad, 0, &output), ONFI_BAD_KIND);
    expect("and nothing is given", output.column + output.bytes, 3);
    none = geometry, none.data_bytes = 65535, none.spare_bytes = 0;
    expect("the last of the greatest page", onfi_output_of(&none, 13107, &phase, 4, &output), ONFI_DONE);
    expect("begins there", output.column, 52428);
    expect("to its end", output.column + output.bytes, 65535);
}

static uint64_t state = 1;

static unsigned drawn(unsigned below)
{
    state = state * UINT64_C(6364136223846793005) + UINT64_C(1442695040888963407);
    return (unsigned)(state >> 33) % below;
}

/* Reads of one count of sectors are planned as reads whose page has that post: schedules, times and certificates are the same. */
static void same(void)
{
    for (unsigned number = 0; number < 250; number++) {
        problem p = usual(), q;
        uint8_t count = (uint8_t)(1 + drawn(7));
        uint64_t post = 1 + drawn(12000);
        memset(&p.channel.lengths, 0, sizeof p.channel.lengths);
        p.channel.lengths.sectors[count - 1] = post, p.channel.timing.read.post = post + drawn(9000);
        p.channel.lun_count = (uint8_t)(1 + drawn(4));
        q = p, q.channel.timing.read.post = post;
        for (unsigned at = drawn(7); at <= 6; at++) {
            unsigned lun = drawn(p.channel.lun_count), block = drawn(6), page = drawn(2), program = drawn(4) == 0;
            add(&p, program ? ONFI_PROGRAM : SECTORS(count), (uint8_t)lun, (uint16_t)block, (uint16_t)page);
            add(&q, program ? ONFI_PROGRAM : ONFI_READ, (uint8_t)lun, (uint16_t)block, (uint16_t)page);
        }
        if (drawn(2)) {
            p.channel.lun[0] = (onfi_lun){.since = drawn(30000), .members = 1, .next = 1, .member = {{.kind = SECTORS(count), .block = 7}}};
            q.channel.lun[0] = p.channel.lun[0], q.channel.lun[0].member[0].kind = ONFI_READ;
        }
        static uint8_t text[1 << 16], other[1 << 16];
        const onfi_options options = options_by(ONFI_WITHIN, 20000);
        onfi_planned plan, plain;
        size_t bytes = 0, told = 0;
        expect("drawn", onfi_plan(SAID(&p), &options, &plan, text, sizeof text, &bytes), ONFI_DONE);
        expect("drawn", onfi_plan(SAID(&q), &options, &plain, other, sizeof other, &told), ONFI_DONE);
        expect("the plan", (uint64_t)memcmp(&plan, &plain, sizeof plan), 0);
        expect("its certificate", bytes == told && memcmp(text, other, bytes) == 0, 1);
    }
}

int main(void)
{
    by_hand();
    running();
    remembered();
    refusals();
    phases();
    outputs();
    same();
    printf("%u tried, %u failed\n", tried, failed);
    return failed != 0;
}
