/* Each condition of a legal schedule, broken by one change of a schedule that is legal, with all that is reported of it; and refusals. */
#include <onfi.h>

#include <stdio.h>
#include <string.h>

static unsigned tried, failed;

static void expect(const char *what, uint64_t got, uint64_t wanted)
{
    tried++;
    if (got != wanted) {
        failed++;
        printf("%s: %llu in place of %llu\n", what, (unsigned long long)got, (unsigned long long)wanted);
    }
}

typedef struct {
    onfi_channel channel;
    onfi_want wants[3];
    size_t want_count;
    onfi_schedule schedule;
} problem;

/* A read of LUN 1, and two of LUN 0 on two planes that run as one: the schedule of examples/c/batch.c. */
static problem usual(void)
{
    return (problem){
        .channel = {.timing = {.read = {140, 600, 25100, 11000}, .program = {10800, 600, 200100, 280}, .erase = {100, 600, 1500100, 280}},
                    .rules = {.read = true, .write = true, .plane_bits = 1},
                    .lun_count = 2},
        .wants = {{.id = 0, .page = 5}, {.id = 1, .block = 1, .page = 5}, {.id = 2, .lun = 1}},
        .want_count = 3,
        .schedule = {.luns = 2, .groups = 2, .group = {{1, {2}, {0, 25240}}, {2, {0, 1}, {140, 880, 36240, 47240}}}},
    };
}

/* LUN 1 runs an erase, whose status is out at 2,000 ns; its read begins after it. */
static problem running(void)
{
    problem p = usual();
    p.channel.lun[1] = (onfi_lun){.since = 1000, .members = 1, .next = 1, .member = {{.id = 9, .kind = ONFI_ERASE, .lun = 1, .block = 3}}};
    p.schedule.rest[1] = (onfi_rest){1, {2000}};
    p.schedule.group[0] = (onfi_group){1, {2}, {2280, 58240}};
    return p;
}

#define SAID(p) &(p)->channel, (p)->wants, (p)->want_count

static void expect_named(const char *what, const onfi_named *got, const onfi_named *wanted)
{
    expect(what, got->want, wanted->want);
    expect(what, got->block, wanted->block);
    expect(what, got->lun, wanted->lun);
    expect(what, got->part, wanted->part);
    expect(what, got->is_running, wanted->is_running);
}

static void expect_broken(const char *what, const onfi_broken *got, const onfi_broken *wanted)
{
    expect(what, got->condition, wanted->condition);
    expect_named(what, &got->phase, &wanted->phase);
    expect_named(what, &got->other, &wanted->other);
    expect(what, got->want, wanted->want);
    expect(what, got->other_want, wanted->other_want);
    expect(what, got->start, wanted->start);
    expect(what, got->earliest, wanted->earliest);
    expect(what, got->held, wanted->held);
    expect(what, got->count, wanted->count);
    expect(what, got->right, wanted->right);
    expect(what, got->lun, wanted->lun);
    expect(what, got->difference, wanted->difference);
}

/* The schedule breaks that, or is legal. The check of a certificate says no more than whether it is. */
static void breaks(const char *what, const problem *p, onfi_broken wanted)
{
    static const char *const texts[] = {"ONFICERT 3 remember\nX\n", "ONFICERT 4 strict remember\nX\n"};
    const char *text = texts[p->channel.rules.strict];
    uint32_t status = wanted.condition == ONFI_BREACH_NONE ? ONFI_DONE : ONFI_ILLEGAL;
    onfi_broken broken;
    onfi_verdict verdict;
    memset(&broken, 0xA5, sizeof broken);
    expect(what, onfi_breach(SAID(p), &p->schedule, &broken), status);
    expect_broken(what, &broken, &wanted);
    uint32_t checked = onfi_check(SAID(p), &p->schedule, 0, (const uint8_t *)text, strlen(text), &verdict);
    expect(what, checked == ONFI_ILLEGAL, status == ONFI_ILLEGAL);
}

#define BROKEN(name, ...) (onfi_broken){.condition = ONFI_BREACH_##name, __VA_ARGS__}
#define COMMAND_OF(id) {.want = (id), .part = ONFI_COMMAND}
#define OUTPUT_OF(id) {.want = (id), .part = ONFI_DATA_OUTPUT}
#define STATUS_OF_RUNNING {.lun = 1, .block = 3, .part = ONFI_STATUS_OUTPUT, .is_running = true}

static void starts_and_requests(void)
{
    problem p = usual();
    breaks("a legal one", &p, (onfi_broken){0});
    p.schedule.luns = 3, breaks("starts of LUN 2", &p, BROKEN(FOREIGN_LUN, .lun = 1));
    p.schedule.luns = 1, breaks("none of LUN 1", &p, BROKEN(MISSING_LUN, .lun = 1));
    p.schedule.luns = 0, breaks("none of any", &p, BROKEN(MISSING_LUN, .lun = 0));
    p = usual(), p.schedule.rest[1].starts = 1, breaks("a free LUN", &p, BROKEN(REST_OF_FREE_LUN, .lun = 1));
    p = running(), breaks("a legal one that goes on", &p, (onfi_broken){0});
    p.schedule.rest[1].starts = 0, breaks("no start of what runs", &p, BROKEN(REST_COUNT, .lun = 1, .count = 0, .right = 1));
    p.schedule.rest[1].starts = 3, breaks("three starts of it", &p, BROKEN(REST_COUNT, .lun = 1, .count = 3, .right = 1));
    p = usual(), p.schedule.group[0].want[0] = 7, breaks("request 7", &p, BROKEN(UNKNOWN_REQUEST, .want = 7));
    p = usual(), p.schedule.groups = 1, breaks("a group less", &p, BROKEN(MISSING_REQUEST, .want = 0));
    p = usual(), p.schedule.group[1].want[1] = 0, breaks("request 0 twice", &p, BROKEN(REPEATED_REQUEST, .want = 0, .count = 2));
}

static void groups(void)
{
    problem p = usual();
    p.wants[1].kind = ONFI_PROGRAM, breaks("a program beside a read", &p, BROKEN(MIXED_GROUP, .want = 1, .other_want = 0, .difference = ONFI_OTHER_KIND));
    p = usual(), p.wants[1].lun = 1, breaks("two LUNs", &p, BROKEN(MIXED_GROUP, .want = 1, .other_want = 0, .difference = ONFI_OTHER_LUN));
    p = usual(), p.wants[1].page = 6, breaks("two pages", &p, BROKEN(MIXED_GROUP, .want = 1, .other_want = 0, .difference = ONFI_OTHER_PAGE));
    p = usual(), p.wants[1].block = 3, breaks("blocks 0 and 3", &p, (onfi_broken){0});
    p.channel.rules.strict = true, breaks("where groups are strict", &p, BROKEN(MIXED_GROUP, .want = 1, .other_want = 0, .difference = ONFI_OTHER_BLOCK));
    p = usual(), p.channel.rules.read = false, breaks("one plane at a time", &p, BROKEN(SINGLE_PLANE, .want = 1, .other_want = 0));
    p = usual(), p.schedule.group[1].want[0] = 1, p.schedule.group[1].want[1] = 0;
    breaks("planes that fall", &p, BROKEN(PLANE_ORDER, .want = 0, .other_want = 1));
}

static void times(void)
{
    problem p = usual();
    p.channel.bus_free = 10, breaks("the bus", &p, BROKEN(BUS_NOT_FREE, .phase = COMMAND_OF(2), .start = 0, .earliest = 10));
    p = usual(), p.schedule.group[1].start[0] = 100;
    breaks("two commands", &p, BROKEN(OVERLAP, .phase = COMMAND_OF(0), .start = 100, .other = COMMAND_OF(2), .held = 0, .earliest = 140));
    p = running(), p.channel.lun[1].since = 2001;
    breaks("a status", &p, BROKEN(NOT_READY, .phase = STATUS_OF_RUNNING, .lun = 1, .start = 2000, .earliest = 2001));
    p = usual(), p.schedule.group[0].start[1] = 25239;
    breaks("the array", &p, BROKEN(WAIT_TOO_SHORT, .phase = OUTPUT_OF(2), .other = COMMAND_OF(2), .lun = 1, .start = 25239, .earliest = 25240));
    p = usual(), p.schedule.group[1].start[1] = 879;
    breaks("the gap", &p, BROKEN(WAIT_TOO_SHORT, .phase = COMMAND_OF(1), .other = COMMAND_OF(0), .lun = 0, .start = 879, .earliest = 880));
    p = running(), p.schedule.group[0].start[0] = 0;
    breaks("before an erase is over", &p, BROKEN(RUNNING_GROUP_LEFT, .phase = COMMAND_OF(2), .lun = 1, .start = 0, .earliest = 2280));
    p = usual(), p.schedule.groups = 3, p.schedule.group[1] = (onfi_group){1, {0}, {140, 36240}}, p.schedule.group[2] = (onfi_group){1, {1}, {880, 47240}};
    breaks("two groups at once", &p, BROKEN(LUN_TAKEN, .phase = COMMAND_OF(1), .other_want = 0, .lun = 0, .start = 880, .held = 140, .earliest = 47240));
    p = usual(), p.channel.lun[1].since = 5, breaks("a LUN", &p, BROKEN(LUN_NOT_FREE, .phase = COMMAND_OF(2), .lun = 1, .start = 0, .earliest = 5));
    p = usual(), p.wants[1].block = 0, p.schedule.groups = 3;
    p.schedule.group[1] = (onfi_group){1, {1}, {140, 36240}}, p.schedule.group[2] = (onfi_group){1, {0}, {47240, 72480}};
    breaks("one block", &p, BROKEN(BLOCK_ORDER, .want = 1, .other_want = 0, .start = 140, .earliest = 83480));
}

/* By lengths the output of a sector ends before that of a page would. */
static void sectors(void)
{
    problem p = usual();
    onfi_broken broken;
    p.channel.lengths.sectors[0] = 3080;
    p.schedule.group[1].start[2] = 30000;
    breaks("an output within a page's", &p, BROKEN(OVERLAP, .phase = OUTPUT_OF(0), .start = 30000, .other = OUTPUT_OF(2), .held = 25240, .earliest = 36240));
    p.wants[2].kind = ONFI_KIND(ONFI_READ, 1);
    expect("behind a sector's", onfi_breach(SAID(&p), &p.schedule, &broken), ONFI_DONE);
    p.schedule.group[1].start[2] = 28319;
    expect("within a sector's", onfi_breach(SAID(&p), &p.schedule, &broken), ONFI_ILLEGAL);
    expect_broken("within a sector's", &broken, &BROKEN(OVERLAP, .phase = OUTPUT_OF(0), .start = 28319, .other = OUTPUT_OF(2), .held = 25240, .earliest = 28320));
}

/* What is no problem or no schedule is refused, and nothing is reported. */
static void refuses(const char *what, const problem *p, uint32_t wanted)
{
    onfi_broken broken, before;
    memset(&broken, 0xA5, sizeof broken), memcpy(&before, &broken, sizeof broken);
    expect(what, onfi_breach(SAID(p), &p->schedule, &broken), wanted);
    expect(what, (uint64_t)memcmp(&broken, &before, sizeof broken), 0);
}

static void refusals(void)
{
    problem p = usual();
    p.channel.timing.read.cmd = 0, refuses("no length", &p, ONFI_ZERO_SPAN);
    p = usual(), p.channel.timing.erase.gap = UINT64_C(1) << 50, refuses("a long wait", &p, ONFI_LONG_SPAN);
    p = usual(), p.channel.rules.plane_bits = 3, refuses("plane bits", &p, ONFI_BAD_PLANE_BITS);
    p = running(), p.channel.lun[1].members = 5, refuses("five members", &p, ONFI_BAD_MEMBERS);
    p = usual(), p.wants[2].kind = 3, refuses("a kind", &p, ONFI_BAD_KIND);
    p = usual(), p.channel.lun_count = 0, refuses("no LUN", &p, ONFI_TOO_MANY);
    p = usual(), p.wants[1].id = 0, refuses("equal ids", &p, ONFI_BAD_LUN);
    p = usual(), p.wants[2].kind = ONFI_KIND(ONFI_READ, 1), refuses("a sector", &p, ONFI_NO_LENGTHS);
    p = usual(), p.channel.bus_free = UINT64_MAX, refuses("the end of time", &p, ONFI_CLOCK);
    p = usual(), p.schedule.group[1].members = 0, refuses("no member", &p, ONFI_BAD_SCHEDULE);
    p = usual(), p.schedule.group[1].start[3] = UINT64_C(1) << 63, refuses("a late start", &p, ONFI_BAD_SCHEDULE);
    p = usual(), p.schedule.groups = 9, refuses("nine groups", &p, ONFI_BAD_SCHEDULE);
    p = usual(), p.channel.lengths.sectors[0] = UINT64_C(1) << 50, refuses("a long post of a sector", &p, ONFI_LONG_SPAN);
    p = usual(), p.channel.lun_count = 9, refuses("nine LUNs", &p, ONFI_TOO_MANY);
}

int main(void)
{
    starts_and_requests();
    groups();
    times();
    sectors();
    refusals();
    printf("%u tried, %u failed\n", tried, failed);
    return failed != 0;
}
