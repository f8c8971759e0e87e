/* Refused calls, each by its number, and what they leave as it was. */
#include "options.h"

#include <stdio.h>
#include <stdlib.h>
#include <string.h>

static unsigned tried, failed;

static void expect(const char *what, uint64_t got, uint64_t wanted)
{
    tried++;
    if (got != wanted) {
        failed++;
        printf("%s: %llu in place of %llu\n", what, (unsigned long long)got, (unsigned long long)wanted);
    }
}

typedef struct {
    onfi_channel channel;
    onfi_want wants[9];
    size_t want_count;
    uint32_t limit;
} problem;

/* Two reads of two LUNs; LUN 1 runs an erase. */
static problem usual(void)
{
    problem p = {
        .channel = {.timing = {.read = {140, 600, 25100, 11000}, .program = {10800, 600, 200100, 280}, .erase = {100, 600, 1500100, 280}},
                    .rules = {.read = true, .write = true, .plane_bits = 1},
                    .lun_count = 2},
        .want_count = 2, .limit = ONFI_NODES,
    };
    p.channel.lun[1] = (onfi_lun){.since = 1000, .members = 1, .next = 1, .member = {{.kind = ONFI_ERASE, .lun = 1, .block = 3}}};
    for (unsigned at = 0; at < 9; at++)
        p.wants[at] = (onfi_want){.id = 7 + at, .kind = ONFI_READ, .lun = (uint8_t)(at & 1), .block = (uint16_t)at};
    return p;
}

static uint32_t plan_by(uint8_t by, const problem *p, onfi_planned *plan, void *certificate, size_t room, size_t *bytes)
{
    const onfi_options options = options_by(by, p->limit);
    return onfi_plan(&p->channel, p->wants, p->want_count, &options, plan, (uint8_t *)certificate, room, bytes);
}

static uint32_t plan_of(const problem *p, onfi_planned *plan, void *certificate, size_t room, size_t *bytes)
{
    return plan_by(ONFI_PLAIN, p, plan, certificate, room, bytes);
}

/* A refused plan leaves all as it was, and there is no certificate. */
static void refuses_plan(const char *what, const onfi_options *options, const problem *p, uint32_t wanted)
{
    onfi_planned plan, before;
    uint8_t certificate[64], room[64];
    size_t bytes = 1;
    memset(&plan, 0xA5, sizeof plan);
    memset(certificate, 0x5A, sizeof certificate);
    memcpy(&before, &plan, sizeof plan);
    memcpy(room, certificate, sizeof room);
    expect(what, onfi_plan(&p->channel, p->wants, p->want_count, options, &plan, certificate, sizeof certificate, &bytes), wanted);
    expect(what, bytes, 0);
    expect(what, (uint64_t)memcmp(&plan, &before, sizeof plan), 0);
    expect(what, (uint64_t)memcmp(room, certificate, sizeof room), 0);
}

static void refuses_check(const char *what, const problem *p, uint32_t wanted)
{
    static const uint8_t certificate[64];
    const onfi_schedule none = {.luns = 2};
    onfi_verdict verdict = {1, 1};
    expect(what, onfi_check(&p->channel, p->wants, p->want_count, &none, 0, certificate, sizeof certificate, &verdict), wanted);
    expect(what, verdict.finish + verdict.place, 0);
}

/* In each way, early or not, and by the check. */
static void refuses(const char *what, const problem *p, uint32_t wanted)
{
    for (uint8_t by = ONFI_PLAIN; by <= ONFI_RULE; by++) {
        const onfi_options options = options_by(by, p->limit), early = options_early(by, p->limit);
        refuses_plan(what, &options, p, wanted);
        refuses_plan(what, &early, p, wanted);
    }
    if (wanted != ONFI_BAD_LIMIT)
        refuses_check(what, p, wanted);
}

static void channels(void)
{
    problem p = usual();
    p.limit = 0, refuses("limit 0", &p, ONFI_BAD_LIMIT);
    p.limit = ONFI_NODES + 1, refuses("a limit too high", &p, ONFI_BAD_LIMIT);
    const onfi_options one = options_by(ONFI_PLAIN, 1), other = options_by(3, 0);
    p = usual(), refuses_plan("one node", &one, &p, ONFI_OVER);
    p.channel.lun_count = 9, refuses_plan("another way", &other, &p, ONFI_BAD_BY);
    p = usual(), p.channel.timing.read.cmd = 0, refuses("no command", &p, ONFI_ZERO_SPAN);
    p = usual(), p.channel.timing.erase.post = 0, refuses("no post", &p, ONFI_ZERO_SPAN);
    p = usual(), p.channel.timing.program.gap = UINT64_C(1) << 50, refuses("a long gap", &p, ONFI_LONG_SPAN);
    p.channel.timing.erase.cmd = 0, refuses("the first kind is told", &p, ONFI_LONG_SPAN);
    p = usual(), p.channel.rules.plane_bits = 3, refuses("three plane bits", &p, ONFI_BAD_PLANE_BITS);
    p = usual(), p.channel.lun[1].members = 5, refuses("five members", &p, ONFI_BAD_MEMBERS);
    p.channel.lun[1].members = 255, refuses("255 members", &p, ONFI_BAD_MEMBERS);
    p = usual(), p.channel.lun[1].member[0].kind = 3, refuses("a running kind", &p, ONFI_BAD_KIND);
    p = usual(), p.wants[1].kind = 255, refuses("a kind", &p, ONFI_BAD_KIND);
    p = usual(), p.want_count = 9, refuses("nine wants", &p, ONFI_TOO_MANY);
    p = usual(), p.channel.lun_count = 9, refuses("nine LUNs", &p, ONFI_TOO_MANY);
    p.channel.timing.read.cmd = 0, refuses("nine LUNs first", &p, ONFI_TOO_MANY);
    p = usual(), p.channel.lun_count = 0, refuses("no LUN", &p, ONFI_TOO_MANY);
    p = usual(), p.wants[0].lun = 2, refuses("a LUN that isn't there", &p, ONFI_BAD_LUN);
    p = usual(), p.wants[1].id = 7, refuses("equal ids", &p, ONFI_BAD_LUN);
    p.wants[1].id = 6, refuses("ids that fall", &p, ONFI_BAD_LUN);
    p = usual(), p.channel.lun[1].next = 2, refuses("a running group that is over", &p, ONFI_BAD_LUN);
    p = usual(), p.channel.lun[1].member[0].lun = 0, refuses("a running group of another LUN", &p, ONFI_BAD_LUN);
    p = usual(), p.channel.bus_free = UINT64_MAX, refuses("the end of time", &p, ONFI_CLOCK);
}

static void rooms(void)
{
    problem p = usual();
    onfi_planned plan, again;
    uint8_t room[256] = {0}, one[1] = {0};
    size_t bytes, told;
    expect("a plan", plan_of(&p, &plan, room, sizeof room, &bytes), ONFI_DONE);
    expect("no byte behind the certificate", room[bytes], 0);
    expect("no room", plan_of(&p, &again, one, 0, &told), ONFI_DONE);
    expect("its length all the same", told, bytes);
    expect("the same plan", (uint64_t)memcmp(&plan.schedule, &again.schedule, sizeof plan.schedule), 0);
    memset(&again, 0, sizeof again);
    expect("a byte of room", plan_of(&p, &again, one, 1, &told), ONFI_NO_ROOM);
    expect("the length", told, bytes);
    expect("the room is as it was", one[0], 0);
    expect("the plan is there", again.finish, plan.finish);
    expect("just the room", plan_of(&p, &again, room, bytes, &told), ONFI_DONE);
}

static uint32_t check_of(const problem *p, const onfi_schedule *s, const char *certificate, size_t bytes, onfi_verdict *verdict)
{
    return onfi_check(&p->channel, p->wants, p->want_count, s, 0, (const uint8_t *)certificate, bytes, verdict);
}

static void refuses_schedule(const char *what, const onfi_schedule *s, uint32_t wanted)
{
    problem p = usual();
    onfi_verdict verdict;
    expect(what, check_of(&p, s, "ONFICERT 1\nX\n", 13, &verdict), wanted);
}

static void schedules(void)
{
    problem p = usual();
    onfi_planned plan;
    char text[256];
    size_t bytes;
    onfi_verdict verdict;
    expect("a plan", plan_of(&p, &plan, text, sizeof text, &bytes), ONFI_DONE);
    expect("is accepted", check_of(&p, &plan.schedule, text, bytes, &verdict), ONFI_DONE);
    expect("with its finish", verdict.finish, plan.finish);
    onfi_schedule s = plan.schedule;
    s.luns = 9, refuses_schedule("nine LUNs", &s, ONFI_BAD_SCHEDULE);
    s.luns = 255, refuses_schedule("255 LUNs", &s, ONFI_BAD_SCHEDULE);
    s = plan.schedule, s.groups = 9, refuses_schedule("nine groups", &s, ONFI_BAD_SCHEDULE);
    s = plan.schedule, s.rest[1].starts = 9, refuses_schedule("nine starts", &s, ONFI_BAD_SCHEDULE);
    s = plan.schedule, s.rest[1].start[0] = UINT64_C(1) << 63, refuses_schedule("a late start", &s, ONFI_BAD_SCHEDULE);
    s = plan.schedule, s.group[0].members = 0, refuses_schedule("no member", &s, ONFI_BAD_SCHEDULE);
    s = plan.schedule, s.group[0].members = 5, refuses_schedule("five members", &s, ONFI_BAD_SCHEDULE);
    s = plan.schedule, s.group[0].start[1] = UINT64_MAX, refuses_schedule("a late start of a group", &s, ONFI_BAD_SCHEDULE);
    s = plan.schedule, s.group[0].want[0] = 99, refuses_schedule("a number that no want has", &s, ONFI_ILLEGAL);
    s = plan.schedule, s.groups--, refuses_schedule("a want left out", &s, ONFI_ILLEGAL);
    s = plan.schedule, s.group[0].start[0]++, refuses_schedule("a start moved", &s, ONFI_ILLEGAL);
    expect("another header", check_of(&p, &plan.schedule, "ONFICERT 3\n", 11, &verdict), ONFI_BAD_HEADER);
    expect("no certificate", check_of(&p, &plan.schedule, "", 0, &verdict), ONFI_BAD_HEADER);
    expect("the other option", check_of(&p, &plan.schedule, "ONFICERT 2 strict\nX\n", 20, &verdict), ONFI_OTHER_OPTION);
    expect("no token", check_of(&p, &plan.schedule, "ONFICERT 1\nB3 L q\n", 18, &verdict), ONFI_BAD_TOKEN);
    expect("at its place", verdict.place, 2);
    expect("no end", check_of(&p, &plan.schedule, "ONFICERT 1\nX\n", 13, &verdict), ONFI_NOT_END);
    expect("cut", check_of(&p, &plan.schedule, text, bytes - 1, &verdict), ONFI_BAD_TOKEN);
}

/* Two erases, one on each of two LUNs: the status of LUN 0 yields to LUN 1, so four open nodes end before the root's second move. */
static void remembered(void)
{
    problem p = usual();
    onfi_planned plan;
    onfi_verdict verdict;
    char text[256];
    size_t bytes;
    p.channel.lun[1] = (onfi_lun){.since = 0};
    for (unsigned at = 0; at < 2; at++)
        p.wants[at] = (onfi_want){.id = at, .kind = ONFI_ERASE, .lun = (uint8_t)at};
    expect("a plan that remembers", plan_by(ONFI_WITHIN, &p, &plan, text, sizeof text, &bytes), ONFI_DONE);
    expect("with its finish", plan.finish, 1500760);
#define KNOWN(tokens) check_of(&p, &plan.schedule, tokens, strlen(tokens), &verdict)
    text[bytes] = 0;
    expect("its certificate", KNOWN(text), ONFI_DONE);
    expect("shows it", verdict.finish, 1500760);
    expect("a node that was read", KNOWN("ONFICERT 3 remember\nB2 B2 Y1 B2 B1 X B1 X B2 R2 Y0\n"), ONFI_DONE);
    expect("a node that is open", KNOWN("ONFICERT 3 remember\nB2 B2 Y1 B2 B1 X B1 X B2 R4 Y0\n"), ONFI_UNKNOWN_NODE);
    expect("at its place", verdict.place, 9);
    expect("a node with a status less", KNOWN("ONFICERT 3 remember\nB2 B2 Y1 B2 B1 X B1 X B2 R1 Y0\n"), ONFI_OTHER_LEFT);
    expect("a plain certificate is read by its header", KNOWN("ONFICERT 1\nR0\n"), ONFI_BAD_TOKEN);
    expect("the other option", KNOWN("ONFICERT 4 strict remember\nL\n"), ONFI_OTHER_OPTION);
}

static uint32_t check_from(const problem *p, const onfi_planned *plan, uint64_t below, const char *text, size_t bytes, onfi_verdict *verdict)
{
    return onfi_check(&p->channel, p->wants, p->want_count, &plan->schedule, below, (const uint8_t *)text, bytes, verdict);
}

/* Eight programs on four LUNs, of which a search of one node shows less than the finish. */
static problem programs(void)
{
    problem p = usual();
    p.channel.lun[1] = (onfi_lun){.since = 0}, p.channel.lun_count = 4, p.want_count = 8, p.limit = 1;
    for (unsigned at = 0; at < 8; at++)
        p.wants[at] = (onfi_want){.id = at, .kind = ONFI_PROGRAM, .lun = (uint8_t)(at & 3), .block = (uint16_t)at};
    return p;
}

static void within(void)
{
    problem p = programs();
    onfi_planned plan, ruled;
    onfi_verdict verdict;
    char text[256];
    size_t bytes;
    expect("a plan of one node", plan_by(ONFI_WITHIN, &p, &plan, text, sizeof text, &bytes), ONFI_DONE);
    expect("that isn't proved optimal", plan.below < plan.finish, 1);
    expect("its certificate", check_from(&p, &plan, plan.below, text, bytes, &verdict), ONFI_DONE);
    expect("and its finish", verdict.finish, plan.finish);
    expect("shows an earlier time too", check_from(&p, &plan, plan.below - 1, text, bytes, &verdict), ONFI_DONE);
    expect("and no later one", check_from(&p, &plan, plan.below + 1, text, bytes, &verdict), ONFI_BOUND_LOW);
    expect("at its only token", verdict.place, 0);
    expect("so not the finish", check_from(&p, &plan, 0, text, bytes, &verdict), ONFI_BOUND_LOW);
    expect("a time behind the end", check_from(&p, &plan, plan.finish + 1, text, bytes, &verdict), ONFI_ENDS_BEFORE);
    expect("tells no finish", verdict.finish, 0);
    expect("by the rule", plan_by(ONFI_RULE, &p, &ruled, NULL, 0, &bytes), ONFI_DONE);
    expect("it ends no sooner", plan.finish <= ruled.finish, 1);
    plan.schedule.groups--;
    expect("a want left out", check_from(&p, &plan, plan.below, text, bytes, &verdict), ONFI_ILLEGAL);
}

/* The same programs by the rule: one token shows its time, and the room for it is asked for as by the others. */
static void ruled(void)
{
    problem p = programs();
    onfi_planned plan, again;
    onfi_verdict verdict;
    char text[256] = {0}, one[1] = {0};
    size_t bytes, told;
    expect("a plan by the rule", plan_by(ONFI_RULE, &p, &plan, text, sizeof text, &bytes), ONFI_DONE);
    expect("opened no node", plan.opened, 0);
    expect("its certificate is one token", strchr(text + strlen("ONFICERT 3 "), ' ') == NULL && text[bytes - 1] == '\n', 1);
    expect("and shows its time", check_from(&p, &plan, plan.below, text, bytes, &verdict), ONFI_DONE);
    expect("and its finish", verdict.finish, plan.finish);
    expect("and no later one", check_from(&p, &plan, plan.below + 1, text, bytes, &verdict), ONFI_BOUND_LOW);
    expect("a byte of room", plan_by(ONFI_RULE, &p, &again, one, 1, &told), ONFI_NO_ROOM);
    expect("the length", told, bytes);
    expect("the room is as it was", (uint64_t)one[0], 0);
    expect("the plan is there", again.finish, plan.finish);
    expect("no room", plan_by(ONFI_RULE, &p, &again, NULL, 0, &told), ONFI_DONE);
}

/* The phase that is due of a schedule of the usual problem, on a small device. */
static uint32_t due_of(const problem *p, const onfi_schedule *s, onfi_phase *phase)
{
    const onfi_geometry geometry = {
        .lun_count = 2, .plane_address_bits = 1, .pages_per_block = 4, .blocks_per_lun = 16, .page_bits = 2, .block_bits = 4, .lun_bits = 1,
        .column_address_cycles = 2, .row_address_cycles = 3, .data_bytes = 2048, .spare_bytes = 64,
    };
    return onfi_due(&p->channel, p->wants, p->want_count, &geometry, s, phase);
}

static void refuses_due(const char *what, const problem *p, const onfi_schedule *s, uint32_t wanted)
{
    onfi_phase phase, before;
    memset(&phase, 0xA5, sizeof phase);
    memcpy(&before, &phase, sizeof phase);
    expect(what, due_of(p, s, &phase), wanted);
    expect(what, (uint64_t)memcmp(&phase, &before, sizeof phase), 0);
}

/* A schedule without want 8, whose LUN runs an erase: want 7 at `start`, and the erase's status after it. */
static onfi_schedule read_and_status(uint64_t start, uint64_t data, uint64_t status)
{
    return (onfi_schedule){
        .luns = 2, .groups = 1, .rest = {{0}, {.starts = 1, .start = {status}}}, .group = {{.members = 1, .want = {7}, .start = {start, data}}}};
}

/* One phase is looked at: it has to be one that may run, whatever stands after it. */
static void phases(void)
{
    problem p = usual();
    onfi_phase phase;
    p.want_count = 1;
    onfi_schedule s = read_and_status(0, 30000, 1000);
    expect("a command", due_of(&p, &s, &phase), ONFI_DONE);
    expect("of the read", phase.want, 7);
    s = read_and_status(0, 10, 1000);
    expect("a command, and its data too soon", due_of(&p, &s, &phase), ONFI_DONE);
    expect("of the read too", phase.want + phase.number, 7);
    s = read_and_status(2000, 30000, 1000);
    expect("a status", due_of(&p, &s, &phase), ONFI_DONE);
    expect("of the erase", phase.kind, ONFI_ERASE);
    s = read_and_status(2000, 30000, 999), refuses_due("a status before its LUN is ready", &p, &s, ONFI_ILLEGAL);
    p.channel.bus_free = 5;
    s = read_and_status(4, 30000, 1000), refuses_due("a command before the bus is free", &p, &s, ONFI_ILLEGAL);
    s = read_and_status(5, 30000, 1000), s.group[0].want[0] = 9, refuses_due("a want that doesn't wait", &p, &s, ONFI_ILLEGAL);
    s = (onfi_schedule){.luns = 2}, refuses_due("nothing is left, and something waits", &p, &s, ONFI_ILLEGAL);
    p.want_count = 0, refuses_due("nothing is left, and something runs", &p, &s, ONFI_ILLEGAL);
    p.channel.lun[1].members = 0, refuses_due("nothing is left to do", &p, &s, ONFI_NOTHING_DUE);
    s.luns = 9, refuses_due("nine LUNs", &p, &s, ONFI_BAD_SCHEDULE);
    p.channel.lun_count = 9, refuses_due("nine LUNs of the channel", &p, &s, ONFI_TOO_MANY);
}

/* One read, whose phases and waits take 36,240 ns, of a bus that is free so many ns before 2^62. */
typedef struct {
    onfi_channel channel;
    onfi_want wants[ONFI_WANTS];
    size_t count;
    onfi_schedule left;
} last_read;

static last_read at_the_end(uint64_t before)
{
    problem p = usual();
    last_read r = {.channel = p.channel, .wants = {p.wants[0]}, .count = 1};
    const onfi_options options = ONFI_OPTIONS;
    onfi_planned plan;
    size_t bytes;
    r.channel.lun_count = 1;
    r.channel.bus_free = (UINT64_C(1) << 62) - before;
    memset(&plan, 0, sizeof plan);
    expect("a plan of the last read", onfi_plan(&r.channel, r.wants, 1, &options, &plan, NULL, 0, &bytes), ONFI_DONE);
    r.left = plan.schedule;
    return r;
}

static uint32_t run_of(last_read *r, uint8_t number, uint64_t started)
{
    return onfi_ran(&r->channel, r->wants, &r->count, &r->left, 0, number, started);
}

/* Whether the next calls take what stands there. */
static uint32_t taken(const last_read *r)
{
    const onfi_options options = ONFI_OPTIONS;
    onfi_planned plan;
    size_t bytes;
    return onfi_plan(&r->channel, r->wants, r->count, &options, &plan, NULL, 0, &bytes);
}

static void refuses_run(const char *what, last_read *r, uint8_t number, uint64_t started, uint32_t wanted)
{
    last_read before;
    memcpy(&before, r, sizeof before);
    expect(what, run_of(r, number, started), wanted);
    expect(what, (uint64_t)memcmp(&before, r, sizeof before), 0);
}

/* What onfi_ran leaves, each later call takes: it refuses what would reach 2^62 ns, and leaves all as it was. */
static void last_times(void)
{
    const uint64_t end = UINT64_C(1) << 62;
    last_read r = at_the_end(36241);
    refuses_run("a command 1 ns late, whose data would end at 2^62", &r, 0, end - 36240, ONFI_CLOCK);
    refuses_run("a command at 2^62", &r, 0, end, ONFI_CLOCK);
    refuses_run("another phase", &r, 1, end - 36241, ONFI_NOT_DUE);
    refuses_run("a command too soon", &r, 0, end - 36242, ONFI_TOO_SOON);
    expect("a command on time", run_of(&r, 0, end - 36241), ONFI_DONE);
    expect("what is left is taken", taken(&r), ONFI_DONE);
    refuses_run("data 1 ns late, that would end at 2^62", &r, 1, end - 11000, ONFI_CLOCK);
    expect("data on time", run_of(&r, 1, end - 11001), ONFI_DONE);
    expect("what is left then", taken(&r), ONFI_DONE);
    expect("ends 1 ns before 2^62", r.channel.bus_free, end - 1);
    r = at_the_end(36242);
    expect("a command 1 ns late, with 1 ns to spare", run_of(&r, 0, end - 36241), ONFI_DONE);
    expect("what it leaves is taken", taken(&r), ONFI_DONE);
}

static void devices(void)
{
    static uint8_t page[768];
    onfi_device device, before;
    uint64_t place = 9;
    memset(&device, 0xA5, sizeof device);
    memcpy(&before, &device, sizeof device);
    expect("a short page", onfi_device_of_page(page, 255, "", 0, "", 0, 0, &device, &place), ONFI_PAGE_SHORT);
    expect("no place", place, 0);
    expect("no copy", onfi_device_of_page(page, sizeof page, "", 0, "", 0, 0, &device, &place), ONFI_NO_COPY);
    expect("a short page, and strobes", onfi_device_of_page(page, 255, "", 0, "tDQ", 3, 512, &device, &place), ONFI_PAGE_SHORT);
    expect("no copy, and strobes", onfi_device_of_page(page, sizeof page, "", 0, "tDQ", 3, 512, &device, &place), ONFI_NO_COPY);
    expect("the device is as it was", (uint64_t)memcmp(&device, &before, sizeof device), 0);
}

static const onfi_geometry SMALL = {
    .lun_count = 2, .plane_address_bits = 1, .pages_per_block = 4, .blocks_per_lun = 16, .page_bits = 2, .block_bits = 4, .lun_bits = 1,
    .column_address_cycles = 2, .row_address_cycles = 3, .data_bytes = 2048, .spare_bytes = 64,
};

/* The usual problem, and a length of two sectors. */
static problem with_sectors(void)
{
    problem p = usual();
    p.channel.lengths.sectors[1] = 500;
    return p;
}

static void begins_not(const char *what, const problem *p, const onfi_geometry *device, uint32_t wanted)
{
    onfi_dispatcher d, before;
    memset(&d, 0xA5, sizeof d);
    memcpy(&before, &d, sizeof d);
    expect(what, onfi_dispatcher_begin(&d, &p->channel, device), wanted);
    expect(what, (uint64_t)memcmp(&d, &before, sizeof d), 0);
}

static void begins(void)
{
    problem p = with_sectors();
    onfi_geometry device = SMALL;
    p.channel.timing.erase.cmd = 0, begins_not("a command without length", &p, &device, ONFI_ZERO_SPAN);
    p = with_sectors(), p.channel.lengths.sectors[6] = UINT64_C(1) << 50, begins_not("a long output", &p, &device, ONFI_LONG_SPAN);
    p = with_sectors(), p.channel.rules.plane_bits = 3, begins_not("three plane bits", &p, &device, ONFI_BAD_PLANE_BITS);
    p = with_sectors(), p.channel.lun[1].members = 5, begins_not("five members", &p, &device, ONFI_BAD_MEMBERS);
    p = with_sectors(), p.channel.lun[1].member[0].kind = 3, begins_not("no kind", &p, &device, ONFI_BAD_KIND);
    p = with_sectors(), p.channel.lun_count = 0, begins_not("no LUN", &p, &device, ONFI_TOO_MANY);
    p = with_sectors(), p.channel.lun_count = 9, begins_not("nine LUNs", &p, &device, ONFI_TOO_MANY);
    p = with_sectors(), p.channel.lun[1].next = 2, begins_not("a group that is over", &p, &device, ONFI_BAD_LUN);
    p = with_sectors(), p.channel.lun[1].member[0].lun = 0, begins_not("a member of another LUN", &p, &device, ONFI_BAD_LUN);
    p = with_sectors(), p.channel.lun[1].member[0].kind = ONFI_KIND(ONFI_READ, 1), begins_not("a sector that runs", &p, &device, ONFI_NO_LENGTHS);
    p = with_sectors(), p.channel.bus_free = UINT64_C(1) << 62, begins_not("the end of time", &p, &device, ONFI_CLOCK);
    p = with_sectors(), device.page_bits = 3, begins_not("no device", &p, &device, ONFI_BAD_GEOMETRY);
    device = SMALL, p = with_sectors(), p.channel.lun[1].member[0].block = 16, begins_not("a block that runs", &p, &device, ONFI_BAD_PLACE);
}

/* A read of LUN 0 waits, and LUN 1 runs an erase whose array is ready at 1,000. */
static onfi_dispatcher waiting(void)
{
    onfi_dispatcher d;
    const problem p = with_sectors();
    memset(&d, 0xA5, sizeof d);
    expect("a dispatcher", onfi_dispatcher_begin(&d, &p.channel, &SMALL), ONFI_DONE);
    expect("a read comes", onfi_dispatcher_accept(&d, &(onfi_want){.id = 7}), ONFI_DONE);
    return d;
}

static void refuses_want(const char *what, onfi_dispatcher *d, onfi_want want, uint32_t wanted)
{
    onfi_dispatcher before = *d;
    expect(what, onfi_dispatcher_accept(d, &want), wanted);
    expect(what, (uint64_t)memcmp(d, &before, sizeof before), 0);
    if (wanted != ONFI_BAD_ORDER) {
        expect(what, onfi_dispatcher_accept_again(d, &want), wanted);
        expect(what, (uint64_t)memcmp(d, &before, sizeof before), 0);
    }
}

static void refuses_again(const char *what, onfi_dispatcher *d, onfi_want want, uint32_t wanted)
{
    onfi_dispatcher before = *d;
    expect(what, onfi_dispatcher_accept_again(d, &want), wanted);
    expect(what, (uint64_t)memcmp(d, &before, sizeof before), 0);
}

static void next_is(const char *what, onfi_dispatcher *d, uint64_t now, uint64_t start, uint64_t want, uint8_t kind, bool is_post)
{
    onfi_phase phase;
    expect(what, onfi_dispatcher_next(d, now, &phase), ONFI_DONE);
    expect(what, phase.start, start);
    expect(what, phase.want, want);
    expect(what, phase.kind, kind);
    expect(what, phase.is_post, is_post);
}

static void next_is_none(const char *what, onfi_dispatcher *d, uint64_t now, uint32_t wanted)
{
    onfi_phase phase, before;
    memset(&phase, 0xA5, sizeof phase);
    memcpy(&before, &phase, sizeof phase);
    expect(what, onfi_dispatcher_next(d, now, &phase), wanted);
    expect(what, (uint64_t)memcmp(&phase, &before, sizeof phase), 0);
}

/* The read's command at once, the erase's status 500 ns late, the read's data; then nothing is left. What is refused changes nothing. */
static void dispatched(void)
{
    onfi_dispatcher d = waiting();
    next_is("the read's command", &d, 0, 0, 7, ONFI_READ, false);
    refuses_want("a page that isn't there", &d, (onfi_want){.id = 8, .page = 4}, ONFI_BAD_PLACE);
    expect("the command ran all the same", onfi_dispatcher_ran(&d, 0), ONFI_DONE);
    next_is("the erase's status", &d, 140, 1000, usual().channel.lun[1].member[0].id, ONFI_ERASE, true);
    expect("ran late", onfi_dispatcher_ran(&d, 1500), ONFI_DONE);
    expect("two sectors come", onfi_dispatcher_accept(&d, &(onfi_want){.id = 8, .kind = ONFI_KIND(ONFI_READ, 2), .lun = 1}), ONFI_DONE);
    next_is("their command", &d, 1780, 1780, 8, ONFI_KIND(ONFI_READ, 2), false);
    expect("ran", onfi_dispatcher_ran(&d, 1780), ONFI_DONE);
    next_is("the read's data", &d, 1920, 25240, 7, ONFI_READ, true);
    expect("its LUN is ready early", onfi_dispatcher_ready(&d, 0, 2000), ONFI_DONE);
    next_is("the read's data by then", &d, 1920, 2000, 7, ONFI_READ, true);
    expect("ran", onfi_dispatcher_ran(&d, 2000), ONFI_DONE);
    expect("it comes once more", onfi_dispatcher_accept_again(&d, &(onfi_want){.id = 7}), ONFI_DONE);
    expect("and isn't wanted", onfi_dispatcher_cancel(&d, 7), ONFI_DONE);
    onfi_phase phase;
    expect("the sectors", onfi_dispatcher_next(&d, 30000, &phase), ONFI_DONE);
    expect("as long as they are", phase.end - phase.start, 500);
    expect("ran", onfi_dispatcher_ran(&d, 30000), ONFI_DONE);
    next_is_none("nothing is left", &d, 40000, ONFI_NOTHING_DUE);
}

static void dispatches(void)
{
    onfi_dispatcher d = waiting(), before;
    begins();
    expect("nothing was given", onfi_dispatcher_ran(&d, 0), ONFI_NOTHING_DUE);
    refuses_want("an id again", &d, (onfi_want){.id = 7}, ONFI_BAD_ORDER);
    refuses_again("one that waits", &d, (onfi_want){.id = 7}, ONFI_BAD_ORDER);
    refuses_want("a kind", &d, (onfi_want){.id = 8, .kind = 3}, ONFI_BAD_KIND);
    refuses_want("LUN 2", &d, (onfi_want){.id = 8, .lun = 2}, ONFI_BAD_PLACE);
    refuses_want("block 16", &d, (onfi_want){.id = 8, .block = 16}, ONFI_BAD_PLACE);
    refuses_want("an erase of a page", &d, (onfi_want){.id = 8, .kind = ONFI_ERASE, .page = 1}, ONFI_BAD_LUN);
    refuses_want("a sector", &d, (onfi_want){.id = 8, .kind = ONFI_KIND(ONFI_READ, 1)}, ONFI_NO_LENGTHS);
    refuses_want("two sectors of a program", &d, (onfi_want){.id = 8, .kind = ONFI_KIND(ONFI_PROGRAM, 2)}, ONFI_NO_LENGTHS);
    next_is("a command", &d, 10, 10, 7, ONFI_READ, false);
    before = d;
    expect("too soon", onfi_dispatcher_ran(&d, 9), ONFI_TOO_SOON);
    expect("the end of time", onfi_dispatcher_ran(&d, UINT64_C(1) << 62), ONFI_CLOCK);
    expect("a LUN that isn't there", onfi_dispatcher_ready(&d, 2, 0), ONFI_BAD_LUN);
    expect("a LUN that runs nothing", onfi_dispatcher_ready(&d, 0, 0), ONFI_NOT_DUE);
    expect("no such request", onfi_dispatcher_cancel(&d, 8), ONFI_NOT_WAITING);
    expect("all is as it was", (uint64_t)memcmp(&d, &before, sizeof d), 0);
    next_is_none("no phase at the end of time", &d, UINT64_C(1) << 62, ONFI_CLOCK);
    for (uint64_t id = 8; id < 71; id++)
        expect("64 requests", onfi_dispatcher_accept(&d, &(onfi_want){.id = id}), ONFI_DONE);
    refuses_want("one more", &d, (onfi_want){.id = 71}, ONFI_TOO_MANY);
    problem p = with_sectors();
    p.channel.lun_count = 1;
    expect("one LUN", onfi_dispatcher_begin(&d, &p.channel, &SMALL), ONFI_DONE);
    next_is_none("on which nothing waits", &d, 0, ONFI_NOTHING_DUE);
    refuses_want("the other", &d, (onfi_want){.id = 8, .lun = 1}, ONFI_BAD_LUN);
}

/* A dispatcher's memory is enough: what begins writes 16,016 bytes of it, and none past it. */
static void dispatcher_size(void)
{
    const problem p = with_sectors();
    uint64_t room[ONFI_DISPATCHER_WORDS + 16];
    memset(room, 0xA5, sizeof room);
    expect("a dispatcher", onfi_dispatcher_begin((onfi_dispatcher *)room, &p.channel, &SMALL), ONFI_DONE);
    for (unsigned word = 16016 / 8; word < ONFI_DISPATCHER_WORDS + 16; word++)
        expect("a word after it", room[word], UINT64_C(0xA5A5A5A5A5A5A5A5));
    expect("its words", sizeof(onfi_dispatcher), 16384);
}

/* Memory that no call wrote is no dispatcher. */
static void foreign_memory(void)
{
    onfi_dispatcher d;
    onfi_phase phase;
    const onfi_want want = {.id = 9};
    for (int byte = 0; byte < 256; byte += 255) {
        memset(&d, byte, sizeof d);
        expect("a request", onfi_dispatcher_accept(&d, &want), ONFI_BAD_DISPATCHER);
        expect("one that comes again", onfi_dispatcher_accept_again(&d, &want), ONFI_BAD_DISPATCHER);
        expect("one that goes", onfi_dispatcher_cancel(&d, 9), ONFI_BAD_DISPATCHER);
        expect("a phase", onfi_dispatcher_next(&d, 0, &phase), ONFI_BAD_DISPATCHER);
        expect("a phase that ran", onfi_dispatcher_ran(&d, 0), ONFI_BAD_DISPATCHER);
        expect("a LUN that is ready", onfi_dispatcher_ready(&d, 0, 0), ONFI_BAD_DISPATCHER);
    }
}

/* Whatever else a dispatcher's memory has, no call reads or writes past it. */
static void broken_memory(void)
{
    onfi_phase phase;
    for (unsigned seed = 0; seed < 20000; seed++) {
        onfi_dispatcher *d = malloc(sizeof *d);
        if (!d)
            exit(EXIT_FAILURE);
        *d = waiting();
        for (unsigned count = 0; count < 1 + seed % 50; count++)
            ((uint8_t *)d)[(seed * 7919u + count * 104729u) % sizeof *d] = (uint8_t)(seed % 3 ? seed * 31 + count : 255);
        onfi_dispatcher_accept(d, &(onfi_want){.id = 9, .lun = seed % 2});
        for (unsigned turn = 0; turn < 8; turn++)
            if (onfi_dispatcher_next(d, turn, &phase) == ONFI_DONE)
                onfi_dispatcher_ran(d, phase.start);
        onfi_dispatcher_ready(d, 1, 5), onfi_dispatcher_cancel(d, 7), onfi_dispatcher_accept_again(d, &(onfi_want){.id = 3});
        free(d);
    }
}

static void texts(void)
{
    expect("the version of the library", onfi_version(), ONFI_VERSION_NUMBER);
    char room[80];
    size_t bytes;
#define ASKED(words, script, room, size) onfi_text(words, sizeof words - 1, script, sizeof script - 1, room, size, &bytes)
    memset(room, 7, sizeof room);
    expect("a script without rows", ASKED("plan", "end\n", room, sizeof room), ONFI_SCRIPT_REFUSED);
    expect("its answer", (uint64_t)strncmp(room, "script refused 0 Missing\n\7", bytes + 1), 0);
    expect("no end", ASKED("check", "en", room, sizeof room), ONFI_SCRIPT_REFUSED);
    expect("no bytes", ASKED("plan --trace", "", room, sizeof room), ONFI_SCRIPT_REFUSED);
    memset(room, 7, sizeof room);
    expect("too little room", ASKED("check", "end\n", room, 3), ONFI_NO_ROOM);
    expect("which is told", bytes, 25);
    expect("and as it was", (uint64_t)room[0], 7);
    static const char *const bad[] = {"", "pla", "plan ", " plan", "plan  --trace", "plan --limit", "plan --limit 0", "plan --limit 1048577", "plan --by", "plan --by next",
                                      "check --by rule", "check --trace", "run", "device", "audit --al", "plan --remember", "plan --trace --trace"};
    for (unsigned at = 0; at < sizeof bad / sizeof *bad; at++) {
        bytes = 1;
        expect(bad[at], onfi_text(bad[at], strlen(bad[at]), "end\n", 4, room, sizeof room, &bytes), ONFI_BAD_WORDS);
        expect(bad[at], (uint64_t)room[0], 7);
    }
    expect("a text", onfi_status_text(ONFI_CLOCK, room, sizeof room, &bytes), ONFI_DONE);
    expect("as it is", (uint64_t)strncmp(room, "times that reach 2^62 ns", bytes), 0);
    expect("of equal ids", onfi_status_text(ONFI_BAD_LUN, room, sizeof room, &bytes), ONFI_DONE);
    expect("it says so", (uint64_t)strncmp(room, "a want or running group that the LUNs can't have, or ids that are equal or fall", bytes), 0);
    expect("no text", onfi_status_text(1000, room, sizeof room, &bytes), ONFI_DONE);
    expect("of no bytes", bytes, 0);
    expect("no room for a text", onfi_status_text(ONFI_CLOCK, room, 3, &bytes), ONFI_NO_ROOM);
    for (uint32_t status = 0; status < 100; status++)
        expect("texts are short", onfi_status_text(status, room, sizeof room, &bytes), ONFI_DONE);
}

/* With an argument also on memory of which every byte may be anything: not of a library whose sums are checked as they run. */
int main(int count, char **words)
{
    (void)words;
    channels();
    rooms();
    schedules();
    remembered();
    within();
    ruled();
    phases();
    last_times();
    dispatched();
    dispatches();
    dispatcher_size();
    foreign_memory();
    if (count > 1)
        broken_memory();
    devices();
    texts();
    printf("%u tried, %u failed\n", tried, failed);
    return failed ? EXIT_FAILURE : EXIT_SUCCESS;
}
