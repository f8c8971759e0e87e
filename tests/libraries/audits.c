/* Logs judged one phase at a time: legal ones of 1,000 phases, each condition broken once, and each refusal. */
#include <onfi.h>

#include <stdio.h>
#include <string.h>

static unsigned tried, failed;

static void expect(const char *what, uint64_t got, uint64_t wanted)
{
    tried++;
    if (got != wanted) {
        failed++;
        printf("%s: %llu in place of %llu\n", what, (unsigned long long)got, (unsigned long long)wanted);
    }
}

static const onfi_channel usual = {
    .timing = {.read = {140, 600, 25100, 11000}, .program = {10800, 600, 200100, 280}, .erase = {100, 600, 1500100, 280}},
    .rules = {.read = true, .write = true, .plane_bits = 1},
    .lun_count = 2,
};

static onfi_audit begun(void)
{
    onfi_audit audit;
    memset(&audit, 0xA5, sizeof audit);
    expect("begin", onfi_audit_begin(&usual, &audit), ONFI_DONE);
    return audit;
}

static onfi_phase command(uint64_t start, uint8_t lun, uint8_t kind, uint16_t block, uint16_t page)
{
    return (onfi_phase){.start = start, .lun = lun, .kind = kind, .block = block, .page = page};
}

static onfi_phase post(uint64_t start, uint8_t lun, uint8_t kind, uint16_t block, uint16_t page)
{
    onfi_phase phase = command(start, lun, kind, block, page);
    phase.is_post = true;
    return phase;
}

/* The phase is legal; a ns sooner it is not, where it is one that can come too soon. */
static void legal(const char *what, onfi_audit *audit, onfi_phase phase, int is_tight)
{
    static const onfi_log_broken none;
    onfi_log_broken broken;
    if (is_tight) {
        onfi_audit other = *audit;
        onfi_phase sooner = phase;
        sooner.start--;
        expect(what, onfi_audit_phase(&other, &sooner, &broken), ONFI_ILLEGAL);
        expect(what, broken.earliest, phase.start);
    }
    memset(&broken, 0xA5, sizeof broken);
    broken.is_post = false;
    expect(what, onfi_audit_phase(audit, &phase, &broken), ONFI_DONE);
    expect(what, broken.condition, none.condition);
    expect(what, broken.start | broken.earliest | broken.want | broken.other_want, 0);
    expect(what, broken.lun | broken.block | broken.page | broken.is_post, 0);
}

/* It breaks that condition, and counts as run only where it came too soon. */
static void breaks(const char *what, onfi_audit *audit, onfi_phase phase, onfi_log_broken wanted)
{
    onfi_audit before = *audit;
    onfi_log_broken broken = {.is_post = false};
    expect(what, onfi_audit_phase(audit, &phase, &broken), ONFI_ILLEGAL);
    expect(what, broken.condition, wanted.condition);
    expect(what, broken.lun, wanted.lun);
    expect(what, broken.start, wanted.start);
    expect(what, broken.earliest, wanted.earliest);
    expect(what, broken.want, wanted.want);
    expect(what, broken.other_want, wanted.other_want);
    expect(what, broken.block, wanted.block);
    expect(what, broken.page, wanted.page);
    expect(what, broken.is_post, wanted.is_post);
    expect(what, memcmp(&before, audit, sizeof before) != 0, wanted.condition >= ONFI_LOG_BUS_NOT_FREE);
}

/* Nothing is judged: all is as it was. */
static void refuses(const char *what, onfi_audit audit, onfi_phase phase, uint32_t status)
{
    onfi_audit before = audit;
    onfi_log_broken broken = {.want = 7}, told = broken;
    expect(what, onfi_audit_phase(&audit, &phase, &broken), status);
    expect(what, memcmp(&before, &audit, sizeof before), 0);
    expect(what, memcmp(&told, &broken, sizeof told), 0);
}

/* The schedule of examples/c/batch.c, as a log. */
static void judge_batch(void)
{
    onfi_audit audit = begun();
    legal("LUN 1", &audit, command(0, 1, ONFI_READ, 0, 0), 0);
    legal("LUN 0", &audit, command(140, 0, ONFI_READ, 0, 5), 1);
    legal("its mate", &audit, command(880, 0, ONFI_READ, 1, 5), 1);
    legal("LUN 1's data", &audit, post(25240, 1, ONFI_READ, 0, 0), 1);
    legal("LUN 0's data", &audit, post(36240, 0, ONFI_READ, 0, 5), 1);
    legal("its mate's", &audit, post(47240, 0, ONFI_READ, 1, 5), 1);
    expect("the bus", audit.channel.bus_free, 58240);
    expect("requests", audit.accepted, 3);
}

/* Reads on two LUNs in turn, each phase as soon as it may: 1,000 of them. */
static void judge_many(void)
{
    onfi_audit audit = begun();
    uint64_t bus = 0, ready[2] = {0, 0};
    for (unsigned at = 0; at < 500; at++) {
        uint8_t lun = at % 2;
        uint64_t start = bus > ready[lun] ? bus : ready[lun];
        legal("a command of many", &audit, command(start, lun, ONFI_READ, at % 1024, at % 64), at > 0);
        bus = start + 140, ready[lun] = bus + 25100;
        start = bus > ready[lun] ? bus : ready[lun];
        legal("a post of many", &audit, post(start, lun, ONFI_READ, at % 1024, at % 64), 1);
        bus = ready[lun] = start + 11000;
    }
    expect("requests of many", audit.accepted, 500);
}

static void break_each(void)
{
    onfi_audit audit = begun();
    breaks("no LUN", &audit, command(0, 2, ONFI_READ, 0, 0), (onfi_log_broken){.condition = ONFI_LOG_NO_LUN, .lun = 2});
    breaks("nothing runs", &audit, post(0, 1, ONFI_READ, 0, 0), (onfi_log_broken){.condition = ONFI_LOG_NOTHING_RUNS, .lun = 1});
    legal("a command", &audit, command(0, 1, ONFI_READ, 4, 3), 0);
    breaks("another phase", &audit, post(25240, 1, ONFI_READ, 5, 3),
           (onfi_log_broken){.condition = ONFI_LOG_OTHER_PHASE, .lun = 1, .is_post = true, .block = 4, .page = 3});
    breaks("no group", &audit, command(740, 1, ONFI_READ, 5, 4), (onfi_log_broken){.condition = ONFI_LOG_NOT_GROUPED, .want = 1, .other_want = 0});
    breaks("not ready", &audit, post(25239, 1, ONFI_READ, 4, 3),
           (onfi_log_broken){.condition = ONFI_LOG_NOT_READY, .lun = 1, .start = 25239, .earliest = 25240});
    legal("after it ran too soon", &audit, command(36239, 1, ONFI_ERASE, 4, 0), 0);
    breaks("the bus", &audit, command(36300, 0, ONFI_PROGRAM, 0, 0), (onfi_log_broken){.condition = ONFI_LOG_BUS_NOT_FREE, .start = 36300, .earliest = 36339});
    onfi_channel late = usual;
    late.lun[0].since = 1000, late.lun_count = 1;
    expect("begin late", onfi_audit_begin(&late, &audit), ONFI_DONE);
    breaks("no free LUN", &audit, command(0, 0, ONFI_READ, 0, 0), (onfi_log_broken){.condition = ONFI_LOG_LUN_NOT_FREE, .start = 0, .earliest = 1000});
}

/* What comes into a longer phase leaves the bus taken for as long as that one takes it. */
static void keep_the_bus(void)
{
    onfi_audit audit = begun();
    legal("a command", &audit, command(0, 0, ONFI_READ, 0, 0), 0);
    legal("its data", &audit, post(25240, 0, ONFI_READ, 0, 0), 1);
    breaks("a command into it", &audit, command(30000, 1, ONFI_READ, 0, 0), (onfi_log_broken){.condition = ONFI_LOG_BUS_NOT_FREE, .start = 30000, .earliest = 36240});
    expect("the bus after it", audit.channel.bus_free, 36240);
    breaks("its mate", &audit, command(30740, 1, ONFI_READ, 1, 0), (onfi_log_broken){.condition = ONFI_LOG_BUS_NOT_FREE, .start = 30740, .earliest = 36240});
    expect("the bus after both", audit.channel.bus_free, 36240);
}

static void begin_refused(const char *what, const onfi_channel *channel, uint32_t status)
{
    onfi_audit audit, before;
    memset(&audit, 0, sizeof audit);
    before = audit;
    expect(what, onfi_audit_begin(channel, &audit), status);
    expect(what, memcmp(&before, &audit, sizeof before), 0);
}

static void refuse_each(void)
{
    onfi_channel channel = usual;
    channel.timing.erase.post = 0, begin_refused("zero", &channel, ONFI_ZERO_SPAN);
    channel = usual, channel.timing.read.gap = UINT64_C(1) << 50, begin_refused("long", &channel, ONFI_LONG_SPAN);
    channel = usual, channel.rules.plane_bits = 3, begin_refused("bits", &channel, ONFI_BAD_PLANE_BITS);
    channel = usual, channel.bus_free = UINT64_C(1) << 62, begin_refused("clock", &channel, ONFI_CLOCK);
    channel = usual, channel.lun_count = 0, begin_refused("no LUN", &channel, ONFI_TOO_MANY);
    channel.lun_count = 9, channel.timing.read.cmd = 0, begin_refused("nine LUNs", &channel, ONFI_TOO_MANY);
    channel = usual, channel.lun[0].members = 5, begin_refused("members", &channel, ONFI_BAD_MEMBERS);
    channel.lun[0].members = 1, begin_refused("next", &channel, ONFI_BAD_LUN);
    channel.lun[0].next = 1, channel.lun[0].member[0].kind = 3, begin_refused("kind", &channel, ONFI_BAD_KIND);
    channel = usual, channel.lengths.sectors[6] = UINT64_MAX, begin_refused("long sectors", &channel, ONFI_LONG_SPAN);

    onfi_audit audit = begun();
    onfi_phase phase = command(0, 0, ONFI_READ, 0, 0);
    audit.channel.lun_count = 9, refuses("nine LUNs kept", audit, phase, ONFI_TOO_MANY);
    audit = begun(), audit.channel.timing.read.cmd = 0, refuses("zero kept", audit, phase, ONFI_ZERO_SPAN);
    audit = begun(), audit.channel.timing.read.cmd = UINT64_MAX, refuses("long kept", audit, phase, ONFI_LONG_SPAN);
    audit = begun(), audit.channel.lengths.sectors[6] = UINT64_MAX, refuses("long sectors kept", audit, phase, ONFI_LONG_SPAN);
    audit = begun(), audit.channel.rules.plane_bits = 255, refuses("bits kept", audit, phase, ONFI_BAD_PLANE_BITS);
    audit = begun(), audit.channel.lun[1].members = 255, refuses("members kept", audit, phase, ONFI_BAD_MEMBERS);
    audit = begun(), audit.channel.lun[1].members = 1, audit.channel.lun[1].member[0].kind = 3, refuses("kind kept", audit, phase, ONFI_BAD_KIND);
    audit = begun(), audit.accepted = UINT64_MAX, refuses("no number left", audit, phase, ONFI_TOO_MANY);
    audit = begun();
    phase.kind = 3, refuses("kind", audit, phase, ONFI_BAD_KIND);
    phase.kind = ONFI_KIND(ONFI_PROGRAM, 1), refuses("sectors of a program", audit, phase, ONFI_BAD_KIND);
    phase.kind = ONFI_KIND(ONFI_READ, 3), refuses("no lengths", audit, phase, ONFI_NO_LENGTHS);
    refuses("an erase of a page", audit, command(0, 0, ONFI_ERASE, 0, 1), ONFI_BAD_LUN);
    refuses("late", audit, command(UINT64_C(1) << 62, 0, ONFI_READ, 0, 0), ONFI_CLOCK);
}

/* Reads of three sectors of a page, where these have a length. */
static void judge_sectors(void)
{
    onfi_channel channel = usual;
    onfi_audit audit;
    channel.lengths.sectors[2] = 4000;
    expect("begin with lengths", onfi_audit_begin(&channel, &audit), ONFI_DONE);
    legal("three sectors", &audit, command(0, 0, ONFI_KIND(ONFI_READ, 3), 0, 0), 0);
    legal("their post", &audit, post(25240, 0, ONFI_READ, 0, 0), 1);
    expect("its end", audit.channel.bus_free, 29240);
}

/* A LUN whose array was done sooner than the page says. */
static void tell_ready(void)
{
    onfi_audit audit = begun();
    onfi_audit before;
    legal("a command", &audit, command(0, 1, ONFI_READ, 0, 0), 0);
    before = audit;
    expect("no LUN is ready", onfi_audit_ready(&audit, 2, 20000), ONFI_BAD_LUN);
    expect("no LUN is ready", memcmp(&before, &audit, sizeof before), 0);
    expect("later", onfi_audit_ready(&audit, 1, 30000), ONFI_DONE);
    expect("sooner", onfi_audit_ready(&audit, 1, 20000), ONFI_DONE);
    expect("a free one", onfi_audit_ready(&audit, 0, 0), ONFI_DONE);
    legal("its post", &audit, post(20000, 1, ONFI_READ, 0, 0), 1);
    audit.channel.lun_count = 200;
    expect("LUNs", onfi_audit_ready(&audit, 1, 0), ONFI_TOO_MANY);
}

int main(void)
{
    judge_batch();
    judge_many();
    break_each();
    keep_the_bus();
    refuse_each();
    judge_sectors();
    tell_ready();
    printf("%u tried, %u failed\n", tried, failed);
    return failed != 0;
}
