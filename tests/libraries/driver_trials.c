/*
 * The driver of examples/c over the mock of a board, where something goes wrong: what becomes of each of twenty requests, or of drawn ones.
 *
 *   driver_trials               a line for each trial: its name, a letter for each request, in which order they were answered, what was wrong
 *   driver_trials drawn SEED    a line for each drawn load
 *
 * Letters: a its right answer, f a status that says failed, b given back, r refused as it came, n not sent, since its block has to be
 * erased first.
 */
#include "firmware_board.h"

#include <stdio.h>
#include <stdlib.h>
#include <string.h>

enum { TWENTY = 20, MOST = 2000, LUN_COUNT = 2 };

typedef struct {
    onfi_want want[MOST];
    char became[MOST]; /* 0: nothing yet */
    size_t count, next, over;
    uint64_t order[MOST];
    size_t answered;
    unsigned again; /* how many reads had to be tried again */
    bool is_lost[LUN_COUNT][BLOCKS]; /* blocks of which a program or an erase came back: nothing is programmed there before an erase */
} requests;

typedef struct trial {
    const char *name;
    simulation of;
    uint64_t resets; /* after that many phases LUN 0 is reset; 0: never */
    bool each;       /* .. and again after as many */
    bool bad;        /* request 7 is of a block that is bad before */
} trial;

static board mock;
static driver d;
static requests all;
static uint8_t data[PAGE_BYTES], bad[ONFI_LUNS * BLOCKS / 8];
static const char *wrong;

static void find_wrong(bool is_wrong, const char *what)
{
    if (is_wrong && !wrong)
        wrong = what;
}

/* Each request ends once. */
static void become(uint64_t id, char what)
{
    find_wrong(all.became[id] != 0, "a request that ended twice");
    all.became[id] = what;
    all.over++;
}

static void take_back(void *sender, const onfi_want *want)
{
    (void)sender;
    become(want->id, 'b');
    all.is_lost[want->lun][want->block] |= want->kind != ONFI_READ;
}

/* Whether its sender sends it. */
static bool is_sent(const onfi_want *want)
{
    bool *is_lost = &all.is_lost[want->lun][want->block];
    *is_lost = *is_lost && want->kind != ONFI_ERASE;
    return !*is_lost || want->kind == ONFI_READ;
}

static void accept_all(void)
{
    uint32_t status = ONFI_DONE;
    while (all.next < all.count && status != ONFI_TOO_MANY) {
        bool is_its = is_sent(&all.want[all.next]);
        status = is_its ? driver_accept(&d, &all.want[all.next]) : (uint32_t)ONFI_DONE;
        if (!is_its)
            become(all.next, 'n');
        find_wrong(status != ONFI_DONE && status != ONFI_TOO_MANY && status != ONFI_BAD_PLACE, "a request is refused");
        if (status == ONFI_BAD_PLACE)
            become(all.next, 'r');
        if (status != ONFI_TOO_MANY)
            all.next++;
    }
}

/* What a post answers. A read whose data can't be corrected is tried again. */
static void take_answer(const onfi_phase *phase)
{
    const onfi_want *want = &all.want[phase->want];
    bool is_read = want->kind == ONFI_READ, fails = d.status & STATUS_FAIL;
    if (is_read && !are_bytes_of_page(data, row_of(want->lun, want->block, want->page), 0, mock.page)) {
        find_wrong(!mock.of->weak.of, "other bytes than were asked for");
        all.again++;
        find_wrong(!driver_read_again(&d, want), "a read isn't taken again");
        return;
    }
    all.order[all.answered++] = want->id;
    become(want->id, fails ? 'f' : 'a');
    if (fails)
        driver_retire(&d, want->lun, want->block);
}

static uint64_t run_phase(const onfi_phase *phase, uint64_t now)
{
    transfer of = {0, data};
    uint64_t start = phase->start > now ? phase->start : now;
    if (phase->kind == ONFI_PROGRAM && !phase->is_post)
        put_bytes_of_page(data, row_of(phase->lun, phase->block, phase->page), 0, mock.page);
    find_wrong(!driver_run(&d, phase, start, &of), "a call refuses what has run");
    if (phase->is_post && d.status & STATUS_READY)
        take_answer(phase);
    return mock.bus_free;
}

/* R/B# of LUNs, or where that shows nothing their statuses. */
static uint64_t look_at_luns(uint64_t now)
{
    for (unsigned lun = 0; lun < d.channel.lun_count; lun++)
        if (mock.lun[lun].rises <= now) {
            driver_ready(&d, lun, mock.lun[lun].rises);
            mock.lun[lun].rises = NEVER;
        }
    return now;
}

/* Whether the LUN is to be reset by now: by its trial, or since it doesn't get ready. */
static bool is_reset_due(const trial *t, uint64_t phases, unsigned lun)
{
    bool is_now = t->resets && lun == 0 && (t->each ? phases % t->resets == 0 : phases == t->resets);
    return is_now || d.late[lun] > 100;
}

static void reset_luns(const trial *t, uint64_t phases, uint64_t *now)
{
    for (unsigned lun = 0; lun < d.channel.lun_count; lun++)
        if (is_reset_due(t, phases, lun))
            find_wrong(!driver_reset(&d, lun, *now, now), "a reset is refused");
}

static void run_all(const trial *t)
{
    uint64_t now = 0, phases = 0, rise;
    onfi_phase phase;
    while (!wrong && all.over < all.count) {
        accept_all();
        look_at_luns(now);
        bool any = driver_next(&d, now, &phase);
        rise = board_next_rise(&mock);
        find_wrong(!any && all.over < all.count, "requests are left, and nothing is due");
        if (any && phase.start > now && t->of.polled) {
            uint64_t asked = driver_poll(&d, now);
            now = asked > now ? asked + 1000 : phase.start;
        } else if (any && rise < phase.start)
            now = rise > now ? rise : now;
        else if (any) {
            now = run_phase(&phase, now);
            reset_luns(t, ++phases, &now);
        }
        find_wrong(mock.wrong != NULL, mock.wrong);
        find_wrong(d.refused != ONFI_DONE, "a call refuses");
    }
}

static void open_trial(const trial *t)
{
    static struct onfi_bus bus;
    wrong = NULL;
    memset(&d, 0, sizeof d);
    memset(bad, 0, sizeof bad);
    board_open(&mock, &t->of);
    bus = board_bus(&mock);
    d.bus = &bus;
    d.channel = channel_of(&t->of.made_of, t->of.byte, t->of.luns);
    d.geometry = board_geometry(&t->of);
    d.bad = bad;
    d.give_back = take_back;
    find_wrong(!driver_begin(&d), "a call refuses the channel");
    if (t->bad)
        driver_retire(&d, 0, 8);
}

static simulation two_luns(void)
{
    simulation of;
    memset(&of, 0, sizeof of);
    of.made_of = *device_of("slc");
    of.byte = 2;
    of.luns = LUN_COUNT;
    of.least_array = of.most_array = 1;
    of.seed = 1;
    return of;
}

static onfi_want want_of(uint64_t id, unsigned kind, unsigned lun, unsigned block, unsigned page)
{
    onfi_want want;
    memset(&want, 0, sizeof want);
    want.id = id;
    want.kind = (uint8_t)kind;
    want.lun = (uint8_t)lun;
    want.block = (uint16_t)block;
    want.page = (uint16_t)page;
    return want;
}

/* Of LUN 0 block 8 is erased, programmed and read, block 21 read and then erased, block 40 read; of LUN 1 blocks 8 and 9. */
static void send_twenty(void)
{
    static const struct {
        uint8_t kind, lun, block, page;
    } sent[TWENTY] = {
        {ONFI_READ, 0, 21, 3},   {ONFI_READ, 0, 21, 4},   {ONFI_ERASE, 0, 21, 0},  {ONFI_READ, 1, 30, 7},  {ONFI_PROGRAM, 1, 8, 0},
        {ONFI_PROGRAM, 1, 9, 0}, {ONFI_ERASE, 0, 9, 0},   {ONFI_PROGRAM, 0, 8, 0}, {ONFI_PROGRAM, 0, 8, 1}, {ONFI_READ, 0, 8, 0},
        {ONFI_PROGRAM, 0, 8, 2}, {ONFI_READ, 0, 40, 2},   {ONFI_READ, 1, 31, 7},   {ONFI_PROGRAM, 1, 8, 1}, {ONFI_PROGRAM, 1, 9, 1},
        {ONFI_READ, 0, 41, 2},   {ONFI_ERASE, 1, 50, 0},  {ONFI_READ, 1, 30, 8},   {ONFI_READ, 0, 40, 5},   {ONFI_PROGRAM, 0, 9, 0},
    };
    memset(&all, 0, sizeof all);
    all.count = TWENTY;
    for (uint64_t id = 0; id < TWENTY; id++)
        all.want[id] = want_of(id, sent[id].kind, sent[id].lun, sent[id].block, sent[id].page);
}

static void print_trial(const trial *t)
{
    open_trial(t);
    run_all(t);
    printf("%s: ", t->name);
    for (size_t at = 0; at < all.count; at++)
        putchar(all.became[at] ? all.became[at] : '-');
    printf(":");
    for (size_t at = 0; at < all.answered; at++)
        printf(" %u", (unsigned)all.order[at]);
    printf(": %s\n", wrong ? wrong : "well");
}

static trial trial_of(const char *name)
{
    trial t;
    memset(&t, 0, sizeof t);
    t.name = name;
    t.of = two_luns();
    return t;
}

static fault only(uint64_t id)
{
    fault made = {MOST, id};
    return made;
}

static void print_resets(void)
{
    static char name[40];
    for (uint64_t after = 1; after <= 2 * TWENTY; after++) {
        trial t = trial_of(name);
        snprintf(name, sizeof name, "a reset after %u phases", (unsigned)after);
        t.resets = after;
        send_twenty();
        print_trial(&t);
    }
}

static void print_trials(void)
{
    trial t[] = {trial_of("nothing"), trial_of("a bad block"), trial_of("a program fails"), trial_of("a read again"), trial_of("a late program"),
                 trial_of("a late read"), trial_of("a LUN that hangs"), trial_of("a shared R/B#")};
    t[1].bad = true;
    t[2].of.fails = only(7);
    t[3].of.weak = only(0);
    t[4].of.hangs = only(7);
    t[5].of.hangs = only(11);
    t[6].of.hangs = only(4);
    t[4].of.hangs_by = t[5].of.hangs_by = 120000;
    t[6].of.hangs_by = 10000000;
    t[5].of.polled = t[7].of.polled = true;
    for (size_t at = 0; at < sizeof t / sizeof *t; at++) {
        send_twenty();
        print_trial(&t[at]);
    }
}

/* Drawn loads: reads, runs of programs, erases, whose faults come often. */

static uint64_t draws;

static unsigned drawn(unsigned below)
{
    return (unsigned)(next_share(&draws) * below);
}

/* A block of its LUN, which is erased before its pages come again from the first on. */
static onfi_want drawn_want(uint64_t id, uint16_t *pages)
{
    unsigned lun = drawn(LUN_COUNT), block = drawn(6);
    uint16_t *page = &pages[lun * 6 + block];
    switch (drawn(4)) {
    case 0: return want_of(id, ONFI_PROGRAM, lun, 8 + block, (*page)++);
    case 1:
        if (*page > 3) {
            *page = 0;
            return want_of(id, ONFI_ERASE, lun, 8 + block, 0);
        }
        /* fall through */
    default: return want_of(id, ONFI_READ, lun, 20 + block, drawn(9));
    }
}

static void send_drawn(size_t count)
{
    uint16_t pages[LUN_COUNT * 6] = {0};
    memset(&all, 0, sizeof all);
    all.count = count;
    for (uint64_t id = 0; id < count; id++)
        all.want[id] = drawn_want(id, pages);
}

static fault drawn_fault(unsigned least)
{
    fault made = {0, 0};
    if (drawn(2)) {
        made.of = least + drawn(60);
        made.at = drawn((unsigned)made.of);
    }
    return made;
}

static size_t count_of(char what)
{
    size_t count = 0;
    for (size_t at = 0; at < all.count; at++)
        count += all.became[at] == what;
    return count;
}

static void print_drawn(uint64_t seed)
{
    trial t = trial_of("drawn");
    draws = seed;
    t.of.seed = seed;
    t.of.least_array = 0.4;
    t.of.polled = drawn(2);
    t.of.told = !t.of.polled;
    t.of.fails = drawn_fault(20);
    t.of.weak = drawn_fault(5);
    t.of.hangs = drawn_fault(20);
    t.of.hangs.of = t.of.polled ? t.of.hangs.of : 0;
    t.of.hangs_by = 1 + drawn(400000);
    t.resets = drawn(2) ? 20 + drawn(80) : 0;
    t.each = true;
    send_drawn(MOST / 2);
    open_trial(&t);
    run_all(&t);
    printf("%u answered, %u failed, %u given back, %u refused, %u not sent, %u read again: %s\n", (unsigned)count_of('a'), (unsigned)count_of('f'),
           (unsigned)count_of('b'), (unsigned)count_of('r'), (unsigned)count_of('n'), all.again, wrong ? wrong : "well");
}

int main(int count, char **texts)
{
    if (count == 3 && !strcmp(texts[1], "drawn")) {
        print_drawn(strtoul(texts[2], NULL, 10));
        return 0;
    }
    print_trials();
    print_resets();
    return 0;
}
