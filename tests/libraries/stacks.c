/*
 * How much stack each call of onfi.h takes: `stacks FILE..` prints a line NAME BYTES for each, the greatest over problems that are
 * drawn, some with all that eight LUNs and eight wants can have left, 72 phases, and over the scripts in the files. What a call takes is
 * what it writes over below its caller: of a stack that was painted before.
 *
 * `stacks BYTES FILE..` makes the same calls on a stack of so many bytes, below which is no memory, and prints nothing. It ends with
 * status 0 where the stack was enough.
 */
#define _GNU_SOURCE
#include "options.h"

#include <inttypes.h>
#include <stdio.h>
#include <stdlib.h>
#include <string.h>
#include <sys/mman.h>
#include <ucontext.h>

enum { PAINTED = 1 << 18, FEW = 1 << 14, CALLS = 64, TEXT = 1 << 20, CERTIFICATE = 1 << 18, PROBLEMS = 24, LIMIT = 1000 };
#define PAINT UINT64_C(0x5A5A5A5A5A5A5A5A)

typedef struct {
    onfi_channel channel;
    onfi_want wants[ONFI_WANTS];
    size_t want_count;
} problem;

static struct {
    const char *name;
    size_t bytes;
} deepest[CALLS];
static uintptr_t painted; /* the lowest address */
static bool is_painting;
static uint32_t status;

/* Fills so many words of the stack below its caller. */
static __attribute__((noinline)) void paint(size_t words)
{
    volatile uint64_t room[PAINTED];
    for (size_t at = PAINTED - words; at < PAINTED; at++)
        room[at] = PAINT;
    painted = (uintptr_t)room;
}

/* Keeps how much of that was written over since, where it is more than before. */
static __attribute__((noinline)) void note(const char *name, size_t words)
{
    size_t left = PAINTED - words, at = 0;
    while (left < PAINTED && ((volatile uint64_t *)painted)[left] == PAINT)
        left++;
    if (left == PAINTED - words)
        exit(9);
    while (deepest[at].name && strcmp(deepest[at].name, name))
        at++;
    deepest[at].name = name;
    if ((PAINTED - left) * sizeof(uint64_t) > deepest[at].bytes)
        deepest[at].bytes = (PAINTED - left) * sizeof(uint64_t);
}

/* Makes a call that takes fewer words of stack than that, of which what it takes is kept. */
#define TAKE(words, call, ...)          \
    do {                                \
        if (is_painting)                \
            paint(words);               \
        status = call(__VA_ARGS__);     \
        if (is_painting)                \
            note(#call, words);         \
    } while (0)
#define DEEP(call, ...) TAKE(PAINTED, call, __VA_ARGS__)
#define FLAT(call, ...) TAKE(FEW, call, __VA_ARGS__)

static uint64_t state = 1;

static uint32_t drawn(uint32_t below)
{
    state = state * UINT64_C(6364136223846793005) + UINT64_C(1442695040888963407);
    return (uint32_t)(state >> 33) % below;
}

static onfi_spans drawn_spans(void)
{
    return (onfi_spans){1 + drawn(300), drawn(60), drawn(4000), 1 + drawn(400)};
}

static uint8_t drawn_kind(bool sectors)
{
    uint8_t kind = (uint8_t)drawn(3);
    return kind == ONFI_READ && sectors && drawn(2) ? ONFI_KIND(kind, 1 + drawn(7)) : kind;
}

/* A group that runs on a LUN, four members with all but the first command left where it is full. */
static void draw_running(onfi_lun *lun, uint8_t number, bool full, bool sectors)
{
    uint8_t kind = (uint8_t)drawn(3);
    *lun = (onfi_lun){.since = drawn(2000), .members = full ? 4 : (uint8_t)(1 + drawn(4))};
    lun->next = full ? 1 : (uint8_t)(1 + drawn(2u * lun->members - 1));
    for (uint8_t at = 0; at < lun->members; at++) {
        uint8_t own = kind == ONFI_READ && sectors ? ONFI_KIND(kind, drawn(8)) : kind;
        lun->member[at] = (onfi_want){.kind = own, .lun = number, .block = (uint16_t)(4 + at), .page = 0};
    }
}

static void draw_problem(problem *p, bool full, bool sectors)
{
    *p = (problem){.want_count = full ? 8 : drawn(9)};
    p->channel.lun_count = (uint8_t)(full ? 8 : 1 + drawn(8));
    p->channel.lengths = (onfi_lengths){{100, 110, 120, 130, 140, 150, 160}};
    p->channel.timing = (onfi_timing){drawn_spans(), drawn_spans(), drawn_spans()};
    p->channel.rules = (onfi_rules){full || drawn(2), full || drawn(2), !full && drawn(4) == 0, 2};
    p->channel.bus_free = drawn(1000);
    for (uint8_t lun = 0; lun < p->channel.lun_count; lun++) {
        p->channel.lun[lun].since = drawn(2000);
        if (full || drawn(2))
            draw_running(&p->channel.lun[lun], lun, full, sectors);
    }
    for (uint8_t at = 0; at < p->want_count; at++)
        p->wants[at] = (onfi_want){at, drawn_kind(sectors), (uint8_t)drawn(p->channel.lun_count), (uint16_t)drawn(8), 0};
}

static uint8_t certificate[CERTIFICATE];
static char script[TEXT], answer[TEXT], other[TEXT];
static size_t bytes;
static onfi_planned plan;
static onfi_verdict verdict;
static onfi_phase phase;
static onfi_broken broken;

#define PROBLEM &p->channel, p->wants, p->want_count
#define CERTIFIED certificate, sizeof certificate, &bytes

/* What the checker answers of the first bytes of the certificate. */
static uint32_t judged(const problem *p, size_t count)
{
    return onfi_check(PROBLEM, &plan.schedule, 0, certificate, count, &verdict);
}

/* The text of a certificate that opens a node after the other, as deep as phases are left; a checker that is given it goes as deep. */
static size_t deep_certificate(const problem *p, bool remembers)
{
    const char *const headers[] = {"ONFICERT 1", "ONFICERT 2 strict", "ONFICERT 3 remember", "ONFICERT 4 strict remember"};
    size_t end = (size_t)sprintf((char *)certificate, "%s\n", headers[2 * remembers + p->channel.rules.strict]), width = 1;
    for (uint64_t depth = 0; width < 100 && depth < 80; depth++)
        for (width = 1; width < 100; width++) {
            size_t more = (size_t)sprintf((char *)certificate + end, "B%zu X\n", width);
            if (judged(p, end + more) != ONFI_WIDTH || verdict.place != depth) {
                end += more - 2;
                break;
            }
        }
    return end + (size_t)sprintf((char *)certificate + end, "X\n");
}

/* In each way, early and not, whose weights differ. */
static void try_plans(const problem *p)
{
    for (uint8_t by = ONFI_PLAIN; by <= ONFI_RULE; by++)
        for (int early = 0; early < 2; early++) {
            onfi_options options = early ? options_early(by, LIMIT) : options_by(by, LIMIT);
            options.weights = (onfi_weights){.want = {9, 1, 8, 2, 7, 3, 6, 4}, .running = {{1, 2, 3, 4}, {5, 6, 7, 8}}};
            DEEP(onfi_plan, PROBLEM, &options, &plan, CERTIFIED);
            if (status == ONFI_DONE)
                DEEP(onfi_check, PROBLEM, &plan.schedule, plan.below, certificate, bytes, &verdict);
        }
    FLAT(onfi_breach, PROBLEM, &plan.schedule, &broken);
    for (int remembers = 0; remembers < 2; remembers++) {
        size_t count = deep_certificate(p, remembers);
        DEEP(onfi_check, PROBLEM, &plan.schedule, 0, certificate, count, &verdict);
    }
}

static const onfi_geometry geometry = {65536, 12, 16, 3, 4096, 16384, 2048, 8, 2, 2, 4, true, true, true};

/* A plan run phase by phase, and what it had on the bus judged as a log. */
static void try_phases(problem *p)
{
    onfi_audit audit;
    onfi_log_broken fault;
    onfi_output output;
    uint32_t row;
    FLAT(onfi_audit_begin, &p->channel, &audit);
    for (int count = 0; count < 72; count++) {
        FLAT(onfi_due, PROBLEM, &geometry, &plan.schedule, &phase);
        if (status != ONFI_DONE)
            break;
        FLAT(onfi_output_of, &geometry, 2048, &phase, 0, &output);
        FLAT(onfi_row, &geometry, phase.lun, phase.block, phase.page, &row);
        FLAT(onfi_audit_phase, &audit, &phase, &fault);
        FLAT(onfi_audit_ready, &audit, phase.lun, phase.end);
        FLAT(onfi_ran, &p->channel, p->wants, &p->want_count, &plan.schedule, phase.lun, phase.number, phase.start);
    }
}

/* As many requests as may wait for a LUN, run phase by phase. */
static void try_waiting(problem *p)
{
    static onfi_dispatcher dispatcher;
    FLAT(onfi_dispatcher_begin, &dispatcher, &p->channel, &geometry);
    for (uint32_t at = 0; at < p->channel.lun_count * (uint32_t)ONFI_WAITERS; at++) {
        onfi_want want = {at + 1, drawn_kind(true), (uint8_t)(at % p->channel.lun_count), (uint16_t)drawn(16), 0};
        FLAT(onfi_dispatcher_accept, &dispatcher, &want);
    }
    for (int turn = 0; turn < 200; turn++) {
        FLAT(onfi_dispatcher_next, &dispatcher, 0, &phase);
        if (status != ONFI_DONE)
            break;
        onfi_want again = {1000u + (uint32_t)turn, drawn_kind(true), phase.lun, 40, 0};
        FLAT(onfi_dispatcher_ran, &dispatcher, phase.start);
        FLAT(onfi_dispatcher_ready, &dispatcher, phase.lun, phase.end);
        FLAT(onfi_dispatcher_accept_again, &dispatcher, &again);
        FLAT(onfi_dispatcher_cancel, &dispatcher, again.id);
    }
}

#define ASK(words, bytes, room, told) DEEP(onfi_text, words, strlen(words), script, bytes, room, sizeof room, told)

/* Scripts of all that is asked by texts: with a plan after it, and with its trace. */
static void try_script(size_t script_bytes)
{
    static const char *const plans[] = {"plan --limit 1000", "plan --by within --limit 1000", "plan --by rule", "plan --by within --early --limit 1000"};
    static const char *const checks[] = {"check", "check --by within", "check --legal"};
    size_t told;
    ASK("plan --by within --limit 1000 --requests", script_bytes, answer, &told);
    ASK("plan --limit 1000 --trace", script_bytes, answer, &told);
    if (status == ONFI_DONE && script_bytes + told < sizeof script) {
        memcpy(script + script_bytes, answer, told);
        ASK("audit --all", script_bytes + told, other, &bytes);
    }
    for (unsigned at = 0; at < 4; at++) {
        ASK(plans[at], script_bytes, answer, &told);
        if (status != ONFI_DONE || script_bytes + told >= sizeof script)
            continue;
        memcpy(script + script_bytes, answer, told);
        for (unsigned by = 0; by < 3; by++)
            ASK(checks[by], script_bytes + told, other, &bytes);
    }
}

static const char *const kinds[] = {"read", "program", "erase"};

static size_t spans_row(size_t at, const char *kind, const onfi_spans *s)
{
    return at + (size_t)sprintf(script + at, "spans,%s,%" PRIu64 ",%" PRIu64 ",%" PRIu64 ",%" PRIu64 "\n", kind, s->cmd, s->gap, s->array, s->post);
}

/* The script that says a problem. */
static size_t script_of(const problem *p)
{
    const onfi_rules *rules = &p->channel.rules;
    size_t at = (size_t)sprintf(script, "shape,%u,%u,%u,%u\nbus,%" PRIu64 "\nstrict,%u\n", p->channel.lun_count, rules->plane_bits, rules->read, rules->write,
                                p->channel.bus_free, rules->strict);
    at = spans_row(at, kinds[0], &p->channel.timing.read);
    at = spans_row(at, kinds[1], &p->channel.timing.program);
    at = spans_row(at, kinds[2], &p->channel.timing.erase);
    for (unsigned lun = 0; lun < p->channel.lun_count; lun++) {
        const onfi_lun *it = &p->channel.lun[lun];
        if (!it->members)
            continue;
        at += (size_t)sprintf(script + at, "running,%u,%u,%" PRIu64 ",%s,0", lun, it->next, it->since, kinds[it->member[0].kind]);
        for (unsigned member = 0; member < it->members; member++)
            at += (size_t)sprintf(script + at, ",%u", it->member[member].block);
        at += (size_t)sprintf(script + at, "\n");
    }
    for (size_t want = 0; want < p->want_count; want++)
        at += (size_t)sprintf(script + at, "want,%s,%u,%u,0\n", kinds[p->wants[want].kind], p->wants[want].lun, p->wants[want].block);
    return at + (size_t)sprintf(script + at, "end\n");
}

static size_t starts_of(size_t at, const uint64_t *start, unsigned count)
{
    for (unsigned number = 0; number < count; number++)
        at += (size_t)sprintf(script + at, " %" PRIu64, start[number]);
    return at + (size_t)sprintf(script + at, "\n");
}

/* The plan of that schedule after a script, with the first bytes of the certificate. */
static size_t plan_after(size_t at, size_t count)
{
    const onfi_schedule *schedule = &plan.schedule;
    at += (size_t)sprintf(script + at, "ONFIPLAN 1\nfinish %" PRIu64 "\n", plan.finish);
    for (unsigned lun = 0; lun < schedule->luns; lun++)
        if (schedule->rest[lun].starts) {
            at += (size_t)sprintf(script + at, "rest %u", lun);
            at = starts_of(at, schedule->rest[lun].start, schedule->rest[lun].starts);
        }
    for (unsigned number = 0; number < schedule->groups; number++) {
        const onfi_group *group = &schedule->group[number];
        for (unsigned member = 0; member < group->members; member++)
            at += (size_t)sprintf(script + at, "%s%" PRIu64, member ? "+" : "group ", group->want[member]);
        at = starts_of(at, group->start, 2u * group->members);
    }
    memcpy(script + at, certificate, count);
    return at + count;
}

/* Checks of texts with certificates as deep as phases are left. */
static void try_deep_texts(const problem *p)
{
    for (int remembers = 0; remembers < 2; remembers++) {
        size_t count = deep_certificate(p, remembers), whole = plan_after(script_of(p), count);
        const char *words = remembers ? "check --by within" : "check";
        ASK(words, whole, other, &bytes);
    }
}

/* The rows of a script that begin with a word, without it. */
static size_t rows_of(const char *word, char *rows)
{
    size_t at = 0, length = strlen(word);
    for (const char *row = script; row && *row; row = strchr(row, '\n') ? strchr(row, '\n') + 1 : NULL)
        if (!strncmp(row, word, length) && row[length] == ',')
            at += (size_t)sprintf(rows + at, "%.*s\n", (int)strcspn(row + length + 1, "\r\n"), row + length + 1);
    return at;
}

/* The device of a script of the second form. */
static void try_device(void)
{
    static char hex[1 << 16], sheet[1 << 12], strobes[1 << 12];
    static uint8_t page[1 << 15];
    onfi_device device;
    uint64_t place;
    size_t digits = rows_of("page", hex), count = 0, sheet_bytes = rows_of("sheet", sheet), strobe_bytes = rows_of("strobe", strobes);
    for (size_t at = 0; at + 1 < digits; at += 2) {
        char two[3] = {hex[at], hex[at + 1], 0};
        if (two[0] != '\n')
            page[count++] = (uint8_t)strtoul(two, NULL, 16);
        else
            at--;
    }
    FLAT(onfi_device_of_page, page, count, sheet, sheet_bytes, strobes, 0, 0, &device, &place);
    FLAT(onfi_device_of_page, page, count, sheet, sheet_bytes, strobes, strobe_bytes, 512, &device, &place);
}

static void try_file(const char *name)
{
    FILE *file = fopen(name, "rb");
    size_t count = file ? fread(script, 1, sizeof script / 2, file) : 0;
    if (!file || !count)
        exit(9);
    fclose(file);
    script[count] = 0;
    try_device();
    try_script(count);
}

static char **files;

static void try_all(void)
{
    static const onfi_options one = {.limit = 1, .by = ONFI_WITHIN};
    static problem p;
    char text[80];
    for (int at = 0; at < PROBLEMS; at++) {
        draw_problem(&p, at % 2 == 0, false);
        try_plans(&p);
        try_deep_texts(&p);
        try_script(script_of(&p));
        draw_problem(&p, at % 2 == 0, true);
        try_plans(&p);
        onfi_plan(&p.channel, p.wants, p.want_count, &one, &plan, CERTIFIED);
        try_phases(&p);
        draw_problem(&p, at % 2 == 0, false);
        try_waiting(&p);
    }
    for (char **name = files; *name; name++)
        try_file(*name);
    for (uint32_t number = 0; number < 100; number++)
        FLAT(onfi_status_text, number, text, sizeof text, &bytes);
    FLAT(onfi_version, );
}

static ucontext_t here, there;

/* Makes all calls on a stack of so many bytes, which ends where no memory is. */
static int try_on(size_t size)
{
    size_t page = 1 << 16, whole = (size + page - 1) / page * page + page;
    char *room = mmap(NULL, whole, PROT_READ | PROT_WRITE, MAP_PRIVATE | MAP_ANONYMOUS, -1, 0);
    if (room == MAP_FAILED || mprotect(room, page, PROT_NONE) || getcontext(&there))
        return 8;
    there.uc_stack.ss_sp = room + page;
    there.uc_stack.ss_size = size;
    there.uc_link = &here;
    makecontext(&there, try_all, 0);
    return swapcontext(&here, &there) ? 8 : 0;
}

int main(int count, char **words)
{
    size_t size = count > 1 ? strtoul(words[1], NULL, 10) : 0;
    files = words + (size ? 2 : 1);
    if (size)
        return try_on(size);
    is_painting = true;
    try_all();
    for (size_t at = 0; deepest[at].name; at++)
        printf("%s %zu\n", deepest[at].name, deepest[at].bytes);
    return 0;
}
