/* The loop. */
#include "rolling.h"

#include <inttypes.h>
#include <stdlib.h>

typedef struct {
    const way *way;
    const printed *to;
    machine machine;
    source source;
    judge judge;
    mind mind;
    figures *figures;
    size_t unmeasured; /* how many of the first answers aren't measured */
    uint64_t answered, busy;
    uint64_t decided; /* when the last decision was made */
    bool is_ahead; /* whether it was made while the phase before it had the bus */
    step ahead; /* what it was then */
    fault *wrong;
} run;

static void accept_next(run *r)
{
    uint64_t arrived = next_arrival(&r->source);
    onfi_want want = next_want(&r->source);
    want.id = r->machine.accepted;
    accept_request(&r->machine, want, is_open(r->machine.setup) ? arrived : r->machine.now);
    judge_acceptance(&r->judge, &want, r->machine.now);
}

static bool has_room(const run *r)
{
    return r->machine.outstanding < r->machine.setup->outstanding;
}

/* Accepts what has come by now. */
static void accept_all(run *r)
{
    while (next_arrival(&r->source) <= r->machine.now && (has_room(r) || comes_along(&r->source)))
        accept_next(r);
}

/* When something comes to be known next. */
static uint64_t next_event(const run *r)
{
    uint64_t told = next_told(&r->machine), arrival = has_room(r) ? next_arrival(&r->source) : NEVER;
    return told < arrival ? told : arrival;
}

static void print_answer(const run *r, const request *answered, uint64_t end)
{
    const onfi_want *want = &answered->want;
    const load *own = &r->machine.setup->own;
    uint64_t line = own->count ? own->arrival[want->id].line : want->id + 1;
    if (r->to->answers)
        fprintf(r->to->answers, "%" PRIu64 ",%" PRIu64 ",%s,%u,%" PRIu64 ",%" PRIu64 "\n", want->id, line, KIND_NAMES[operation_of(want->kind)],
                (unsigned)want->lun, answered->arrived, end);
}

/* Counts an answer that is measured. */
static void count_answer(run *r, const request *answered, uint64_t end)
{
    figures *f = r->figures;
    unsigned kind = operation_of(answered->want.kind);
    r->answered++;
    f->to = end;
    if (r->answered <= r->unmeasured) {
        f->from = end;
        f->busy = r->busy;
        return;
    }
    f->latency[kind][f->answered[kind]++] = end - answered->arrived;
}

static void print_phase(const run *r, const phase *p)
{
    onfi_phase wires = {.kind = operation_of(p->want.kind), .number = (uint8_t)p->number, .members = (uint8_t)p->members, .is_post = p->is_post};
    put_bytes(&wires);
    if (!r->to->phases)
        return;
    fprintf(r->to->phases, "%" PRIu64 " %" PRIu64 " %u %s %s %u %u %02X ", p->start, p->end, p->lun, KIND_NAMES[wires.kind], p->is_post ? "post" : "cmd",
            (unsigned)p->want.block, (unsigned)p->want.page, (unsigned)wires.opener);
    if (wires.closer)
        fprintf(r->to->phases, "%02X", (unsigned)wires.closer);
    fprintf(r->to->phases, "%s %" PRIu64 "\n", wires.closer ? "" : "-", p->want.id);
}

/* Counts an erase that has begun: how long it takes, and how much of that no other one does. */
static void count_erase(figures *f, const phase *p)
{
    uint64_t end = p->end + p->array, from = later_of(p->end, f->erasing_until);
    f->erases += p->array;
    f->erasing += end > from ? end - from : 0;
    f->erasing_until = later_of(end, f->erasing_until);
}

/* What a way keeps of a step that has run. */
static void note_step(run *r, const step *step)
{
    r->mind.turn = (step->lun + 1) % r->machine.setup->luns;
    r->mind.has_run = true;
    r->mind.start = step->start;
    r->mind.plan.at++;
}

/* Notes what is wrong otherwise than with a step: of the oldest request that waits. */
static void note_wrong(run *r, const char *what)
{
    const request *oldest = r->machine.waiting_count ? &r->machine.waiting[0] : NULL;
    *r->wrong = (fault){.what = what, .time = r->machine.now, .lun = oldest ? oldest->want.lun : 0, .request = oldest ? oldest->want.id : NEVER};
}

/* Runs a legal step, and counts what came of it. */
static void run_next(run *r, const step *step)
{
    request answered;
    phase p = run_step(&r->machine, step, &answered);
    bool is_measured = r->answered >= r->unmeasured;
    print_phase(r, &p);
    note_step(r, step);
    r->busy += p.end - p.start;
    if (p.opens && is_measured) {
        r->figures->groups++;
        r->figures->grouped += p.opens;
    }
    if (p.array && operation_of(p.want.kind) == ONFI_ERASE && is_measured)
        count_erase(r->figures, &p);
    if (p.is_post) {
        print_answer(r, &answered, p.end);
        count_answer(r, &answered, p.end);
    }
    if (r->judge.bus_free != p.end || r->judge.answered != r->answered)
        note_wrong(r, "the judge has another end of the phase, or counts other answers");
}

/* What has the bus next by what is known, `decided` being when that is found out; false where there is nothing to do. */
static bool decide(run *r, uint64_t begun, step *step)
{
    batch batch = {.count = 0};
    *step = (struct step){.start = NEVER};
    r->decided = begun + r->machine.setup->deciding;
    r->way->choose(&r->machine, &batch);
    return r->way->decide(r->way, &r->mind, &r->machine, &batch, step);
}

/* What was decided ahead where the bus need not wait for its LUN, else what is decided now. */
static bool put_next(run *r, step *step)
{
    bool is_kept = r->is_ahead && r->ahead.start <= later_of(r->machine.now, r->decided);
    *step = r->ahead;
    r->is_ahead = false;
    return is_kept || decide(r, r->machine.now, step);
}

/* Runs a step that has come to its time; decides ahead of what is known by then. One before that time is left to the judge. */
static void run_decided(run *r, step *step)
{
    if (step->start >= r->machine.now)
        step->start = later_of(step->start, r->decided);
    if (!judge_step(&r->judge, step, r->wrong))
        return;
    run_next(r, step);
    r->is_ahead = r->machine.setup->ahead && decide(r, step->start, &r->ahead);
}

/* Runs what is next, or waits for what comes to be known before it could start. */
static void turn(run *r)
{
    step step;
    accept_all(r);
    r->mind.told = tell_ready(&r->machine) || r->mind.told;
    bool any = put_next(r, &step);
    uint64_t event = next_event(r), known = later_of(event, r->decided);
    if (r->mind.refused)
        note_wrong(r, "the library refuses a problem");
    else if (any && step.start <= known)
        run_decided(r, &step);
    else if (event < NEVER)
        r->machine.now = later_of(known, r->machine.now);
    else
        note_wrong(r, "requests are left, and nothing is done");
}

bool simulate(const setup *setup, const way *way, const printed *to, figures *figures, fault *wrong)
{
    run *r = malloc(sizeof *r);
    *wrong = (fault){.what = r ? NULL : "no memory", .request = NEVER};
    if (!r)
        return false;
    *r = (run){.way = way, .to = to, .source = source_of(setup), .figures = figures, .wrong = wrong};
    r->unmeasured = setup->own.count ? 0 : setup->requests / 10;
    figures->from = r->unmeasured ? 0 : next_arrival(&r->source);
    judge_open(&r->judge, setup);
    r->machine.setup = setup;
    while (!wrong->what && r->answered < setup->requests)
        turn(r);
    figures->busy = r->busy - figures->busy;
    figures->planning = r->mind.planning;
    free(r);
    return !wrong->what;
}
