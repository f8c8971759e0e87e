/*
 * The same driver by plans of the first eight that wait, in place of the library's dispatcher: the library plans them, says which phase
 * of the plan is due, and what stands after it. It plans anew where one of the eight isn't planned yet, where R/B# rises before the
 * stated time, and after a phase that took longer than is stated. A plan takes memory and far more time than a phase of firmware.c.
 */
#include "firmware.h"
#include "firmware_channel.h"

#include <string.h>

uint64_t later_of(uint64_t one, uint64_t other)
{
    return one > other ? one : other;
}

/* A request has come; no more than QUEUE wait. */
void plans_accept(driver *d, const onfi_want *want, uint64_t arrived)
{
    d->queue[d->queued] = *want;
    d->arrived[d->queued++] = arrived;
}

/* R/B# of a LUN has risen. Where its array worked it is ready from then on, whatever was stated. */
void plans_ready(driver *d, unsigned number, uint64_t since)
{
    onfi_lun *lun = &d->channel.lun[number];
    bool is_working = lun->members > 0 && lun->next == lun->members;
    if (!is_working || since >= lun->since)
        return;
    lun->since = since;
    d->has_news = true;
}

static bool is_planned(const driver *d, uint64_t id)
{
    for (size_t at = 0; at < d->batched; at++)
        if (d->batch[at].id == id)
            return true;
    return false;
}

/* How many of the queue a plan takes: its first ones. */
static size_t batch_of(const driver *d)
{
    return d->queued < ONFI_WANTS ? d->queued : (size_t)ONFI_WANTS;
}

/* Whether one of them isn't planned yet. */
static bool is_new(const driver *d)
{
    bool any = false;
    for (size_t at = 0; at < batch_of(d); at++)
        any = any || !is_planned(d, d->queue[at].id);
    return any;
}

/* The sum of the ages of the batch. */
static double ages_waiting(const driver *d, uint64_t now)
{
    double sum = 0;
    for (size_t at = 0; at < d->batched; at++)
        sum += (double)(now - d->arrived[at]);
    return sum;
}

/* The sum of the ages of a LUN's running group. */
static double ages_running(const driver *d, unsigned lun, uint64_t now)
{
    double sum = 0;
    for (unsigned at = 0; at < d->channel.lun[lun].members; at++)
        sum += (double)(now - d->member_arrived[lun][at]);
    return sum;
}

/* The mean age of what is planned, at least 1 ns. */
static double mean_age(const driver *d, uint64_t now)
{
    double sum = ages_waiting(d, now), count = (double)d->batched;
    for (unsigned lun = 0; lun < d->channel.lun_count; lun++) {
        sum += ages_running(d, lun, now);
        count += d->channel.lun[lun].members;
    }
    return sum > count ? sum / count : 1;
}

/* 8, and 32 times the square of its age in mean ages: what waits long can't be last in every plan. Reads may count for more. */
static uint16_t weight_of(const driver *d, uint64_t age, double mean, uint8_t kind)
{
    double share = (double)age / mean, weight = (8 + 32 * share * share) * (operation_of(kind) == ONFI_READ ? d->plans.reads : 1);
    if (!d->plans.by_age)
        return 1;
    return weight < UINT16_MAX ? (uint16_t)weight : UINT16_MAX;
}

static void weigh_running(const driver *d, unsigned lun, uint64_t now, double mean, onfi_weights *made)
{
    for (unsigned at = 0; at < d->channel.lun[lun].members; at++)
        made->running[lun][at] = weight_of(d, now - d->member_arrived[lun][at], mean, d->channel.lun[lun].member[at].kind);
}

static void weigh_waiting(const driver *d, uint64_t now, double mean, onfi_weights *made)
{
    for (size_t at = 0; at < d->batched; at++)
        made->want[at] = weight_of(d, now - d->arrived[at], mean, d->batch[at].kind);
}

static onfi_weights weights_of(const driver *d, uint64_t now)
{
    onfi_weights made;
    double mean = mean_age(d, now);
    memset(&made, 0, sizeof made);
    weigh_waiting(d, now, mean, &made);
    for (unsigned lun = 0; lun < d->channel.lun_count; lun++)
        weigh_running(d, lun, now, mean, &made);
    return made;
}

/* The call. Nobody reads the certificate here, so it has no room. */
static uint32_t call_planner(const driver *d, uint64_t now, onfi_planned *plan)
{
    size_t bytes;
    onfi_options options = ONFI_OPTIONS;
    options.by = d->plans.planner == RULE ? ONFI_RULE : ONFI_WITHIN;
    options.limit = d->plans.limit;
    options.early = d->plans.planner == EARLY;
    if (options.early)
        options.weights = weights_of(d, now);
    return onfi_plan(&d->channel, d->batch, d->batched, &options, plan, NULL, 0, &bytes);
}

/*
 * Plans the first requests and what runs, from now on. Here alone the bus is shown that time has passed: a plan that was made before
 * stays legal for what it was made of, and if its phases start late onfi_ran is given that.
 */
static bool make_plan(driver *d, uint64_t now)
{
    onfi_planned plan;
    d->channel.bus_free = later_of(d->channel.bus_free, now);
    d->batched = batch_of(d);
    memcpy(d->batch, d->queue, d->batched * sizeof *d->batch);
    uint32_t status = call_planner(d, now, &plan);
    if (!went_well(d, status))
        return false;
    d->schedule = plan.schedule;
    d->has_plan = true;
    d->has_news = false;
    d->planned++;
    return true;
}

/*
 * Which phase is due, and when; false where none is, or a call refused. It plans anew where one of the first eight isn't
 * planned, or a LUN has reported that it is ready: else what is left of the plan is as good as it was.
 */
bool plans_next(driver *d, uint64_t now, onfi_phase *phase)
{
    if ((is_new(d) || d->has_news) && !make_plan(d, now))
        return false;
    if (!d->has_plan)
        return false;
    uint32_t status = onfi_due(&d->channel, d->batch, d->batched, &d->geometry, &d->schedule, phase);
    return status != ONFI_NOTHING_DUE && went_well(d, status);
}

/* Takes a request out of the queue, and gives when it came. */
static uint64_t leave_queue(driver *d, uint64_t id)
{
    size_t at = 0;
    while (d->queue[at].id != id)
        at++;
    uint64_t arrived = d->arrived[at];
    d->queued--;
    memmove(d->queue + at, d->queue + at + 1, (d->queued - at) * sizeof *d->queue);
    memmove(d->arrived + at, d->arrived + at + 1, (d->queued - at) * sizeof *d->arrived);
    return arrived;
}

/* A group has begun on a LUN: its members wait no more. */
void note_begin(driver *d, unsigned lun)
{
    for (unsigned at = 0; at < d->channel.lun[lun].members; at++)
        d->member_arrived[lun][at] = leave_queue(d, d->channel.lun[lun].member[at].id);
}

/* A phase ended then: where that is later than is stated, bus and LUN are ready that much later too. */
static void note_end(driver *d, unsigned lun, uint64_t end)
{
    if (end <= d->channel.bus_free)
        return;
    d->channel.lun[lun].since += end - d->channel.bus_free;
    d->channel.bus_free = end;
    d->has_news = true;
}

/* Runs the due phase from `start` on, at or after its start by the plan. */
bool plans_run(driver *d, const onfi_phase *phase, uint64_t start, const transfer *of)
{
    uint64_t end;
    if (!drive(d, phase, start, of, &end))
        return false;
    uint32_t status = onfi_ran(&d->channel, d->batch, &d->batched, &d->schedule, phase->lun, phase->number, start);
    if (!went_well(d, status))
        return false;
    if (phase->number == 0)
        note_begin(d, phase->lun);
    note_end(d, phase->lun, end);
    return true;
}
