/* Ways by the library's calls: plans, and phase by phase as a firmware has it, by a dispatcher. */
#include "rolling.h"

/* The mean age of all requests of a problem, at least 1. */
static double mean_age(const problem *problem)
{
    double sum = 0, count = 0;
    for (size_t at = 0; at < problem->wants; at++, count++)
        sum += (double)problem->age[at];
    for (unsigned lun = 0; lun < problem->now.channel.lun_count; lun++)
        for (unsigned at = 0; at < problem->now.channel.lun[lun].members; at++, count++)
            sum += (double)problem->member_age[lun][at];
    return sum > count ? sum / count : 1;
}

/* Eight times 1 + 4 (age / mean age)^2. */
static uint16_t weight_by(double age, double mean)
{
    double weight = 8 + 32 * (age / mean) * (age / mean);
    return weight < UINT16_MAX ? (uint16_t)weight : UINT16_MAX;
}

static onfi_weights weights_by_age(const problem *problem)
{
    double mean = mean_age(problem);
    onfi_weights made;
    for (size_t at = 0; at < ONFI_WANTS; at++)
        made.want[at] = weight_by((double)problem->age[at], mean);
    for (unsigned lun = 0; lun < ONFI_LUNS; lun++)
        for (unsigned at = 0; at < ONFI_MEMBERS; at++)
            made.running[lun][at] = weight_by((double)problem->member_age[lun][at], mean);
    return made;
}

/* Nobody reads the certificate here, so it has no room. */
static uint32_t plan_by(const problem *problem, const onfi_options *options, onfi_planned *plan)
{
    size_t bytes;
    return onfi_plan(&problem->now.channel, problem->now.want, problem->wants, options, plan, NULL, 0, &bytes);
}

uint32_t plan_within(const problem *problem, uint32_t limit, onfi_planned *plan)
{
    onfi_options options = ONFI_OPTIONS;
    options.by = ONFI_WITHIN;
    options.limit = limit;
    return plan_by(problem, &options, plan);
}

uint32_t plan_rule(const problem *problem, uint32_t limit, onfi_planned *plan)
{
    onfi_options options = ONFI_OPTIONS;
    options.by = ONFI_RULE;
    options.limit = limit;
    return plan_by(problem, &options, plan);
}

uint32_t plan_early_by_age(const problem *problem, uint32_t limit, onfi_planned *plan)
{
    onfi_options options = ONFI_OPTIONS;
    options.by = ONFI_WITHIN;
    options.limit = limit;
    options.early = true;
    options.weights = weights_by_age(problem);
    return plan_by(problem, &options, plan);
}

/* At least as large as each device that is simulated. */
static onfi_geometry geometry_of(const setup *setup)
{
    onfi_geometry made = {.blocks_per_lun = 65536, .block_bits = 16, .pages_per_block = 4096, .page_bits = 12, .data_bytes = 1};
    made.lun_bits = setup->luns > 4 ? 3 : setup->luns > 2 ? 2 : setup->luns > 1 ? 1 : 0;
    made.lun_count = (uint8_t)setup->luns;
    made.plane_address_bits = setup->channel.rules.plane_bits;
    made.column_address_cycles = 2;
    made.row_address_cycles = 4;
    return made;
}

static uint32_t begin(mind *mind, const setup *setup)
{
    onfi_geometry geometry = geometry_of(setup);
    if (mind->has_begun)
        return ONFI_DONE;
    mind->has_begun = true;
    return onfi_dispatcher_begin(&mind->dispatcher, &setup->channel, &geometry);
}

/* Gives the library what has come, as far as it has room for what waits of a LUN. */
static uint32_t accept_new(const machine *m, mind *mind)
{
    uint32_t status = ONFI_DONE;
    for (size_t at = 0; at < m->waiting_count && (!status || status == ONFI_TOO_MANY); at++) {
        const onfi_want *want = &m->waiting[at].want;
        if (want->id < mind->accepted[want->lun])
            continue;
        status = onfi_dispatcher_accept(&mind->dispatcher, want);
        mind->accepted[want->lun] = status ? mind->accepted[want->lun] : want->id + 1;
    }
    return status == ONFI_TOO_MANY ? ONFI_DONE : status;
}

/* LUNs that are ready before the stated time. */
static uint32_t note_ready(const machine *m, mind *mind)
{
    uint32_t status = ONFI_DONE;
    for (unsigned lun = 0; lun < m->setup->luns && mind->told && !status; lun++)
        if (is_running(&m->lun[lun]) && m->lun[lun].next == m->lun[lun].members)
            status = onfi_dispatcher_ready(&mind->dispatcher, (uint8_t)lun, m->lun[lun].ready);
    mind->told = false;
    return status;
}

/* The members of the group that a phase begins: of the commands that follow it on its LUN, in a copy that runs ahead. */
static uint32_t put_members(onfi_dispatcher ahead, const onfi_phase *first, step *step)
{
    onfi_phase next = *first;
    uint32_t status = ONFI_DONE;
    while (!status && step->members < first->members) {
        if (next.lun == first->lun)
            step->member[step->members++] = next.want;
        status = onfi_dispatcher_ran(&ahead, next.start);
        if (!status && step->members < first->members)
            status = onfi_dispatcher_next(&ahead, next.start, &next);
    }
    return status;
}

/* What stands now: the step that was given last has run, requests have come, and LUNs are ready. */
static uint32_t bring_up(const machine *m, mind *mind)
{
    uint32_t status = begin(mind, m->setup);
    if (!status && mind->has_run)
        status = onfi_dispatcher_ran(&mind->dispatcher, mind->start);
    mind->has_run = false;
    if (!status)
        status = note_ready(m, mind);
    return status ? status : accept_new(m, mind);
}

bool phase_by_phase(const way *way, mind *mind, const machine *m, const batch *batch, step *step)
{
    onfi_phase phase;
    (void)way, (void)batch;
    uint32_t status = bring_up(m, mind);
    if (!status)
        status = onfi_dispatcher_next(&mind->dispatcher, m->now, &phase);
    if (status == ONFI_NOTHING_DUE)
        return false;
    if (!status) {
        *step = (struct step){.start = phase.start, .lun = phase.lun};
        status = phase.number ? ONFI_DONE : put_members(mind->dispatcher, &phase, step);
    }
    mind->refused = status;
    return !status;
}
