/*
 * The driver by the greedy way, over the same bus, queue and LUNs, without plans: statuses and commands of groups that run, then commands
 * of reads, then data outputs, then data of programs, then erases.
 */
#include "firmware.h"
#include "firmware_channel.h"

#include <string.h>

static unsigned planes_of(const driver *d)
{
    return 1u << d->channel.rules.plane_bits;
}

/* Puts a member into a LUN's new group, planes rising. */
static void put_member(const driver *d, const onfi_want *want, onfi_lun *lun)
{
    unsigned to = lun->members++;
    for (; to > 0 && lun->member[to - 1].block % planes_of(d) > want->block % planes_of(d); to--)
        lun->member[to] = lun->member[to - 1];
    lun->member[to] = *want;
}

/* The LUN that goes on, with the members of a new group; they stay in the queue until their command runs. */
static onfi_lun lun_of(const driver *d, const candidate *c)
{
    onfi_lun lun = d->channel.lun[c->lun];
    for (size_t at = 0; at < c->members; at++)
        put_member(d, &d->queue[c->place[at]], &lun);
    return lun;
}

/* The next phase of a LUN that runs a group. */
static bool put_phase(driver *d, const onfi_lun *lun, uint64_t start, onfi_phase *phase)
{
    const onfi_want *want = &lun->member[lun->next % lun->members];
    const onfi_spans *spans = spans_of(&d->channel.timing, operation_of(want->kind));
    memset(phase, 0, sizeof *phase);
    phase->is_post = lun->next >= lun->members;
    phase->start = start;
    phase->end = start + (phase->is_post ? spans->post : spans->cmd);
    phase->want = want->id;
    phase->lun = want->lun;
    phase->block = want->block;
    phase->page = want->page;
    phase->kind = want->kind;
    phase->number = lun->next;
    phase->members = lun->members;
    phase->row_cycles = d->geometry.row_address_cycles;
    put_bytes(phase);
    return went_well(d, onfi_row(&d->geometry, want->lun, want->block, want->page, &phase->row));
}

/* What has the bus next; false where there is nothing to do. */
bool greedy_next(driver *d, uint64_t now, onfi_phase *phase)
{
    candidate best;
    d->channel.bus_free = later_of(d->channel.bus_free, now);
    if (!find_next(&d->channel, d->queue, d->queued, &READS_FIRST, 0, &best))
        return false;
    d->goes_on = lun_of(d, &best);
    return put_phase(d, &d->goes_on, best.start, phase);
}

bool greedy_run(driver *d, const onfi_phase *phase, uint64_t start, const transfer *of)
{
    uint64_t end;
    if (!drive(d, phase, start, of, &end))
        return false;
    onfi_lun *lun = &d->channel.lun[phase->lun];
    const onfi_spans *spans = spans_of(&d->channel.timing, operation_of(phase->kind));
    *lun = d->goes_on;
    if (phase->number == 0)
        note_begin(d, phase->lun);
    lun->next++;
    lun->since = end + (lun->next < lun->members ? spans->gap : lun->next == lun->members ? spans->array : 0);
    if (lun->next == 2 * lun->members)
        lun->members = lun->next = 0;
    d->channel.bus_free = end;
    return true;
}
