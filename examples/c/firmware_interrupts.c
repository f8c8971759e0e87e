/*
 * The loop of firmware.c on a board whose transfers end by interrupts: while the bus is in use the processor decides what is next, and
 * decides again where a request has come or a LUN is ready. So the bus doesn't wait for decisions.
 *
 *     interrupts:  note_request, note_ready, note_end
 *     main loop:   if (loop_ended(&loop, &phase) && phase.is_post && driver.status & STATUS_READY)
 *                      answer(phase.want, driver.status);
 *                  if (loop_next(&loop, timer(), &phase))
 *                      loop_start(&loop, &phase, timer(), transfer_of(phase.want));
 *                  else
 *                      wait_for_interrupt();       (with a timer at loop.wakes)
 *
 * From driver_start to driver_ahead the phase is the one that is due, and a call that changes what waits or what runs ends that: then
 * driver_ahead is refused (ONFI_NOTHING_DUE). So no call of the driver comes between the two, and none from an interrupt: what comes is
 * noted, and said by loop_next. From driver_ahead on the phase counts as run. Calls that take no dispatcher (onfi_row, onfi_output_of)
 * may come at any time.
 */
#include "firmware_interrupts.h"

#include <string.h>

void loop_open(loop *l, driver *of)
{
    memset(l, 0, sizeof *l);
    l->of = of;
    l->wakes = UINT64_MAX;
}

/* Interrupts: each writes what the main loop reads, and reads what that writes; a flag is written last. */

/* False where there is no room: the request stays with its sender. */
bool note_request(loop *l, const onfi_want *want)
{
    unsigned to = l->written;
    if (to - l->taken == NOTED)
        return false;
    l->request[to % NOTED] = *want;
    l->written = to + 1;
    return true;
}

void note_ready(loop *l, unsigned lun, uint64_t since)
{
    l->ready_since[lun] = since;
    l->is_ready[lun] = true;
}

void note_end(loop *l, uint64_t end)
{
    l->end = end;
    l->has_ended = true;
}

/* The main loop. */

/* Whether the transfer that ran has ended, and of which phase; then the driver hears of it. */
bool loop_ended(loop *l, onfi_phase *phase)
{
    if (!l->is_on_bus || !l->has_ended)
        return false;
    *phase = l->phase;
    l->is_on_bus = l->has_ended = false;
    return driver_end(l->of, phase, l->end);
}

static void say_ready(loop *l)
{
    for (unsigned lun = 0; lun < l->of->channel.lun_count; lun++)
        if (l->is_ready[lun]) {
            l->is_ready[lun] = false;
            driver_ready(l->of, lun, l->ready_since[lun]);
        }
}

/* What finds no room waits here, and what came after it. One that is refused for another reason goes back to its sender. */
static void say_requests(loop *l)
{
    uint32_t status = ONFI_DONE;
    while (l->taken != l->written && status != ONFI_TOO_MANY) {
        const onfi_want *want = &l->request[l->taken % NOTED];
        status = driver_accept(l->of, want);
        if (status != ONFI_DONE && status != ONFI_TOO_MANY)
            l->of->give_back(l->of->sender, want);
        if (status != ONFI_TOO_MANY)
            l->taken++;
    }
}

/* What is next once the bus is free: decided at once, also while a transfer runs, and again where something has changed. */
static bool decide(loop *l, uint64_t now)
{
    say_requests(l);
    say_ready(l);
    if (l->of->is_due)
        return true;
    l->is_ahead = l->is_on_bus;
    return driver_next(l->of, l->is_on_bus && l->ends > now ? l->ends : now, &l->next);
}

/* Whether a phase may start now, and which; never while a transfer runs. Else l->wakes says when one may. */
bool loop_next(loop *l, uint64_t now, onfi_phase *phase)
{
    l->wakes = UINT64_MAX;
    if (l->is_on_bus && !l->of->is_ahead)
        return false;
    if (!decide(l, now) || l->is_on_bus)
        return false;
    l->wakes = l->next.start;
    *phase = l->next;
    l->ahead += l->is_ahead && phase->start <= now;
    return phase->start <= now;
}

/* Begins its transfer, whose end an interrupt notes. Where the LUN says that it isn't ready there is none, and the phase is over. */
bool loop_start(loop *l, const onfi_phase *phase, uint64_t now, const transfer *of)
{
    uint64_t end;
    l->phase = *phase;
    l->is_on_bus = true;
    if (!driver_start(l->of, phase, now, of, &end))
        return false;
    if (l->of->is_begun)
        return driver_ahead(l->of, phase, &l->ends);
    note_end(l, end);
    return true;
}
