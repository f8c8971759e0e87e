/*
 * A driver of one channel, to take as a pattern. The bus is the firmware's own; the library's dispatcher keeps what waits and what runs,
 * and says which phase is next, with which bytes. It plans no batch and asks for no memory. Its loop on a board is
 *
 *     for (;;) {
 *         uint64_t now = timer();
 *         .. driver_accept each request that has come, driver_ready each LUN whose R/B# has risen ..
 *         if (!driver_next(&driver, now, &phase))
 *             wait_for_interrupt();
 *         else if (phase.start > now)
 *             sleep_until(phase.start);       (or until an interrupt: what is next may be another then; or driver_poll)
 *         else if (driver_run(&driver, &phase, now, transfer_of(phase.want)) && phase.is_post && driver.status & STATUS_READY)
 *             answer(phase.want, driver.status);
 *     }
 *
 * firmware_main.c has that loop on a mock of a board, firmware_interrupts.c one that doesn't wait for the end of a transfer.
 *
 * It keeps books of its own: what waits, in order, and what each LUN runs. Of these alone the dispatcher begins anew where a LUN does
 * something else than was asked of it: an array that takes too long, a reset.
 */
#include "firmware.h"

#include <string.h>

/* In ns: how long until a late LUN is asked again, and how long a reset takes at most. */
enum { LATE_WAIT = 50000, RESET_TIME = 500000 };

/* Keeps the status of a call that refused. */
bool went_well(driver *d, uint32_t status)
{
    if (status != ONFI_DONE)
        d->refused = status;
    return status == ONFI_DONE;
}

/* .. of one that changes what waits or what runs: what was due need not be any more. */
static bool has_changed(driver *d, uint32_t status)
{
    d->is_due = d->is_due && status != ONFI_DONE;
    return went_well(d, status);
}

/* Nothing waits; LUNs do what the channel says, and mostly that is nothing. */
bool driver_begin(driver *d)
{
    return has_changed(d, onfi_dispatcher_begin(&d->dispatcher, &d->channel, &d->geometry));
}

/* What waits. */

/* Makes a place in the queue; it has room for all that the dispatcher takes, and what runs again. */
static void put_waiting(driver *d, size_t at, const onfi_want *want, bool is_given)
{
    memmove(d->queue + at + 1, d->queue + at, (d->queued - at) * sizeof *d->queue);
    memmove(d->is_given + at + 1, d->is_given + at, (d->queued - at) * sizeof *d->is_given);
    d->queue[at] = *want;
    d->is_given[at] = is_given;
    d->queued++;
}

static onfi_want take_waiting(driver *d, size_t at)
{
    onfi_want taken = d->queue[at];
    d->queued--;
    memmove(d->queue + at, d->queue + at + 1, (d->queued - at) * sizeof *d->queue);
    memmove(d->is_given + at, d->is_given + at + 1, (d->queued - at) * sizeof *d->is_given);
    return taken;
}

/* The place of a request that waits; else how many do. */
static size_t place_of(const driver *d, unsigned lun, uint64_t id)
{
    size_t at = 0;
    while (at < d->queued && (d->queue[at].lun != lun || d->queue[at].id != id))
        at++;
    return at;
}

/* Whether something waits for the LUN that the dispatcher has no room for. */
static bool is_full(const driver *d, unsigned lun)
{
    bool any = false;
    for (size_t at = 0; at < d->queued; at++)
        any = any || (d->queue[at].lun == lun && !d->is_given[at]);
    return any;
}

/* Of the blocks of all LUNs. */
static size_t number_of(const driver *d, unsigned lun, unsigned block)
{
    return (size_t)lun * d->geometry.blocks_per_lun + block;
}

/* A bad block is only read. */
static bool is_of_bad_block(const driver *d, const onfi_want *want)
{
    bool is_there = want->lun < d->channel.lun_count && want->block < d->geometry.blocks_per_lun;
    size_t block = number_of(d, want->lun, want->block);
    return d->bad && is_there && (want->kind & 31) != ONFI_READ && d->bad[block / 8] >> block % 8 & 1;
}

/* A request has come. One that the device can't have is its sender's mistake, of which the channel hears nothing. */
uint32_t driver_accept(driver *d, const onfi_want *want)
{
    if (is_of_bad_block(d, want))
        return ONFI_BAD_PLACE;
    if (is_full(d, want->lun))
        return ONFI_TOO_MANY;
    uint32_t status = onfi_dispatcher_accept(&d->dispatcher, want);
    if (status == ONFI_DONE) {
        put_waiting(d, d->queued, want, true);
        d->is_due = false;
    }
    return status;
}

/* Gives the dispatcher what it had no room for, in order; where it still has none that waits on. */
static void give_rest(driver *d)
{
    for (size_t at = 0; at < d->queued; at++)
        if (!d->is_given[at])
            d->is_given[at] = onfi_dispatcher_accept(&d->dispatcher, &d->queue[at]) == ONFI_DONE;
}

/* What LUNs run. */

static const onfi_spans *spans_of_kind(const driver *d, unsigned kind)
{
    const onfi_timing *timing = &d->channel.timing;
    return (kind & 31) == ONFI_READ ? &timing->read : (kind & 31) == ONFI_PROGRAM ? &timing->program : &timing->erase;
}

/* A command's request waits no more: it is a member of its LUN's group. */
static void note_member(driver *d, const onfi_phase *command)
{
    onfi_lun *lun = &d->channel.lun[command->lun];
    size_t at = place_of(d, command->lun, command->want);
    lun->members = command->members;
    if (at < d->queued)
        lun->member[command->number] = take_waiting(d, at);
}

/* A phase has ended: its LUN goes on, or is free. */
static void note_phase(driver *d, const onfi_phase *phase, uint64_t end)
{
    onfi_lun *lun = &d->channel.lun[phase->lun];
    const onfi_spans *spans = spans_of_kind(d, phase->kind);
    if (!phase->is_post)
        note_member(d, phase);
    lun->next = (uint8_t)(phase->number + 1);
    lun->since = end + (lun->next < lun->members ? spans->gap : lun->next == lun->members ? spans->array : 0);
    if (lun->next == 2 * lun->members)
        lun->members = lun->next = 0;
    d->channel.bus_free = end;
    d->late[phase->lun] = 0;
}

/* R/B# of a LUN has risen. Where its array worked it is ready from then on, whatever was stated; else nothing changes. */
void driver_ready(driver *d, unsigned number, uint64_t since)
{
    onfi_lun *lun = &d->channel.lun[number];
    if (onfi_dispatcher_ready(&d->dispatcher, (uint8_t)number, since) != ONFI_DONE)
        return;
    d->is_due = false;
    if (since < lun->since)
        lun->since = since;
}

/* Which phase is next, and when; false where none is, or the call refused. It may be another one once a request has come or R/B# risen. */
bool driver_next(driver *d, uint64_t now, onfi_phase *phase)
{
    give_rest(d);
    uint32_t status = onfi_dispatcher_next(&d->dispatcher, now, phase);
    d->is_due = status != ONFI_NOTHING_DUE && went_well(d, status);
    return d->is_due;
}

/* To begin anew. */

/* Whether commands of the LUN's group are to come, whose requests the books don't know yet. */
static bool lacks_members(const driver *d, const uint8_t *known)
{
    bool any = false;
    for (size_t lun = 0; lun < d->channel.lun_count; lun++)
        any = any || known[lun] < d->channel.lun[lun].members;
    return any;
}

/* How many members of its group the books know. */
static void count_members(const driver *d, uint8_t *known)
{
    for (size_t lun = 0; lun < d->channel.lun_count; lun++)
        known[lun] = d->channel.lun[lun].next < d->channel.lun[lun].members ? d->channel.lun[lun].next : d->channel.lun[lun].members;
}

/* Members whose commands are to come leave the queue for their groups: a copy of the dispatcher runs ahead until each group is whole. */
static bool note_mates(driver *d)
{
    uint8_t known[ONFI_LUNS];
    onfi_phase phase;
    uint32_t status = ONFI_DONE;
    d->ahead = d->dispatcher;
    count_members(d, known);
    while (status == ONFI_DONE && lacks_members(d, known)) {
        status = onfi_dispatcher_next(&d->ahead, 0, &phase);
        bool is_mate = status == ONFI_DONE && phase.number == known[phase.lun] && known[phase.lun] < d->channel.lun[phase.lun].members;
        if (is_mate) {
            note_member(d, &phase);
            known[phase.lun]++;
        }
        status = status == ONFI_DONE ? onfi_dispatcher_ran(&d->ahead, phase.start) : status;
    }
    return went_well(d, status);
}

/* The dispatcher gets the first of what waits for each LUN. */
static void choose_given(driver *d)
{
    unsigned given[ONFI_LUNS] = {0};
    for (size_t at = 0; at < d->queued; at++)
        d->is_given[at] = given[d->queue[at].lun]++ < ONFI_WAITERS;
}

/* The dispatcher begins anew with the books: what LUNs do, and what waits, in order. */
static bool begin_anew(driver *d)
{
    bool well = driver_begin(d);
    choose_given(d);
    for (size_t at = d->queued; well && at > 0; at--)
        if (d->is_given[at - 1])
            well = went_well(d, onfi_dispatcher_accept_again(&d->dispatcher, &d->queue[at - 1]));
    return well;
}

/* Errors. */

/* RDY comes late: the LUN is asked again after a while, and the others go on. Where that doesn't end, a reset is what is left. */
static bool wait_longer(driver *d, unsigned lun, uint64_t now)
{
    if (!note_mates(d))
        return false;
    d->late[lun]++;
    d->channel.lun[lun].since = now + LATE_WAIT;
    d->channel.bus_free = now;
    return begin_anew(d);
}

/* What waits for a block goes back to its senders, in order. */
static void give_back_block(driver *d, unsigned lun, unsigned block)
{
    for (size_t at = 0; at < d->queued;) {
        if (d->queue[at].lun != lun || d->queue[at].block != block) {
            at++;
            continue;
        }
        bool is_given = d->is_given[at];
        onfi_want want = take_waiting(d, at);
        if (is_given)
            has_changed(d, onfi_dispatcher_cancel(&d->dispatcher, want.id));
        d->give_back(d->sender, &want);
    }
}

/* A program or an erase of the block failed, as its status says. */
void driver_retire(driver *d, unsigned lun, unsigned block)
{
    size_t number = number_of(d, lun, block);
    if (d->bad)
        d->bad[number / 8] |= (uint8_t)(1u << number % 8);
    give_back_block(d, lun, block);
}

/* Where the dispatcher has as many of a LUN as it can, the last one waits outside. */
static void make_room(driver *d, unsigned lun)
{
    size_t last = d->queued, given = 0;
    for (size_t at = 0; at < d->queued; at++)
        if (d->queue[at].lun == lun && d->is_given[at]) {
            last = at;
            given++;
        }
    if (given == ONFI_WAITERS)
        d->is_given[last] = !went_well(d, onfi_dispatcher_cancel(&d->dispatcher, d->queue[last].id));
}

/* What a read put out can't be corrected: it runs once more, before all that waits for its LUN. */
bool driver_read_again(driver *d, const onfi_want *want)
{
    make_room(d, want->lun);
    bool well = has_changed(d, onfi_dispatcher_accept_again(&d->dispatcher, want));
    if (well)
        put_waiting(d, 0, want, true);
    return well;
}

/* What a LUN was at as it was reset: a program in its array is lost with its block's order; all else that has no answer runs again. */
static void run_again(driver *d, const onfi_lun *was)
{
    unsigned first = was->next > was->members ? was->next - was->members : 0;
    for (unsigned at = was->members; at > first; at--) {
        const onfi_want *want = &was->member[at - 1];
        bool is_lost = want->kind == ONFI_PROGRAM && was->next >= was->members;
        if (is_lost) {
            d->give_back(d->sender, want);
            give_back_block(d, want->lun, want->block);
        } else
            put_waiting(d, 0, want, false);
    }
}

/* Resets a LUN. The same of each LUN where all of them are (FFh). */
bool driver_reset(driver *d, unsigned number, uint64_t now, uint64_t *end)
{
    uint32_t row;
    if (!note_mates(d) || !went_well(d, onfi_row(&d->geometry, (uint8_t)number, 0, 0, &row)))
        return false;
    onfi_lun *lun = &d->channel.lun[number], was = *lun;
    *end = d->bus->reset(d->bus->board, now > d->channel.bus_free ? now : d->channel.bus_free, row);
    memset(lun, 0, sizeof *lun);
    lun->since = *end + RESET_TIME;
    d->channel.bus_free = *end;
    d->late[number] = 0;
    run_again(d, &was);
    return begin_anew(d);
}

/* Of LUNs that share one R/B#, or have none. Asks one whether its array is done; gives from when on the bus is free. */
static uint64_t poll_lun(driver *d, unsigned number, uint64_t now)
{
    uint32_t row;
    uint8_t byte;
    if (!went_well(d, onfi_row(&d->geometry, (uint8_t)number, 0, 0, &row)))
        return now;
    uint64_t end = d->bus->poll(d->bus->board, now, row, &byte);
    if (byte & STATUS_READY)
        driver_ready(d, number, end);
    d->channel.bus_free = end;
    return end;
}

/* Each LUN whose array works is asked, one after another. */
uint64_t driver_poll(driver *d, uint64_t now)
{
    for (unsigned number = 0; number < d->channel.lun_count; number++) {
        const onfi_lun *lun = &d->channel.lun[number];
        if (lun->members && lun->next == lun->members && lun->since > now)
            now = poll_lun(d, number, now);
    }
    return now;
}

/* The bus. */

/* Has the phase on the bus, and notes its end. The library says which bytes a read puts out, of the sectors that its request wants. */
bool drive(driver *d, const onfi_phase *phase, uint64_t start, const transfer *of, uint64_t *end)
{
    const struct onfi_bus *bus = d->bus;
    onfi_output output;
    d->status = STATUS_READY;
    if (!went_well(d, onfi_output_of(&d->geometry, d->sector_bytes, phase, of->first, &output)))
        return false;
    if (output.bytes)
        *end = bus->data_out(bus->board, start, phase, &output, of->data);
    else if (phase->is_post)
        *end = bus->status(bus->board, start, phase, &d->status);
    else if (phase->kind == ONFI_PROGRAM)
        *end = bus->data_in(bus->board, start, phase, of->data);
    else
        *end = bus->command(bus->board, start, phase);
    return true;
}

/* Begins the next phase at `start`, at or after its own start. Where the board can, the LUN of a read is asked first whether it is ready. */
bool driver_start(driver *d, const onfi_phase *phase, uint64_t start, const transfer *of, uint64_t *end)
{
    bool is_asked = d->bus->poll && (phase->kind & 31) == ONFI_READ && phase->number == phase->members;
    d->status = STATUS_READY;
    *end = is_asked ? d->bus->poll(d->bus->board, start, phase->row, &d->status) : start;
    d->begun = *end;
    d->is_begun = d->status & STATUS_READY;
    return !d->is_begun || drive(d, phase, *end, of, end);
}

/* While it is on the bus it counts as run, for as long as is stated, and what is next may be decided. */
bool driver_ahead(driver *d, const onfi_phase *phase, uint64_t *end)
{
    *end = d->begun + (phase->end - phase->start);
    d->is_ahead = has_changed(d, onfi_dispatcher_ran(&d->dispatcher, d->begun));
    return d->is_ahead;
}

/* It has ended. One that took longer than is stated counts as begun so much later; where it counted as run the dispatcher begins anew. */
bool driver_end(driver *d, const onfi_phase *phase, uint64_t end)
{
    uint64_t stated = phase->end - phase->start;
    bool is_ahead = d->is_ahead;
    d->is_ahead = false;
    if (phase->is_post && !(d->status & STATUS_READY))
        return wait_longer(d, phase->lun, end);
    note_phase(d, phase, end);
    if (!is_ahead)
        return has_changed(d, onfi_dispatcher_ran(&d->dispatcher, end - stated));
    return end == d->begun + stated || (note_mates(d) && begin_anew(d));
}

/* Runs the next phase. */
bool driver_run(driver *d, const onfi_phase *phase, uint64_t start, const transfer *of)
{
    uint64_t end;
    return driver_start(d, phase, start, of, &end) && driver_end(d, phase, end);
}
