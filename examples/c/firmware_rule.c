/* The greedy way, which calls nothing of the library: of what can start soonest goes what ranks first, and what can run as one does. */
#include "firmware_channel.h"

#include <string.h>

static unsigned rank_reads_first(move does, unsigned kind)
{
    if (does == GOES_ON)
        return 0;
    if (does == ANSWERS)
        return kind == ONFI_READ ? 3 : 1;
    return kind == ONFI_READ ? 2 : 3 + kind;
}

const rule READS_FIRST = {rank_reads_first, false, true};

/* What waits. */
typedef struct {
    const onfi_rules *rules;
    unsigned planes;
    const onfi_want *want;
    size_t count;
} waiting;

/* Whether an earlier request on its block waits. */
static bool is_after_another(const waiting *w, size_t place)
{
    for (size_t earlier = 0; earlier < place; earlier++)
        if (w->want[earlier].lun == w->want[place].lun && w->want[earlier].block == w->want[place].block)
            return true;
    return false;
}

/* Whether a request is of the LUN, kind and page of another one, on another plane; on strict devices of the same block but for that. */
static bool goes_with(const waiting *w, const onfi_want *one, const onfi_want *other)
{
    uint8_t kind = operation_of(one->kind);
    bool is_alike = one->lun == other->lun && kind == operation_of(other->kind) && (kind == ONFI_ERASE || one->page == other->page);
    bool may_join = !w->rules->strict || one->block / w->planes == other->block / w->planes;
    return is_alike && may_join && one->block % w->planes != other->block % w->planes;
}

static bool joins(const waiting *w, const candidate *c, size_t place)
{
    for (size_t at = 0; at < c->members; at++)
        if (!goes_with(w, &w->want[place], &w->want[c->place[at]]))
            return false;
    return true;
}

/* Makes the group of a request, with all that can join it. */
static void put_group(const waiting *w, candidate *c, size_t first)
{
    size_t most = (operation_of(w->want[first].kind) == ONFI_READ ? w->rules->read : w->rules->write) ? w->planes : 1;
    c->members = 1;
    c->place[0] = first;
    for (size_t place = 0; place < w->count && c->members < most; place++)
        if (joins(w, c, place) && !is_after_another(w, place))
            c->place[c->members++] = place;
}

/* The group of the oldest request of a kind that an idle LUN can begin; false where there is none. */
static bool find_oldest(const waiting *w, candidate *c, unsigned kind)
{
    for (size_t place = 0; place < w->count; place++)
        if (w->want[place].lun == c->lun && operation_of(w->want[place].kind) == kind && !is_after_another(w, place)) {
            put_group(w, c, place);
            return true;
        }
    return false;
}

/* The first of its largest groups. */
static bool find_largest(const waiting *w, candidate *c)
{
    candidate other = *c;
    for (size_t place = 0; place < w->count; place++)
        if (w->want[place].lun == c->lun && !is_after_another(w, place)) {
            put_group(w, &other, place);
            if (other.members > c->members)
                *c = other;
        }
    return c->members > 0;
}

/* What a LUN could do next; false where it has nothing to do. */
static bool find_candidate(const waiting *w, const onfi_lun *lun, const rule *by, candidate *c)
{
    c->members = 0;
    if (lun->members) {
        c->oldest = lun->member[0].id;
        c->rank = by->rank(lun->next < lun->members ? GOES_ON : ANSWERS, operation_of(lun->member[0].kind));
        return true;
    }
    bool any = by->largest ? find_largest(w, c) : find_oldest(w, c, ONFI_READ) || find_oldest(w, c, ONFI_PROGRAM) || find_oldest(w, c, ONFI_ERASE);
    if (any) {
        c->oldest = w->want[c->place[0]].id;
        c->rank = by->rank(BEGINS, operation_of(w->want[c->place[0]].kind));
    }
    return any;
}

static bool goes_before(const rule *by, const candidate *one, const candidate *other)
{
    if (one->start != other->start)
        return one->start < other->start;
    if (one->rank != other->rank)
        return one->rank < other->rank;
    if (!by->by_age)
        return false;
    return one->members != other->members ? one->members > other->members : one->oldest < other->oldest;
}

bool find_next(const onfi_channel *channel, const onfi_want *want, size_t count, const rule *by, unsigned turn, candidate *best)
{
    waiting w;
    candidate found;
    bool any = false;
    w.rules = &channel->rules;
    w.planes = 1u << channel->rules.plane_bits;
    w.want = want;
    w.count = count;
    memset(&found, 0, sizeof found);
    for (unsigned at = 0; at < channel->lun_count; at++) {
        found.lun = (turn + at) % channel->lun_count;
        const onfi_lun *lun = &channel->lun[found.lun];
        found.start = lun->since > channel->bus_free ? lun->since : channel->bus_free;
        if (find_candidate(&w, lun, by, &found) && (!any || goes_before(by, &found, best))) {
            *best = found;
            any = true;
        }
    }
    return any;
}

void put_bytes(onfi_phase *phase)
{
    static const uint8_t OPENER[KINDS] = {0x00, 0x80, 0x60}, LAST[KINDS] = {0x30, 0x10, 0xD0}, NOT_LAST[KINDS] = {0x32, 0x11, 0xD1};
    bool is_last = phase->number + 1 == phase->members;
    uint8_t kind = operation_of(phase->kind);
    phase->opener = OPENER[kind];
    phase->closer = is_last ? LAST[kind] : NOT_LAST[kind];
    if (phase->is_post) {
        phase->opener = kind == ONFI_READ ? 0x06 : 0x78;
        phase->closer = kind == ONFI_READ ? 0xE0 : 0;
    }
}
