/* The channel as it stands, and what a phase changes of it. */
#include "rolling.h"

#include <string.h>

unsigned plane_of(const onfi_rules *rules, unsigned block)
{
    return block & ((1u << rules->plane_bits) - 1);
}

unsigned planes_of(const setup *setup)
{
    return 1u << setup->channel.rules.plane_bits;
}

uint64_t later_of(uint64_t one, uint64_t other)
{
    return one > other ? one : other;
}

bool is_running(const lun_state *lun)
{
    return lun->members > 0;
}

uint64_t soonest(const machine *m, unsigned lun)
{
    return later_of(later_of(m->now, m->bus_free), m->lun[lun].ready);
}

size_t place_of(const machine *m, uint64_t id)
{
    size_t place = 0;
    while (place < m->waiting_count && m->waiting[place].want.id != id)
        place++;
    return place;
}

void accept_request(machine *m, onfi_want want, uint64_t arrived)
{
    m->waiting[m->waiting_count++] = (request){.want = want, .arrived = arrived};
    m->outstanding++;
    m->accepted++;
}

/* Whether the array of a LUN ends before it is stated to. */
static bool is_early(const lun_state *lun)
{
    return is_running(lun) && lun->real < lun->ready;
}

bool tell_ready(machine *m)
{
    bool any = false;
    for (unsigned lun = 0; m->setup->told && lun < m->setup->luns; lun++)
        if (is_early(&m->lun[lun]) && m->lun[lun].real <= m->now) {
            m->lun[lun].ready = m->lun[lun].real;
            any = true;
        }
    return any;
}

uint64_t next_told(const machine *m)
{
    uint64_t next = NEVER;
    for (unsigned lun = 0; m->setup->told && lun < m->setup->luns; lun++)
        if (is_early(&m->lun[lun]) && m->lun[lun].real < next)
            next = m->lun[lun].real;
    return next;
}

/* A LUN as the library takes it. */
static onfi_lun lun_of(const lun_state *lun)
{
    onfi_lun made = {.since = lun->ready, .members = (uint8_t)lun->members, .next = (uint8_t)lun->next};
    for (unsigned at = 0; at < lun->members; at++)
        made.member[at] = lun->member[at].want;
    return made;
}

void say(const machine *m, const size_t *place, size_t count, said *said)
{
    said->channel = m->setup->channel;
    said->channel.bus_free = later_of(m->now, m->bus_free);
    for (unsigned at = 0; at < m->setup->luns; at++)
        said->channel.lun[at] = lun_of(&m->lun[at]);
    for (size_t at = 0; at < count; at++)
        said->want[at] = m->waiting[place ? place[at] : at].want;
}

/* Puts a request that begins into its LUN's group, planes rising. */
static void join_group(machine *m, lun_state *lun, const request *begins)
{
    unsigned at = lun->members++;
    unsigned plane = plane_of(&m->setup->channel.rules, begins->want.block);
    while (at > 0 && plane_of(&m->setup->channel.rules, lun->member[at - 1].want.block) > plane) {
        lun->member[at] = lun->member[at - 1];
        at--;
    }
    lun->member[at] = *begins;
}

/* Takes a request out of those that wait. */
static request take(machine *m, size_t place)
{
    request taken = m->waiting[place];
    m->waiting_count--;
    memmove(m->waiting + place, m->waiting + place + 1, (m->waiting_count - place) * sizeof *m->waiting);
    return taken;
}

static void begin_group(machine *m, lun_state *lun, const step *step)
{
    for (size_t at = 0; at < step->members; at++) {
        request begins = take(m, place_of(m, step->member[at]));
        join_group(m, lun, &begins);
    }
}

uint64_t real_array(const setup *setup, const onfi_want *first, uint64_t stated)
{
    double share = setup->least_array + (setup->most_array - setup->least_array) * share_of(setup->seed, first->id);
    return (uint64_t)((double)stated * share);
}

/* The next phase of a LUN's group, from `start` on. */
static phase next_phase(const machine *m, unsigned number, uint64_t start)
{
    const lun_state *lun = &m->lun[number];
    bool is_post = lun->next >= lun->members;
    const onfi_want *want = &lun->member[is_post ? lun->next - lun->members : lun->next].want;
    onfi_spans spans = lengths_for(m->setup, want);
    phase p = {.start = start, .end = start + (is_post ? spans.post : spans.cmd), .lun = number, .is_post = is_post, .want = *want};
    p.number = lun->next;
    p.members = lun->members;
    p.opens = lun->next ? 0 : lun->members;
    if (lun->next + 1 == lun->members)
        p.array = real_array(m->setup, &lun->member[0].want, spans.array);
    return p;
}

/* What a LUN is after a phase. */
static void pass_phase(const setup *setup, lun_state *lun, const phase *p)
{
    onfi_spans spans = lengths_for(setup, &p->want);
    lun->next++;
    lun->ready = lun->real = p->end;
    if (lun->next < lun->members)
        lun->ready = lun->real = p->end + spans.gap;
    if (lun->next == lun->members) {
        lun->ready = p->end + spans.array;
        lun->real = p->end + p->array;
    }
    if (lun->next == 2 * lun->members)
        lun->members = lun->next = 0;
}

phase run_step(machine *m, const step *step, request *answered)
{
    lun_state *lun = &m->lun[step->lun];
    begin_group(m, lun, step);
    phase p = next_phase(m, step->lun, step->start);
    if (p.is_post) {
        *answered = lun->member[lun->next - lun->members];
        m->outstanding--;
    }
    pass_phase(m->setup, lun, &p);
    m->now = m->bus_free = p.end;
    return p;
}
