/* Which requests greedy ways look at, and what they take of what can start soonest. */
#include "rolling.h"

static unsigned alike(move does, unsigned kind)
{
    (void)does, (void)kind;
    return 0;
}

static unsigned commands_first(move does, unsigned kind)
{
    (void)kind;
    return does == ANSWERS;
}

/* As the simulator MQSim orders transactions: what runs, then reads, programs, erases. */
static unsigned mqsim(move does, unsigned kind)
{
    return does == GOES_ON ? 0 : does == ANSWERS ? 1 : 2 + kind;
}

const rule ROUND_ROBIN = {alike, true, false};
const rule COMMANDS_FIRST = {commands_first, true, false};
const rule MQSIM = {mqsim, false, true};

void everything(const machine *m, batch *chosen)
{
    for (chosen->count = 0; chosen->count < m->waiting_count; chosen->count++)
        chosen->place[chosen->count] = chosen->count;
}

void first_eight(const machine *m, batch *chosen)
{
    everything(m, chosen);
    if (chosen->count > ONFI_WANTS)
        chosen->count = ONFI_WANTS;
}

bool by_rule(const way *way, mind *mind, const machine *m, const batch *batch, step *step)
{
    said s;
    candidate best;
    say(m, batch->place, batch->count, &s);
    if (!find_next(&s.channel, s.want, batch->count, way->rule, mind->turn, &best))
        return false;
    step->start = best.start;
    step->lun = best.lun;
    step->members = best.members;
    for (size_t at = 0; at < best.members; at++)
        step->member[at] = s.want[best.place[at]].id;
    return true;
}

/* The LUN whose group has begun first; how many there are where none runs. */
static unsigned first_begun(const machine *m)
{
    unsigned first = m->setup->luns;
    for (unsigned lun = 0; lun < m->setup->luns; lun++)
        if (is_running(&m->lun[lun]) && (first == m->setup->luns || m->lun[lun].member[0].want.id < m->lun[first].member[0].want.id))
            first = lun;
    return first;
}

/*
 * First in first out: commands in the order of acceptance, posts in the order of commands, none grouped. Of the next command
 * and the next post the one that can start sooner has the bus, the command where both can start at one time.
 */
bool in_order(const way *way, mind *mind, const machine *m, const batch *batch, step *step)
{
    (void)way;
    (void)mind;
    const onfi_want *want = batch->count ? &m->waiting[batch->place[0]].want : NULL;
    uint64_t command = want && !is_running(&m->lun[want->lun]) ? soonest(m, want->lun) : NEVER;
    unsigned first = first_begun(m);
    uint64_t post = first < m->setup->luns ? soonest(m, first) : NEVER;
    if (command == NEVER && post == NEVER)
        return false;
    step->members = command <= post;
    step->start = command <= post ? command : post;
    step->lun = command <= post ? want->lun : first;
    step->member[0] = command <= post ? want->id : 0;
    return true;
}
