/*
 * Whether a step is legal. The judge sees acceptances and steps alone: what waits, what each LUN runs, and from when on bus and LUNs may
 * have a phase, it keeps itself, so that a step is judged before anything is made of it.
 */
#include "rolling.h"

#include <string.h>

void judge_open(judge *j, const setup *setup)
{
    memset(j, 0, sizeof *j);
    j->setup = setup;
}

void judge_acceptance(judge *j, const onfi_want *want, uint64_t since)
{
    j->waiting[j->waiting_count++] = (accepted){.want = *want, .since = since};
}

/* The place of a request among those that wait; their number where it doesn't. */
static size_t waiting_place(const judge *j, uint64_t id)
{
    size_t place = 0;
    while (place < j->waiting_count && j->waiting[place].want.id != id)
        place++;
    return place;
}

/* Whether a request may begin: it is of the LUN, it was accepted by then and hasn't begun, and nothing earlier on its block waits. */
static const char *breach_of_member(const judge *j, const step *step, uint64_t id)
{
    size_t place = waiting_place(j, id);
    if (place == j->waiting_count)
        return "a request begins that doesn't wait";
    const onfi_want *member = &j->waiting[place].want;
    if (member->lun != step->lun)
        return "a request begins on another LUN than its own";
    if (j->waiting[place].since > step->start)
        return "a request begins before it is accepted";
    for (size_t earlier = 0; earlier < place; earlier++)
        if (j->waiting[earlier].want.lun == member->lun && j->waiting[earlier].want.block == member->block)
            return "a request begins before an earlier one on its block";
    return NULL;
}

/* Whether two requests of a LUN may run as one. */
static const char *breach_of_pair(const judge *j, const onfi_want *one, const onfi_want *other)
{
    const onfi_rules *rules = &j->setup->channel.rules;
    uint8_t kind = operation_of(one->kind);
    if (one->id == other->id)
        return "a request begins twice";
    if (operation_of(other->kind) != kind)
        return "a group of several kinds";
    if (!(kind == ONFI_READ ? rules->read : rules->write))
        return "a group of a kind that the device runs one by one";
    if (kind != ONFI_ERASE && one->page != other->page)
        return "a group of several pages";
    if (plane_of(rules, one->block) == plane_of(rules, other->block))
        return "a group with two requests of one plane";
    if (rules->strict && one->block >> rules->plane_bits != other->block >> rules->plane_bits)
        return "a group of blocks that a strict device doesn't take together";
    return NULL;
}

/* Whether the member of a new group at that place may begin, and run as one with those before it. */
static const char *breach_of_place(const judge *j, const step *step, size_t at)
{
    const char *breach = breach_of_member(j, step, step->member[at]);
    for (size_t before = 0; !breach && before < at; before++)
        breach = breach_of_pair(j, &j->waiting[waiting_place(j, step->member[before])].want, &j->waiting[waiting_place(j, step->member[at])].want);
    return breach;
}

/* Whether the LUN may go on, or begin that many, then: bus and LUN are free of others. */
static const char *breach_of_turn(const judge *j, const step *step, fault *wrong)
{
    const running *lun = &j->lun[step->lun];
    if (step->members > planes_of(j->setup))
        return "a group of more requests than the device has planes";
    if (step->members && lun->members)
        return "a group begins while its LUN runs another one";
    if (!step->members && !lun->members)
        return "a LUN goes on that runs nothing";
    if (step->start >= TIMES)
        return "a step without a start below 2^62 ns";
    wrong->earliest = step->start < j->bus_free ? j->bus_free : lun->may;
    if (step->start < j->bus_free)
        return "the bus isn't free";
    return step->start < lun->may ? "the LUN isn't ready" : NULL;
}

static const char *breach_of(const judge *j, const step *step, fault *wrong)
{
    if (step->lun >= j->setup->luns)
        return "there is no such LUN";
    const running *lun = &j->lun[step->lun];
    if (lun->members)
        wrong->request = lun->member[lun->next % lun->members].id;
    if (step->members)
        wrong->request = step->member[0];
    const char *breach = breach_of_turn(j, step, wrong);
    if (breach)
        return breach;
    wrong->earliest = 0;
    for (size_t at = 0; !breach && at < step->members; at++) {
        wrong->request = step->member[at];
        breach = breach_of_place(j, step, at);
    }
    return breach;
}

/* Has the members of a legal step begin: they wait no more, and stand by plane. */
static void begin(judge *j, const step *step)
{
    running *lun = &j->lun[step->lun];
    for (size_t at = 0; at < step->members; at++) {
        size_t place = waiting_place(j, step->member[at]);
        onfi_want want = j->waiting[place].want;
        unsigned to = lun->members++;
        for (; to > 0 && plane_of(&j->setup->channel.rules, lun->member[to - 1].block) > plane_of(&j->setup->channel.rules, want.block); to--)
            lun->member[to] = lun->member[to - 1];
        lun->member[to] = want;
        j->waiting_count--;
        memmove(j->waiting + place, j->waiting + place + 1, (j->waiting_count - place) * sizeof *j->waiting);
    }
}

/* Has the next phase of a LUN run: bus and LUN may have another one from then on. */
static void run_phase(judge *j, running *lun, uint64_t start)
{
    const onfi_want *want = &lun->member[lun->next % lun->members];
    onfi_spans spans = lengths_for(j->setup, want);
    bool is_post = lun->next >= lun->members, is_last_command = lun->next + 1 == lun->members;
    uint64_t array = j->setup->told ? real_array(j->setup, &lun->member[0], spans.array) : spans.array;
    j->bus_free = start + (is_post ? spans.post : spans.cmd);
    lun->may = j->bus_free + (is_post ? 0 : is_last_command ? array : spans.gap);
    j->answered += is_post;
    if (++lun->next == 2 * lun->members)
        lun->members = lun->next = 0;
}

bool judge_step(judge *j, const step *step, fault *wrong)
{
    *wrong = (fault){.time = step->start, .lun = step->lun, .request = NEVER};
    wrong->what = breach_of(j, step, wrong);
    if (wrong->what)
        return false;
    begin(j, step);
    run_phase(j, &j->lun[step->lun], step->start);
    return true;
}
