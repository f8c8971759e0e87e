/* Ways that plan a batch, and follow the plan until there is something new. */
#include "rolling.h"

#include <stdlib.h>
#include <string.h>
#include <time.h>

static void put_ages(const machine *m, unsigned lun, uint64_t *age)
{
    for (unsigned at = 0; at < m->lun[lun].members; at++)
        age[at] = m->now - m->lun[lun].member[at].arrived;
}

/* The batch as the library takes it, planned from now on. */
static problem problem_of(const machine *m, const batch *batch)
{
    problem made = {.wants = batch->count};
    say(m, batch->place, batch->count, &made.now);
    for (unsigned lun = 0; lun < m->setup->luns; lun++)
        put_ages(m, lun, made.member_age[lun]);
    for (size_t at = 0; at < batch->count; at++)
        made.age[at] = m->now - m->waiting[batch->place[at]].arrived;
    return made;
}

static int by_start(const void *one, const void *other)
{
    uint64_t a = ((const step *)one)->start, b = ((const step *)other)->start;
    return (a > b) - (a < b);
}

/* Appends the steps of a new group to the others. */
static void add_group(const problem *problem, const onfi_group *group, plan *plan)
{
    unsigned lun = 0;
    for (size_t at = 0; at < problem->wants; at++)
        if (problem->now.want[at].id == group->want[0])
            lun = problem->now.want[at].lun;
    for (size_t at = 0; at < 2u * group->members; at++) {
        step *next = &plan->step[plan->steps++];
        *next = (step){.start = group->start[at], .lun = lun, .members = at ? 0 : group->members};
        memcpy(next->member, group->want, sizeof group->want);
    }
}

/* The steps of a schedule in order of start. */
static void put_steps(const problem *problem, const onfi_schedule *schedule, plan *plan)
{
    plan->steps = plan->at = 0;
    for (unsigned lun = 0; lun < schedule->luns; lun++)
        for (unsigned at = 0; at < schedule->rest[lun].starts; at++)
            plan->step[plan->steps++] = (step){.start = schedule->rest[lun].start[at], .lun = lun};
    for (unsigned at = 0; at < schedule->groups; at++)
        add_group(problem, &schedule->group[at], plan);
    qsort(plan->step, plan->steps, sizeof *plan->step, by_start);
}

/* Notes how much processor time a plan took since `begun`, and of a way that asks for the best plans whether its search was cut. */
static void note_plan(costs *planning, clock_t begun, uint32_t status, const onfi_planned *planned, bool is_exact)
{
    double seconds = (double)(clock() - begun) / CLOCKS_PER_SEC;
    planning->plans++;
    planning->seconds += seconds;
    planning->longest = seconds > planning->longest ? seconds : planning->longest;
    planning->over += status == ONFI_DONE && is_exact && planned->below < planned->finish;
    planning->nodes += status == ONFI_DONE ? planned->opened : 0;
}

static bool make_plan(const way *way, mind *mind, const machine *m, const batch *batch)
{
    problem problem = problem_of(m, batch);
    onfi_planned planned;
    clock_t begun = clock();
    uint32_t status = way->planner(&problem, m->setup->limit, &planned);
    note_plan(&mind->planning, begun, status, &planned, !strcmp(way->name, "plan"));
    mind->told = false;
    mind->plan.wants = problem.wants;
    for (size_t at = 0; at < problem.wants; at++)
        mind->plan.want[at] = problem.now.want[at].id;
    if (status == ONFI_DONE)
        put_steps(&problem, &planned.schedule, &mind->plan);
    mind->refused = status;
    return !mind->refused;
}

static bool is_planned(const plan *plan, uint64_t id)
{
    for (size_t at = 0; at < plan->wants; at++)
        if (plan->want[at] == id)
            return true;
    return false;
}

/* Whether the batch has a request that isn't planned. */
static bool is_new(const plan *plan, const machine *m, const batch *batch)
{
    for (size_t at = 0; at < batch->count; at++)
        if (!is_planned(plan, m->waiting[batch->place[at]].want.id))
            return true;
    return false;
}

bool by_plan(const way *way, mind *mind, const machine *m, const batch *batch, step *step)
{
    if ((mind->told || is_new(&mind->plan, m, batch)) && !make_plan(way, mind, m, batch))
        return false;
    if (mind->plan.at == mind->plan.steps)
        return false;
    *step = mind->plan.step[mind->plan.at];
    step->start = later_of(step->start, soonest(m, step->lun));
    return true;
}
