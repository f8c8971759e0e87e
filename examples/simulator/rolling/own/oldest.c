/* A scheduler to start from: of all that may start soonest a LUN that goes on, else the oldest request whose LUN is free, alone. */
#include "rolling.h"

static bool decide(const way *way, mind *mind, const machine *m, const batch *batch, step *step)
{
    (void)way, (void)mind;
    *step = (struct step){.start = NEVER};
    for (unsigned lun = 0; lun < m->setup->luns; lun++)
        if (is_running(&m->lun[lun]) && soonest(m, lun) < step->start)
            *step = (struct step){.start = soonest(m, lun), .lun = lun};
    for (size_t at = 0; at < batch->count; at++) {
        const onfi_want *want = &m->waiting[batch->place[at]].want;
        if (!is_running(&m->lun[want->lun]) && soonest(m, want->lun) < step->start)
            *step = (struct step){.start = soonest(m, want->lun), .lun = want->lun, .members = 1, .member = {want->id}};
    }
    return step->start < NEVER;
}

const way own_way = {.name = "oldest", .choose = everything, .decide = decide};
