/* plan_script [plain|within|rule [LIMIT [early WEIGHT..]]] < SCRIPT: the plan text of a script of the first form without faults, by onfi_plan, and
 * checked by onfi_check. */
#include "script.h"

static problem p;
static uint8_t certificate[1 << 22];

static void print_starts(const uint64_t *starts, unsigned count)
{
    for (unsigned at = 0; at < count; at++)
        printf(" %" PRIu64, starts[at]);
    printf("\n");
}

static void print_plan(const onfi_schedule *schedule, uint64_t finish, uint64_t below)
{
    printf("ONFIPLAN 1\nfinish %" PRIu64 "\n", finish);
    if (below < finish)
        printf("below %" PRIu64 "\n", below);
    for (unsigned lun = 0; lun < schedule->luns; lun++)
        if (schedule->rest[lun].starts) {
            printf("rest %u", lun);
            print_starts(schedule->rest[lun].start, schedule->rest[lun].starts);
        }
    for (unsigned at = 0; at < schedule->groups; at++) {
        const onfi_group *group = &schedule->group[at];
        printf("group ");
        for (unsigned member = 0; member < group->members; member++)
            printf("%s%" PRIu64, member ? "+" : "", group->want[member]);
        print_starts(group->start, 2u * group->members);
    }
}

/* The plan and its certificate, and whether the check of that shows what the plan says. */
static int plan_by(const onfi_options *options)
{
    onfi_planned plan;
    onfi_verdict verdict;
    size_t bytes;
    uint32_t status = onfi_plan(&p.channel, p.wants, p.want_count, options, &plan, certificate, sizeof certificate, &bytes);
    if (status == ONFI_OVER)
        printf("over %" PRIu32 "\n", options->limit);
    if (status != ONFI_DONE)
        return (int)status;
    print_plan(&plan.schedule, plan.finish, plan.below);
    fwrite(certificate, 1, bytes, stdout);
    status = onfi_check(&p.channel, p.wants, p.want_count, &plan.schedule, plan.below, certificate, bytes, &verdict);
    return status == ONFI_DONE && verdict.finish == plan.finish && verdict.place == 0 ? 0 : 10;
}

int main(int count, char **words)
{
    static const char *const ways[] = {"plain", "within", "rule"};
    onfi_options options = ONFI_OPTIONS;
    read_script(&p, stdin);
    while (count > 1 && options.by < 3 && strcmp(words[1], ways[options.by]))
        options.by++;
    if (count > 2)
        options.limit = (uint32_t)strtoul(words[2], NULL, 10);
    options.early = count > 3;
    for (int at = 4; at < count && at < 4 + ONFI_WANTS; at++)
        options.weights.want[at - 4] = (uint16_t)strtoul(words[at], NULL, 10);
    return plan_by(&options);
}
