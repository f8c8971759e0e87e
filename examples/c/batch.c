/* Plans three reads of two LUNs, prints when each phase starts, and has the plan checked. */
#include <onfi.h>

#include <inttypes.h>
#include <stdio.h>
#include <stdlib.h>

static int refused(const char *what, uint32_t status)
{
    char text[80];
    size_t bytes;
    if (onfi_status_text(status, text, sizeof text, &bytes) != ONFI_DONE)
        bytes = 0;
    fprintf(stderr, "%s: %.*s (%" PRIu32 ")\n", what, (int)bytes, text, status);
    return EXIT_FAILURE;
}

int main(void)
{
    const onfi_channel channel = {
        .timing = {
            .read = {140, 600, 25100, 11000},
            .program = {10800, 600, 200100, 280},
            .erase = {100, 600, 1500100, 280},
        },
        .rules = {.read = true, .write = true, .plane_bits = 1},
        .lun_count = 2,
    };
    const onfi_options options = ONFI_OPTIONS;
    const onfi_want wants[3] = {
        {.id = 0, .kind = ONFI_READ, .lun = 0, .block = 0, .page = 5},
        {.id = 1, .kind = ONFI_READ, .lun = 0, .block = 1, .page = 5},
        {.id = 2, .kind = ONFI_READ, .lun = 1, .block = 0, .page = 0},
    };
    onfi_planned plan;
    onfi_verdict verdict;
    uint8_t certificate[4096];
    size_t bytes;

    uint32_t status = onfi_plan(&channel, wants, 3, &options, &plan, certificate, sizeof certificate, &bytes);
    if (status != ONFI_DONE)
        return refused("plan", status);

    printf("finish %" PRIu64 "\n", plan.finish);
    for (unsigned at = 0; at < plan.schedule.groups; at++) {
        const onfi_group *group = &plan.schedule.group[at];
        for (unsigned member = 0; member < group->members; member++)
            printf("request %" PRIu64 ": command at %" PRIu64 ", data output at %" PRIu64 "\n", group->want[member],
                   group->start[member], group->start[group->members + member]);
    }
    printf("%.*s", (int)bytes, (const char *)certificate);

    status = onfi_check(&channel, wants, 3, &plan.schedule, plan.below, certificate, bytes, &verdict);
    if (status != ONFI_DONE)
        return refused("check", status);
    printf("accepted %" PRIu64 "\n", verdict.finish);
    return EXIT_SUCCESS;
}
