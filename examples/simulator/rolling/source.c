/* Words of devices and requests, and all requests of a run. */
#include "rolling.h"

#include <inttypes.h>
#include <string.h>

bool put_device(const char *name, double byte, setup *setup)
{
    const device *device = device_of(name);
    if (!device)
        return false;
    setup->channel = channel_of(device, byte, setup->luns);
    setup->shortest = channel_for(device, byte, setup->luns, setup->workload).timing.read.post;
    return true;
}

bool put_workload(const char *name, unsigned *workload)
{
    static const char *const names[WORKLOADS] = {[RANDOM_READS] = "reads", [MIXED] = "mixed", [SEQUENTIAL] = "sequential", [WITH_ERASES] = "erases",
                                                  [RANDOM_PROGRAMS] = "random-programs", [READS_4K] = "reads-4k", [MIXED_4K] = "mixed-4k"};
    for (*workload = 0; *workload < WORKLOADS; ++*workload)
        if (!strcmp(names[*workload], name))
            return true;
    return false;
}

onfi_spans lengths_for(const setup *setup, const onfi_want *want)
{
    unsigned sectors = want->kind >> 5;
    onfi_spans spans = *spans_of(&setup->channel.timing, operation_of(want->kind));
    if (sectors)
        spans.post = setup->channel.lengths.sectors[sectors - 1];
    return spans;
}

onfi_channel channel_of_pages(const setup *setup)
{
    onfi_channel channel = setup->channel;
    channel.timing.read.post = setup->shortest;
    return channel;
}

source source_of(const setup *setup)
{
    onfi_channel channel = channel_of_pages(setup);
    source made = {.setup = setup};
    host_open(&made.host, setup->workload, setup->luns, &channel, setup->load, setup->seed);
    return made;
}

bool is_open(const setup *setup)
{
    return setup->own.count ? !setup->closed : setup->load > 0;
}

uint64_t next_arrival(const source *s)
{
    const load *own = &s->setup->own;
    if (own->count && s->given == own->count)
        return NEVER;
    if (!is_open(s->setup))
        return 0;
    return own->count ? own->arrival[s->given].time : s->host.next_arrival;
}

bool comes_along(const source *s)
{
    return !s->setup->own.count && !is_open(s->setup) && s->host.mates > 0;
}

onfi_want next_want(source *s)
{
    if (s->setup->own.count)
        return s->setup->own.arrival[s->given++].want;
    onfi_want want = host_want(&s->host);
    if (s->setup->load > 0)
        host_arrival(&s->host);
    return want;
}

const char *const KIND_NAMES[KINDS] = {[ONFI_READ] = "read", [ONFI_PROGRAM] = "program", [ONFI_ERASE] = "erase"};

void print_source(const setup *setup, FILE *out)
{
    source source = source_of(setup);
    onfi_channel channel = channel_of_pages(setup);
    fprintf(out, "planes %u\npages %u\n", planes_of(setup), (unsigned)PAGES);
    for (unsigned kind = 0; kind < KINDS; kind++) {
        const onfi_spans *spans = spans_of(&channel.timing, kind);
        fprintf(out, "%s %" PRIu64 " %" PRIu64 " %" PRIu64 " %" PRIu64 "\n", KIND_NAMES[kind], spans->cmd, spans->gap, spans->array, spans->post);
    }
    for (size_t at = 0; at < setup->requests && next_arrival(&source) < NEVER; at++) {
        bool is_mate = source.host.mates > 0;
        onfi_want want = next_want(&source);
        fprintf(out, "%s %s %u\n", is_mate ? "mate" : "request", KIND_NAMES[operation_of(want.kind)], want.lun);
    }
}
