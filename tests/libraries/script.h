/* Scripts of the first form without faults, as onfi.h takes them. */
#ifndef ONFI_TESTS_SCRIPT_H
#define ONFI_TESTS_SCRIPT_H

#include <onfi.h>

#include <inttypes.h>
#include <stdio.h>
#include <stdlib.h>
#include <string.h>

static unsigned kind_of(const char *name)
{
    return name[0] == 'r' ? ONFI_READ : name[0] == 'p' ? ONFI_PROGRAM : ONFI_ERASE;
}

static unsigned numbers(char *fields, uint64_t *found)
{
    unsigned count = 0;
    for (char *field = strtok(fields, ",\n"); field; field = strtok(NULL, ",\n"))
        found[count++] = strtoull(field, NULL, 10);
    return count;
}

typedef struct {
    onfi_channel channel;
    onfi_want wants[8];
    size_t want_count;
} problem;

static void read_running(problem *p, char *fields)
{
    unsigned lun, next, page, at;
    uint64_t ready, blocks[8];
    char kind[16];
    int used;
    if (sscanf(fields, "%u,%u,%" SCNu64 ",%15[a-z],%u%n", &lun, &next, &ready, kind, &page, &used) != 5)
        exit(9);
    unsigned count = numbers(fields + used, blocks);
    onfi_lun *it = &p->channel.lun[lun];
    it->since = ready;
    it->next = (uint8_t)next;
    it->members = (uint8_t)count;
    for (at = 0; at < count; at++)
        it->member[at] = (onfi_want){.kind = (uint8_t)kind_of(kind), .lun = (uint8_t)lun, .block = (uint16_t)blocks[at], .page = (uint16_t)page};
}

static void read_row(problem *p, char *row)
{
    uint64_t n[8];
    char *fields = strchr(row, ',') + 1, *more = strchr(fields, ',');
    if (!strncmp(row, "shape", 5)) {
        numbers(fields, n);
        p->channel.lun_count = (uint8_t)n[0];
        p->channel.rules.plane_bits = (uint8_t)n[1];
        p->channel.rules.read = n[2];
        p->channel.rules.write = n[3];
    } else if (!strncmp(row, "spans", 5)) {
        numbers(more + 1, n);
        onfi_timing *t = &p->channel.timing;
        *(kind_of(fields) == ONFI_READ ? &t->read : kind_of(fields) == ONFI_PROGRAM ? &t->program : &t->erase) = (onfi_spans){n[0], n[1], n[2], n[3]};
    } else if (!strncmp(row, "bus", 3)) {
        numbers(fields, n);
        p->channel.bus_free = n[0];
    } else if (!strncmp(row, "free", 4)) {
        numbers(fields, n);
        p->channel.lun[n[0]].since = n[1];
    } else if (!strncmp(row, "strict", 6)) {
        numbers(fields, n);
        p->channel.rules.strict = n[0];
    } else if (!strncmp(row, "running", 7)) {
        read_running(p, fields);
    } else {
        unsigned kind = kind_of(fields);
        numbers(more + 1, n);
        p->wants[p->want_count] = (onfi_want){.id = p->want_count, .kind = (uint8_t)kind, .lun = (uint8_t)n[0], .block = (uint16_t)n[1], .page = (uint16_t)n[2]};
        p->want_count++;
    }
}

/* The rows of a script up to its line `end`. */
static void read_script(problem *p, FILE *script)
{
    char row[256];
    while (fgets(row, sizeof row, script) && strcmp(row, "end\n"))
        read_row(p, row);
}

#endif
