/*
 * What the mock of a board and the simulator of examples/simulator/rolling share: devices, requests by a seed, and the greedy way.
 *
 *   firmware_host.c  devices, and which requests come, and when
 *   firmware_rule.c  of what can start soonest what ranks first
 *
 * Times are ns of the channel's clock.
 */
#ifndef FIRMWARE_CHANNEL_H
#define FIRMWARE_CHANNEL_H

#include <onfi.h>

#include <stdbool.h>
#include <stddef.h>
#include <stdint.h>

#define NEVER UINT64_MAX

enum {
    KINDS = 3,
    MOST_OUTSTANDING = 256,
    MOST_WAITING = MOST_OUTSTANDING + ONFI_MEMBERS, /* erases of several planes come together */
    PAGES = 1152,
    PAGE_SECTORS = 4
};

/* Devices. */

typedef struct {
    const char *name;
    double bytes; /* of a page with its spare ones; a sector has a quarter of them */
    uint8_t plane_bits;
    uint64_t array[KINDS]; /* how long it takes at most */
} device;

/* The device of that name: tlc, slc or qlc; null where there is none. */
const device *device_of(const char *name);
/* What is stated of it at this number of ns a byte, also of reads of 1 to PAGE_SECTORS sectors; of this number of LUNs, on which nothing runs. */
onfi_channel channel_of(const device *of, double byte, unsigned luns);
/* The same of reads that all put out what those of a workload do: for what knows no lengths of sectors. */
onfi_channel channel_for(const device *of, double byte, unsigned luns, unsigned workload);
uint16_t sector_bytes_of(const device *of);
/* The onfi_kind of an ONFI_KIND. */
static inline uint8_t operation_of(unsigned kind)
{
    return (uint8_t)(kind & 31);
}
const onfi_spans *spans_of(const onfi_timing *timing, unsigned kind);

/* The host. */

enum { MIXED, RANDOM_READS, SEQUENTIAL, WITH_ERASES, RANDOM_PROGRAMS, READS_4K, MIXED_4K, WORKLOADS };

/* How many sectors the reads of a workload want; 0: their pages. */
unsigned sectors_of(unsigned workload);

/* Where requests come from: the same ones in the same order, whatever is done with them. */
typedef struct {
    unsigned workload, luns, planes;
    uint64_t wants, arrivals, sectors; /* states of random numbers */
    uint64_t programs;        /* how many so far */
    uint64_t programmed[ONFI_LUNS][ONFI_MEMBERS]; /* and of those at random, by LUN and plane */
    onfi_want mate;           /* the erase after which `mates` more of its planes come */
    unsigned mates;
    double mean_time; /* between arrivals */
    uint64_t next_arrival;
} host;

/* With a load requests come by themselves, for that share of the bus; 0: one comes with each answer. The channel is one by channel_for. */
void host_open(host *h, unsigned workload, unsigned luns, const onfi_channel *channel, double load, uint64_t seed);
/* The next request; its number isn't the host's to give. A read of some sectors has an ONFI_KIND. */
onfi_want host_want(host *h);
/* The first of the sectors that it wants. */
uint8_t host_first(host *h, const onfi_want *want);
/* Draws when the next one comes. */
void host_arrival(host *h);
/* A number from 0 to below 1, the next of a row of random numbers. */
double next_share(uint64_t *state);
/* The one by which the array time of a group is drawn, from the number of its first request. */
double share_of(uint64_t seed, uint64_t id);

/* The greedy way. */

/* What a LUN can do next: go on with commands, with posts, or begin a group. */
typedef enum { GOES_ON, ANSWERS, BEGINS } move;

typedef struct {
    unsigned (*rank)(move does, unsigned kind); /* the lower goes first */
    bool largest; /* an idle LUN begins its largest group; else that of its oldest read, else program, else erase */
    bool by_age;  /* of one rank larger groups go first, then older ones; else the LUNs in turn */
} rule;

/* Statuses and commands of reads, then data outputs, then data of programs, then erases. */
extern const rule READS_FIRST;

typedef struct {
    unsigned lun, rank;
    uint64_t start, oldest; /* the id of its first member */
    size_t members, place[ONFI_MEMBERS]; /* of a new group its places among what waits; none: the LUN goes on */
} candidate;

/* What has the bus next by a rule, of LUNs from the one that has its turn on; false where there is nothing to do. */
bool find_next(const onfi_channel *channel, const onfi_want *want, size_t count, const rule *by, unsigned turn, candidate *best);

/* Puts the bytes that begin and end a phase (ONFI 4.2) of that kind and number, of that many members. */
void put_bytes(onfi_phase *phase);

#endif
