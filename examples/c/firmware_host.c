/* Devices, and the host: which requests come, and when. One seed gives the same ones in the same order, whatever is done with them. */
#include "firmware_channel.h"

#include <math.h>
#include <string.h>

enum { READ_BLOCKS = 512, PROGRAM_BLOCKS = 400, FIRST_PROGRAMMED = 1000, ERASE_BLOCKS = 64, FIRST_ERASED = 3000 };

static const device DEVICES[] = {
    {"tlc", 16384 + 2048, 2, {75000, 800000, 10000000}},
    {"slc", 4096 + 224, 1, {25000, 250000, 2000000}},
    {"qlc", 16384 + 2048, 2, {140000, 2500000, 15000000}},
};

const device *device_of(const char *name)
{
    for (size_t at = 0; at < sizeof DEVICES / sizeof *DEVICES; at++)
        if (!strcmp(DEVICES[at].name, name))
            return &DEVICES[at];
    return NULL;
}

/* What stands between the cycles, in ns. */
enum { SHORT_BUSY = 600, BEGINS_BUSY = 100, COLUMN_CHANGE = 500, ADDRESS_TO_DATA = 400, STATUS = 80, TURN = 100 };

static onfi_spans spans_by(uint64_t command, uint64_t array, uint64_t post)
{
    onfi_spans spans;
    spans.cmd = command;
    spans.gap = SHORT_BUSY;
    spans.array = BEGINS_BUSY + array;
    spans.post = post;
    return spans;
}

/* A cycle of commands and addresses. */
static uint64_t cycle_at(double byte)
{
    return byte >= 20 ? 20 : 25;
}

/* How long that many bytes have the bus. */
static uint64_t time_of(double bytes, double byte)
{
    return (uint64_t)(bytes * byte + 0.5);
}

static uint64_t output_of(double bytes, double byte)
{
    return 7 * cycle_at(byte) + COLUMN_CHANGE + time_of(bytes, byte) + TURN;
}

uint16_t sector_bytes_of(const device *of)
{
    return (uint16_t)(of->bytes / PAGE_SECTORS);
}

static void put_lengths(const device *of, double byte, onfi_lengths *lengths)
{
    for (unsigned count = 1; count <= PAGE_SECTORS; count++)
        lengths->sectors[count - 1] = output_of(count * sector_bytes_of(of), byte);
}

onfi_channel channel_of(const device *of, double byte, unsigned luns)
{
    uint64_t cycle = cycle_at(byte), status = 4 * cycle + STATUS + cycle + TURN;
    onfi_channel channel;
    memset(&channel, 0, sizeof channel);
    channel.timing.read = spans_by(7 * cycle, of->array[ONFI_READ], output_of(of->bytes, byte));
    channel.timing.program = spans_by(7 * cycle + ADDRESS_TO_DATA + time_of(of->bytes, byte), of->array[ONFI_PROGRAM], status);
    channel.timing.erase = spans_by(5 * cycle, of->array[ONFI_ERASE], status);
    put_lengths(of, byte, &channel.lengths);
    channel.rules.read = channel.rules.write = true;
    channel.rules.plane_bits = of->plane_bits;
    channel.lun_count = (uint8_t)luns;
    return channel;
}

unsigned sectors_of(unsigned workload)
{
    return workload == READS_4K || workload == MIXED_4K;
}

onfi_channel channel_for(const device *of, double byte, unsigned luns, unsigned workload)
{
    onfi_channel channel = channel_of(of, byte, luns);
    if (sectors_of(workload))
        channel.timing.read.post = channel.lengths.sectors[sectors_of(workload) - 1];
    return channel;
}

const onfi_spans *spans_of(const onfi_timing *timing, unsigned kind)
{
    return kind == ONFI_READ ? &timing->read : kind == ONFI_PROGRAM ? &timing->program : &timing->erase;
}

/* The next of a row of random numbers (splitmix64). */
static uint64_t next_number(uint64_t *state)
{
    *state += UINT64_C(0x9E3779B97F4A7C15);
    uint64_t mixed = (*state ^ *state >> 30) * UINT64_C(0xBF58476D1CE4E5B9);
    mixed = (mixed ^ mixed >> 27) * UINT64_C(0x94D049BB133111EB);
    return mixed ^ mixed >> 31;
}

double next_share(uint64_t *state)
{
    return (double)(next_number(state) >> 11) / 9007199254740992.0;
}

double share_of(uint64_t seed, uint64_t id)
{
    uint64_t state = seed * UINT64_C(0x2545F4914F6CDD1D) ^ id << 20;
    return next_share(&state);
}

static unsigned next_below(uint64_t *state, unsigned below)
{
    return (unsigned)((next_number(state) >> 32) * below >> 32);
}

static onfi_want want_of(unsigned kind, unsigned lun, uint64_t block, uint64_t page)
{
    onfi_want want;
    memset(&want, 0, sizeof want);
    want.kind = (uint8_t)kind;
    want.lun = (uint8_t)lun;
    want.block = (uint16_t)block;
    want.page = (uint16_t)page;
    return want;
}

/* A read of any page of the blocks that are only read, or of some of its sectors. */
static onfi_want random_read(host *h)
{
    unsigned lun = next_below(&h->wants, h->luns), block = next_below(&h->wants, READ_BLOCKS * h->planes);
    return want_of(ONFI_KIND(ONFI_READ, sectors_of(h->workload)), lun, block, next_below(&h->wants, PAGES));
}

/* Drawn apart, so that pages and sectors are read in the same order. */
uint8_t host_first(host *h, const onfi_want *want)
{
    unsigned count = want->kind >> 5;
    return count ? (uint8_t)next_below(&h->sectors, PAGE_SECTORS + 1 - count) : 0;
}

/* The next page of a run over the planes first, then the LUNs, then the pages. */
static onfi_want next_program(host *h)
{
    uint64_t place = h->programs++, row = place / h->planes / h->luns;
    unsigned lun = (unsigned)(place / h->planes % h->luns);
    return want_of(ONFI_PROGRAM, lun, (FIRST_PROGRAMMED + row / PAGES % PROGRAM_BLOCKS) * h->planes + place % h->planes, row % PAGES);
}

/* The next page of a plane of any LUN. */
static onfi_want random_program(host *h)
{
    unsigned lun = next_below(&h->wants, h->luns), plane = next_below(&h->wants, h->planes);
    uint64_t place = h->programmed[lun][plane]++;
    return want_of(ONFI_PROGRAM, lun, (FIRST_PROGRAMMED + place / PAGES % PROGRAM_BLOCKS) * h->planes + plane, place % PAGES);
}

/* An erase on plane 0; those of the other planes come after it. */
static onfi_want first_erase(host *h)
{
    unsigned lun = next_below(&h->wants, h->luns);
    h->mate = want_of(ONFI_ERASE, lun, (FIRST_ERASED + next_below(&h->wants, ERASE_BLOCKS)) * h->planes, 0);
    h->mates = h->planes - 1;
    return h->mate;
}

static onfi_want next_mate(host *h)
{
    h->mates--;
    h->mate.block++;
    return h->mate;
}

/* The share of each kind in the requests. */
static const double SHARES[WORKLOADS][KINDS] = {{0.7, 0.3, 0}, {1, 0, 0}, {0, 1, 0}, {0.65, 0.3, 0.05}, {0, 1, 0}, {1, 0, 0}, {0.7, 0.3, 0}};

onfi_want host_want(host *h)
{
    const double *shares = SHARES[h->workload];
    if (h->mates)
        return next_mate(h);
    if (h->workload == RANDOM_READS || h->workload == READS_4K)
        return random_read(h);
    if (h->workload == SEQUENTIAL)
        return next_program(h);
    if (h->workload == RANDOM_PROGRAMS)
        return random_program(h);
    double share = next_share(&h->wants), erases = shares[ONFI_ERASE] / h->planes;
    if (share < erases)
        return first_erase(h);
    return share < erases + shares[ONFI_READ] ? random_read(h) : next_program(h);
}

/* Requests come one by one, after times of which none depends on another. */
void host_arrival(host *h)
{
    h->next_arrival += 1 + (uint64_t)(-log(1 - next_share(&h->arrivals)) * h->mean_time);
}

/* How long requests have the bus in the mean. */
static double mean_bus_time(const double shares[KINDS], const onfi_timing *timing)
{
    double mean = 0;
    for (unsigned at = 0; at < KINDS; at++) {
        static const unsigned ORDER[KINDS] = {ONFI_READ, ONFI_ERASE, ONFI_PROGRAM};
        const onfi_spans *spans = spans_of(timing, ORDER[at]);
        mean += shares[ORDER[at]] * (double)(spans->cmd + spans->post);
    }
    return mean;
}

void host_open(host *h, unsigned workload, unsigned luns, const onfi_channel *channel, double load, uint64_t seed)
{
    memset(h, 0, sizeof *h);
    h->workload = workload;
    h->luns = luns;
    h->planes = 1u << channel->rules.plane_bits;
    h->wants = 2 * seed;
    h->arrivals = 2 * seed + 1;
    h->sectors = ~(2 * seed);
    if (load <= 0)
        return;
    h->mean_time = mean_bus_time(SHARES[workload], &channel->timing) / load;
    host_arrival(h);
}
