/* What the mock board of examples/c says of a row of phases in which one was broken on purpose, a line each. */
#include "firmware_board.h"

#include <stdio.h>
#include <string.h>

enum { PHASES = 10 };

typedef enum { COMMAND, DATA_IN, DATA_OUT, STATUS_BYTE } part;

typedef struct {
    part part;
    uint64_t start;
    uint8_t opener, closer;
    uint32_t lun, block, page;
} call;

/*
 * Two reads of LUN 0 that run as one, a read of LUN 1, two programs of LUN 1 that run as one, an erase of LUN 0. Commands of reads
 * take 175 ns, data outputs 37,639, programs 37,439, an erase's command 125, statuses 305; the gap is 600, arrays 75,100, 800,100.
 */
static const call LEGAL[PHASES] = {
    {COMMAND, 0, 0x00, 0x32, 0, 0, 5},          {COMMAND, 175, 0x00, 0x30, 1, 8, 7},
    {COMMAND, 775, 0x00, 0x30, 0, 1, 5},        {DATA_OUT, 75450, 0x06, 0xE0, 1, 8, 7},
    {DATA_OUT, 113089, 0x06, 0xE0, 0, 0, 5},    {DATA_OUT, 150728, 0x06, 0xE0, 0, 1, 5},
    {DATA_IN, 188367, 0x80, 0x11, 1, 4, 0},     {DATA_IN, 226406, 0x80, 0x10, 1, 5, 0},
    {COMMAND, 263845, 0x60, 0xD0, 0, 9, 0},     {STATUS_BYTE, 1063945, 0x78, 0x00, 1, 4, 0},
};

typedef struct {
    const char *name;
    unsigned phase;
    int64_t start;
    int opener, closer, lun, block, page; /* what is added */
    bool is_left_out;
} spoilt;

static const spoilt SPOILT[] = {
    {"nothing", 0, 0, 0, 0, 0, 0, 0, false},
    {"the bus 1 ns sooner", 1, -1, 0, 0, 0, 0, 0, false},
    {"the gap 1 ns sooner", 2, -1, 0, 0, 0, 0, 0, false},
    {"an array of reads 1 ns sooner", 3, -1, 0, 0, 0, 0, 0, false},
    {"an array of programs 1 ns sooner", 9, -1, 0, 0, 0, 0, 0, false},
    {"a LUN that isn't there", 1, 0, 0, 0, 2, 0, 0, false},
    {"a page that isn't there", 1, 0, 0, 0, 0, 0, PAGES, false},
    {"a closer of a program", 2, 0, 0, 0x10 - 0x30, 0, 0, 0, false},
    {"no command", 1, 0, 0x05, 0, 0, 0, 0, false},
    {"an erase among reads", 2, 0, 0x60, 0xD0 - 0x30, 0, 0, 0, false},
    {"the same plane twice", 2, 0, 0, 0, 0, 3, 0, false},
    {"another page in a group", 2, 0, 0, 0, 0, 0, 1, false},
    {"a command while data are owed", 5, 0, 0, 0, 0, 0, 0, true},
    {"data before the group is closed", 2, 0, 0, 0, 0, 0, 0, true},
    {"data in another order", 4, 0, 0, 0, 0, 1, 0, false},
    {"data for a status", 4, 0, 0x78 - 0x06, 0x00 - 0xE0, 0, 0, 0, false},
    {"data without their last byte", 4, 0, 0, -0xE0, 0, 0, 0, false},
    {"no program", 6, 0, 0x05, 0, 0, 0, 0, false},
    {"programs out of order", 6, 0, 0, 0, 0, 0, 1, false},
    {"a status of another page", 9, 0, 0, 0, 0, 1, 0, false},
};

/* The phase of a call, whose data are those of the page that was meant. */
static onfi_phase phase_of(const call *c, uint32_t block, uint32_t page, uint32_t lun)
{
    onfi_phase phase;
    memset(&phase, 0, sizeof phase);
    phase.opener = c->opener;
    phase.closer = c->closer;
    phase.row = lun << (PAGE_BITS + BLOCK_BITS) | block << PAGE_BITS | page;
    phase.row_cycles = ROW_CYCLES;
    return phase;
}

static const onfi_output WHOLE = {0, PAGE_BYTES};
static uint8_t data[PAGE_BYTES];

static void make_call(const struct onfi_bus *bus, const call *c)
{
    onfi_phase phase = phase_of(c, c->block, c->page, c->lun);
    uint8_t byte;
    if (c->part == COMMAND)
        bus->command(bus->board, c->start, &phase);
    else if (c->part == DATA_OUT)
        bus->data_out(bus->board, c->start, &phase, &WHOLE, data);
    else if (c->part == STATUS_BYTE)
        bus->status(bus->board, c->start, &phase, &byte);
    else {
        put_bytes_of_page(data, phase.row, 0, PAGE_BYTES);
        bus->data_in(bus->board, c->start, &phase, data);
    }
}

static call spoil(call c, const spoilt *how)
{
    c.start += (uint64_t)how->start;
    c.opener = (uint8_t)(c.opener + how->opener);
    c.closer = (uint8_t)(c.closer + how->closer);
    c.lun += (uint32_t)how->lun;
    c.block += (uint32_t)how->block;
    c.page += (uint32_t)how->page;
    return c;
}

static simulation two_luns(void)
{
    simulation of;
    memset(&of, 0, sizeof of);
    of.made_of = *device_of("tlc");
    of.byte = 2;
    of.luns = 2;
    of.least_array = of.most_array = 1;
    of.seed = 1;
    return of;
}

static void print_judgement(const simulation *of, const spoilt *how)
{
    static board mock;
    board_open(&mock, of);
    struct onfi_bus bus = board_bus(&mock);
    for (unsigned at = 0; at < PHASES && !mock.wrong; at++) {
        call c = at == how->phase ? spoil(LEGAL[at], how) : LEGAL[at];
        if (at != how->phase || !how->is_left_out)
            make_call(&bus, &c);
    }
    printf("%s: %s\n", how->name, mock.wrong ? mock.wrong : "legal");
}

/* Data of another page, and of a row that has another count of cycles. */
static void print_others(const simulation *of)
{
    static board mock;
    onfi_phase phase = phase_of(&LEGAL[6], 4, 0, 1);
    put_bytes_of_page(data, row_of(1, 5, 0), 0, PAGE_BYTES);
    board_open(&mock, of);
    struct onfi_bus bus = board_bus(&mock);
    bus.data_in(bus.board, 0, &phase, data);
    printf("data of another page: %s\n", mock.wrong);
    board_open(&mock, of);
    phase.row_cycles--;
    bus.data_in(bus.board, 0, &phase, data);
    printf("a row cycle too few: %s\n", mock.wrong);
}

/* The read of LUN 1 puts out these bytes: how long it takes, and whether they are all that is put out; else what is wrong. */
static void print_output(const simulation *of, const char *name, onfi_output output)
{
    static board mock;
    static uint8_t bytes[PAGE_BYTES + 1];
    onfi_phase phase = phase_of(&LEGAL[3], 8, 7, 1);
    board_open(&mock, of);
    struct onfi_bus bus = board_bus(&mock);
    make_call(&bus, &LEGAL[1]);
    memset(bytes, 0xA5, sizeof bytes);
    uint64_t took = bus.data_out(bus.board, LEGAL[3].start, &phase, &output, bytes) - LEGAL[3].start;
    bool are_its = !mock.wrong && are_bytes_of_page(bytes, row_of(1, 8, 7), output.column, output.bytes) && bytes[output.bytes] == 0xA5;
    if (mock.wrong)
        printf("%s: %s\n", name, mock.wrong);
    else
        printf("%s: %u ns, %s\n", name, (unsigned)took, are_its ? "its bytes" : "other bytes");
}

static void print_outputs(const simulation *of)
{
    static const struct {
        const char *name;
        onfi_output output;
    } outputs[] = {
        {"a page", {0, 18432}},           {"the first sector", {0, 4608}},       {"the last sector", {13824, 4608}}, {"two sectors", {4608, 9216}},
        {"half a sector", {0, 2304}},     {"from amid a sector on", {8, 4608}},  {"no byte", {4608, 0}},             {"a sector too many", {9216, 13824}},
        {"after the page",  {18432, 4608}},
    };
    for (size_t at = 0; at < sizeof outputs / sizeof *outputs; at++)
        print_output(of, outputs[at].name, outputs[at].output);
}

int main(void)
{
    simulation of = two_luns();
    for (size_t at = 0; at < sizeof SPOILT / sizeof *SPOILT; at++)
        print_judgement(&of, &SPOILT[at]);
    print_others(&of);
    print_outputs(&of);
    return 0;
}
