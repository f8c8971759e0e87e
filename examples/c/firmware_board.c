/*
 * A mock of a board. It takes from a phase what goes over the wires, and judges it by its own books: bus free, LUN ready, waits and
 * lengths, groups, rows, columns, data, and that pages of a block are programmed in order. A request's number gives the array time alone.
 */
#include "firmware_board.h"

#include <string.h>

/* How long a LUN isn't ready after a reset, in ns. */
enum { RESET_LASTS = 500000 };

void board_open(board *b, const simulation *of)
{
    memset(b, 0, sizeof *b);
    b->of = of;
    b->cycle = of->byte >= 20 ? 20 : 25;
    b->page = (unsigned)of->made_of.bytes;
    b->sector = b->page / PAGE_SECTORS;
    for (unsigned lun = 0; lun < ONFI_LUNS; lun++)
        b->lun[lun].rises = NEVER;
}

onfi_geometry board_geometry(const simulation *of)
{
    onfi_geometry geometry;
    memset(&geometry, 0, sizeof geometry);
    geometry.blocks_per_lun = BLOCKS;
    geometry.block_bits = BLOCK_BITS;
    geometry.pages_per_block = PAGES;
    geometry.page_bits = PAGE_BITS;
    geometry.lun_count = (uint8_t)of->luns;
    geometry.lun_bits = of->luns > 4 ? 3 : of->luns > 2 ? 2 : of->luns > 1 ? 1 : 0;
    geometry.data_bytes = (uint16_t)of->made_of.bytes;
    geometry.plane_address_bits = of->made_of.plane_bits;
    geometry.column_address_cycles = 2;
    geometry.row_address_cycles = ROW_CYCLES;
    geometry.multi_plane_reads = geometry.multi_plane_writes = true;
    return geometry;
}

static bool finds(board *b, bool is_wrong, const char *what)
{
    if (is_wrong && !b->wrong)
        b->wrong = what;
    return is_wrong;
}

static unsigned block_of(uint32_t row)
{
    return row >> PAGE_BITS & (BLOCKS - 1);
}

/* The chip that a row names; null where the bus can't have its phase then. */
static chip *chip_at(board *b, uint64_t start, const onfi_phase *phase)
{
    uint32_t lun = phase->row >> (PAGE_BITS + BLOCK_BITS);
    if (finds(b, lun >= b->of->luns || phase->row % (1u << PAGE_BITS) >= PAGES, "a row that no page has"))
        return NULL;
    if (finds(b, phase->row_cycles != ROW_CYCLES, "another count of row cycles than the device has"))
        return NULL;
    if (finds(b, start < b->bus_free, "the bus isn't free"))
        return NULL;
    return &b->lun[lun];
}

static bool is_faulty(const fault *f, uint64_t id)
{
    return f->of && id % f->of == f->at;
}

/* The chip where it is ready. */
static chip *ready_chip_at(board *b, uint64_t start, const onfi_phase *phase)
{
    chip *c = chip_at(b, start, phase);
    return !c || finds(b, start < c->may, "the LUN isn't ready") ? NULL : c;
}

/* The bus is in use from `start` on for so long, or somewhat longer, and the LUN's next phase may start so long after that. */
static uint64_t pass(board *b, chip *c, uint64_t start, uint64_t length, uint64_t wait)
{
    length += (uint64_t)(next_share(&b->delays) * b->of->slow);
    b->bus_free = start + length;
    b->busy += length;
    c->may = c->said = b->bus_free + wait;
    return b->bus_free;
}

/* How long an array takes in truth. */
static uint64_t array_time(const board *b, const chip *c, uint64_t stated)
{
    double share = b->of->least_array + (b->of->most_array - b->of->least_array) * share_of(b->of->seed, c->first);
    return (uint64_t)((double)stated * share);
}

/* What a command breaks that joins the group of a chip, which has members: null where nothing. */
static const char *breach_of_joining(const board *b, const chip *c, const onfi_phase *phase)
{
    unsigned planes = 1u << b->of->made_of.plane_bits;
    uint32_t last = c->row[c->members - 1];
    if (c->is_closed)
        return "a command while its LUN owes answers";
    if (phase->opener != c->opener)
        return "a group of several kinds";
    if (c->members == planes || block_of(phase->row) % planes <= block_of(last) % planes)
        return "the planes of a group don't rise";
    if (phase->opener != 0x60 && (phase->row ^ last) % (1u << PAGE_BITS) != 0)
        return "a group of several pages";
    return NULL;
}

/* A command: it begins a group or joins one, and where it closes it the array works. Gives its end. */
static uint64_t run_command(board *b, uint64_t start, const onfi_phase *phase, const uint8_t closers[2], uint64_t length)
{
    chip *c = ready_chip_at(b, start, phase);
    if (!c || finds(b, phase->closer != closers[0] && phase->closer != closers[1], "a closer that its opener doesn't have"))
        return start;
    const char *breach = c->members ? breach_of_joining(b, c, phase) : NULL;
    if (finds(b, breach != NULL, breach))
        return start;
    if (!c->members)
        c->first = phase->want;
    c->opener = phase->opener;
    c->is_closed = phase->closer == closers[1];
    c->row[c->members++] = phase->row;
    if (!c->is_closed)
        return pass(b, c, start, length, 600);
    uint64_t stated = 100 + b->of->made_of.array[phase->opener == 0x00 ? 0 : phase->opener == 0x80 ? 1 : 2];
    uint64_t end = pass(b, c, start, length, array_time(b, c, stated));
    c->said = end + stated;
    if (is_faulty(&b->of->hangs, c->first))
        c->may = c->said + b->of->hangs_by;
    c->rises = b->of->told && c->may < c->said ? c->may : NEVER;
    return end;
}

/* A post: it answers the commands of a closed group in their order. Gives its end. */
static uint64_t run_post(board *b, uint64_t start, const onfi_phase *phase, bool is_right, uint64_t length)
{
    chip *c = ready_chip_at(b, start, phase);
    if (!c || finds(b, !is_right, "the bytes of no post"))
        return start;
    if (finds(b, !c->is_closed, "a post before its group is closed") || finds(b, (c->opener == 0x00) != (phase->opener == 0x06), "a post of another kind"))
        return start;
    if (finds(b, c->row[c->posts] != phase->row, "a post of another page than comes next"))
        return start;
    c->rises = NEVER;
    if (++c->posts == c->members) {
        c->members = c->posts = 0;
        c->is_closed = false;
    }
    return pass(b, c, start, length, 0);
}

uint32_t row_of(uint32_t lun, uint32_t block, uint32_t page)
{
    return lun << (PAGE_BITS + BLOCK_BITS) | block << PAGE_BITS | page;
}

enum { WORD = 8 };

void put_bytes_of_page(uint8_t *bytes, uint32_t row, unsigned column, unsigned count)
{
    for (unsigned at = 0; at < count; at += WORD) {
        uint64_t word = (uint64_t)row << 32 | (column + at);
        memcpy(bytes + at, &word, WORD);
    }
}

bool are_bytes_of_page(const uint8_t *bytes, uint32_t row, unsigned column, unsigned count)
{
    bool all = true;
    for (unsigned at = 0; at < count; at += WORD) {
        uint64_t word = (uint64_t)row << 32 | (column + at);
        all = all && !memcmp(bytes + at, &word, WORD);
    }
    return all;
}

/* How long so many bytes have the bus. */
static uint64_t time_of(const board *b, unsigned bytes)
{
    return (uint64_t)(bytes * b->of->byte + 0.5);
}

/* How many pages of its block are programmed. */
static uint16_t *programmed_of(board *b, uint32_t row)
{
    return &b->programmed[row >> (PAGE_BITS + BLOCK_BITS)][block_of(row)];
}

static bool *is_erased_at(board *b, uint32_t row)
{
    return &b->is_erased[row >> (PAGE_BITS + BLOCK_BITS)][block_of(row)];
}

static uint64_t board_command(void *self, uint64_t start, const onfi_phase *phase)
{
    static const uint8_t READ[2] = {0x32, 0x30}, ERASE[2] = {0xD1, 0xD0};
    board *b = (board *)self;
    if (finds(b, phase->opener != 0x00 && phase->opener != 0x60, "no command begins so"))
        return start;
    bool is_read = phase->opener == 0x00;
    if (!is_read && phase->row >> (PAGE_BITS + BLOCK_BITS) < ONFI_LUNS) {
        finds(b, *programmed_of(b, phase->row) == LOST, "an erase of a bad block");
        *programmed_of(b, phase->row) = 0;
        *is_erased_at(b, phase->row) = true;
    }
    return run_command(b, start, phase, is_read ? READ : ERASE, (is_read ? 7 : 5) * b->cycle);
}

/* Pages of a block are programmed in order; after the last the first counts as erased. */
static uint64_t board_data_in(void *self, uint64_t start, const onfi_phase *phase, const uint8_t *page)
{
    static const uint8_t PROGRAM[2] = {0x11, 0x10};
    board *b = (board *)self;
    uint64_t end = run_command(b, start, phase, PROGRAM, 7 * b->cycle + 400 + time_of(b, b->page));
    bool is_page = are_bytes_of_page(page, phase->row, 0, b->page);
    if (finds(b, phase->opener != 0x80, "no program begins so") || finds(b, !is_page, "the data of another page") || b->wrong)
        return end;
    uint16_t *programmed = programmed_of(b, phase->row);
    if (finds(b, *programmed >= HALF, "a program of a block whose last one failed or was reset"))
        return end;
    *is_erased_at(b, phase->row) = false;
    finds(b, phase->row % (1u << PAGE_BITS) != *programmed % PAGES, "pages of a block aren't programmed in order");
    *programmed = (uint16_t)(*programmed % PAGES + 1);
    return end;
}

/* What is wrong with column and count of a data output; null: nothing. */
static const char *breach_of_output(const board *b, const onfi_output *output)
{
    if (output->column % b->sector)
        return "a column at which no sector begins";
    if (output->bytes == 0 || output->bytes % b->sector)
        return "a count of bytes that no sectors have";
    return output->column + output->bytes > b->page ? "bytes past the end of a page" : NULL;
}

/* Of a weak page the first read puts out what can't be corrected. */
static bool is_weak_now(board *b, uint64_t id)
{
    uint64_t *once = &b->weak_once[id % WEAK];
    bool is_now = is_faulty(&b->of->weak, id) && *once != id + 1;
    if (is_now)
        *once = id + 1;
    return is_now;
}

/* Puts out just the bytes that are asked for, from the column on. */
static uint64_t board_data_out(void *self, uint64_t start, const onfi_phase *phase, const onfi_output *output, uint8_t *bytes)
{
    board *b = (board *)self;
    const char *breach = breach_of_output(b, output);
    if (finds(b, breach != NULL, breach))
        return start;
    put_bytes_of_page(bytes, phase->row, output->column, output->bytes);
    if (*is_erased_at(b, phase->row))
        memset(bytes, 0xFF, output->bytes);
    if (is_weak_now(b, phase->want))
        bytes[0] ^= 1;
    return run_post(b, start, phase, phase->opener == 0x06 && phase->closer == 0xE0, 7 * b->cycle + 500 + time_of(b, output->bytes) + 100);
}

static uint64_t status_time(const board *b)
{
    return 4 * b->cycle + 80 + b->cycle + 100;
}

/* The bus has a status that is no post. */
static uint64_t run_poll(board *b, uint64_t start)
{
    b->bus_free = start + status_time(b);
    b->busy += status_time(b);
    return b->bus_free;
}

/* Ready, not protected, and mostly no failure: then the block is lost. A LUN whose array takes longer than is stated says not ready. */
static uint64_t board_status(void *self, uint64_t start, const onfi_phase *phase, uint8_t *byte)
{
    board *b = (board *)self;
    chip *c = chip_at(b, start, phase);
    if (c && c->is_closed && start >= c->said && start < c->may) {
        *byte = 0x80;
        return run_poll(b, start);
    }
    bool fails = phase->kind == ONFI_PROGRAM && is_faulty(&b->of->fails, phase->want);
    if (fails)
        *programmed_of(b, phase->row) = LOST;
    *byte = fails ? 0xE1 : 0xE0;
    return run_post(b, start, phase, phase->opener == 0x78 && phase->closer == 0, status_time(b));
}

/* Whether a LUN is ready. */
static uint64_t board_poll(void *self, uint64_t start, uint32_t row, uint8_t *byte)
{
    board *b = (board *)self;
    if (finds(b, start < b->bus_free, "the bus isn't free") || finds(b, row >> (PAGE_BITS + BLOCK_BITS) >= b->of->luns, "a row that no page has"))
        return start;
    *byte = start < b->lun[row >> (PAGE_BITS + BLOCK_BITS)].may ? 0x80 : 0xE0;
    return run_poll(b, start);
}

/* What a reset leaves of the blocks that a LUN's array was working on. */
static void leave_half(board *b, const chip *c, uint64_t start)
{
    for (unsigned at = 0; c->is_closed && c->opener != 0x00 && start < c->may && at < c->members; at++)
        *programmed_of(b, c->row[at]) = HALF;
}

/* Nor has a program begun whose group isn't closed: its page isn't programmed. */
static void leave_undone(board *b, const chip *c)
{
    for (unsigned at = 0; !c->is_closed && c->opener == 0x80 && at < c->members; at++)
        --*programmed_of(b, c->row[at]);
}

/* A LUN is reset: it forgets what it was at. */
static uint64_t board_reset(void *self, uint64_t start, uint32_t row)
{
    board *b = (board *)self;
    if (finds(b, start < b->bus_free, "the bus isn't free") || finds(b, row >> (PAGE_BITS + BLOCK_BITS) >= b->of->luns, "a row that no page has"))
        return start;
    chip *c = &b->lun[row >> (PAGE_BITS + BLOCK_BITS)];
    leave_half(b, c, start);
    leave_undone(b, c);
    memset(c, 0, sizeof *c);
    c->rises = NEVER;
    pass(b, c, start, (1 + ROW_CYCLES) * b->cycle, RESET_LASTS);
    return b->bus_free;
}

/* When R/B# of a LUN rises next before its stated time. */
uint64_t board_next_rise(const board *b)
{
    uint64_t next = NEVER;
    for (unsigned lun = 0; lun < b->of->luns; lun++)
        if (b->lun[lun].rises < next)
            next = b->lun[lun].rises;
    return next;
}

struct onfi_bus board_bus(board *b)
{
    struct onfi_bus bus;
    bus.board = b;
    bus.command = board_command;
    bus.data_in = board_data_in;
    bus.data_out = board_data_out;
    bus.status = board_status;
    bus.poll = b->of->polled ? board_poll : NULL;
    bus.reset = board_reset;
    return bus;
}
