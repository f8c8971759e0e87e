/* Devices and requests of files. */
#include "rolling.h"

#include <ctype.h>
#include <stdlib.h>
#include <string.h>

enum { MOST_LINE = 512, MOST_FIELDS = 8, MOST_BLOCK = 65535, MOST_PAGE = 4095 };

#define MOST_LENGTH ((UINT64_C(1) << 50) - 1)

/* A line of a file, and its fields, which commas end. */
typedef struct {
    char text[MOST_LINE];
    char *field[MOST_FIELDS];
    size_t fields;
} row;

/* Cuts a row into its fields, without what is blank around them; those past the last place aren't looked at. */
static void cut(row *row)
{
    char *at = row->text;
    for (row->fields = 0; at && row->fields < MOST_FIELDS; row->fields++) {
        char *comma = strchr(at, ',');
        char *end = comma ? comma : at + strlen(at);
        while (isspace((unsigned char)*at))
            at++;
        while (end > at && isspace((unsigned char)end[-1]))
            end--;
        *end = 0;
        row->field[row->fields] = at;
        at = comma ? comma + 1 : NULL;
    }
}

static void skip_line(FILE *file)
{
    int byte = fgetc(file);
    while (byte != '\n' && byte != EOF)
        byte = fgetc(file);
}

/* The next row that isn't empty; false where the file ends. What a line has past the room for its text isn't looked at. */
static bool read_row(FILE *file, row *row, uint64_t *line)
{
    while (fgets(row->text, sizeof row->text, file)) {
        ++*line;
        if (!strchr(row->text, '\n'))
            skip_line(file);
        cut(row);
        if (row->fields > 1 || *row->field[0])
            return true;
    }
    return false;
}

/* The number of a field, no more than `most`. */
static bool put_field(const row *row, size_t at, uint64_t most, uint64_t *number)
{
    char *end;
    if (at >= row->fields || !isdigit((unsigned char)*row->field[at]))
        return false;
    *number = strtoull(row->field[at], &end, 10);
    return !*end && *number <= most;
}

static bool put_fields(const row *row, size_t from, size_t count, uint64_t most, uint64_t *number)
{
    bool all = row->fields >= from + count;
    for (size_t at = 0; all && at < count; at++)
        all = put_field(row, from + at, most, &number[at]);
    return all;
}

/* Of its words or their first letters. */
static bool put_kind(const char *text, uint8_t *kind)
{
    char small[MOST_LINE];
    size_t length = strlen(text);
    for (size_t at = 0; at <= length; at++)
        small[at] = (char)tolower((unsigned char)text[at]);
    for (*kind = 0; *kind < KINDS; ++*kind)
        if (!strcmp(KIND_NAMES[*kind], small) || (length == 1 && KIND_NAMES[*kind][0] == *small))
            return true;
    return false;
}

/* Devices: rows of a script of the first form, of which others aren't looked at. */

static bool put_shape(const row *row, setup *setup)
{
    uint64_t number[4];
    if (!put_fields(row, 1, 4, ONFI_LUNS, number) || !number[0] || number[1] > 2 || number[2] > 1 || number[3] > 1)
        return false;
    setup->luns = (unsigned)number[0];
    setup->channel.lun_count = (uint8_t)number[0];
    setup->channel.rules.plane_bits = (uint8_t)number[1];
    setup->channel.rules.read = number[2];
    setup->channel.rules.write = number[3];
    return true;
}

static bool put_spans(const row *row, setup *setup)
{
    onfi_spans *const of[KINDS] = {[ONFI_READ] = &setup->channel.timing.read, [ONFI_PROGRAM] = &setup->channel.timing.program, [ONFI_ERASE] = &setup->channel.timing.erase};
    uint64_t number[4];
    uint8_t kind;
    if (row->fields < 2 || !put_kind(row->field[1], &kind) || !put_fields(row, 2, 4, MOST_LENGTH, number) || !number[0] || !number[3])
        return false;
    *of[kind] = (onfi_spans){.cmd = number[0], .gap = number[1], .array = number[2], .post = number[3]};
    return true;
}

static bool put_sectors(const row *row, setup *setup)
{
    uint64_t number[2];
    if (!put_fields(row, 1, 2, MOST_LENGTH, number) || !number[0] || number[0] > ONFI_SECTORS || !number[1])
        return false;
    setup->channel.lengths.sectors[number[0] - 1] = number[1];
    return true;
}

static bool put_strict(const row *row, setup *setup)
{
    uint64_t number;
    bool is_flag = put_fields(row, 1, 1, 1, &number);
    setup->channel.rules.strict = is_flag && number;
    return is_flag;
}

static const struct {
    const char *name;
    bool (*put)(const row *row, setup *setup);
} DEVICE_ROWS[] = {{"shape", put_shape}, {"spans", put_spans}, {"sectorpost", put_sectors}, {"strict", put_strict}};

static bool put_device_row(const row *row, setup *setup)
{
    for (size_t at = 0; at < sizeof DEVICE_ROWS / sizeof *DEVICE_ROWS; at++)
        if (!strcmp(DEVICE_ROWS[at].name, row->field[0]))
            return DEVICE_ROWS[at].put(row, setup);
    return true;
}

const char *read_device(FILE *file, setup *setup, uint64_t *line)
{
    row row;
    *line = 0;
    memset(&setup->channel, 0, sizeof setup->channel);
    setup->luns = 0;
    while (read_row(file, &row, line) && strcmp(row.field[0], "end"))
        if (!put_device_row(&row, setup))
            return "not a row shape, spans, sectorpost or strict as docs/FORMATS.md has it";
    const onfi_timing *timing = &setup->channel.timing;
    *line = 0;
    setup->shortest = timing->read.post;
    if (!setup->luns || !timing->read.cmd || !timing->program.cmd || !timing->erase.cmd)
        return "rows shape and spans of each kind are asked for; `onfi_sim device FILE` prints those of rows page, sheet and strobe";
    return NULL;
}

/* Requests: time, op, lun, block, page, first sector, sectors, and the line that is reported. */

static const char *put_request(const row *row, const setup *setup, uint64_t line, uint64_t before, arrival *made)
{
    uint64_t lun, place[2], sectors[2] = {0, 0};
    *made = (arrival){.line = line};
    if (!put_field(row, 0, TIMES - 1, &made->time) || row->fields < 5 || !put_kind(row->field[1], &made->want.kind) || !put_fields(row, 2, 1, MOST_PAGE, &lun)
        || !put_field(row, 3, MOST_BLOCK, &place[0]) || !put_field(row, 4, MOST_PAGE, &place[1]) || (row->fields > 5 && !put_fields(row, 5, 2, 255, sectors))
        || (row->fields > 7 && !put_field(row, 7, UINT64_MAX, &made->line)))
        return "not time,op,lun,block,page,first sector,sectors";
    made->want.lun = (uint8_t)lun;
    made->want.block = (uint16_t)place[0];
    made->want.page = (uint16_t)place[1];
    if (made->time < before)
        return "a time before that of the line above";
    if (lun >= setup->luns)
        return "a LUN that the device doesn't have";
    if (made->want.kind == ONFI_ERASE && place[1])
        return "an erase of another page than 0";
    if (!sectors[1])
        return NULL;
    if (made->want.kind != ONFI_READ || sectors[1] > ONFI_SECTORS || !setup->channel.lengths.sectors[sectors[1] - 1])
        return "sectors of what is no read, or a number of sectors of which the device states no length";
    made->want.kind = ONFI_KIND(ONFI_READ, sectors[1]);
    return NULL;
}

/* Room for one more request. */
static bool grow(load *own, size_t *room)
{
    if (own->count < *room)
        return true;
    *room = *room ? 2 * *room : 1024;
    arrival *more = realloc(own->arrival, *room * sizeof *more);
    own->arrival = more ? more : own->arrival;
    return more != NULL;
}

/* The post of the shortest read of all; that of a page where there is none. */
static uint64_t shortest_read(const setup *setup)
{
    uint64_t shortest = NEVER;
    for (size_t at = 0; at < setup->own.count; at++) {
        const onfi_want *want = &setup->own.arrival[at].want;
        uint64_t post = operation_of(want->kind) == ONFI_READ ? lengths_for(setup, want).post : NEVER;
        shortest = post < shortest ? post : shortest;
    }
    return shortest < NEVER ? shortest : setup->channel.timing.read.post;
}

const char *read_load(FILE *file, setup *setup, uint64_t *line)
{
    load *own = &setup->own;
    size_t room = 0;
    row row;
    *line = 0;
    while (read_row(file, &row, line)) {
        if (*line == 1 && !isdigit((unsigned char)*row.field[0]))
            continue;
        if (!grow(own, &room))
            return "no memory";
        uint64_t before = own->count ? own->arrival[own->count - 1].time : 0;
        const char *wrong = put_request(&row, setup, *line, before, &own->arrival[own->count]);
        if (wrong)
            return wrong;
        own->count++;
    }
    *line = 0;
    setup->shortest = shortest_read(setup);
    return own->count ? NULL : "there is no request";
}
