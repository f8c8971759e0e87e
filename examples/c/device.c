/* device PAGE SHEET [STROBES]: what the bytes of a parameter page, a timing sheet and strobes say of a device. */
#include <onfi.h>

#include <errno.h>
#include <inttypes.h>
#include <stdio.h>
#include <stdlib.h>
#include <string.h>

/* What a file has, of a length that fits the room; the program ends where it can't be read. */
static size_t contents(const char *name, uint8_t *room, size_t size)
{
    FILE *file = fopen(name, "rb");
    size_t bytes = file ? fread(room, 1, size, file) : 0;
    if (!file || ferror(file)) {
        fprintf(stderr, "device: %s: %s\n", name, strerror(errno));
        exit(EXIT_FAILURE);
    }
    if (bytes == size) {
        fprintf(stderr, "device: %s: it has %zu bytes or more\n", name, size);
        exit(EXIT_FAILURE);
    }
    fclose(file);
    return bytes;
}

/* The device of these files; data and status bytes go by strobes where there is a third. */
static uint32_t read_device(const char *page_name, const char *sheet_name, const char *strobes_name, onfi_device *device, uint64_t *place)
{
    static uint8_t page[8192], sheet[8192], strobes[8192];
    size_t page_bytes = contents(page_name, page, sizeof page), sheet_bytes = contents(sheet_name, sheet, sizeof sheet);
    size_t strobes_bytes = strobes_name ? contents(strobes_name, strobes, sizeof strobes) : 0;
    return onfi_device_of_page(page, page_bytes, (const char *)sheet, sheet_bytes, (const char *)strobes, strobes_bytes, 0, device, place);
}

static void print_spans(const char *kind, const onfi_spans *spans)
{
    printf("%s %" PRIu64 " %" PRIu64 " %" PRIu64 " %" PRIu64 "\n", kind, spans->cmd, spans->gap, spans->array, spans->post);
}

int main(int count, char **words)
{
    onfi_device device;
    uint64_t place;
    if (count != 3 && count != 4) {
        fprintf(stderr, "usage: device PAGE SHEET [STROBES]\n");
        return EXIT_FAILURE;
    }
    uint32_t status = read_device(words[1], words[2], count == 4 ? words[3] : NULL, &device, &place);
    if (status != ONFI_DONE) {
        char text[80];
        size_t bytes;
        if (onfi_status_text(status, text, sizeof text, &bytes) != ONFI_DONE)
            bytes = 0;
        printf("refused %" PRIu32 " %.*s, place %" PRIu64 "\n", status, (int)bytes, text, place);
        return EXIT_FAILURE;
    }
    print_spans("read", &device.timing.read);
    print_spans("program", &device.timing.program);
    print_spans("erase", &device.timing.erase);
    printf("%d LUNs of %" PRIu32 " blocks of %d pages of %d + %d bytes, %d planes\n", device.geometry.lun_count,
           device.geometry.blocks_per_lun, device.geometry.pages_per_block, device.geometry.data_bytes,
           device.geometry.spare_bytes, 1 << device.geometry.plane_address_bits);
    printf("groups of reads %d, of programs and erases %d\n", device.rules.read, device.rules.write);
    return EXIT_SUCCESS;
}
