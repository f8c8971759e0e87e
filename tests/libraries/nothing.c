/* nothing PAGE: each call with nothing at each place where a count may be 0: in C a null pointer, in C++ an empty vector's. */
#include "options.h"

#include <stdio.h>
#include <stdlib.h>
#include <string.h>

#ifdef __cplusplus
#include <vector>
#define NOTHING(type) (std::vector<type>().data())
#else
#define NOTHING(type) ((type *)NULL)
#endif

static unsigned tried, failed;

static void expect(const char *what, uint64_t got, uint64_t wanted)
{
    tried++;
    if (got != wanted) {
        failed++;
        printf("%s: %llu in place of %llu\n", what, (unsigned long long)got, (unsigned long long)wanted);
    }
}

static onfi_channel channel;
static onfi_want wants[1];

static void begin(void)
{
    const onfi_spans spans = {100, 600, 25000, 1000};
    channel.timing.read = channel.timing.program = channel.timing.erase = spans;
    channel.bus_free = 77;
    channel.lun_count = 1;
}

static void plans(uint8_t by)
{
    const onfi_options options = options_by(by, ONFI_NODES);
    onfi_planned plan, again;
    onfi_verdict verdict;
    onfi_channel none = channel;
    uint8_t certificate[64];
    size_t bytes, told;
    none.lun_count = 0;
    expect("neither LUN nor want", onfi_plan(&none, NOTHING(onfi_want), 0, &options, &plan, NOTHING(uint8_t), 0, &bytes), ONFI_TOO_MANY);
    expect("no want", onfi_plan(&channel, NOTHING(onfi_want), 0, &options, &plan, certificate, sizeof certificate, &bytes), ONFI_DONE);
    expect("its finish", plan.finish, 77);
    expect("is checked", onfi_check(&channel, NOTHING(onfi_want), 0, &plan.schedule, 77, certificate, bytes, &verdict), ONFI_DONE);
    expect("to the end", verdict.finish, 77);
    expect("a want", onfi_plan(&channel, wants, 1, &options, &plan, certificate, sizeof certificate, &bytes), ONFI_DONE);
    expect("without its certificate", onfi_plan(&channel, wants, 1, &options, &again, NOTHING(uint8_t), 0, &told), ONFI_DONE);
    expect("whose length is told", told, bytes);
    expect("ends as soon", again.finish, plan.finish);
    expect("no certificate", onfi_check(&channel, wants, 1, &plan.schedule, 0, NOTHING(uint8_t), 0, &verdict), ONFI_BAD_HEADER);
    expect("a certificate of no want", onfi_check(&channel, NOTHING(onfi_want), 0, &plan.schedule, 0, certificate, bytes, &verdict), ONFI_ILLEGAL);
    onfi_broken broken;
    expect("nothing to break", onfi_breach(&none, NOTHING(onfi_want), 0, &plan.schedule, &broken), ONFI_TOO_MANY);
}

static const char BESIDE[] = "tWC,25\ntADL,150\ntWHR,80\ntRHW,100\ntWB,100\ntPLRBSY,500\ntPLPBSY,500\ntPLEBSY,500\n";

static const char SHEET[] = "tWC,20\ntRC,20\ntADL,100\ntWHR,80\ntRHW,100\ntWB,100\ntPLRBSY,500\ntPLPBSY,500\ntPLEBSY,500\n";

static void devices(const uint8_t *page, size_t bytes)
{
    onfi_device device;
    uint64_t place;
    expect("neither page nor sheet", onfi_device_of_page(NOTHING(uint8_t), 0, NOTHING(char), 0, NOTHING(char), 0, 0, &device, &place), ONFI_PAGE_SHORT);
    expect("no page", onfi_device_of_page(NOTHING(uint8_t), 0, SHEET, sizeof SHEET - 1, NOTHING(char), 0, 1, &device, &place), ONFI_PAGE_SHORT);
    expect("no sheet", onfi_device_of_page(page, bytes, NOTHING(char), 0, NOTHING(char), 0, 0, &device, &place), ONFI_SHEET_MISSING);
    expect("tells its first parameter", place, 1);
    expect("no strobe", onfi_device_of_page(page, bytes, BESIDE, sizeof BESIDE - 1, "\n", 1, 0, &device, &place), ONFI_STROBE_MISSING);
    expect("tells their first parameter", place, 1);
    expect("sectors without strobes", onfi_device_of_page(page, bytes, SHEET, sizeof SHEET - 1, NOTHING(char), 0, 1, &device, &place), ONFI_DONE);
    expect("of a byte each", device.lengths.sectors[6] - device.lengths.sectors[0], 120);
    expect("no sectors", onfi_device_of_page(page, bytes, SHEET, sizeof SHEET - 1, NOTHING(char), 0, 0, &device, &place), ONFI_DONE);
    expect("have no length", device.lengths.sectors[0], 0);
}

static const char *const no_script = "script refused 0 NoEnd\n";

static void expect_answer(const char *what, uint32_t status, const char *room, size_t bytes)
{
    expect(what, status, ONFI_SCRIPT_REFUSED);
    expect(what, bytes, strlen(no_script));
    expect(what, (uint64_t)memcmp(room, no_script, strlen(no_script)), 0);
}

static void texts(void)
{
    static const char *const words[] = {"plan", "plan --by within --trace", "plan --by rule --requests", "check", "check --by within", "check --legal",
                                        "audit", "audit --all"};
    for (unsigned at = 0; at < sizeof words / sizeof *words; at++) {
        char room[80];
        size_t bytes = 0;
        uint32_t status = onfi_text(words[at], strlen(words[at]), NOTHING(char), 0, room, sizeof room, &bytes);
        expect_answer(words[at], status, room, bytes);
        expect("no room for it", onfi_text(words[at], strlen(words[at]), NOTHING(char), 0, NOTHING(char), 0, &bytes), ONFI_NO_ROOM);
        expect("whose length is told", bytes, strlen(no_script));
    }
    size_t bytes = 1;
    expect("no words", onfi_text(NOTHING(char), 0, NOTHING(char), 0, NOTHING(char), 0, &bytes), ONFI_BAD_WORDS);
}

static void status_texts(void)
{
    size_t bytes;
    expect("no room for a text", onfi_status_text(ONFI_CLOCK, NOTHING(char), 0, &bytes), ONFI_NO_ROOM);
    expect("whose length is told", bytes, 24);
    expect("no text", onfi_status_text(1000, NOTHING(char), 0, &bytes), ONFI_DONE);
    expect("of no bytes", bytes, 0);
}

int main(int count, char **words)
{
    uint8_t page[1024];
    FILE *file = count == 2 ? fopen(words[1], "rb") : NULL;
    if (!file)
        return EXIT_FAILURE;
    size_t bytes = fread(page, 1, sizeof page, file);
    fclose(file);
    begin();
    plans(ONFI_PLAIN);
    plans(ONFI_WITHIN);
    plans(ONFI_RULE);
    devices(page, bytes);
    texts();
    status_texts();
    printf("%u tried, %u failed\n", tried, failed);
    return failed ? EXIT_FAILURE : EXIT_SUCCESS;
}
