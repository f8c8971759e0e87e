/* What an audit asks of malloc: nothing, but for a command that begins a request, which gives it back; refused, all is as it was. */
#include <onfi.h>

#include <stdio.h>
#include <string.h>

static unsigned tried, failed, asked, given_back;
static bool is_refused;

void *__real_malloc(size_t bytes);
void *__real_realloc(void *old, size_t bytes);
void __real_free(void *old);
void *__wrap_malloc(size_t bytes);
void *__wrap_realloc(void *old, size_t bytes);
void __wrap_free(void *old);

void *__wrap_malloc(size_t bytes)
{
    asked++;
    return is_refused ? NULL : __real_malloc(bytes);
}

void *__wrap_realloc(void *old, size_t bytes)
{
    asked++;
    return is_refused ? NULL : __real_realloc(old, bytes);
}

void __wrap_free(void *old)
{
    given_back++;
    __real_free(old);
}

static void expect(const char *what, uint64_t got, uint64_t wanted)
{
    tried++;
    if (got != wanted) {
        failed++;
        printf("%s: %llu in place of %llu\n", what, (unsigned long long)got, (unsigned long long)wanted);
    }
}

/* The call answers so, and asked so often for memory, all of which it gave back. */
static void takes(const char *what, uint32_t got, uint32_t wanted, unsigned times)
{
    expect(what, got, wanted);
    expect(what, asked, times);
    expect(what, given_back, is_refused ? 0 : times);
    asked = given_back = 0;
}

int main(void)
{
    static const onfi_channel channel = {
        .timing = {.read = {140, 600, 25100, 11000}, .program = {10800, 600, 200100, 280}, .erase = {100, 600, 1500100, 280}},
        .lengths = {{2000}},
        .rules = {.read = true, .write = true, .plane_bits = 1},
        .lun_count = ONFI_LUNS,
    };
    static onfi_audit audit, before;
    static onfi_log_broken broken, none;
    onfi_phase phase = {.lun = 7, .block = 5, .page = 2};
    is_refused = true;
    takes("begin", onfi_audit_begin(&channel, &audit), ONFI_DONE, 0);
    memcpy(&before, &audit, sizeof before);
    takes("a command without memory", onfi_audit_phase(&audit, &phase, &broken), ONFI_MEMORY, 1);
    expect("the audit then", memcmp(&before, &audit, sizeof before) != 0, 0);
    expect("the breach then", memcmp(&none, &broken, sizeof none) != 0, 0);
    is_refused = false;
    takes("a command", onfi_audit_phase(&audit, &phase, &broken), ONFI_DONE, 1);
    is_refused = true;
    takes("a LUN that is ready", onfi_audit_ready(&audit, 7, 1000), ONFI_DONE, 0);
    phase.is_post = true, phase.start = 999;
    takes("a post too soon", onfi_audit_phase(&audit, &phase, &broken), ONFI_ILLEGAL, 0);
    takes("a post of nothing", onfi_audit_phase(&audit, &phase, &broken), ONFI_ILLEGAL, 0);
    printf("%u tried, %u failed\n", tried, failed);
    return failed != 0;
}
