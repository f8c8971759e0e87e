/* Options in one expression. */
#ifndef ONFI_TESTS_OPTIONS_H
#define ONFI_TESTS_OPTIONS_H

#include <onfi.h>

static inline onfi_options options_by(uint8_t by, uint32_t limit)
{
    onfi_options options = ONFI_OPTIONS;
    options.by = by;
    options.limit = limit;
    return options;
}

/* So that requests end early, all of one weight. */
static inline onfi_options options_early(uint8_t by, uint32_t limit)
{
    onfi_options options = options_by(by, limit);
    options.early = true;
    return options;
}

#endif
