/* What the loop by interrupts keeps; firmware_interrupts.c says what it is. */
#ifndef FIRMWARE_INTERRUPTS_H
#define FIRMWARE_INTERRUPTS_H

#include "firmware.h"

enum { NOTED = 256 }; /* how many requests wait for the driver at most */

typedef struct {
    driver *of;
    onfi_phase phase; /* what is on the bus */
    bool is_on_bus;
    uint64_t ends;  /* when it ends by what is stated */
    onfi_phase next; /* what is decided to come next */
    bool is_ahead;  /* whether that was while the bus was in use */
    uint64_t ahead; /* how many such phases began */
    uint64_t wakes; /* when the next phase may start; UINT64_MAX: none waits for its time */

    /* written by interrupts, read by the main loop */
    volatile bool has_ended;
    volatile uint64_t end;
    volatile bool is_ready[ONFI_LUNS];
    volatile uint64_t ready_since[ONFI_LUNS];
    volatile unsigned written; /* how many requests came */
    onfi_want request[NOTED];

    /* written by the main loop */
    volatile unsigned taken; /* how many of them the driver has had */
} loop;

void loop_open(loop *l, driver *of);
bool note_request(loop *l, const onfi_want *want);
void note_ready(loop *l, unsigned lun, uint64_t since);
void note_end(loop *l, uint64_t end);
bool loop_ended(loop *l, onfi_phase *phase);
bool loop_next(loop *l, uint64_t now, onfi_phase *phase);
bool loop_start(loop *l, const onfi_phase *phase, uint64_t now, const transfer *of);

#endif
