/*
 * What the files of this driver share; firmware.c says what it is.
 *
 *   firmware.c         the driver: the pattern
 *   firmware_interrupts.c  its loop where transfers end by interrupts
 *   firmware_plans.c   the same by plans of eight
 *   firmware_greedy.c  the same without the library, by the greedy way of firmware_channel.h
 *   firmware_board.c   a mock of a board: the bus judged by a table of its own
 *   firmware_main.c    the loop, its words and its figures
 *
 * Times are ns of the channel's clock.
 */
#ifndef FIRMWARE_H
#define FIRMWARE_H

#include <onfi.h>

#include <stdbool.h>
#include <stddef.h>
#include <stdint.h>

/*
 * The bus of a channel, as a board has it. Each function begins at `start`, sends what the phase says (its opener; the row, as
 * row_cycles bytes with the lowest first, and before it the column where the command has one: the output's, else 0; its closer where it
 * isn't 0), has the bus until the time that it gives back, and returns then. Where transfers end by an interrupt it returns at once, and
 * that time means nothing (firmware_interrupts.c).
 */
struct onfi_bus {
    void *board;
    uint64_t (*command)(void *board, uint64_t start, const onfi_phase *phase);                      /* of a read or an erase */
    uint64_t (*data_in)(void *board, uint64_t start, const onfi_phase *phase, const uint8_t *page); /* a program with its data */
    /* the data of a read: output->bytes of them, from output->column on */
    uint64_t (*data_out)(void *board, uint64_t start, const onfi_phase *phase, const onfi_output *output, uint8_t *bytes);
    uint64_t (*status)(void *board, uint64_t start, const onfi_phase *phase, uint8_t *byte);        /* of a program or an erase */
    /* Read Status Enhanced (78h) of the LUN of that row, between two phases; null where the LUNs of reads need not be asked */
    uint64_t (*poll)(void *board, uint64_t start, uint32_t row, uint8_t *byte);
    uint64_t (*reset)(void *board, uint64_t start, uint32_t row); /* Reset LUN (FAh) of that of the row */
};

/* Bits of a status byte. */
enum { STATUS_FAIL = 0x01, STATUS_READY = 0x40 };

/* The driver. */

enum { QUEUE = ONFI_LUNS * (ONFI_WAITERS + ONFI_MEMBERS) }; /* how many wait in its own list at most */

enum { EARLY, WITHIN, RULE }; /* planners: requests end early; what ends first; by a rule, without a search */

/* What the caller keeps of a request, by its number. */
typedef struct {
    uint8_t first; /* of the sectors that a read wants */
    uint8_t *data; /* of a program, all bytes of its page; of a read, room for what it puts out */
} transfer;

/* How it plans, where it does. */
typedef struct {
    uint8_t planner;
    bool by_age;    /* the older a request, the more it counts */
    uint8_t reads;  /* how many times as much a read counts then */
    uint32_t limit; /* of nodes in a search */
} planning;

/* All is the driver's own and stands from the beginning: it asks for no memory itself. */
typedef struct {
    const struct onfi_bus *bus;
    onfi_geometry geometry;
    onfi_channel channel; /* as it stands */
    uint16_t sector_bytes;
    uint8_t status;   /* the last status byte; of a read whose LUN isn't asked it says ready */
    uint32_t refused; /* the status of a call that refused; ONFI_DONE: none did */
    size_t queued;
    onfi_want queue[QUEUE]; /* what waits, in order of acceptance; before it what runs again */

    /* of firmware.c: this and what stands above is all that it takes */
    onfi_dispatcher dispatcher; /* the library's: what waits, and what runs */
    onfi_dispatcher ahead;      /* a copy that runs ahead */
    bool is_given[QUEUE];       /* whether the dispatcher has what waits, at its place in the queue */
    uint8_t *bad;               /* a bit for each block of each LUN, the caller's, kept as long as the device is; null: none is kept */
    void *sender;
    void (*give_back)(void *sender, const onfi_want *want); /* a request that won't run, to who sent it; it makes no call of the driver */
    bool is_due;                /* whether what driver_next gave last is next still: nothing has changed since */
    bool is_begun;              /* whether driver_start began the phase: not where a LUN that is asked isn't ready */
    uint64_t begun;             /* .. and when */
    bool is_ahead;              /* whether the dispatcher counts it as run already */
    uint32_t late[ONFI_LUNS];   /* how many statuses of its group each LUN has given that say not ready */

    /* of plans, and of the greedy way */
    uint64_t arrived[QUEUE]; /* when what waits came */

    /* of plans */
    planning plans;
    uint64_t member_arrived[ONFI_LUNS][ONFI_MEMBERS]; /* when the members of running groups came */
    size_t batched;
    onfi_want batch[ONFI_WANTS]; /* what of the queue is planned: its first ones */
    bool has_plan;
    bool has_news;          /* a LUN has reported that it is ready since the plan was made */
    onfi_schedule schedule; /* what is left of the plan */
    uint64_t planned;       /* how many plans were made */

    /* of the greedy way */
    onfi_lun goes_on; /* the LUN that it lets go on, with its group */
} driver;

/* Begins with nothing to do, of the channel above; false where the call refused. */
bool driver_begin(driver *d);
/* A request has come, with a number above those before it. A status other than ONFI_DONE says why it isn't taken, and nothing else is changed. */
uint32_t driver_accept(driver *d, const onfi_want *want);
/* R/B# of a LUN has risen at that time, before the stated one. */
void driver_ready(driver *d, unsigned lun, uint64_t since);
/* Which phase is next, and when; false where none is, or a call refused. */
bool driver_next(driver *d, uint64_t now, onfi_phase *phase);
/*
 * Has the phase that driver_next gave last on the bus from `start` on, at or after phase->start, for this request. False where a call
 * refused. A post answers its request where the status says ready; else it hasn't run, and comes again later.
 */
bool driver_run(driver *d, const onfi_phase *phase, uint64_t start, const transfer *of);
/* The same where transfers end by an interrupt: the phase is begun, and has ended. In between no other call of the driver comes .. */
bool driver_start(driver *d, const onfi_phase *phase, uint64_t start, const transfer *of, uint64_t *end);
bool driver_end(driver *d, const onfi_phase *phase, uint64_t end);
/*
 * .. but after this one, where driver_start began it: then the phase counts as run, requests may come, and driver_next may be asked what
 * is next at `*end`, when it ends by what is stated.
 */
bool driver_ahead(driver *d, const onfi_phase *phase, uint64_t *end);
/* Asks LUNs whose arrays work, one after another, for their status; gives from when on the bus is free. */
uint64_t driver_poll(driver *d, uint64_t now);

/* Errors. Each leaves the driver so that it goes on with all other requests. */

/* A program or an erase failed: its block is bad, what waits for it is given back, and programs and erases of it are refused from now on. */
void driver_retire(driver *d, unsigned lun, unsigned block);
/* What a read put out can't be corrected: it runs once more, before all that waits. Said before the next phase, so that no erase passes it. */
bool driver_read_again(driver *d, const onfi_want *want);
/* Resets a LUN: what it reads or erases runs again before all that waits, what it programs is given back. Gives from when on the bus is free. */
bool driver_reset(driver *d, unsigned lun, uint64_t now, uint64_t *end);

/* The same by plans of eight; of a request that has come, when that was. */
void plans_accept(driver *d, const onfi_want *want, uint64_t arrived);
void plans_ready(driver *d, unsigned lun, uint64_t since);
bool plans_next(driver *d, uint64_t now, onfi_phase *phase);
bool plans_run(driver *d, const onfi_phase *phase, uint64_t start, const transfer *of);

/* The last two without the library. */
bool greedy_next(driver *d, uint64_t now, onfi_phase *phase);
bool greedy_run(driver *d, const onfi_phase *phase, uint64_t start, const transfer *of);

/* What the others have of firmware.c. */
bool went_well(driver *d, uint32_t status);
bool drive(driver *d, const onfi_phase *phase, uint64_t start, const transfer *of, uint64_t *end);
/* What the greedy way has of firmware_plans.c: a group has begun on a LUN, and its members leave the driver's own queue. */
void note_begin(driver *d, unsigned lun);
uint64_t later_of(uint64_t one, uint64_t other);

#endif
