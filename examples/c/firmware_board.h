/* A mock of a board, and what is simulated of it. */
#ifndef FIRMWARE_BOARD_H
#define FIRMWARE_BOARD_H

#include "firmware.h"
#include "firmware_channel.h"

enum {
    PAGE_BITS = 11,
    BLOCKS = 16384,
    BLOCK_BITS = 14,
    ROW_CYCLES = 4,
    PAGE_BYTES = 18432, /* of the largest page */
    WEAK = 4096,
    LOST = 0xFFFF, /* a program of the block failed */
    HALF = 0xFFFE  /* a program or an erase of it was reset */
};

/* What goes wrong in truth: of so many requests the one whose number has this remainder; 0: none. */
typedef struct {
    uint64_t of, at;
} fault;

typedef struct {
    device made_of;
    double byte;               /* how long one has the bus */
    unsigned luns, workload;
    size_t outstanding;        /* how many requests may be accepted and not answered */
    double load;               /* the share of the bus that arriving requests ask for; 0: a new one comes with each answer */
    double least_array;        /* how long arrays take in truth, in shares of what is stated */
    double most_array;
    bool told;                 /* R/B# shows when they are ready */
    bool polled;               /* they show it by a status alone */
    fault fails, weak, hangs;  /* a program fails; a read puts out what can't be corrected, once; an array takes longer than is stated */
    uint64_t hangs_by;         /* in ns */
    bool ends;                 /* when each request ends is printed, in place of figures */
    double late, slow;         /* by how many ns phases start later, and take longer, at most */
    uint64_t bad;              /* one of so many requests is also asked for on a block that isn't there; 0: none */
    size_t requests;           /* how many are answered before it ends */
    double seconds;            /* where not 0: how much time passes before it ends, in place of requests */
    uint64_t seed;
    planning plans;
} simulation;

/* What a LUN does in truth. */
typedef struct {
    uint8_t opener; /* of its group */
    bool is_closed; /* its array works, or has */
    unsigned members, posts; /* no members: it is free */
    uint32_t row[ONFI_MEMBERS];
    uint64_t may;   /* from when on its next phase may start */
    uint64_t said;  /* .. by what is stated */
    uint64_t rises; /* when R/B# rises before the stated time; NEVER: it doesn't, or was reported */
    uint64_t first; /* the number of its first member's request, by which its array time is drawn */
} chip;

typedef struct {
    const simulation *of;
    uint64_t cycle; /* how long a command or address cycle takes */
    unsigned page, sector; /* bytes */
    chip lun[ONFI_LUNS];
    uint16_t programmed[ONFI_LUNS][BLOCKS]; /* how many pages of each block; LOST where nobody may program or erase, HALF where nobody may program */
    bool is_erased[ONFI_LUNS][BLOCKS];      /* and since then not programmed */
    uint64_t weak_once[WEAK];               /* numbers of reads that put out what can't be corrected, by their remainders */
    uint64_t bus_free, busy;
    uint64_t delays;   /* a state of random numbers */
    const char *wrong; /* what was wrong first; null: nothing */
} board;

void board_open(board *b, const simulation *of);
/* Its device, as the library takes it. */
onfi_geometry board_geometry(const simulation *of);
/* Its bus. */
struct onfi_bus board_bus(board *b);
/* When R/B# of a LUN rises next before its stated time; NEVER where none does. */
uint64_t board_next_rise(const board *b);
uint32_t row_of(uint32_t lun, uint32_t block, uint32_t page);
/* The mock's pages hold their row and their columns, again and again: so many bytes from a column on, both multiples of 8. */
void put_bytes_of_page(uint8_t *bytes, uint32_t row, unsigned column, unsigned count);
bool are_bytes_of_page(const uint8_t *bytes, uint32_t row, unsigned column, unsigned count);

#endif
