/*
 * The planner and the checker of ONFI channels, for C99 and C++.
 *
 * A plan is the bus schedule of up to eight requests that no legal schedule beats, with a certificate that shows it; the
 * checker says of any schedule and certificate whether they do. Both are proved: each call repeats the contract of the
 * function that it calls (docs/PROOFS.md).
 *
 * Times are ns of the channel's clock, below 2^62; lengths and waits are below 2^50.
 *
 * What each call asks of its caller, and can't test:
 *   - A pointer with a count after it points to as many items as the count says, and may be null where that is 0. No other
 *     pointer is null.
 *   - Memory that a call writes overlaps no other memory of that call.
 *   - A bool is 0 or 1. All else may have any value: what is out of its range is refused by a number.
 *   - malloc, realloc and free are those of one allocator, and align as C says.
 *   - It isn't called from a signal handler, nor from a forked child of a process with threads.
 *
 * All memory is the caller's, or is asked of malloc and given back before the call returns. Calls keep nothing, start no
 * thread and take no lock; several threads may call at the same time, each with memory of its own.
 *
 * Processors: any x86-64 and any 64-bit Arm.
 *
 * Stack: below its caller a call takes at most so much, as measured on these two, also of a certificate as deep as it can be; on a
 * 32-bit Arm an eighth more:
 *
 *     451,000 bytes: onfi_text, onfi_check
 *     203,000 bytes: onfi_plan
 *     76,000 bytes: onfi_dispatcher_begin
 *     48,000 bytes: onfi_device_of_page
 *     28,000 bytes: onfi_breach, onfi_audit_phase, onfi_audit_ready
 *     18,200 bytes: onfi_due, onfi_dispatcher_accept, onfi_dispatcher_accept_again, onfi_dispatcher_cancel, onfi_dispatcher_ran
 *     13,300 bytes: onfi_ran, onfi_audit_begin
 *     770 bytes: onfi_dispatcher_next, onfi_dispatcher_ready, onfi_output_of, onfi_row, onfi_status_text, onfi_version
 *
 * The shared library is libonfi.so.MAJOR. Until a first release, 1.0, MAJOR is 0, and each version whose second number is another may
 * change any call, struct or number; CHANGELOG.md says what stands in the place of what went. From then on no call, struct or number
 * changes its meaning or goes within a MAJOR, and no call asks its caller for more. What may come or change even then: further calls
 * and numbers of refusals, the texts of numbers, how many nodes a search opens, which of several optimal schedules is given, and which
 * certificate.
 */
#ifndef ONFI_H
#define ONFI_H

#include <stdbool.h>
#include <stddef.h>
#include <stdint.h>

#ifdef __cplusplus
extern "C" {
#endif

/* The version of this header. */
#define ONFI_VERSION_MAJOR 0
#define ONFI_VERSION_MINOR 9
#define ONFI_VERSION_PATCH 0
#define ONFI_VERSION "0.9.0"
#define ONFI_VERSION_NUMBER UINT32_C(900) /* 10,000 times the first number, 100 times the second, and the third */

/* The greatest counts. */
enum { ONFI_LUNS = 8, ONFI_WANTS = 8, ONFI_MEMBERS = 4, ONFI_STARTS = 8, ONFI_WAITERS = 64, ONFI_SECTORS = 7, ONFI_DISPATCHER_WORDS = 2048 };

/* The most nodes that a search may open. */
#define ONFI_NODES UINT32_C(1048576)

/* What a call answers. onfi_status_text gives a text of each. */
enum onfi_status {
    /* from here on written by tools/make-statuses */
    ONFI_DONE = 0, /* All went well. */
    ONFI_NO_ROOM = 3, /* A text is longer than the room for it. */
    ONFI_MEMORY = 4, /* Memory was refused. */
    ONFI_BAD_LIMIT = 5, /* A search may open no node, or more than 1,048,576. */
    ONFI_OVER = 6, /* As many nodes were opened as may be, and the search isn't over. */
    ONFI_BAD_BY = 7, /* A plan is to be found in another way than by ONFI_PLAIN, ONFI_WITHIN or ONFI_RULE. */
    ONFI_BAD_WORDS = 9, /* Words that ask for nothing that this call answers. */
    /* what a caller says of a channel */
    ONFI_ZERO_SPAN = 10, /* A command or a post takes no time. */
    ONFI_LONG_SPAN = 11, /* A length or a wait is 2^50 ns or more. */
    ONFI_BAD_PLANE_BITS = 12, /* More than 2 bits name the plane. */
    ONFI_BAD_KIND = 13, /* The kind of a want is above 2. */
    ONFI_BAD_MEMBERS = 14, /* A running group has more than 4 members. */
    /* problems */
    ONFI_TOO_MANY = 20, /* More than eight wants, no LUN, or more than eight; or 64 requests wait for the LUN. */
    ONFI_BAD_LUN = 21, /* A want or a running group that the LUNs can't have, an erase of another page than 0, or ids of wants that are equal or don't rise. */
    ONFI_CLOCK = 22, /* Times that reach 2^62 ns. */
    ONFI_BAD_PLACE = 23, /* A LUN, block or page that the device doesn't have. */
    ONFI_BAD_GEOMETRY = 24, /* A geometry that no parameter page gives. */
    ONFI_BAD_ORDER = 27, /* The number of a request isn't above that of the last one that waits for its LUN, or one of that number waits. */
    ONFI_NO_LENGTHS = 28, /* A read of so many sectors without a post of as many, or sectors of what is no read. */
    ONFI_BAD_SECTORS = 29, /* Sectors of a read that its page doesn't have, or that have no byte. */
    /* schedules */
    ONFI_BAD_SCHEDULE = 30, /* A count of a schedule is out of its range, or a start is 2^63 ns or more. */
    ONFI_NOTHING_DUE = 31, /* No phase is left, or none was given since something changed. */
    ONFI_NOT_DUE = 33, /* The phase isn't the one that is due. */
    ONFI_TOO_SOON = 34, /* The phase started before it may. */
    ONFI_NOT_WAITING = 35, /* No request of that number waits. */
    ONFI_BAD_DISPATCHER = 36, /* A dispatcher is none: something else wrote its memory. */
    /* texts of certificates */
    ONFI_BAD_HEADER = 40, /* The header line is none of a certificate. */
    ONFI_BAD_TOKEN = 41, /* No token stands at the place, or so many good ones do and the text doesn't end with one LF after them. */
    ONFI_TOO_MANY_TOKENS = 42, /* A certificate has more than 100,000,000 tokens. */
    ONFI_OTHER_OPTION = 43, /* The header names another option than the channel has. */
    /* certificates; the place is that of the token, counted from 0 */
    ONFI_ILLEGAL = 50, /* The schedule isn't legal. */
    ONFI_SHORT = 51, /* The tokens end inside a tree. */
    ONFI_TRAILING = 52, /* A token stands after the tree. */
    ONFI_WIDTH = 53, /* A branch has another width than there are moves, or there is no move. */
    ONFI_BOUND_LOW = 54, /* A bound doesn't reach the finish, or there is none. */
    ONFI_YIELD_NO_FIT = 55, /* A move of the LUN that is yielded to doesn't end in time, or there is none. */
    ONFI_YIELD_LOOP = 56, /* A move yields to its own LUN, to one that yields, or was yielded to. */
    ONFI_NOT_END = 57, /* Something is left to do, or less time has passed. */
    ONFI_ENDS_BEFORE = 58, /* The schedule ends before the time that is given. */
    /* parameter pages */
    ONFI_PAGE_SHORT = 60, /* A parameter page has fewer than 256 bytes. */
    ONFI_NO_COPY = 61, /* No copy of a parameter page has two signature bytes and the right check value. */
    /* devices that can't be driven */
    ONFI_WIDE_BUS = 70, /* The data bus has 16 bits. */
    ONFI_NO_STATUS_ENHANCED = 71, /* The device has no Read Status Enhanced. */
    ONFI_NO_COLUMN_ENHANCED = 72, /* The device has no Change Read Column Enhanced. */
    ONFI_NO_MULTI_LUN = 73, /* Several LUNs, and not at the same time. */
    ONFI_LUN_COUNT = 74, /* No LUN, or more than eight. */
    ONFI_PLANE_BITS = 75, /* More than 2 plane address bits. */
    ONFI_ZERO = 76, /* No page, no block or no data byte. */
    ONFI_ROW_TOO_WIDE = 77, /* A row address doesn't fit the row address cycles. */
    ONFI_COLUMN_TOO_WIDE = 78, /* A column address doesn't fit the column address cycles. */
    ONFI_TOO_LARGE = 79, /* More than 4,096 pages a block, 65,536 blocks a LUN or 65,535 bytes a page. */
    /* timing sheets; the place is that of the row, counted from 1, or the number of the parameter */
    ONFI_SHEET_MISSING = 80, /* The sheet gives no value for a parameter. */
    ONFI_SHEET_REPEATED = 81, /* The sheet gives a parameter twice. */
    ONFI_SHEET_UNKNOWN = 82, /* A row of the sheet is no parameter with its value. */
    ONFI_SHEET_NOT_A_NUMBER = 83, /* The value of a row of the sheet is no number. */
    ONFI_SHEET_ZERO_CYCLE = 84, /* tWC or tRC is 0. */
    ONFI_SHEET_TOO_LONG = 85, /* A value is 2^32 ns or more. */
    /* strobes; the place is that of the row, counted from 1, or the number of the parameter */
    ONFI_STROBE_MISSING = 86, /* The strobes give no value for a parameter. */
    ONFI_STROBE_REPEATED = 87, /* The strobes give a parameter twice. */
    ONFI_STROBE_UNKNOWN = 88, /* A row of the strobes is no parameter with its value. */
    ONFI_STROBE_NOT_A_NUMBER = 89, /* The value of a row of the strobes is no number. */
    /* certificates that remember states; the place is that of the token, counted from 0 */
    ONFI_UNKNOWN_NODE = 90, /* No open node has ended as that number. */
    ONFI_OTHER_LEFT = 91, /* Something else is left at the node that is named. */
    ONFI_SOONER = 92, /* A LUN may go on sooner than is asked at the node that is named. */
    ONFI_TOO_MANY_NODES = 93 /* More than 1,048,576 open nodes. */
    /* until here */
};

/* What onfi_text answers besides ONFI_DONE, ONFI_NO_ROOM, ONFI_MEMORY, ONFI_OVER and ONFI_BAD_WORDS. */
enum { ONFI_SCRIPT_REFUSED = 1, ONFI_PLAN_REFUSED = 2, ONFI_NOT_SHOWN_OPTIMAL = 8 };

/* Kinds of requests. */
enum onfi_kind { ONFI_READ = 0, ONFI_PROGRAM = 1, ONFI_ERASE = 2 };

/*
 * The kind of a read that puts out so many sectors of its page, 1 to ONFI_SECTORS (ONFI 4.2, Change Read Column Enhanced); with 0 it is
 * the onfi_kind. Its post is what the channel's lengths state of as many; command, gap and array are those of other reads, with which it
 * may run as one group. Which sectors they are isn't said: whoever asked for the read knows the first, and onfi_output_of makes the
 * column of it.
 */
#define ONFI_KIND(operation, sectors) ((uint8_t)((operation) | (sectors) << 5))

/*
 * Which condition of a legal schedule is broken. After each is what of an onfi_broken says it; what isn't named there is 0.
 *
 * They are looked at in this order, some together: 3 and 4, 14 and 15 LUN by LUN, 7 and 8 request by request, 9 to 11 group by group.
 */
enum onfi_condition {
    ONFI_BREACH_NONE = 0,            /* none: the schedule is legal */
    ONFI_BREACH_FOREIGN_LUN = 1,     /* there are starts for a LUN past the last one, which is lun */
    ONFI_BREACH_MISSING_LUN = 2,     /* it has no starts, not even none, for lun and those after it */
    ONFI_BREACH_REST_OF_FREE_LUN = 3, /* it goes on with lun, which is free */
    ONFI_BREACH_REST_COUNT = 4,      /* lun's running group has count starts, and right phases left */
    ONFI_BREACH_START_COUNT = 5,     /* never answered: a group of an onfi_schedule has two starts for each member */
    ONFI_BREACH_UNKNOWN_REQUEST = 6, /* a group names want, and none has that id */
    ONFI_BREACH_MISSING_REQUEST = 7, /* want is in no group */
    ONFI_BREACH_REPEATED_REQUEST = 8, /* want is in groups count times */
    ONFI_BREACH_MIXED_GROUP = 9,     /* want can't be grouped with other_want, the first of its group: in what they differ is difference */
    ONFI_BREACH_SINGLE_PLANE = 10,   /* want can't be grouped with other_want: by the rules no several of their kind run as one */
    ONFI_BREACH_PLANE_ORDER = 11,    /* want's plane isn't above that of other_want, right before it in the group */
    ONFI_BREACH_BUS_NOT_FREE = 12,   /* phase starts at start; the bus is free from earliest on */
    ONFI_BREACH_OVERLAP = 13,        /* phase starts at start, while other has the bus from held until earliest */
    ONFI_BREACH_NOT_READY = 14,      /* phase, the next of lun's running group, starts at start; lun is ready from earliest on */
    ONFI_BREACH_WAIT_TOO_SHORT = 15, /* phase starts at start; after other, right before it in the group, lun is ready from earliest on */
    ONFI_BREACH_RUNNING_GROUP_LEFT = 16, /* phase begins a group at start; lun's running group ends at earliest */
    ONFI_BREACH_LUN_TAKEN = 17,      /* phase begins a group at start, while that whose first is other_want has lun from held until earliest */
    ONFI_BREACH_LUN_NOT_FREE = 18,   /* phase begins a group at start; lun is free from earliest on */
    ONFI_BREACH_BLOCK_ORDER = 19     /* want's group starts at start; other_want comes first on their block, and its group ends at earliest */
};

/* In what two members of a group differ, and may not; the last is the block number above the plane bits, where groups are strict. */
enum onfi_difference { ONFI_OTHER_KIND = 1, ONFI_OTHER_LUN = 2, ONFI_OTHER_PAGE = 3, ONFI_OTHER_BLOCK = 4 };

/* What a phase is to its request: its command, the data output of a read, or the status of a program or an erase. */
enum onfi_part { ONFI_COMMAND = 0, ONFI_DATA_OUTPUT = 1, ONFI_STATUS_OUTPUT = 2 };

/* How long the phases of a kind take, in ns. */
typedef struct onfi_spans {
    uint64_t cmd;   /* a command with its address and data; at least 1 */
    uint64_t gap;   /* the wait between two commands of a group */
    uint64_t array; /* the wait between the last command and the first post */
    uint64_t post;  /* a post: a data output or a status byte; at least 1 */
} onfi_spans;

typedef struct onfi_timing {
    onfi_spans read;
    onfi_spans program;
    onfi_spans erase;
} onfi_timing;

/* How long an output of some sectors of a page holds the bus; all else is as for other reads. All 0 where no read puts out some. */
typedef struct onfi_lengths {
    uint64_t sectors[ONFI_SECTORS]; /* the post of a read of 1 to 7 sectors, in ns, below 2^50; 0 where none is stated */
} onfi_lengths;

/* What may run as one on several planes of a LUN. */
typedef struct onfi_rules {
    bool read;          /* reads may */
    bool write;         /* programs may, and erases */
    bool strict;        /* only blocks whose numbers agree above the plane bits: for a device with block address restrictions */
    uint8_t plane_bits; /* how many low bits of a block number name its plane, 0 to 2 */
} onfi_rules;

/* A request. Its plane is the one that the low bits of its block name. */
typedef struct onfi_want {
    uint64_t id;    /* a number of the caller's; each want of a list has a greater one than that before it */
    uint8_t kind;   /* an onfi_kind or an ONFI_KIND */
    uint8_t lun;    /* from 0 */
    uint16_t block; /* from 0 */
    uint16_t page;  /* from 0; an erase names page 0 */
} onfi_want;

/* What a LUN does as the planning begins. Its place among the LUNs of a channel is its number. */
typedef struct onfi_lun {
    uint64_t since;  /* from when on a group may begin, or the next phase of the running group may start, in ns */
    uint8_t members; /* how many wants its running group has, 1 to 4, planes rising; 0 where it is free */
    uint8_t next;    /* which phase of the running group comes next: its commands are 0 .., its posts follow */
    onfi_want member[ONFI_MEMBERS]; /* the wants of the running group; their ids are not looked at */
} onfi_lun;

/* A channel as it stands: its device's lengths, its rules, its bus and its LUNs. */
typedef struct onfi_channel {
    onfi_timing timing;
    onfi_lengths lengths;
    onfi_rules rules;
    uint64_t bus_free; /* from when on the bus is free, in ns */
    uint8_t lun_count;       /* 1 to ONFI_LUNS */
    onfi_lun lun[ONFI_LUNS]; /* what is past the count isn't looked at */
} onfi_channel;

/* The starts of the phases that are left of a LUN's running group. */
typedef struct onfi_rest {
    uint8_t starts;
    uint64_t start[ONFI_STARTS]; /* in ns */
} onfi_rest;

/* A new group: one to four wants of one LUN that run as one. */
typedef struct onfi_group {
    uint8_t members;
    uint64_t want[ONFI_MEMBERS]; /* the ids of its wants, planes rising */
    uint64_t start[ONFI_STARTS]; /* in ns: for each member of its command, then for each of its post */
} onfi_group;

typedef struct onfi_schedule {
    uint8_t luns;
    uint8_t groups;
    onfi_rest rest[ONFI_LUNS];    /* one for each LUN; no starts where the LUN is free */
    onfi_group group[ONFI_WANTS]; /* in a plan, by rising first start */
} onfi_schedule;

/* How much each request counts: one of weight 2 counts as two of weight 1, and one of weight 0 doesn't. */
typedef struct onfi_weights {
    uint16_t want[ONFI_WANTS];                  /* by the place in the list of wants; others mean nothing */
    uint16_t running[ONFI_LUNS][ONFI_MEMBERS];  /* of each LUN's running group, by the place of the member; others mean nothing */
} onfi_weights;

/* How a plan is found. */
enum onfi_by {
    ONFI_PLAIN = 0,  /* by a search: the plan is optimal, and its certificate a plain one; or ONFI_OVER after as many nodes as may be */
    ONFI_WITHIN = 1, /* by a search that remembers states, as its certificate does: after as many nodes as may be the best that it found */
    ONFI_RULE = 2    /* by a rule, in one pass and without a search, so in microseconds */
};

/* How a batch is planned. ONFI_OPTIONS is what a caller begins with that wants nothing else. */
typedef struct onfi_options {
    uint32_t limit;       /* how many nodes a search opens at most, 1 to ONFI_NODES */
    uint8_t by;           /* an onfi_by */
    bool early;           /* whether the plan is made better: requests end early, by their weights, and the last phase no later */
    onfi_weights weights; /* looked at where early is true */
} onfi_options;

/* By the plain search of at most ONFI_NODES nodes, and not early: onfi_options options = ONFI_OPTIONS; each request counts as much as another. */
#define ONFI_OPTIONS \
    {                                                                                                                                  \
        ONFI_NODES, ONFI_PLAIN, false,                                                                                                 \
        {                                                                                                                              \
            {1, 1, 1, 1, 1, 1, 1, 1},                                                                                                  \
            {{1, 1, 1, 1}, {1, 1, 1, 1}, {1, 1, 1, 1}, {1, 1, 1, 1}, {1, 1, 1, 1}, {1, 1, 1, 1}, {1, 1, 1, 1}, {1, 1, 1, 1}}            \
        }                                                                                                                              \
    }

typedef struct onfi_planned {
    onfi_schedule schedule; /* places that it doesn't fill are 0 */
    uint64_t finish;        /* when its last phase ends, in ns; where there is none, from when on the bus is free */
    uint64_t below;         /* nothing ends before this time, in ns, as the certificate shows; the schedule is optimal where it is the finish */
    uint32_t opened;        /* how many nodes the search opened, or its last walk where it walks several times; 0 by the rule */
} onfi_planned;

typedef struct onfi_verdict {
    uint64_t finish; /* when the schedule ends, in ns, where it is accepted; else 0 */
    uint64_t place;  /* the token that a refusal speaks of, counted from 0; else 0 */
} onfi_verdict;

/* A phase of a schedule by its name: whose command or post it is. */
typedef struct onfi_named {
    uint64_t want;   /* the id of its request; 0 where is_running is true */
    uint16_t block;  /* where is_running is true the block of its member, else 0 */
    uint8_t lun;     /* .. and its LUN */
    uint8_t part;    /* an onfi_part */
    bool is_running; /* whether it is of a group that runs as the planning begins, whose members' ids aren't looked at */
} onfi_named;

/* The condition that a schedule breaks, and what says it: onfi_condition has which of these are named by which condition, others are 0. */
typedef struct onfi_broken {
    onfi_named phase;    /* the phase that starts too soon */
    onfi_named other;    /* the phase before it, or that has the bus */
    uint64_t want;       /* the id of the request that is spoken of */
    uint64_t other_want; /* that of the other one: the first of its group, the one before it, or the earlier one on its block */
    uint64_t start;      /* when the phase starts by the schedule, in ns */
    uint64_t earliest;   /* from when on it could, as far as this condition goes, in ns */
    uint64_t held;       /* since when what is in its way has the bus or the LUN, in ns */
    uint64_t count;      /* how many there are */
    uint64_t right;      /* how many there have to be */
    uint8_t condition;   /* an onfi_condition */
    uint8_t lun;         /* the LUN that is spoken of */
    uint8_t difference;  /* an onfi_difference */
} onfi_broken;

typedef struct onfi_geometry {
    uint32_t blocks_per_lun; /* 1 to 65,536 */
    uint32_t page_bits;      /* bits of a page number in a row address, at most 12 */
    uint32_t block_bits;     /* of a block number, at most 16 */
    uint32_t lun_bits;       /* of a LUN number, at most 3 */
    uint16_t pages_per_block; /* 1 to 4,096 */
    uint16_t data_bytes;      /* of a page, at least 1 */
    uint16_t spare_bytes;     /* of a page */
    uint8_t lun_count;          /* 1 to 8 */
    uint8_t plane_address_bits; /* 0 to 2 */
    uint8_t column_address_cycles;
    uint8_t row_address_cycles;
    bool any_page_order;     /* pages of a block may be programmed in any order */
    bool multi_plane_writes; /* several planes may program or erase at the same time */
    bool multi_plane_reads;  /* several planes may read at the same time */
} onfi_geometry;

/*
 * A device by its parameter page. Its rules are never strict: byte 114 of the page, the multi-plane attributes, isn't looked at.
 * Bit 1 of that byte says, where it is set, that there are no block address restrictions; where it is clear, set rules.strict = 1.
 */
typedef struct onfi_device {
    onfi_timing timing;
    onfi_lengths lengths; /* as of a channel: a channel of this device begins with these three */
    onfi_rules rules;
    onfi_geometry geometry;
} onfi_device;

/*
 * Which condition a phase of a log breaks. After each is what of an onfi_log_broken says it; what isn't named there is 0.
 *
 * They are looked at in this order, of a LUN that is there those that its state allows.
 */
enum onfi_log_condition {
    ONFI_LOG_NONE = 0,            /* none: the phase is legal */
    ONFI_LOG_NO_LUN = 1,          /* the channel has no lun */
    ONFI_LOG_NOTHING_RUNS = 2,    /* a post on lun, which has none left */
    ONFI_LOG_OTHER_PHASE = 3,     /* lun's group has another phase next: the command, or where is_post is true the post, of block and page */
    ONFI_LOG_UNKNOWN_REQUEST = 4, /* never answered: each command brings its own request */
    ONFI_LOG_BLOCK_ORDER = 5,     /* never answered, for the same reason */
    ONFI_LOG_NOT_GROUPED = 6,     /* request want makes no group with what its LUN has had commands of, whose first is other_want */
    ONFI_LOG_BUS_NOT_FREE = 7,    /* the phase starts at start; the bus is free from earliest on */
    ONFI_LOG_LUN_NOT_FREE = 8,    /* a group starts on lun at start; lun is free from earliest on */
    ONFI_LOG_NOT_READY = 9        /* a further phase of lun's group starts at start; lun is ready from earliest on */
};

/* The condition that a phase of a log breaks, and what says it: onfi_log_condition has which of these are named by which condition. */
typedef struct onfi_log_broken {
    uint64_t want;       /* the number of the request that is spoken of: how many the log began before it */
    uint64_t other_want; /* that of the other one */
    uint64_t start;      /* when the phase starts, in ns */
    uint64_t earliest;   /* from when on it could, as far as this condition goes, in ns */
    uint16_t block;
    uint16_t page;
    uint8_t condition;   /* an onfi_log_condition */
    uint8_t lun;         /* the LUN that is spoken of */
    bool is_post;
} onfi_log_broken;

/* What a log has of a LUN besides what the channel says of it. */
typedef struct onfi_stage {
    uint64_t more;   /* while is_open isn't 0: from when on a further command may join its group, in ns */
    uint8_t is_open; /* not 0 while it has had commands alone, so that its group may get more members: since is when the first post may start */
} onfi_stage;

/*
 * What a log has left: the caller's memory, which onfi_audit_begin writes, and which the other calls of an audit read and write. Whatever
 * it has, no call goes wrong: what is out of its range is refused.
 */
typedef struct onfi_audit {
    onfi_channel channel;       /* as it stands; while a LUN's group is open its next means nothing */
    uint64_t accepted;          /* how many requests began: the id of the next one */
    onfi_stage stage[ONFI_LUNS]; /* what is past the channel's count means nothing */
} onfi_audit;

/* A phase on the bus: a command with its address and data, or a post, which is a data output or a status byte. */
typedef struct onfi_phase {
    uint64_t start;     /* when it starts by the schedule, in ns */
    uint64_t end;       /* when it ends if it starts then, in ns */
    uint64_t want;      /* the id of its request; of a running group's the id that the member has in the list of LUNs */
    uint32_t row;       /* the row address of its page */
    uint16_t block;
    uint16_t page;
    uint8_t lun;
    uint8_t kind;       /* that of its request, as onfi_output_of takes it */
    uint8_t number;     /* its number in its group: commands are 0 .., posts follow */
    uint8_t members;    /* how many requests its group has */
    uint8_t opener;     /* the first command byte (ONFI 4.2): 00h, 80h, 60h; of a data output 06h, of a status 78h */
    uint8_t closer;     /* the last one: 30h, 10h, D0h; with more of its group after it 32h, 11h, D1h; of a data output E0h; of a status 0: none */
    uint8_t row_cycles; /* how many cycles of the row address, lowest byte first */
    bool is_post;
} onfi_phase;

/* What a phase puts out of its page. */
typedef struct onfi_output {
    uint16_t column; /* at which byte of the page it begins: the column address, of which geometry.column_address_cycles cycles go out, lowest byte first */
    uint16_t bytes;  /* how many bytes the host takes; 0 where it takes no byte of a page */
} onfi_output;

/*
 * What is kept of a channel that goes phase by phase: 16 KiB of the caller's memory, which the calls onfi_dispatcher_.. alone write, and
 * which nothing need clear before onfi_dispatcher_begin. It may be copied between two calls. Who writes it otherwise is answered as if
 * the channel were another, or ONFI_BAD_DISPATCHER; no call reads or writes past it.
 */
typedef struct onfi_dispatcher {
    uint64_t kept[ONFI_DISPATCHER_WORDS];
} onfi_dispatcher;

/*
 * The ONFI_VERSION_NUMBER of the library. A program whose header has a greater one may use calls that the library doesn't
 * have.
 */
uint32_t onfi_version(void);

/*
 * Plans the wants of a channel, as the options say.
 *
 * Gives the plan, and where there is room for any byte the text of its certificate, for onfi_check; *certificate_bytes says how many
 * bytes that text has, without a final NUL: some hundred mostly, and megabytes at worst.
 *
 *   ONFI_PLAIN   nothing ends before plan->finish, which is plan->below.
 *   ONFI_WITHIN  nothing ends before plan->below. It is less than plan->finish only where the search tree has more nodes than the limit;
 *                then it is the greatest time that is shown of all that the search left open, and the plan ends no later than that by
 *                the rule. 65,536 nodes were enough in nearly all batches that were tried.
 *   ONFI_RULE    again and again each LUN gives its next phase, or a group that may start, its oldest read, else program, else erase,
 *                with all that can join it; and of these phases the one goes that may start soonest. plan->below is the greatest time
 *                that a bound shows, by a certificate of one token.
 *
 * With options->early the plan is made better: it ends no later and has the same certificate, and the sum over all requests of their
 * weight times the end of their last phase is no greater; that none has a lesser one isn't promised.
 *
 * ONFI_DONE, or ONFI_NO_ROOM where 0 < certificate_room < *certificate_bytes: the plan is given, and the room is as it was. Else nothing
 * is given and *certificate_bytes is 0; the answer is the first of: ONFI_BAD_BY; ONFI_BAD_LIMIT, by the rule too; the channel's faults:
 * ONFI_TOO_MANY, where lun_count is above ONFI_LUNS; ONFI_ZERO_SPAN or ONFI_LONG_SPAN of reads, programs, erases; ONFI_LONG_SPAN of the
 * lengths of sectors; ONFI_BAD_PLANE_BITS; ONFI_BAD_MEMBERS; ONFI_BAD_KIND; ONFI_TOO_MANY of wants, or where there is no LUN;
 * ONFI_BAD_LUN; ONFI_NO_LENGTHS; ONFI_CLOCK; and ONFI_OVER by ONFI_PLAIN. ONFI_MEMORY may stand in place of any after ONFI_BAD_KIND.
 */
uint32_t onfi_plan(const onfi_channel *channel, const onfi_want *wants, size_t want_count, const onfi_options *options,
                   onfi_planned *plan, uint8_t *certificate, size_t certificate_room, size_t *certificate_bytes);

/*
 * Checks by the text of a certificate that no legal schedule of the wants ends before `below`, in ns, and that this one is legal and
 * doesn't either; where `below` is 0, that none ends sooner than this one. Whoever made them need not be trusted. The header line says
 * which kind of certificate it is. Of one that remembers states 80 bytes are kept of each open node until the call returns, so who bounds
 * the text bounds the memory. A plain one shows that none ends sooner, whatever `below` is.
 *
 * ONFI_DONE: verdict->finish says when the schedule ends, which is optimal where that is `below`, or `below` is 0. Else the answer is the
 * first of the channel's faults as by onfi_plan; ONFI_BAD_SCHEDULE; a fault of the text (40 ..), ONFI_ILLEGAL, ONFI_ENDS_BEFORE where the
 * schedule ends before `below`, a fault of the tokens (51 .., 90 ..), with verdict->place; of a plain certificate ONFI_ENDS_BEFORE comes
 * last. An id that no want has makes a schedule illegal; onfi_breach says which condition of ONFI_ILLEGAL is broken. ONFI_MEMORY may
 * stand in place of any after ONFI_BAD_KIND.
 */
uint32_t onfi_check(const onfi_channel *channel, const onfi_want *wants, size_t want_count, const onfi_schedule *schedule,
                    uint64_t below, const uint8_t *certificate, size_t certificate_bytes, onfi_verdict *verdict);

/*
 * Whether a schedule is legal, and which condition it breaks first where it isn't: the reason of ONFI_ILLEGAL of onfi_check. No
 * certificate is looked at. broken->condition says which, and of which requests, LUNs, phases and times.
 *
 * ONFI_DONE where the schedule is legal, and *broken is all 0: ONFI_BREACH_NONE. ONFI_ILLEGAL where it isn't, with the condition. Else
 * *broken is as it was, and the answer is the first of the channel's faults as by onfi_plan; ONFI_BAD_SCHEDULE. ONFI_MEMORY may stand in
 * place of any after ONFI_BAD_KIND.
 *
 * Proved: the condition is broken, and what is said of requests, LUNs, phases, counts and times is so. Shown by tests alone: that none
 * is that is looked at before it.
 */
uint32_t onfi_breach(const onfi_channel *channel, const onfi_want *wants, size_t want_count, const onfi_schedule *schedule,
                     onfi_broken *broken);

/*
 * Gives the phase that is due: the undone one of least start, with its address and its command bytes. `schedule` is what is
 * left of a plan of these LUNs and wants, or any other legal schedule of them. Of the schedule only this phase is looked at:
 * that the bus is free and its LUN ready by then, and that a new group may start. So of a schedule that isn't legal a phase may
 * be given, one that may run; a check of the whole is onfi_check's. No memory is asked for.
 *
 * ONFI_DONE; else nothing is given, and the answer is the first of the channel's and the problem's faults as by onfi_plan;
 * ONFI_BAD_SCHEDULE; ONFI_ILLEGAL, where the phase of least start may not run, or none has a start and something waits or runs;
 * ONFI_BAD_GEOMETRY; ONFI_NOTHING_DUE; ONFI_BAD_PLACE, where the device doesn't have the page. ONFI_MEMORY is never answered.
 */
uint32_t onfi_due(const onfi_channel *channel, const onfi_want *wants, size_t want_count, const onfi_geometry *geometry,
                  const onfi_schedule *schedule, onfi_phase *phase);

/*
 * Makes of all that is said what stands after the phase that is due, once it ran from `started` on, in ns: the bus is free
 * from its end; its LUN goes on with its group, or is free after the last post; a group that began has left the wants and
 * runs on its LUN; and all starts that are left are later by as much as `started` is after the phase's start. The first
 * *want_count of the wants wait, of ONFI_WANTS places; what is past them stays as it is. `lun` and `number` are those of
 * the phase, as onfi_due gives them.
 *
 * A phase may start late, and the rest waits for it: a legal schedule stays legal, so the channel stays what this call made of
 * it until a new plan is made. A lesser `since` may say that a LUN is ready early. As by onfi_due
 * only the phase is looked at, and no memory is asked for.
 *
 * ONFI_DONE; else all is as it was, and the answer is the first of: ONFI_TOO_MANY, where *want_count is above ONFI_WANTS; the
 * channel's and the problem's faults as by onfi_plan; ONFI_BAD_SCHEDULE; ONFI_ILLEGAL, as by onfi_due; ONFI_NOTHING_DUE;
 * ONFI_NOT_DUE, where another phase is due; ONFI_TOO_SOON, where `started` is before its start; ONFI_CLOCK, where a phase would
 * start at 2^62 ns or later, or what is left could last until then: so no later call answers ONFI_CLOCK or ONFI_NO_LENGTHS of what this
 * one made.
 * ONFI_MEMORY is never answered.
 */
uint32_t onfi_ran(onfi_channel *channel, onfi_want wants[ONFI_WANTS], size_t *want_count, onfi_schedule *schedule, uint8_t lun,
                  uint8_t number, uint64_t started);

/*
 * A channel that goes phase by phase, without batches and plans: a dispatcher takes requests as they come, and gives one phase after
 * another, of what each LUN goes on with and of all that waits. It keeps its books from call to call. No memory is asked for.
 *
 *     status = onfi_dispatcher_begin(&dispatcher, &channel, &geometry);
 *     for (;;) {
 *         .. onfi_dispatcher_accept(&dispatcher, &want) each request that has come; one that is refused changes nothing ..
 *         status = onfi_dispatcher_next(&dispatcher, now, &phase);
 *         .. ONFI_NOTHING_DUE: wait for a request; phase.start > now: wait until then, or for a request, and ask again ..
 *         .. else run it on the bus from `started` on ..
 *         status = onfi_dispatcher_ran(&dispatcher, started);
 *     }
 *
 * Each of these calls answers ONFI_BAD_DISPATCHER before all else where it sees that something else wrote the dispatcher's memory.
 */

/*
 * Has a dispatcher begin with a channel and its device as they are said: nothing waits. Both are looked at here, and by no later call.
 *
 * ONFI_DONE; else *dispatcher is as it was, and the answer is the first of: the channel's faults as by onfi_audit_begin, of which
 * ONFI_BAD_LUN is that of a running group with a member of another LUN; ONFI_BAD_GEOMETRY; ONFI_BAD_PLACE, where the device lacks a
 * page of what a LUN runs.
 */
uint32_t onfi_dispatcher_begin(onfi_dispatcher *dispatcher, const onfi_channel *channel, const onfi_geometry *geometry);

/*
 * Takes a request in, after the others that wait for its LUN. Its id is one that none had before, its kind an onfi_kind or an ONFI_KIND.
 *
 * ONFI_DONE; else all is as it was, and the answer is the first of: ONFI_BAD_KIND, where the five low bits of its kind are above 2;
 * ONFI_BAD_PLACE, where the device has no such LUN, block or page; ONFI_BAD_LUN, where it erases another page than 0; ONFI_NO_LENGTHS,
 * where it puts out so many sectors that no length is stated of them, or is a program or an erase with sectors; ONFI_BAD_LUN, where
 * the channel began with fewer LUNs; ONFI_TOO_MANY, where ONFI_WAITERS wait for its LUN; ONFI_BAD_ORDER, where its id isn't above that
 * of the last of these, or a request of its id waits among them.
 */
uint32_t onfi_dispatcher_accept(onfi_dispatcher *dispatcher, const onfi_want *want);

/*
 * Takes in a request that began and has to run once more, as after a read that is tried again or a reset: before all that waits for its
 * LUN. It may have the id that it had.
 *
 * The same is answered, but for the last: ONFI_BAD_ORDER, where a request of its id waits for its LUN.
 */
uint32_t onfi_dispatcher_accept_again(onfi_dispatcher *dispatcher, const onfi_want *want);

/*
 * Has the request of that id wait no more: of the lowest LUN for which one does. What began goes on.
 *
 * ONFI_DONE; else all is as it was, and the answer is ONFI_NOT_WAITING, where none of that id waits.
 */
uint32_t onfi_dispatcher_cancel(onfi_dispatcher *dispatcher, uint64_t id);

/*
 * Gives the phase that is next where it is `now`, with its address and its command bytes; its kind is that of its request, an onfi_kind
 * or an ONFI_KIND, as onfi_output_of takes it. It is due until the next call that changes something. A LUN that runs a group goes on
 * with it. Another one begins the oldest of its requests that is due, else its oldest read, else program, else erase, with the mates
 * that may join it; a request is due once 128 groups with a later one began on its LUN, an erase once 512 did. Programs that lack their
 * last plane wait for mates while they have the newest accepted program and a LUN has work. Of these phases the one goes that may start
 * soonest; crates/onfi_steady has the rest. It starts as soon as the bus is free, its LUN is ready and it is `now`.
 *
 * ONFI_DONE; else no phase is given and none is due, and the answer is: ONFI_NOTHING_DUE, where nothing runs and nothing waits; or
 * ONFI_CLOCK, where the phase would start at 2^62 ns or later.
 */
uint32_t onfi_dispatcher_next(onfi_dispatcher *dispatcher, uint64_t now, onfi_phase *phase);

/*
 * Says that the phase that is due ran from `started` on, in ns, at or after its start: the bus is free from its end, its LUN goes on or
 * is free, and a group that began waits no more; it passed over what waits for its LUN and was accepted before one of it.
 *
 * ONFI_DONE; else all is as it was, and the answer is the first of: ONFI_NOTHING_DUE, where no phase was given since something changed;
 * ONFI_TOO_SOON, where `started` is before its start; ONFI_CLOCK, where it is 2^62 ns or later.
 */
uint32_t onfi_dispatcher_ran(onfi_dispatcher *dispatcher, uint64_t started);

/*
 * Says that the array of a LUN was done at that moment, in ns, as its status said: the first post of its group may start from then on,
 * or as before where that is sooner.
 *
 * ONFI_DONE; else all is as it was, and the answer is the first of: ONFI_BAD_LUN, where the channel has no such LUN; ONFI_NOT_DUE,
 * where its next phase isn't the first post of a group.
 */
uint32_t onfi_dispatcher_ready(onfi_dispatcher *dispatcher, uint8_t lun, uint64_t moment);

/*
 * Logs: whether each phase that a channel had was legal after those before it, one at a time and of any number. What a log has left stands
 * in an onfi_audit of the caller's.
 *
 *     status = onfi_audit_begin(&channel, &audit);
 *     .. each phase that the bus had, in order ..
 *         status = onfi_audit_phase(&audit, &phase, &broken);
 *
 * Has an audit begin with the channel as it is said.
 *
 * ONFI_DONE; else *audit is as it was, and the answer is the first of the channel's faults as by onfi_plan. No memory is asked for.
 */
uint32_t onfi_audit_begin(const onfi_channel *channel, onfi_audit *audit);

/*
 * Judges the next phase of a log. Of the phase start, lun, kind, block, page and is_post are looked at, and nothing else: it may be one of
 * onfi_due or onfi_dispatcher_next with the start that it really had. A command on a LUN that is free, or that has had commands alone since it was,
 * begins a request of its own; commands that follow each other on a LUN without a post between are one group. In which order requests of
 * one block were asked for isn't known here, so it isn't looked at.
 *
 * ONFI_DONE: it is legal, and *broken is all 0. ONFI_ILLEGAL: it breaks a condition, which *broken names. Then it counts as run where it
 * only came too soon (ONFI_LOG_BUS_NOT_FREE, .._LUN_NOT_FREE, .._NOT_READY and nothing else), and holds the bus beside what held it before;
 * and else as not there, where `onfi_sim audit --all` goes on as if what is missing had been there. In both cases *audit goes on. Else *audit and *broken are as they were, and the answer
 * is the first of: ONFI_TOO_MANY, where audit->channel.lun_count is above eight; ONFI_ZERO_SPAN or ONFI_LONG_SPAN, ONFI_BAD_PLANE_BITS, ONFI_BAD_MEMBERS, ONFI_BAD_KIND of
 * audit->channel; ONFI_BAD_KIND, where the phase has no kind, or a program or an erase has sectors; ONFI_CLOCK, where it
 * starts at 2^62 ns or later; and where it begins a request: ONFI_BAD_LUN, where it is an erase of another page than 0; ONFI_NO_LENGTHS,
 * where it is a read of so many sectors that no length is stated of them; ONFI_TOO_MANY, where 2^64 - 1 requests began; ONFI_MEMORY. Only a
 * command that begins a request asks for memory, and gives it back.
 */
uint32_t onfi_audit_phase(onfi_audit *audit, const onfi_phase *phase, onfi_log_broken *broken);

/*
 * Notes that a LUN was ready at that moment, in ns, as its status said: what its group has next may come from then on, or as it might
 * before where that is sooner. A LUN that is free stays so. Arrays are often ready before the longest time that a page states.
 *
 * ONFI_DONE; else *audit is as it was, and the answer is what onfi_audit_phase answers of *audit, or ONFI_BAD_LUN, where there is no such LUN.
 */
uint32_t onfi_audit_ready(onfi_audit *audit, uint8_t lun, uint64_t moment);

/*
 * The column and the count of bytes of a data output, for its 06h .. E0h (ONFI 4.2, Change Read Column Enhanced): what a phase of
 * onfi_due or onfi_dispatcher_next puts out of its page. Of the phase its kind and is_post are looked at, and nothing else. No memory
 * is asked for.
 *
 * The post of a read puts out all of its page, data bytes and spare bytes from column 0 on, where its kind names no sectors. Where it
 * names 1 to 7, they are those from sector `first` on, counted from 0, with sector_bytes bytes each, spare bytes among them as the
 * caller lays them out: what onfi_device_of_page was given, and which sector the request asks for first. The two mean nothing where no
 * sectors are named. Every other phase, a command or a status, puts out no byte of a page: column 0, bytes 0. That is no refusal, so
 * that a driver may ask of each phase alike.
 *
 * ONFI_DONE; else *output is as it was, and the answer is the first of: ONFI_BAD_KIND, where the five low bits of the kind are above 2;
 * ONFI_BAD_GEOMETRY; ONFI_BAD_SECTORS, where a read names sectors and sector_bytes is 0, or (first + how many) * sector_bytes is more
 * than a page has bytes, data_bytes + spare_bytes. This is so of a command too: a read that its page can't answer is refused before
 * it begins.
 */
uint32_t onfi_output_of(const onfi_geometry *geometry, uint16_t sector_bytes, const onfi_phase *phase, uint8_t first, onfi_output *output);

/*
 * The row address of a page (ONFI 4.2, addressing): page, block and LUN number, from low to high bits.
 *
 * ONFI_DONE; else *row is as it was, and the answer is ONFI_BAD_GEOMETRY, or ONFI_BAD_PLACE, where the device doesn't have the page.
 */
uint32_t onfi_row(const onfi_geometry *geometry, uint8_t lun, uint16_t block, uint16_t page, uint32_t *row);

/*
 * Reads a device from the bytes of its parameter page, with as many redundant copies as there are, and from the text of a
 * timing sheet: rows NAME,VALUE for tWC, tRC, tADL, tWHR, tRHW, tWB, tPLRBSY, tPLPBSY and tPLEBSY, in ns, digits alone.
 *
 * Where strobes_bytes isn't 0, its data and status bytes go by strobes, NV-DDR2 or NV-DDR3, two in a cycle: the text of its strobes has
 * rows NAME,VALUE for tRPRE, tRC, tRPST, tRPSTH, tWPRE, tDSC, tWPST and tWPSTH, in ps, digits alone, 0 for one that the device doesn't
 * have. Each length is its sum in ps, rounded up to whole ns once; docs/DEFINITIONS.md has the sums. tRC of the sheet may be missing
 * then, and isn't looked at.
 *
 * device->lengths has the posts of 1 to 7 sectors of sector_bytes bytes each: that of a read whose page has their bytes. None is stated of
 * more than a page has bytes for, spare bytes among them, and none at all where sector_bytes is 0.
 *
 * ONFI_DONE and *place 0; else *device is as it was, and the answer is the first fault of the page (60 ..), of the device (70 ..), of
 * the text of the sheet (80 ..), of that of the strobes (86 ..), of what the sheet lacks, of what the strobes lack, or ONFI_MEMORY.
 * *place is the row that ONFI_SHEET_UNKNOWN, ONFI_SHEET_NOT_A_NUMBER, ONFI_STROBE_UNKNOWN and ONFI_STROBE_NOT_A_NUMBER speak of, counted
 * from 1, the parameter of .._MISSING and .._REPEATED, from 1 in the order above, else 0. ONFI_SHEET_TOO_LONG also says that a value of
 * the strobes is 2^32 ps or more, ONFI_SHEET_ZERO_CYCLE that their tRC or tDSC is 0. Where bit 1 of byte 114 of the page is clear,
 * device->rules.strict = 1 is the caller's to set (onfi_device says why).
 */
uint32_t onfi_device_of_page(const uint8_t *page, size_t page_bytes, const char *sheet, size_t sheet_bytes, const char *strobes,
                             size_t strobes_bytes, uint16_t sector_bytes, onfi_device *device, uint64_t *place);

/*
 * What the program `onfi_sim` writes for a script (docs/FORMATS.md) where it is asked so: the words are those of its command line after
 * its name, with one space between two of them, as "plan --by within --limit 65536". The script is what it would read, with the plan
 * text or the log after it. *answer_bytes says how many bytes the answer has, without a final NUL.
 *
 *     plan [--by plain|within|rule] [--early] [--limit N] [--trace] [--requests]
 *     check [--by plain|within] [--legal]
 *     audit [--all] [--ready-by-status] [--tolerance NS] [--one-status]
 *
 * ONFI_DONE where there is a plan, or where plan or log is accepted, ONFI_NOT_SHOWN_OPTIMAL where a plan is accepted that ends after
 * the time before which nothing does, ONFI_SCRIPT_REFUSED, ONFI_PLAN_REFUSED, ONFI_MEMORY and ONFI_OVER, the program's status, with the
 * answer; ONFI_NO_ROOM where it is longer than the room, which is then as it was; ONFI_BAD_WORDS with no answer, where the words are none
 * of these.
 */
uint32_t onfi_text(const char *words, size_t words_bytes, const char *script, size_t script_bytes, char *answer, size_t answer_room,
                   size_t *answer_bytes);

/*
 * The text of an onfi_status, without a final NUL; of any other number there is none. *text_bytes says how many bytes
 * it has, at most 80.
 *
 * ONFI_DONE, or ONFI_NO_ROOM where it is longer than the room, which is then as it was.
 */
uint32_t onfi_status_text(uint32_t status, char *text, size_t text_room, size_t *text_bytes);

#ifdef __cplusplus
}
#endif

#endif
