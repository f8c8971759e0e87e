/*
 * One channel in rolling use: requests come while others run, and a way says again and again what has the bus next. Devices and requests
 * are those of files, or those of the driver of examples/c by their names (firmware_channel.h), whose greedy way is one here.
 *
 *   files.c     devices and requests of files
 *   source.c    words of devices and requests, and all requests of a run
 *   machine.c   the channel as it stands, and what a phase changes of it
 *   judge.c     whether a step is legal, by books of its own
 *   greedy.c    ways that take of what can start soonest what ranks first
 *   planned.c   ways that plan a batch, and follow the plan until there is something new
 *   library.c   the library's planners, and phase by phase
 *   ways.c      all ways by name, one of your own among them
 *   figures.c   what came of it
 *   simulate.c  the loop
 *
 * Times are simulated, in ns. Where nothing is said a pointer isn't null. Bytes of a bus aren't simulated, lengths are.
 */
#ifndef ROLLING_H
#define ROLLING_H

#include "../../c/firmware_channel.h"

#include <stdio.h>

/* Times are below this. */
#define TIMES (UINT64_C(1) << 62)

enum { PLAN_STEPS = ONFI_LUNS * ONFI_STARTS + 2 * ONFI_WANTS };

/* What is simulated. */

/* A request of a file: the line that is reported of it, and when it comes. */
typedef struct {
    onfi_want want;
    uint64_t line, time;
} arrival;

/* Those of a file, by rising time. */
typedef struct {
    arrival *arrival;
    size_t count;
} load;

typedef struct {
    onfi_channel channel; /* its timing and lengths are what is stated; its bus and LUNs aren't looked at */
    uint64_t shortest; /* the post of the shortest read of all */
    unsigned luns, workload;
    load own; /* requests of a file; where there are none, by the workload */
    bool closed; /* those of a file come with answers too, whatever their times */
    size_t outstanding; /* how many requests may be accepted and not answered */
    double load; /* the share of the bus that requests by a workload ask for as they arrive; 0: a new one comes with each answer */
    double least_array, most_array; /* how long arrays take in truth, in shares of what is stated */
    bool told; /* LUNs say when they are ready; else they count as ready at the stated time */
    uint64_t deciding; /* how long a decision takes, in ns; the bus is idle meanwhile, unless it is made ahead */
    bool ahead; /* it is made while the phase before it has the bus, by what had come as that phase was decided */
    size_t requests; /* how many are answered before it ends; the first tenth isn't measured, but of a file all are */
    uint64_t seed;
    uint32_t limit; /* of nodes in a search */
} setup;

/* read, program, erase. */
extern const char *const KIND_NAMES[KINDS];
/* The workload of that name; false where there is none. */
bool put_workload(const char *name, unsigned *workload);
/* Puts timing and rules of a device by name, at that many ns a byte, for the workload; false where there is no such device. */
bool put_device(const char *name, double byte, setup *setup);
/* Puts those of a device of a file, and its LUNs; null, or what is wrong, of which line (0: of the whole). */
const char *read_device(FILE *file, setup *setup, uint64_t *line);
/* Puts the requests of a file for the device; null, or what is wrong, of which line. They are freed by free(setup->own.arrival). */
const char *read_load(FILE *file, setup *setup, uint64_t *line);
/* How long the phases of a request take. */
onfi_spans lengths_for(const setup *setup, const onfi_want *want);
/* The channel to what knows no lengths of sectors: all reads count as long as the shortest. */
onfi_channel channel_of_pages(const setup *setup);

/* Where requests come from. */
typedef struct {
    const setup *setup;
    host host;
    size_t given; /* how many of a file's have come */
} source;

source source_of(const setup *setup);
/* Whether requests arrive by themselves; else one comes with each answer. */
bool is_open(const setup *setup);
/* When the next request comes: 0 where it comes with an answer, NEVER where none does. */
uint64_t next_arrival(const source *s);
/* Whether the next one comes with the one before it, room or not. */
bool comes_along(const source *s);
onfi_want next_want(source *s);
/*
 * Prints how many planes and pages there are, how long the phases of each kind take, and the requests in their order, by kind and
 * LUN: those that come with the one before them, room or not, as mates.
 */
void print_source(const setup *setup, FILE *out);

/* The channel as it stands. */

typedef struct {
    onfi_want want; /* its id is its place in the order of acceptance */
    uint64_t arrived;
} request;

typedef struct {
    request member[ONFI_MEMBERS]; /* planes rising */
    unsigned members; /* 0: it is free */
    unsigned next; /* which phase of the group comes next: its commands are 0 .., its posts follow */
    uint64_t ready; /* from when on that phase may start, or a group begin, by what is known */
    uint64_t real; /* from when on in truth */
} lun_state;

typedef struct {
    const setup *setup;
    uint64_t now, bus_free;
    lun_state lun[ONFI_LUNS];
    request waiting[MOST_WAITING]; /* accepted and not started, in order of acceptance */
    size_t waiting_count;
    size_t outstanding; /* accepted and not answered */
    uint64_t accepted; /* how many so far */
} machine;

/* What has the bus next: the next phase of a LUN's group, or the first one of a new group. */
typedef struct step {
    uint64_t start; /* at or after what soonest() gives for its LUN */
    unsigned lun;
    size_t members; /* 0: the running group goes on; else each is of the LUN and waits, they are of one kind and page, and each on a plane of its own */
    uint64_t member[ONFI_MEMBERS]; /* the ids of the new group's wants */
} step;

typedef struct {
    uint64_t start, end;
    unsigned lun;
    bool is_post;
    onfi_want want; /* whose command or post it is */
    unsigned number, members; /* its number in a group of that many */
    size_t opens; /* of how many members the group is that it begins; 0: it begins none */
    uint64_t array; /* where it is a group's last command: how long the array takes in truth */
} phase;

unsigned plane_of(const onfi_rules *rules, unsigned block);
unsigned planes_of(const setup *setup);
uint64_t later_of(uint64_t one, uint64_t other);
bool is_running(const lun_state *lun);
/* The soonest start of the next phase of a LUN, by what is known. */
uint64_t soonest(const machine *m, unsigned lun);
/* The place of a waiting request; waiting_count where it doesn't wait. */
size_t place_of(const machine *m, uint64_t id);
/* Takes a request in, from `arrived` on. */
void accept_request(machine *m, onfi_want want, uint64_t arrived);
/* Whether a LUN has become ready before its stated time: it is known then. */
bool tell_ready(machine *m);
/* When the next LUN becomes so; NEVER where none does. */
uint64_t next_told(const machine *m);
/* How long the array of a group with that first member takes in truth, where that much is stated. */
uint64_t real_array(const setup *setup, const onfi_want *first, uint64_t stated);
/* The channel now, and requests that wait on it, as the library takes them. */
typedef struct {
    onfi_channel channel;
    onfi_want want[MOST_WAITING];
} said;

/* Those at that many places; all where there are no places. */
void say(const machine *m, const size_t *place, size_t count, said *said);
/* Runs a legal step: what is on the bus, and of which request it was where it is a post. */
phase run_step(machine *m, const step *step, request *answered);

/* Legality. */

/* What is wrong, null: nothing; at which time, of which LUN and request. */
typedef struct {
    const char *what;
    uint64_t time;
    uint64_t earliest; /* where a step comes too soon: from when on it may */
    unsigned lun;
    uint64_t request; /* its id; NEVER: of none */
} fault;

typedef struct {
    onfi_want want;
    uint64_t since;
} accepted;

/* What a LUN runs; no members: nothing. */
typedef struct {
    onfi_want member[ONFI_MEMBERS]; /* planes rising */
    unsigned members, next;
    uint64_t may; /* from when on it may have a phase */
} running;

typedef struct {
    const setup *setup;
    uint64_t bus_free;
    running lun[ONFI_LUNS];
    accepted waiting[MOST_WAITING]; /* in order of acceptance */
    size_t waiting_count;
    uint64_t answered;
} judge;

void judge_open(judge *j, const setup *setup);
void judge_acceptance(judge *j, const onfi_want *want, uint64_t since);
/* Whether a step is legal, which then counts as run; else *wrong says what it breaks. */
bool judge_step(judge *j, const step *step, fault *wrong);

/* Ways. */

/* The requests that a way looks at, as rising places among those that wait. */
typedef struct {
    size_t count;
    size_t place[MOST_WAITING];
} batch;

typedef void choice(const machine *m, batch *chosen);

choice everything, first_eight;

extern const rule ROUND_ROBIN, COMMANDS_FIRST, MQSIM;

/* A problem as the library takes it. */
typedef struct {
    said now;
    uint64_t age[ONFI_WANTS]; /* since they arrived */
    uint64_t member_age[ONFI_LUNS][ONFI_MEMBERS]; /* those of running groups too */
    size_t wants;
} problem;

/* Plans by at most `limit` nodes; gives an onfi_status. */
typedef uint32_t planner(const problem *problem, uint32_t limit, onfi_planned *plan);

planner plan_within, plan_early_by_age, plan_rule;

typedef struct {
    step step[PLAN_STEPS]; /* in order of start */
    size_t steps, at; /* `at`: how many have run */
    uint64_t want[ONFI_WANTS]; /* the ids of what was planned */
    size_t wants;
} plan;

typedef struct {
    uint64_t plans, over, nodes; /* `over`: plans whose search was cut before it showed that they are optimal */
    double seconds, longest; /* processor time of all plans, and of the longest */
} costs;

/* What a way keeps. */
typedef struct {
    unsigned turn; /* the LUN after the one that had the bus last */
    bool told; /* a LUN has reported that it is ready since the last plan */
    bool has_begun, has_run; /* of phase by phase: whether it has begun, and whether the step that it gave last has run */
    uint64_t start; /* of the last step that ran */
    uint64_t accepted[ONFI_LUNS]; /* 1 more than the id of the last request of a LUN that the dispatcher took; 0: it took none */
    onfi_dispatcher dispatcher;
    plan plan;
    costs planning;
    uint32_t refused; /* the status of a call that failed */
} mind;

typedef struct way {
    const char *name;
    choice *choose; /* which requests it looks at: `everything` where it looks at the machine itself */
    /* What has the bus next, and from when on; false where there is nothing to do. */
    bool (*decide)(const struct way *way, mind *mind, const machine *m, const batch *batch, step *step);
    const rule *rule; /* of a greedy way */
    planner *planner;
} way;

bool in_order(const way *way, mind *mind, const machine *m, const batch *batch, step *step);
bool by_rule(const way *way, mind *mind, const machine *m, const batch *batch, step *step);
bool phase_by_phase(const way *way, mind *mind, const machine *m, const batch *batch, step *step);
bool by_plan(const way *way, mind *mind, const machine *m, const batch *batch, step *step);

/* A way of a file of your own, which is compiled with -DWITH_OWN_WAY. */
extern const way own_way;
/* The way of that name; null where there is none. */
const way *way_of(const char *name);
void print_ways(FILE *out);

/* What came of it. */

typedef struct figures {
    uint64_t *latency[KINDS]; /* from arrival to the end of the post */
    size_t answered[KINDS];
    uint64_t from, to; /* what is measured: from the end of a post to that of the last */
    uint64_t busy; /* how long the bus was busy in between */
    uint64_t groups, grouped; /* how many groups began, and of how many requests */
    uint64_t erases, erasing, erasing_until; /* how long the erases took together, how long any LUN erased, and up to when */
    costs planning;
} figures;

bool figures_begin(figures *figures, const setup *setup);
void figures_end(figures *figures);
void figures_print(const figures *figures, FILE *out);

/* What is printed of a run. */
typedef struct {
    FILE *phases;  /* each phase, as a line of `onfi_sim plan --requests`; null: none */
    FILE *answers; /* each answer: its request, the line that is reported of it, its kind and LUN, when it arrived and ended; null: none */
} printed;

/* Runs the channel by a way until that many requests are answered; false where something is wrong. */
bool simulate(const setup *setup, const way *way, const printed *to, figures *figures, fault *wrong);

#endif
