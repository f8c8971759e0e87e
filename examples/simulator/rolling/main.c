/* Simulates one channel by one way, and prints what came of it. `rolling --help` says how. */
#include "rolling.h"

#include <errno.h>
#include <inttypes.h>
#include <stdlib.h>
#include <string.h>

static const char HELP[] =
    "Simulates one channel by one way, and prints what came of it: a name, a number and its unit a line.\n"
    "\n"
    "  rolling [NAME VALUE]..\n"
    "  rolling ways           the names of all ways\n"
    "  rolling --help\n"
    "\n"
    "  device    slc, tlc, qlc; or a file with rows shape,     tlc\n"
    "            spans, sectorpost, strict (docs/FORMATS.md)\n"
    "  byte      ns a byte on the bus, 0.001 to 1000           2; a file has lengths of its own\n"
    "  luns      1 to 8                                        8; a file has its own number\n"
    "  workload  reads, mixed, sequential, erases,             mixed\n"
    "            random-programs; reads-4k, mixed-4k: reads\n"
    "            of one sector of four; or a file of rows\n"
    "            time,op,lun,block,page,first sector,sectors\n"
    "            (docs/WORKLOADS.md), times in ns\n"
    "  closed    yes: a file's requests come with answers,     no\n"
    "            whatever their times; no\n"
    "  way       whose decisions                               rfirst:all\n"
    "  depth     requests outstanding, 1 to 256                64\n"
    "  load      share of the bus that a named workload's      0: a new request comes with each answer\n"
    "            arrivals ask for\n"
    "  array     real array times, in shares of the stated     1-1\n"
    "  told      yes: LUNs say when they are ready; no         yes\n"
    "  decide    ns that a decision takes, 0 to 1e9            0\n"
    "  ahead     yes: it is made while the phase before has    no: the bus is idle meanwhile\n"
    "            the bus, and again where its LUN isn't ready\n"
    "            as the bus comes free\n"
    "  requests  answered before it ends, 1 to 10,000,000      2000; those of a file are all answered\n"
    "  seed      of all that is random                         1\n"
    "  limit     nodes that a search may open                  100000\n"
    "  print     figures; phases: each phase as a line of      figures\n"
    "            `onfi_sim plan --requests`, times in ns,\n"
    "            which tools/draw-trace draws; answers:\n"
    "            request,line,op,lun,arrived_ns,end_ns;\n"
    "            requests: all that come\n"
    "\n"
    "Of a named workload the first tenth isn't measured. A latency goes from the arrival to the end of the last phase. The exit status is 0; 1 where\n"
    "a way's step is illegal or the run can't go on, of which a line says when, on which LUN and of which request; 2 where a word or a file can't be read.\n";

typedef enum { PRINT_FIGURES, PRINT_PHASES, PRINT_ANSWERS, PRINT_REQUESTS, PRINT_COUNT } print;

typedef struct {
    const char *device, *workload, *way;
    double byte;
    print print;
    setup setup;
} words;

/* A number in its range; false where the text is none. */
static bool put_number(const char *text, double least, double most, double *number)
{
    char *end;
    *number = strtod(text, &end);
    return end != text && !*end && *number >= least && *number <= most;
}

static bool put_whole(const char *text, double least, double most, size_t *count)
{
    double number;
    bool is_read = put_number(text, least, most, &number);
    *count = is_read ? (size_t)number : 0;
    return is_read && number == (double)*count;
}

static bool put_count(const char *text, double most, size_t *count)
{
    return put_whole(text, 1, most, count);
}

/* Two shares with a dash between them. */
static bool put_array(const char *text, setup *setup)
{
    char *end;
    setup->least_array = strtod(text, &end);
    bool are_two = end != text && *end == '-' && put_number(end + 1, 0, 1, &setup->most_array);
    return are_two && setup->least_array >= 0 && setup->least_array <= setup->most_array;
}

static bool put_flag(const char *text, bool *flag)
{
    *flag = !strcmp(text, "yes");
    return *flag || !strcmp(text, "no");
}

static bool put_print(const char *text, print *print)
{
    static const char *const names[PRINT_COUNT] = {[PRINT_FIGURES] = "figures", [PRINT_PHASES] = "phases", [PRINT_ANSWERS] = "answers", [PRINT_REQUESTS] = "requests"};
    for (*print = PRINT_FIGURES; *print < PRINT_COUNT; ++*print)
        if (!strcmp(names[*print], text))
            return true;
    return false;
}

static bool put_setup(const char *name, const char *value, setup *setup)
{
    size_t count = 0;
    bool is_read = false;
    if (!strcmp(name, "load"))
        return put_number(value, 0, 100, &setup->load);
    if (!strcmp(name, "array"))
        return put_array(value, setup);
    if (!strcmp(name, "told"))
        return put_flag(value, &setup->told);
    if (!strcmp(name, "closed"))
        return put_flag(value, &setup->closed);
    if (!strcmp(name, "ahead"))
        return put_flag(value, &setup->ahead);
    if (!strcmp(name, "luns") && (is_read = put_count(value, ONFI_LUNS, &count)))
        setup->luns = (unsigned)count;
    else if (!strcmp(name, "depth") && (is_read = put_count(value, MOST_OUTSTANDING, &count)))
        setup->outstanding = count;
    else if (!strcmp(name, "requests") && (is_read = put_count(value, 1e7, &count)))
        setup->requests = count;
    else if (!strcmp(name, "seed") && (is_read = put_count(value, 1e15, &count)))
        setup->seed = count;
    else if (!strcmp(name, "decide") && (is_read = put_whole(value, 0, 1e9, &count)))
        setup->deciding = count;
    else if (!strcmp(name, "limit") && (is_read = put_count(value, ONFI_NODES, &count)))
        setup->limit = (uint32_t)count;
    return is_read;
}

static bool put_word(const char *name, const char *value, words *words)
{
    if (!strcmp(name, "device"))
        words->device = value;
    else if (!strcmp(name, "workload"))
        words->workload = value;
    else if (!strcmp(name, "way"))
        words->way = value;
    else if (!strcmp(name, "byte"))
        return put_number(value, 0.001, 1000, &words->byte);
    else if (!strcmp(name, "print"))
        return put_print(value, &words->print);
    else
        return put_setup(name, value, &words->setup);
    return true;
}

/* Has a file read; false where it can't be, of which a line is printed. */
static bool put_file(const char *what, const char *name, const char *(*read)(FILE *file, setup *setup, uint64_t *line), setup *setup)
{
    uint64_t line = 0;
    FILE *file = fopen(name, "r");
    const char *wrong = file ? read(file, setup, &line) : strerror(errno);
    if (file)
        fclose(file);
    if (wrong && line)
        fprintf(stderr, "rolling: %s:%" PRIu64 ": %s\n", name, line, wrong);
    else if (wrong)
        fprintf(stderr, "rolling: no %s %s: %s\n", what, name, wrong);
    return !wrong;
}

/* Devices and workloads by their names, else of files. */
static bool put_files(words *words)
{
    setup *setup = &words->setup;
    bool is_named = put_workload(words->workload, &setup->workload);
    if (!is_named)
        setup->workload = MIXED;
    if (!put_device(words->device, words->byte, setup) && !put_file("device", words->device, read_device, setup))
        return false;
    if (is_named)
        return true;
    bool is_read = put_file("workload", words->workload, read_load, setup);
    setup->requests = setup->own.count;
    return is_read;
}

static bool put_words(int count, char **texts, words *words)
{
    for (int at = 1; at < count; at += 2)
        if (at + 1 == count || !put_word(texts[at], texts[at + 1], words)) {
            fprintf(stderr, "rolling: can't read %s; `rolling --help` says what there is\n", texts[at]);
            return false;
        }
    return put_files(words);
}

/* When a step is refused, of which LUN and request, and which line of a file that is. */
static void print_fault(const way *way, const setup *setup, const fault *wrong)
{
    fprintf(stderr, "rolling: %s: at %" PRIu64 " ns, LUN %u", way->name, wrong->time, wrong->lun);
    if (wrong->request != NEVER)
        fprintf(stderr, ", request %" PRIu64, wrong->request);
    if (wrong->request < setup->own.count)
        fprintf(stderr, " (line %" PRIu64 ")", setup->own.arrival[wrong->request].line);
    fprintf(stderr, ": %s", wrong->what);
    if (wrong->earliest)
        fprintf(stderr, " before %" PRIu64 " ns", wrong->earliest);
    fprintf(stderr, "\n");
}

static int run(const words *words, const way *way)
{
    const printed to = {.phases = words->print == PRINT_PHASES ? stdout : NULL, .answers = words->print == PRINT_ANSWERS ? stdout : NULL};
    figures figures;
    fault wrong = {.what = "no memory", .request = NEVER};
    if (to.answers)
        printf("request,line,op,lun,arrived_ns,end_ns\n");
    bool is_done = figures_begin(&figures, &words->setup) && simulate(&words->setup, way, &to, &figures, &wrong);
    if (!is_done)
        print_fault(way, &words->setup, &wrong);
    else if (words->print == PRINT_FIGURES)
        figures_print(&figures, stdout);
    figures_end(&figures);
    return is_done ? EXIT_SUCCESS : EXIT_FAILURE;
}

static words usual_words(void)
{
    words words = {.device = "tlc", .byte = 2, .workload = "mixed", .way = "rfirst:all"};
    words.setup = (setup){.luns = 8, .outstanding = 64, .least_array = 1, .most_array = 1, .told = true};
    words.setup.requests = 2000;
    words.setup.seed = 1;
    words.setup.limit = 100000;
    return words;
}

static int run_words(words *words)
{
    const way *way = way_of(words->way);
    if (!way) {
        fprintf(stderr, "rolling: no way %s; `rolling ways` prints all\n", words->way);
        return 2;
    }
    if (words->print != PRINT_REQUESTS)
        return run(words, way);
    print_source(&words->setup, stdout);
    return EXIT_SUCCESS;
}

int main(int count, char **texts)
{
    words words = usual_words();
    if (count == 2 && !strcmp(texts[1], "ways")) {
        print_ways(stdout);
        return EXIT_SUCCESS;
    }
    if (count == 2 && (!strcmp(texts[1], "--help") || !strcmp(texts[1], "help"))) {
        fputs(HELP, stdout);
        return EXIT_SUCCESS;
    }
    int status = put_words(count, texts, &words) ? run_words(&words) : 2;
    free(words.setup.own.arrival);
    return status;
}
