"""tools/bench: on programs whose work is known, what it makes of counts of instructions, and on the built program."""

import contextlib
import io
import re
import shutil
import subprocess
import sys
import tempfile
import unittest
from pathlib import Path

import support
from onfi_tools.bench import driver_costs, instructions, pages, runs, whole_plans

SEARCH = r"""
#include <stdio.h>
#include <stdlib.h>

static volatile long done;

__attribute__((noinline)) static void visit_node(void) { for (int i = 0; i < WORK; i++) done++; }

int main(int count, char **words)
{
    long limit = atol(words[2]);
    for (long node = 0; node < limit; node++) visit_node();
    printf("%s 7 %ld\n", words[3], limit);
    return count != 4;
}
"""
PARTS = "".join(f"part: {at}\n\ndesc: Trigger: {cause}\n\nevents: Ir\nsummary: {count}\n\ntotals: {count}\n\n" for at, (cause, count) in enumerate((
    ("Client Request: plan 0", 12), ("Client Request: check 0", 7), ("Client Request: plan 1", 300), ("Program termination", 44))))

# A driver whose turns take 1,000 + 300 + 70 instructions, 240 of them of the board; the library calls a function of its own.
TURNS = """positions: line
events: Ir
fn=(1) ask_next
5 9
cfn=(2) driver_next
calls=4 20
6 1000
cfn=(3) driver_run
calls=4 30
7 300
cfn=(4) driver_accept
calls=2 40
8 70
fn=(2)
20 100
cfi=(3) choosing.c
cfn=(5) onfi_dispatcher_next
calls=4 1
+1 600
cfn=(6) onfi_due
calls=4 1
* 200
fn=(3)
30 20
cfn=(7) board_status.part.0
calls=3 9
31 240
fn=(5)
1 500
cfn=(6)
calls=1 1
2 100
"""
SAID = "plans: 26142.634 requests a second, bus busy 99.290 %, 7 plans\n  1 reads: 1 us in the mean, 99 % within 3350 us\n"


class Instructions(unittest.TestCase):
    @unittest.skipUnless(shutil.which("valgrind"), "Debian's valgrind is not installed")
    def test_twice_the_work_counts_twice(self) -> None:
        with tempfile.TemporaryDirectory() as folder:
            searches = [support.compiled(folder, SEARCH, "-O1", f"-DWORK={work}", name=f"bnb-{work}") for work in (100, 200)]
            said = support.run_tool("bench", "instructions", *searches, "--functions", "1")
        self.assertEqual(said.returncode, 0, said.stderr)
        rows = re.findall(r"\| a node of [\w-]+ \| ([\d,]+) \| ([\d,]+) \|", said.stdout)
        self.assertEqual((len(rows), len(set(rows))), (4, 1), "the same work is the same count")
        first, second = (int(cell.replace(",", "")) for cell in rows[0])
        self.assertGreater(first, 200)
        self.assertAlmostEqual(second / first, 2, delta=0.05)
        self.assertEqual(len(re.findall(r"^[\w-]+: visit_node 9\d\.\d %$", said.stdout, re.MULTILINE)), 8)

    def test_calls_of_the_library(self) -> None:
        """Parts are named by their calls; what is over counts as greater than all; scripts are chosen by the nodes of their search."""
        self.assertEqual(whole_plans.parts_of(PARTS), {"plan 0": 12, "check 0": 7, "plan 1": 300})
        self.assertEqual(whole_plans.small_cell([7, None, 3, 9, 1, 2, 4, 5, 6, 8]), "6 / 9 / 9 (1 over)")
        for costs, cell in (([*range(8), None, None], "5 / over / 7 (2 over)"), ([None], "over / over / over (1 over)")):
            self.assertEqual(whole_plans.small_cell(costs), cell)
        answers = whole_plans.answers_of("0 999 5 5\n0 1000 5 5\n6 0 0 0\n0 14000 1 1\n0 14001 1 1\n0 2000 1 1\n")
        for count in (9, 2):
            found = whole_plans.chosen([Path(name) for name in "abcdef"], answers, count, 1000, 14_000)
            self.assertEqual(found, [Path("b"), Path("d"), Path("f")][:count])
        costs = [whole_plans.Cost(whole_plans.Answer(0, opened, 10, 20), plan, check) for opened, plan, check in ((30, 4000, 300), (50, 1000, 100))]
        self.assertEqual([runs.quantile([3, 1, 2], share) for share in (0, 0.5, 0.9, 1)], [1, 2, 3, 3])
        self.assertEqual((whole_plans.a_node(costs), whole_plans.a_token(costs)), (50, 10))

    def test_scripts_that_are_counted(self) -> None:
        """They have the requests that were asked for, a seed names them, each set has its own; those of a start have none."""
        for requests in whole_plans.REQUESTS:
            drawn = whole_plans.drawn_batches(5, requests)
            self.assertEqual(([script.count("\nwant,") for script in drawn], drawn), ([requests] * 5, whole_plans.drawn_batches(5, requests)))
        self.assertEqual(len({script for scripts in whole_plans.drawn_sets(2).values() for script in scripts}), 8)
        self.assertEqual([row.split(",")[0] for row in instructions.WITHOUT_REQUESTS.splitlines()], ["shape", "spans", "spans", "spans", "end"])

    def test_a_turn_is_the_driver_without_the_board(self) -> None:
        turns = driver_costs.turns_of(TURNS, SAID, 2)
        self.assertEqual(turns, driver_costs.Turns((1370 - 240) / 2, {"onfi_dispatcher_next": 300, "onfi_due": 100}, 3.5))
        self.assertEqual(driver_costs.cells_of(turns, ["onfi_dispatcher_next", "onfi_ran", "onfi_due"]), ["565", "165", "300", "", "100", "3.50"])

    @unittest.skipUnless(shutil.which("valgrind"), "Debian's valgrind is not installed")
    def test_turns_of_the_greedy_way(self) -> None:
        with tempfile.TemporaryDirectory() as folder:
            built = support.library(Path(folder))
            if built is None:
                self.skipTest("no built library")
            driver = driver_costs.built_driver(built, Path(folder))
            few, many = (driver_costs.turns_by(driver, "greedy", ["depth", depth]) for depth in ("1", "256"))
            self.assertRaises(subprocess.CalledProcessError, driver_costs.turns_by, driver, "greedy", ["luns", "9"])
        self.assertEqual((sorted(few.calls), few.plans), (["onfi_output_of", "onfi_row"], 0))
        self.assertTrue(100 < few.whole < many.whole < 1_000_000, (few, many))


class Pages(unittest.TestCase):
    """Figures in a page that is made here."""

    def setUp(self) -> None:
        self.page = support.room_of(self) / "page.md"
        self.page.write_text("A plan takes 1,000 us, 95 of 100.\n\n| within | 20 | | 3,456 |\n\nIt prints:\n\n    one 1\n    two 2\n\nNo more.\n")

    def looked(self, place: str, *now: "str | None", share: float = 0.05, is_checked: bool = False) -> "tuple[int, str]":
        with contextlib.redirect_stdout(io.StringIO()) as said:
            count = pages.look_at(pages.Figure(str(self.page), place, lambda: now, share), is_checked)
        return count, said.getvalue().replace(str(self.page), "page")

    def test_what_differs_is_written(self) -> None:
        found = self.looked(r"takes ([\d,]+) us, (\d+) of", "1,010", "95")
        self.assertEqual(found, (1, "page:1: '1,000' is '1,010' now\n"))
        self.assertEqual(self.looked(r"\| within " + 3 * r"\| *([\d,]*) *" + r"\|", "20", None), (0, ""))
        self.assertEqual(self.looked(r"\| within " + 3 * r"\| *([\d,]*) *" + r"\|", "21", "9"), (2, "page:3: '3,456' is '9' now\npage:3: '20' is '21' now\n"))
        self.assertEqual(self.looked(r"\| within " + 3 * r"\| *([\d,]*) *" + r"\|", "21", "5", "9"), (0, ""))
        self.assertEqual(self.looked(r"prints:\n\n((?:    [^\n]*\n?)*)\n\n", "    one 1\n    three 3"), (1, "page:7: 'two 2' is 'three 3' now\n"))
        self.assertEqual(self.page.read_text(), "A plan takes 1,010 us, 95 of 100.\n\n| within | 21 | | 9 |\n\nIt prints:\n\n    one 1\n    three 3\n\nNo more.\n")
        for near in ("1,010", "1,011"):
            self.assertEqual(self.looked(r"takes ([\d,]+) us, (\d+) of", near, "95"), (0, ""))
        self.assertEqual(self.looked(r"takes ([\d,]+) us, (\d+) of", "1,011", "95", share=0)[0], 1)

    def test_what_differs_by_more_than_its_share_is_reported(self) -> None:
        before = self.page.read_text()
        for now, share, count in (("1,050", 0.05, 0), ("1,060", 0.05, 1), ("960", 0.05, 0), ("940", 0.05, 1), ("1,001", 0, 1), ("1,000", 0, 0), ("1,000 1", 0.5, 1)):
            self.assertEqual(self.looked(r"takes ([\d,]+) us", now, share=share, is_checked=True)[0], count, now)
        self.assertEqual(self.page.read_text(), before)

    def test_a_place_that_is_not_there(self) -> None:
        for place, now in ((r"takes ([\d,]+) ms", ["1"]), (r"takes ([\d,]+) us", ["1", "2"])):
            self.assertRaises(ValueError, self.looked, place, *now)

    def test_each_figure_has_its_place(self) -> None:
        """In the pages as they are: as many groups as are measured, each with a number."""
        found = [*pages.figures(pages.Measured("", Path("/nowhere"), Path("/nowhere")))]
        for figure in found:
            place = re.search(figure.place, (support.ROOT / figure.page).read_text(), re.DOTALL)
            assert place is not None, figure
            self.assertTrue(any(pages.numbers_in(group) for group in place.groups() if group), figure)
        self.assertGreater(len(found), 30)


# A program whose plain searches open 37 nodes and those that remember states that many.
REMEMBERING = """#!{python} -SI
import sys
words = sys.argv[1:]
sys.stdin.read()
remembers = "within" in words
nodes, finish = ({nodes}, {finish}) if remembers else ({plain_nodes}, 7)
if words[0] == "check":
    sys.exit(print(f"accepted {accepted}"))
limit = int(words[words.index("--limit") + 1])
if limit < nodes and not remembers:
    print(f"over {{limit}}")
    sys.exit(6)
below = "below 1\\n" if limit < nodes else ""
print(f"ONFIPLAN 1\\nfinish {{finish}}\\n{{below}}group 0 0 1\\nONFICERT {{'3 remember' if remembers else 1}}\\nB3 U Y1 L")
"""
# What it opens and answers, the status, and the message then.
REMEMBERED = {
    "nodes are counted by the least limit": (dict(plain_nodes=37, nodes=3, finish=7, accepted=7), 0, [
        "4 finishes of both agree, 4 plans", r"\| all \| `plan` \| 0 \| 37 / 37 / 37 \|.*\| 21 / 21 / 21 \|",
        r"\| all \| `plan --by within` \| 0 \| 3 / 3 / 3 \|.*\| 30 / 30 / 30 \|", "9 of 9 hard scripts"]),
    "a search that is over": (dict(plain_nodes=1 << 21, nodes=100_001, finish=7, accepted=7), 0, [
        r"\| all \| `plan` \| 4 \| over / over / over \|", r"\| 0 \| 100,001 / 100,001 / 100,001 \|", "0 of 9 hard scripts"]),
    "another finish": (dict(plain_nodes=37, nodes=3, finish=6, accepted=6), 1, ["finishes 7 and 6"]),
    "a plan that is refused": (dict(plain_nodes=37, nodes=3, finish=7, accepted=8), 1, ["check --by within: accepted 8"]),
}
# Answers by the plain searches: `plan --limit N` is over where theirs is, and `plan --by within` gives their finish, or one ns more.
BESIDE = """#!/bin/sh
script={room}/given.onfi
cat > $script
case "$2" in
--limit) {room}/bnb -l "$3" $script | grep -q over && {{ echo "over $3"; exit 6; }}; printf 'ONFIPLAN\\nfinish 1\\nONFICERT 1\\nU\\n' ;;
*) finish=$({room}/rem -s g -b W -k 64 -l 1048576 $script | tail -1 | cut -d ' ' -f 2)
   printf 'ONFIPLAN\\nfinish %s\\n' $((finish + {more})) ;;
esac
"""
# Gives each script the plan of another one, which ends later than its certificate says.
LATE = """#!{python}
import sys
print("ONFIPLAN 1\\nfinish 9\\nbelow 8\\nONFICERT 3 remember\\nU" if "plan" in sys.argv else "within 9 8")
"""


class Searches(unittest.TestCase):
    def test_remembering_states(self) -> None:
        for name, (numbers, status, told) in REMEMBERED.items():
            with self.subTest(name), tempfile.TemporaryDirectory() as folder:
                program = support.executable(folder, REMEMBERING.format(python=sys.executable, **numbers))
                said = support.run_tool("bench", "remember", program, "5", "--scripts", "4", "--chains", "0")
                self.assertEqual(said.returncode, status, said.stderr)
                for text in told:
                    self.assertRegex(said.stdout + said.stderr, text)

    def beside_prototypes(self, more: int, random: int) -> "subprocess.CompletedProcess[str]":
        with tempfile.TemporaryDirectory() as room:
            for name in ("bnb", "rem"):
                source = support.ROOT / "bench" / f"{name}.cpp"
                subprocess.run(["g++", "-O1", "-std=c++17", "-w", "-o", f"{room}/{name}", str(source)], check=True)
            program = support.executable(room, BESIDE.format(room=room, more=more))
            return support.run_tool("bench", "plan", program, "--prototypes", "--rounds", "1", "--random", str(random))

    def test_beside_prototypes(self) -> None:
        run = self.beside_prototypes(0, 1)
        self.assertEqual((run.returncode, run.stderr), (0, ""))
        plain, remembering = run.stdout.split("plan --by within, beside rem\n")
        self.assertRegex(plain, r"mixed-on-eight-luns\.onfi: 1,048,576 nodes.*ratio [0-9.]+\n")
        self.assertRegex(remembering, r"programs-on-one-plane\.onfi: 808 nodes, .* ms, other .* ms, ratio [0-9.]+\n")
        self.assertRegex(remembering, r"remembered-1\.onfi: [0-9]+,[0-9]{3} nodes")
        self.assertEqual(len(re.findall(r"^all: .*; other .*, ratio [0-9.]+$", run.stdout, re.MULTILINE)), 2)
        run = self.beside_prototypes(1, 0)
        self.assertEqual(run.returncode, 1)
        self.assertIn("where the prototype finds", run.stderr)

    def test_a_better_plan_that_ends_too_late(self) -> None:
        with tempfile.TemporaryDirectory() as folder:
            program = support.executable(folder, LATE.format(python=sys.executable))
            said = support.run_tool("bench", "early", program, "--small", "1", "--scripts", "0", "--jobs", "1")
        self.assertEqual((said.returncode, said.stdout), (1, ""))
        self.assertTrue(said.stderr.startswith("bench early: "), said.stderr)


@unittest.skipUnless(support.program(), "no built program")
class Built(unittest.TestCase):
    def measured(self, *words: str) -> str:
        said = support.run_tool("bench", words[0], str(support.program()), *words[1:])
        self.assertEqual(said.returncode, 0, said.stderr)
        return said.stdout

    def test_worth(self) -> None:
        self.assertIn("80 schedules of the ways judged legal", self.measured("worth", "--scripts", "20", "--check", "20", "--limit", "20000"))

    def test_early(self) -> None:
        said = self.measured("early", "--small", "3", "--scripts", "2")
        self.assertIn("seed 1, 3 small problems, each against all its schedules", said)
        self.assertEqual(len(re.findall(r"(?m)^\| \d+ \| \d+ \|", said)), 1)
        self.assertEqual(len(re.findall(r"(?m)^\|(?: -?\d+\.\d % \|){4}$", said)), 1)

    def test_chains_of_batches(self) -> None:
        said = self.measured("remember", "5", "--scripts", "4", "--chains", "2", "--few")
        self.assertIn("2 chains of 6 rolling batches: 12", said)
        self.assertRegex(said, r"\n\| 65,536 \| \d+\.\d % \|")


# Plans by parts of 300, 100, 200 and 200 ms, 100 ms before them and 100 after. Each of several workers begins the next one, the last has
# the first part, and each part takes 10 ms more. The work is counted, not done: the clock that it defines in front of the C library's
# gives the count.
PROGRAM = r"""
#include <pthread.h>
#include <stdio.h>
#include <stdlib.h>
#include <string.h>
#include <time.h>
#include <unistd.h>

static _Thread_local long done;
static const long parts[] = {300, 100, 200, 200};
static int workers = 1;

int clock_gettime(clockid_t clock, struct timespec *time)
{
    time->tv_sec = done / 1000;
    time->tv_nsec = done % 1000 * 1000000;
    return clock != CLOCK_THREAD_CPUTIME_ID;
}

static void *work(void *given)
{
    long worker = (long)given;
    pthread_t next;
    if (worker + 1 < workers && pthread_create(&next, NULL, work, (void *)(worker + 1)))
        exit(9);
    for (long part = workers - 1 - worker; part < 4; part += workers)
        done += parts[part] + (workers > 1 ? 10 : 0);
    if (worker + 1 < workers)
        pthread_join(next, NULL);
    return NULL;
}

static int plan(const char *shape, long limit)
{
    if (limit < 20000 || !strcmp(shape, "shape,8,0,0,0\n") || (workers > 1 && !strcmp(shape, "shape,8,2,1,0\n"))) {
        printf("over 1048576\n");
        fprintf(stderr, "within 1048576 nodes\n");
        return 6;
    }
    done += 100;
    work(NULL);
    done += 100;
    printf("ONFIPLAN 1\nfinish 7\n%s", PLAN);
    return 0;
}

int main(int count, char **words)
{
    char shape[100];
    long limit = 1048576;
    for (int at = 2; at + 1 < count; at += 2) {
        if (!strcmp(words[at], "--limit"))
            limit = atol(words[at + 1]);
        else
            workers = atoi(words[at + 1]);
    }
    int status = fgets(shape, sizeof shape, stdin) ? plan(shape, limit) : 9;
    fflush(stdout);
    END(status);
}
"""


def said_of(plan: str, end: str) -> "subprocess.CompletedProcess[str]":
    """What the tool says of the program with this text as its plan, and this way to end."""
    with tempfile.TemporaryDirectory() as folder:
        made = support.compiled(folder, PROGRAM, f"-DPLAN={plan}", f"-DEND={end}", "-O1", "-w", "-rdynamic", "-pthread")
        return support.run_tool("bench", "plan", "--workers", made, "--rounds", "2", "--random", "3")


class Workers(unittest.TestCase):
    def test_the_speed_up_is_that_of_the_longest_chain(self) -> None:
        said = said_of('""', "_exit")
        self.assertEqual((said.returncode, said.stderr), (0, ""))
        told = "1000.0 ms by one, by 2 1.39 (work 1.04), by 4 1.96 (work 1.04)"
        lines = said.stdout.splitlines()
        self.assertIn(f"mixed-on-eight-luns.onfi: {told}", lines)
        self.assertIn("hard: 2 of 4 measured", lines)
        self.assertIn(f"random-3.onfi: {told}", lines)
        self.assertIn("random: 3 of 3 measured", lines)
        self.assertEqual(lines[-1], "random, 4 workers: speed-up 1.96 at most, 1.96 median, 1.96 at least; "
                                    "work 1.04 at most, 1.04 median, 1.04 at least")

        # What has no plan is shown and not counted, and a program that returns from its main function gives the same.
        self.assertIn("programs-on-one-plane.onfi: no plan by 1: over 1048576", lines)
        self.assertIn("long-certificate.onfi: no plan by 2: over 1048576", lines)
        self.assertEqual(said_of('""', "return ").stdout, said.stdout)

    def test_plans_that_differ_are_a_fault(self) -> None:
        said = said_of('workers == 4 ? "group 1\\n" : ""', "_exit")
        self.assertEqual(said.returncode, 1)
        self.assertIn("the plans of several workers differ", said.stderr)
