"""The driver of examples/c: under sanitizers and valgrind, over a static pool, beside the simulator of rolling use, and the drive in SimPy."""

from __future__ import annotations

import os
import re
import shutil
import subprocess
import sys
import tempfile
import unittest
from pathlib import Path
from typing import Dict, List, Optional, Sequence, Tuple

ROOT = Path(__file__).resolve().parent.parent.parent
sys.dont_write_bytecode = True
sys.path[:0] = [str(ROOT / "tools")]

from onfi_tools import rolling_use  # noqa: E402

LIBRARY = Path(os.environ.get("ONFI_LIBRARIES", ROOT / "lib")).resolve()
EXAMPLES, TRIALS = ROOT / "examples/c", ROOT / "tests/libraries"
STRICT = ["-Wall", "-Wextra", "-Werror", "-Wpedantic", "-Wconversion"]
SANE = ["-fsanitize=address,undefined", "-fno-sanitize-recover=all", "-g"]
C99, CXX = ("cc", "-std=c99", "-xc"), ("c++", "-std=c++17", "-xc++")
SSD = ROOT / "examples/python/ssd.py"
WAYS = ["phases", "plans", "greedy"]
# Runs by each way, whose plans are more than 10,000 together: what a loop, a device, a choice and a planner can be.
RUNS = [
    "requests 500",
    "requests 800 byte 0.833 workload erases weights equal",
    "requests 1000 device slc load 0.7 array 0.4-0.7",
    "requests 300 byte 0.833 depth 256 workload erases weights reads",
    "requests 800 device slc late 700 slow 90 array 0.4-0.7 depth 256 workload sequential",
    "requests 2000 plan within",
    "requests 1500 plan within load 0.5 array 0.7-0.9 told no workload erases luns 2 byte 0.833",
    "requests 1500 plan within device slc workload reads luns 4 depth 16",
    "requests 1000 plan within device qlc byte 20 limit 200 load 0.8",
    "requests 1500 plan within load 0.9 array 0.4-0.9",
    "requests 800 plan rule byte 0.833 workload erases depth 256",
    "requests 800 plan rule load 0.7 array 0.4-0.7 late 300 slow 60",
    "requests 800 workload mixed-4k weights reads byte 0.833",
    "requests 800 workload reads-4k plan within load 0.7 array 0.4-0.7",
]
PLANS = 10_000
# Runs by which phases, the greedy way, and plans in order, are what the simulator has.
SIMULATED = [
    "device tlc byte 2 workload mixed",
    "device slc byte 0.833 workload erases array 0.4-0.7",
    "device qlc byte 20 workload reads luns 4 depth 16",
    "device tlc byte 2 workload mixed load 0.6 array 0.7-0.9",
    "device tlc byte 0.833 workload mixed-4k load 0.8 array 0.7-0.9",
    "device qlc byte 2 workload reads-4k",
]
BOARD = """\
nothing: legal
the bus 1 ns sooner: the bus isn't free
the gap 1 ns sooner: the LUN isn't ready
an array of reads 1 ns sooner: the LUN isn't ready
an array of programs 1 ns sooner: the LUN isn't ready
a LUN that isn't there: a row that no page has
a page that isn't there: a row that no page has
a closer of a program: a closer that its opener doesn't have
no command: no command begins so
an erase among reads: a group of several kinds
the same plane twice: the planes of a group don't rise
another page in a group: a group of several pages
a command while data are owed: a command while its LUN owes answers
data before the group is closed: a post before its group is closed
data in another order: a post of another page than comes next
data for a status: the bytes of no post
data without their last byte: the bytes of no post
no program: no program begins so
programs out of order: pages of a block aren't programmed in order
a status of another page: a post of another page than comes next
data of another page: the data of another page
a row cycle too few: another count of row cycles than the device has
a page: 37639 ns, its bytes
the first sector: 9991 ns, its bytes
the last sector: 9991 ns, its bytes
two sectors: 19207 ns, its bytes
half a sector: a count of bytes that no sectors have
from amid a sector on: a column at which no sector begins
no byte: a count of bytes that no sectors have
a sector too many: bytes past the end of a page
after the page: bytes past the end of a page
"""

ROOM = tempfile.TemporaryDirectory(prefix="onfi-firmware-")


def tearDownModule() -> None:
    ROOM.cleanup()


def run(*words: str, **how: str) -> "subprocess.CompletedProcess[str]":
    return subprocess.run(list(words), capture_output=True, text=True, env={**os.environ, **how}, timeout=3600)


def compiled(name: str, compiler: Sequence[str], options: Sequence[str], sources: Sequence[Path], pool: int = 0) -> str:
    """A program; with a pool of so many bytes in place of the C library's allocator."""
    made = Path(ROOM.name) / name
    if made.is_file():
        return str(made)
    line = [*compiler, *STRICT, *options, f"-I{ROOT / 'include'}", f"-I{EXAMPLES}", *map(str, sources), "-xnone"]
    if pool:
        part = Path(ROOM.name) / f"{name}-pool.o"
        told = run("cc", "-std=c99", "-O2", *STRICT, f"-DPOOL_BYTES={pool}", "-c", str(EXAMPLES / "pool.c"), "-o", str(part))
        line += [str(part), f"-DPOOL_BYTES={pool}"]
        if told.returncode:
            raise AssertionError(told.stderr)
    told = run(*line, str(LIBRARY / "libonfi.a"), "-lm", "-o", str(made))
    if told.returncode or told.stderr:
        raise AssertionError(told.stderr)
    return str(made)


def firmware(name: str, compiler: Sequence[str] = C99, options: Sequence[str] = ("-O2", "-g"), pool: int = 0) -> str:
    return compiled(name, compiler, options, sorted(EXAMPLES.glob("firmware*.c")), pool)


def sane() -> str:
    return firmware("sane", options=["-O1", *SANE])


def ends_of(text: str) -> Dict[int, int]:
    """When each request ends, of lines whose last two words are its number and its end."""
    rows = (line.split() for line in text.splitlines())
    return {int(row[-2]): int(row[-1]) for row in rows}


def simulated_ends(program: Path, words: Sequence[str]) -> Dict[int, int]:
    told = run(str(program), *words, "print", "answers")
    if told.returncode:
        raise AssertionError(told.stderr)
    rows = (line.split(",") for line in told.stdout.splitlines()[1:])
    return {int(row[0]): int(row[5]) for row in rows}


class Driver(unittest.TestCase):
    def told(self, program: str, words: str, status: int = 0) -> str:
        ran = run(program, *words.split())
        self.assertEqual((ran.returncode, ran.stderr), (status, ""), words)
        return ran.stdout

    def test_ten_thousand_plans_under_sanitizers(self) -> None:
        plans = 0
        for words in RUNS:
            told = self.told(sane(), f"{words} way all")
            found = re.findall(r"^(\w+): ([\d.]+) requests a second, bus busy ([\d.]+) %, (\d+) plans$", told, re.MULTILINE)
            self.assertEqual([row[0] for row in found], WAYS, words)
            self.assertEqual([row[3] for row in (found[0], found[2])], ["0", "0"], words)
            self.assertTrue(all(0 < float(row[2]) <= 100 for row in found), words)
            plans += int(found[1][3])
        self.assertGreaterEqual(plans, PLANS)

    def test_is_cxx_too(self) -> None:
        words = "requests 400 device slc load 0.7 array 0.4-0.7 ends yes way all"
        by_cxx = self.told(firmware("cxx", CXX, ["-O1", *SANE]), words)
        self.assertEqual(by_cxx, self.told(sane(), words))
        self.assertEqual(by_cxx.count("\n"), 1200)

    def test_has_no_fault_of_memory(self) -> None:
        if shutil.which("valgrind") is None:
            print("the driver under valgrind: left out, since Debian's valgrind is not installed")
            return
        program, words = firmware("plain"), "requests 200 device slc load 0.7 array 0.4-0.7 way all".split()
        ran = run("valgrind", "--quiet", "--error-exitcode=9", "--leak-check=full", "--show-leak-kinds=all", program, *words)
        self.assertEqual((ran.returncode, ran.stderr), (0, ""), ran.stdout)

    def test_its_figures_are_those_of_its_ends(self) -> None:
        """Of the greedy way, by hand: all reads of one LUN, one at a time."""
        told = self.told(sane(), "way greedy workload reads luns 1 depth 1 requests 200")
        mean, bus = (175 + 75_100 + 37_639) / 1_000, (175 + 37_639) / (175 + 75_100 + 37_639)
        self.assertEqual(told.splitlines(), [f"greedy: {1e6 / mean:.3f} requests a second, bus busy {100 * bus:.3f} %, 0 plans",
                                             f"  180 reads: {mean:.3f} us in the mean, 99 % within 113 us"])

    def test_a_value_names_its_ways(self) -> None:
        """Where no way is named it is the pattern's."""
        for word, ways in (("", WAYS[:1]), ("way both", WAYS[1:]), ("way all", WAYS), *((f"way {way}", [way]) for way in WAYS)):
            told = self.told(sane(), f"{word} requests 20")
            self.assertEqual(re.findall(r"^(\w+): ", told, re.MULTILINE), ways, word)

    def test_a_bad_request_is_refused_and_the_others_go_on(self) -> None:
        """Every third one is asked for on a block that isn't there as well: each request ends when it does without."""
        for words in ("requests 300", "requests 300 device slc workload erases load 0.7 array 0.4-0.7 depth 256"):
            alone = self.told(sane(), f"{words} ends yes")
            self.assertEqual(self.told(sane(), f"{words} ends yes bad 3"), alone)
            self.assertEqual(len(ends_of(alone)), 300)

    def test_so_much_time_in_place_of_so_many_requests(self) -> None:
        ends = ends_of(self.told(sane(), "way greedy seconds 0.05 ends yes"))
        self.assertAlmostEqual(max(ends.values()), 50_000_000, delta=1_000_000)
        self.assertEqual(self.told(sane(), "way greedy seconds 0.05").count("requests a second"), 1)

    def test_help_lists_its_words(self) -> None:
        """The same as its comment does, and each value that a word may have is read."""
        told = self.told(sane(), "help").splitlines()
        words = dict(line.split(None, 1) for line in told[1:])
        source = (EXAMPLES / "firmware_main.c").read_text().split(" */")[0]
        self.assertEqual(sorted(words), sorted(re.findall(r"^ \*   (\w+)  ", source, re.MULTILINE)))
        for name, values in words.items():
            for value in re.split(r", ", values.split(";")[0]):
                self.assertTrue(self.told(sane(), f"{name} {value} requests 1"), (name, value))

    def test_words_that_cant_be_read(self) -> None:
        for words in ("way best", "device mlc", "luns 9", "luns 1.5", "depth", "array 0.9-0.4", "size 3", "byte 2x", "seed 0", "told"):
            ran = run(sane(), *words.split())
            self.assertEqual((ran.returncode, ran.stdout), (2, ""), words)
            self.assertEqual(ran.stderr, f"firmware: can't read {words}{'' if ' ' in words else ' '}\n")


class Simulated(unittest.TestCase):
    """The driver and the simulator of examples/simulator/rolling end each request at the same time."""

    def test_phase_by_phase(self) -> None:
        """Of 256 requests that are outstanding the first 64 are in the library's queue."""
        simulator = rolling_use.build(Path(ROOM.name) / "steady", LIBRARY)
        deep = ["device tlc byte 0.833 workload erases depth 256", "device slc workload sequential luns 2 depth 256 load 0.9"]
        for words in (*SIMULATED, *deep):
            found = ends_of(run(sane(), *words.split(), "way", "phases", "ends", "yes").stdout)
            self.assertEqual(found, simulated_ends(simulator, [*words.split(), "way", "steady"]), words)
            self.assertEqual(len(found), 2_000, words)

    def test_the_greedy_way(self) -> None:
        simulator = rolling_use.build(Path(ROOM.name) / "greedy", None)
        for words in SIMULATED:
            found = ends_of(run(sane(), *words.split(), "way", "greedy", "ends", "yes").stdout)
            self.assertEqual(found, simulated_ends(simulator, [*words.split(), "way", "rfirst:all"]), words)
            self.assertEqual(len(found), 2_000, words)

    def test_plans_in_order(self) -> None:
        simulator = rolling_use.build(Path(ROOM.name) / "planned", LIBRARY)
        for words in SIMULATED:
            both = [*words.split(), "requests", "200", "limit", "2000"]
            found = ends_of(run(sane(), *both, "way", "plans", "ends", "yes").stdout)
            self.assertEqual(found, simulated_ends(simulator, [*both, "way", "plan-early"]), words)
            self.assertEqual(len(found), 200, words)


class Board(unittest.TestCase):
    def test_a_phase_that_is_spoilt_is_found(self) -> None:
        sources = [TRIALS / "board_trials.c", EXAMPLES / "firmware_board.c", EXAMPLES / "firmware_host.c"]
        ran = run(compiled("board", C99, ["-O1", *SANE], sources))
        self.assertEqual((ran.stdout, ran.stderr), (BOARD, ""))


# What becomes of each of twenty requests (driver_trials.c has the letters), and in which order they are answered.
TRIALS_OF_TWENTY = """\
nothing: aaaaaaaaaaaaaaaaaaaa: 0 3 12 1 17 11 15 18 4 5 7 13 14 8 9 10 16 2 6 19: well
a bad block: aaaaaaarraraaaaaaaaa: 0 3 12 1 17 9 11 15 18 4 5 13 14 2 16 6 19: well
a program fails: aaaaaaafbbbaaaaaaaaa: 0 3 12 1 17 11 15 18 4 5 7 13 14 2 16 6 19: well
a read again: aaaaaaaaaaaaaaaaaaaa: 3 12 0 17 1 11 15 18 4 5 7 13 14 8 9 10 16 2 6 19: well
a late program: aaaaaaaaaaaaaaaaaaaa: 0 3 12 1 17 11 15 18 4 5 7 13 14 8 9 10 16 2 6 19: well
a late read: aaaaaaaaaaaaaaaaaaaa: 0 3 12 1 17 11 15 18 4 5 7 13 14 8 9 10 16 2 6 19: well
a LUN that hangs: aaaabbaaaaaaabbaaaaa: 0 3 12 1 17 11 15 18 7 8 9 10 2 6 19 16: well
a shared R/B#: aaaaaaaaaaaaaaaaaaaa: 0 3 12 1 17 11 15 18 4 5 7 13 14 8 9 10 16 2 6 19: well
"""
# Requests of one block of LUN 0 that come after each other: a program of one that is reset in its array takes those after it along.
PROGRAMS_OF_A_BLOCK, READ_THEN_ERASED = [7, 8, 9, 10], [0, 1, 2]
DRAWN = 60


class Errors(unittest.TestCase):
    """Where something goes wrong the driver goes on with all other requests; the board's mock judges each phase."""

    def program(self) -> str:
        sources = [TRIALS / "driver_trials.c", *(EXAMPLES / f"firmware{part}.c" for part in ("", "_board", "_host"))]
        return compiled("driver-trials", C99, ["-O1", *SANE], sources)

    def lines(self, *words: str) -> List[str]:
        ran = run(self.program(), *words)
        self.assertEqual((ran.returncode, ran.stderr), (0, ""))
        return ran.stdout.splitlines()

    def test_the_other_nineteen_go_on(self) -> None:
        self.assertEqual(self.lines()[:8], TRIALS_OF_TWENTY.splitlines())

    def test_a_reset_after_each_phase(self) -> None:
        """What was read or erased runs again in order; a program in its array comes back with all that waits for its block."""
        lines, lost = self.lines()[8:], set()
        self.assertEqual(len(lines), 40)
        for line in lines:
            name, became, order, end = line.split(": ")
            answered = [int(it) for it in order.split()]
            back = [at for at, letter in enumerate(became) if letter == "b"]
            self.assertEqual((sorted([*answered, *back]), end), (list(range(20)), "well"), line)
            self.assertIn(back, [[], [19], *(PROGRAMS_OF_A_BLOCK[at:] for at in range(4))], line)
            lost.add(tuple(back))
            for block in (READ_THEN_ERASED, PROGRAMS_OF_A_BLOCK):
                there = [at for at in answered if at in block]
                self.assertEqual(there, sorted(there), line)
        self.assertGreaterEqual(len(lost), 5)

    def test_drawn_loads(self) -> None:
        """Programs fail, pages can't be corrected, arrays take too long, a LUN is reset again and again: each request ends once."""
        sums = [0] * 6
        for seed in range(1, DRAWN + 1):
            line, = self.lines("drawn", str(seed))
            counts, end = line.split(": ")
            found = [int(it) for it in re.findall(r"\d+", counts)]
            self.assertEqual((sum(found[:5]), end), (1_000, "well"), seed)
            sums = [one + other for one, other in zip(sums, found)]
        self.assertTrue(all(it > 50 for it in sums), sums)

    def test_the_page_shows_that_code(self) -> None:
        """Each function that EMBEDDED shows is one of the driver, as it stands there."""
        page = (ROOT / "docs/EMBEDDED.md").read_text()
        source = "".join((EXAMPLES / f"firmware{part}.c").read_text() for part in ("", "_interrupts"))
        source += re.sub(r"^ \*     ", "", source, flags=re.MULTILINE)
        section = page.split("## When a LUN isn't ready")[1].split("\n## Memory")[0]
        blocks = [re.sub(r"^    ", "", it, flags=re.MULTILINE) for it in re.findall(r"(?:^    .*\n)+", section, re.MULTILINE)]
        self.assertGreater(len(blocks), 4)
        for block in blocks:
            self.assertTrue(block.strip("\n") in source, block.splitlines()[0])


class Interrupts(unittest.TestCase):
    """The loop whose transfers end by interrupts: while one runs what is next is decided."""

    def test_each_request_ends_when_it_does_in_a_loop_that_waits(self) -> None:
        for words in (*SIMULATED, "device slc workload erases", "array 0.3-0.9 workload mixed-4k byte 0.833"):
            both = [run(sane(), *words.split(), "ends", "yes", "requests", "800", "way", way) for way in ("phases", "interrupts")]
            self.assertEqual([ran.stderr for ran in both], ["", ""], words)
            self.assertEqual(ends_of(both[0].stdout), ends_of(both[1].stdout), words)
            self.assertEqual(len(ends_of(both[1].stdout)), 800, words)

    def test_what_is_next_is_decided_while_the_bus_is_in_use(self) -> None:
        """And again where a request came: with each answer one does in a closed loop, so there half are. Transfers that take longer end that."""
        least = {"": 0.5, "load 0.7 array 0.4-0.7": 0.7, "slow 90 load 0.7 array 0.4-0.7": 0}
        for words, share in least.items():
            ran = run(sane(), *f"way interrupts {words}".split())
            self.assertEqual((ran.returncode, ran.stderr), (0, ""), words)
            ahead, phases = (int(it) for it in re.findall(r"(\d+) of (\d+) phases decided ahead", ran.stdout)[0])
            self.assertGreaterEqual(ahead, share * phases, words)

    def test_luns_that_only_their_status_shows_ready(self) -> None:
        """Asked for, reads are answered sooner than where each waits for its stated time, and not much later than by an R/B# for each."""
        means = {}
        for told in ("yes", "polled", "no"):
            ran = run(sane(), *f"byte 0.833 load 0.7 array 0.4-0.7 told {told}".split())
            self.assertEqual(ran.stderr, "", told)
            means[told] = float(re.findall(r"reads: ([\d.]+) us", ran.stdout)[0])
        self.assertLess(means["polled"], means["no"])
        self.assertLess(means["polled"], 1.3 * means["yes"])


class Suspends(unittest.TestCase):
    """Programs that are stopped for reads: the board's mock judges each phase, and reads are answered sooner."""

    SOURCES = ["suspend.c", *(f"firmware{part}.c" for part in ("", "_board", "_host"))]
    LINES = re.compile(r"without: 0 stops\n(.*\n)(.*\n)with suspends: (\d+) stops\n(.*\n)(.*\n)")
    LATENCY = re.compile(r"  (\d+) (reads|programs): ([\d.]+) us in the mean, 99 % within ([\d.]+) us\n")

    def program(self) -> str:
        return compiled("suspend", C99, ["-O1", *SANE], [EXAMPLES / name for name in self.SOURCES])

    def test_reads_are_answered_sooner(self) -> None:
        for words in ("", "0.1 2000 2", "0.25 2000 3"):
            ran = run(self.program(), *words.split())
            self.assertEqual((ran.returncode, ran.stderr), (0, ""), words)
            lines = self.LINES.fullmatch(ran.stdout)
            assert lines is not None, ran.stdout
            cells = [self.LATENCY.fullmatch(lines[at]) for at in (1, 2, 4, 5)]
            assert all(cells), ran.stdout
            reads, programs, reads_then, programs_then = [(cell[2], float(cell[3]), float(cell[4])) for cell in cells if cell]
            self.assertEqual([it[0] for it in (reads, programs, reads_then, programs_then)], ["reads", "programs"] * 2)
            self.assertGreater(int(lines[3]), 100, words)
            self.assertLess(reads_then[1], reads[1], words)
            self.assertLess(reads_then[2], reads[2], words)

    def test_words_that_cant_be_read(self) -> None:
        for words in ("0", "x", "0.5 0", "0.5 100001", "0.5 100 0", "0.5 100 1 1"):
            ran = run(self.program(), *words.split())
            self.assertEqual((ran.returncode, ran.stdout, ran.stderr.split(" ")[0]), (2, "", "suspend"), words)


class Pool(unittest.TestCase):
    def test_random_blocks(self) -> None:
        names = [f"-D{name}=pool_{name}" for name in ("malloc", "realloc", "free")]
        made = compiled("pool-trials", C99, ["-O1", *SANE, *names, "-DPOOL_BYTES=8192"], [TRIALS / "pool_trials.c", EXAMPLES / "pool.c"])
        ran = run(made)
        self.assertEqual((ran.stdout, ran.stderr), ("wrong 0, some refused 1, too much refused 1, all at once 1, peak 1\n", ""))

    def test_phase_by_phase_takes_none_of_a_pool(self) -> None:
        """Of the pool is taken what is printed alone: with 64 bytes of it nothing else changes."""
        words = "requests 100 device slc workload erases".split()
        told = run(firmware("ample", pool=1 << 20), *words)
        memory = re.search(r"^  memory (\d+) bytes, stack (\d+) bytes$", told.stdout, re.MULTILINE)
        assert memory is not None, told.stdout
        self.assertTrue(1_000 < int(memory[2]) < 1 << 16, memory[0])
        ends = run(firmware("least", pool=64), *words, "ends", "yes")
        self.assertEqual((ends.returncode, ends.stdout, ends.stderr), (0, run(sane(), *words, "ends", "yes").stdout, ""))

    def test_the_driver_over_a_pool(self) -> None:
        """It does the same, and says how much it took; with less a plan is refused. What is printed has 4 KB of the pool."""
        words = "requests 100 way plans limit 2000".split()
        ample = firmware("ample", pool=1 << 20)
        ends = run(ample, *words, "ends", "yes")
        self.assertEqual((ends.stdout, ends.stderr), (run(sane(), *words, "ends", "yes").stdout, ""))
        memory = re.search(r"^  memory (\d+) bytes, stack (\d+) bytes,", run(ample, *words).stdout, re.MULTILINE)
        assert memory is not None
        self.assertTrue(1_000 < int(memory[1]) <= 1 << 20 and 1_000 < int(memory[2]) < 1 << 18, memory[0])
        enough = firmware("enough", pool=int(memory[1]) + 8_192)
        self.assertEqual(run(enough, *words, "ends", "yes").stdout, ends.stdout)
        little = run(firmware("little", pool=int(memory[1]) // 2), *words, "ends", "yes")
        self.assertEqual((little.returncode, little.stderr), (1, "firmware: plans: a call refuses what is asked (4)\n"))


def python_with_simpy() -> Optional[str]:
    """A Python that has SimPy; None where none has."""
    for python in (sys.executable, "/usr/bin/python3"):
        if shutil.which(python) and run(python, "-c", "import simpy").returncode == 0:
            return python
    return None


class Drive(unittest.TestCase):
    """Two channels in SimPy: channel 0 is the driver by a seed, channel 1 by the next one."""

    def by_python(self, python: str, words: str) -> str:
        path = os.pathsep.join([str(ROOT / "python"), os.environ.get("PYTHONPATH", "")])
        ran = run(python, "-B", str(SSD), *words.split(), PYTHONPATH=path, ONFI_LIBRARY=str(LIBRARY / "libonfi.so"))
        self.assertEqual((ran.returncode, ran.stderr), (0, ""), words)
        return ran.stdout

    def test_each_request_ends_when_it_does_in_c(self) -> None:
        python = python_with_simpy()
        if python is None:
            print("the drive in SimPy: left out, since Debian's python3-simpy3 is not installed")
            self.assertRegex(self.by_python(sys.executable, "--requests 10"), "^nothing is simulated: SimPy is not installed")
            return
        both: List[Tuple[str, str]] = [("--requests 150", ""), ("--requests 150 --load 0.7 --array 0.4 0.7", "load 0.7 array 0.4-0.7"),
                                       ("--requests 150 --sectors 1 --load 0.7 --array 0.4 0.7", "workload mixed-4k load 0.7 array 0.4-0.7")]
        for words, in_c in both:
            told = self.by_python(python, f"--ends {words}")
            for channel in (0, 1):
                found = ends_of("\n".join(line for line in told.splitlines() if line.startswith(f"{channel} ")))
                wanted = ends_of(run(sane(), *in_c.split(), *f"ends yes requests 150 seed {channel + 1}".split()).stdout)
                self.assertEqual({at: found.get(at) for at in wanted}, wanted, (words, channel))


if __name__ == "__main__":
    unittest.main()
