"""The simulator of channels in rolling use: worked runs, its judge on broken phases, its choices, its tables; and what no scheduler passes."""

import csv
import itertools
import random
import re
import subprocess
import tempfile
import unittest
import xml.etree.ElementTree as ET
from pathlib import Path
from typing import Dict, List, NamedTuple

import support
from onfi_tools.bench.runs import quantile
from onfi_tools.channel_bound import Channel, Request, bounds_of, bus_bound, dies_bound, found_mates, loop_bound, most_joins, most_outstanding
from onfi_tools.device import Spans
from onfi_tools.rolling_load import WINDOWS, Load, run_load, write_load
from onfi_tools.rolling_tables import gain_table, of_bound, room_table, sector_table, spread_table
from onfi_tools.rolling_use import (ALL, OF_SECTORS, SOURCES, STRICT, TWELVE, WITH_ERASES, Asked, Configuration, Figures, Measured, Rows, bounds_there,
                                    build, key_of, measure, run_way, six_of, sources_of)
from onfi_tools.rolling_ways import BASE, GREEDY, PLANS, WAYS, WITHOUT_SEARCH
from onfi_tools.script import first_form
from onfi_tools.workload import Operation, Place, Shape
from test_devices import commands_of

ASKED = Asked(requests=200, seed=3, limit=2000, jobs=1)
LONG = Asked(requests=2000, seed=1, limit=1, jobs=1)
# Of tlc at 2 ns a byte: the parts of a read, and four programs as one, on their LUN.
READ, ARRAY, OUTPUT = 175, 75100, 37639
FOUR = 4 * 37439 + 3 * 600 + 800100 + 4 * 305
PROCESSOR_TIME = ("planning_us", "planning_longest_us")
# Plans that end first; the others end early.
EXACT = ("plan",)
PARTS = """\
nothing spoilt: legal
data output 1 ns sooner: the bus isn't free (113088 ns, LUN 0, request 0, earliest 113089)
gap 1 ns sooner: the LUN isn't ready (774 ns, LUN 0, request 1, earliest 775)
array 1 ns sooner: the LUN isn't ready (75449 ns, LUN 1, request 2, earliest 75450)
no start: a step without a start below 2^62 ns (18446744073709551615 ns, LUN 1, request 2, earliest 0)
another LUN: there is no such LUN (175 ns, LUN 2, request -1, earliest 0)
nothing to go on with: a LUN goes on that runs nothing (175 ns, LUN 1, request -1, earliest 0)
a group in a group: a group begins while its LUN runs another one (775 ns, LUN 0, request 2, earliest 0)
five members: a group of more requests than the device has planes (175 ns, LUN 1, request 2, earliest 0)
once more: a request begins that doesn't wait (188367 ns, LUN 1, request 2, earliest 0)
never accepted: a request begins that doesn't wait (175 ns, LUN 1, request 9, earliest 0)
twice at once: a request begins twice (175 ns, LUN 1, request 2, earliest 0)
of LUN 1 on LUN 0: a request begins on another LUN than its own (0 ns, LUN 0, request 2, earliest 0)
later on a block: a request begins before an earlier one on its block (175 ns, LUN 1, request 3, earliest 0)
accepted later: a request begins before it is accepted (0 ns, LUN 0, request 1, earliest 0)
two planes one by one: a group of a kind that the device runs one by one (0 ns, LUN 0, request 0, earliest 0)
planes of one block: legal
a sector and a page: legal
another kind: a group of several kinds (0 ns, LUN 0, request 1, earliest 0)
another page: a group of several pages (0 ns, LUN 0, request 1, earliest 0)
the same plane: a group with two requests of one plane (0 ns, LUN 0, request 1, earliest 0)
other blocks: legal
other blocks of a strict device: a group of blocks that a strict device doesn't take together (0 ns, LUN 0, request 1, earliest 0)
as it should be: legal
too soon on the bus: the bus isn't free (174 ns, LUN 2, request 1, earliest 175)
one twice: a request begins twice (0 ns, LUN 5, request 0, earliest 0)
never: requests are left, and nothing is done (0 ns, LUN 5, request 0, earliest 0)
everything: 15 up to 14
first eight: 8 up to 7
"""


class Phase(NamedTuple):
    start: int
    end: int
    lun: int
    part: str
    want: int


ROOM = tempfile.TemporaryDirectory(prefix="rolling-")
GREEDY_ALONE = Path(ROOM.name) / "greedy"


def setUpModule() -> None:
    unittest.addModuleCleanup(ROOM.cleanup)
    build(GREEDY_ALONE, None)


def phases(program: Path, of: Configuration, way: str, requests: int) -> List[Phase]:
    words = [*of.words(), "way", way, "requests", str(requests), "limit", "2000", "print", "phases"]
    ran = subprocess.run([str(program), *words], capture_output=True, text=True, check=True)
    rows = [line.split() for line in ran.stdout.splitlines()]
    return [Phase(int(row[0]), int(row[1]), int(row[2]), row[4], int(row[9])) for row in rows]


def but_for_time(figures: Figures) -> Figures:
    return {name: number for name, number in figures.items() if name not in PROCESSOR_TIME}


class Parts(unittest.TestCase):
    def test_judge_and_choice(self) -> None:
        """Of a program that is made of a source here and of the simulator's but its main."""
        made = Path(ROOM.name) / "rolling_parts"
        sources = [support.ROOT / "tests/tools/rolling_parts.c", *(each for each in sources_of(False) if each.name != "main.c")]
        line = ["cc", *STRICT, "-fsanitize=address,undefined", "-fno-sanitize-recover=all", "-DWITHOUT_LIBRARY", f"-I{SOURCES}",
                f"-I{support.ROOT / 'include'}", *map(str, sources), "-lm", "-o", str(made)]
        told = subprocess.run(line, capture_output=True, text=True)
        self.assertEqual((told.returncode, told.stderr), (0, ""))
        ran = subprocess.run([str(made)], capture_output=True, text=True)
        self.assertEqual((ran.returncode, ran.stderr, ran.stdout), (0, "", PARTS))


class Greedy(unittest.TestCase):
    """What holds of any way, first of the greedy ones; the classes after it have other ways."""

    program = GREEDY_ALONE
    ways = list(GREEDY)
    requests = 200

    def test_each_request_is_answered_once(self) -> None:
        others = (TWELVE[1]._replace(load=0.5), TWELVE[1]._replace(array="0.4-0.7"), six_of("mixed-4k")[0])
        for way, of in itertools.product(self.ways, (TWELVE[1], TWELVE[8], TWELVE[9], *others)):
            ran = phases(self.program, of, way, self.requests)
            commands, posts = ([phase.want for phase in ran if phase.part == part] for part in ("cmd", "post"))
            self.assertEqual((len(posts), len(set(posts)), len(set(commands))), (self.requests, self.requests, len(commands)), way)
            self.assertLessEqual(set(posts), set(commands), way)
            self.assertTrue(all(one.end <= other.start for one, other in zip(ran, ran[1:])), way)

    def test_one_seed_gives_the_same_figures_twice(self) -> None:
        for way in self.ways:
            asked = ASKED._replace(requests=self.requests)
            one, other = (run_way(self.program, TWELVE[0], way, asked) for _ in range(2))
            self.assertEqual(but_for_time(one), but_for_time(other), way)
            changed = run_way(self.program, TWELVE[0], way, asked._replace(seed=4))
            self.assertNotEqual(one["rate"], changed["rate"], way)

    def test_one_at_a_time_each_way_does_the_same(self) -> None:
        one_at_a_time = Configuration("tlc", "reads", 2, luns=1, depth=1)
        for way in self.ways:
            figures = run_way(self.program, one_at_a_time, way, ASKED)
            self.assertAlmostEqual(figures["rate"], 1e9 / (READ + ARRAY + OUTPUT), 2, way)
            self.assertAlmostEqual(figures["bus"], (READ + OUTPUT) / (READ + ARRAY + OUTPUT), 5, way)


class ByHand(unittest.TestCase):
    """Greedy ways, what they make of a configuration worked out."""

    def rate(self, of: Configuration, way: str) -> float:
        return run_way(GREEDY_ALONE, of, way, ASKED)["rate"]

    def test_first_in_first_out_by_hand(self) -> None:
        # One LUN, none grouped: a program's data of 37,439, its array of 800,100, its status of 305, one after another.
        self.assertAlmostEqual(self.rate(Configuration("tlc", "sequential", 2, luns=1), "fifo"), 1e9 / 837844, 2)
        ran = phases(GREEDY_ALONE, Configuration("tlc", "sequential", 2, luns=2), "fifo", 8)
        # Four planes of LUN 0, then those of LUN 1: the fifth request doesn't wait for the fourth.
        self.assertEqual([phase.lun for phase in ran[:10]], [0] * 7 + [1, 0, 1])
        self.assertEqual([phase.start for phase in ran[6:9]], [3 * 837844, 3 * 837844 + 37439, 3 * 837844 + 837539])

    def test_reads_first_fills_the_planes_by_hand(self) -> None:
        # One LUN: the data of four programs with gaps of 600 between them, one array, four statuses.
        self.assertAlmostEqual(self.rate(Configuration("tlc", "sequential", 2, luns=1), "rfirst:all"), 4e9 / FOUR, 2)

    def test_an_array_that_is_early_counts_where_it_is_told(self) -> None:
        of = Configuration("tlc", "reads", 2, luns=1, depth=1, array="0.5-0.5")
        self.assertAlmostEqual(self.rate(of, "fifo"), 1e9 / (READ + ARRAY // 2 + OUTPUT), 2)
        self.assertAlmostEqual(self.rate(of._replace(told=False), "fifo"), 1e9 / (READ + ARRAY + OUTPUT), 2)

    def test_a_sector_has_the_bus_for_a_quarter_of_the_bytes(self) -> None:
        """4,608 bytes at 2 ns in place of 18,432; and all else is the same, requests too."""
        output = 7 * 25 + 500 + 4608 * 2 + 100
        self.assertAlmostEqual(self.rate(Configuration("tlc", "reads-4k", 2, luns=1, depth=1), "fifo"), 1e9 / (READ + ARRAY + output), 2)
        for sectors, pages in OF_SECTORS.items():
            words = [[*Configuration("slc", name, 2).words(), "print", "requests"] for name in (sectors, pages)]
            one, other = (subprocess.run([str(GREEDY_ALONE), *each], capture_output=True, text=True, check=True).stdout.splitlines() for each in words)
            self.assertEqual([(at, line) for at, line in enumerate(one) if line != other[at]], [(2, "read 175 600 25100 2935")])

    def test_an_open_loop_has_the_bus_for_its_load(self) -> None:
        """And where requests come seldom none waits for another."""
        figures = run_way(GREEDY_ALONE, Configuration("tlc", "reads", 2, load=0.00001), "fifo", ASKED)
        for name in ("read_mean", "read_999"):
            self.assertAlmostEqual(figures[name], (READ + ARRAY + OUTPUT) / 1000, 3)
        figures = run_way(GREEDY_ALONE, TWELVE[1]._replace(load=0.4), "rfirst:all", ASKED._replace(requests=4000))
        self.assertAlmostEqual(figures["bus"], 0.4, delta=0.03)

    def test_luns_that_erase_at_once(self) -> None:
        """One LUN erases alone; of eight several do, since erases wait until nothing else of their LUN does."""
        asked = ASKED._replace(requests=2000)
        self.assertEqual(run_way(GREEDY_ALONE, Configuration("tlc", "erases", 2, luns=1, depth=1), "rfirst:all", asked)["erasing"], 1)
        several = run_way(GREEDY_ALONE, Configuration("tlc", "erases", 2), "rfirst:all", asked)["erasing"]
        self.assertTrue(1.5 < several < 8, several)
        self.assertEqual(run_way(GREEDY_ALONE, TWELVE[0], "rfirst:all", ASKED)["erasing"], 0)

    def test_words_that_cant_be_read(self) -> None:
        for words in (["way", "best"], ["device", "mlc"], ["luns", "9"], ["depth"], ["array", "0.9-0.4"], ["size", "3"], ["print", "all"]):
            ran = subprocess.run([str(GREEDY_ALONE), *words], capture_output=True, text=True)
            self.assertEqual((ran.returncode, ran.stdout), (2, ""), words)
            self.assertRegex(ran.stderr, r"^rolling: (can't read|no way|no device) ")

    def test_help_and_units(self) -> None:
        """Each word that there is stands in the help, and each figure has its unit."""
        told = subprocess.run([str(GREEDY_ALONE), "--help"], capture_output=True, text=True, check=True).stdout
        named = re.findall(r'strcmp\(name, "(\w+)"\)', (SOURCES / "main.c").read_text())
        self.assertEqual((set(re.findall(r"^  (\w+)  ", told, re.MULTILINE)), len(named)), (set(named), 16))
        figures = subprocess.run([str(GREEDY_ALONE), "requests", "50"], capture_output=True, text=True, check=True).stdout.splitlines()
        self.assertEqual({len(line.split()) for line in figures}, {3})
        self.assertIn("reads 45 requests", figures)
        self.assertEqual({line.split()[2] for line in figures if re.match(r"\w+_(mean|50|95|99|999|most) ", line)}, {"us"})


# Four planes on each of two LUNs; pages of 400 bytes in four sectors, of which up to three have lengths of their own.
DEVICE = """\
geometry,64,16,400,0
shape,2,2,1,1
spans,read,10,2,100,40
spans,program,50,2,500,5
spans,erase,10,2,1000,5
sectorpost,1,10
sectorpost,2,20
sectorpost,3,30
sectorpost,4,40
end
"""
HEADING = "time,op,lun,block,page,first sector,sectors\n"


class OwnLoads(unittest.TestCase):
    """Devices and requests of files, and a scheduler in a file of its own."""

    def setUp(self) -> None:
        self.room = support.room_of(self)
        self.device = self.file("device.onfi", DEVICE)

    def file(self, name: str, text: str) -> str:
        (self.room / name).write_text(text)
        return str(self.room / name)

    def told(self, load: str, *words: str, device: str = "", program: Path = GREEDY_ALONE) -> "subprocess.CompletedProcess[str]":
        line = [str(program), "device", device or self.device, "workload", self.file("load.csv", load), *words]
        return subprocess.run(line, capture_output=True, text=True)

    def answers(self, load: str, *words: str, device: str = "") -> List[List[int]]:
        """Request, line, arrival and end of each answer."""
        ran = self.told(load, *words, "print", "answers", device=device)
        self.assertEqual((ran.returncode, ran.stderr), (0, ""))
        head, *rows = ran.stdout.splitlines()
        self.assertEqual(head, "request,line,op,lun,arrived_ns,end_ns")
        return [[int(cell) for at, cell in enumerate(row.split(",")) if at not in (2, 3)] for row in rows]

    def test_sectors_arrivals_and_lines_by_hand(self) -> None:
        """A read of a page, and one of two sectors which comes while the first's array works; the eighth field is a line, else its own is."""
        load = HEADING + "1000,read,0,0,3,0,0\n\n1005,R,1,4,3,1,2,77\n"
        self.assertEqual(self.answers(load, "way", "fifo"), [[0, 2, 1000, 1150], [1, 77, 1005, 1170]])
        self.assertEqual(self.answers(load, "way", "fifo", "closed", "yes"), [[0, 2, 0, 150], [1, 77, 0, 170]])
        self.assertEqual(self.answers(load, "way", "fifo", "closed", "yes", "depth", "1"), [[0, 2, 0, 150], [1, 77, 150, 150 + 130]])
        self.assertEqual(self.answers(load, "way", "fifo", "depth", "1"), [[0, 2, 1000, 1150], [1, 77, 1005, 1150 + 130]])

    def test_reads_of_sectors_and_pages_run_as_one(self) -> None:
        """Two planes of a page: commands of 10 with a gap of 2, an array of 100, posts of 40 and 10; not on a device that runs reads one by one."""
        load = "0,read,0,0,3\n0,read,0,1,3,0,1\n"
        self.assertEqual(self.answers(load, "way", "rfirst:all"), [[0, 1, 0, 162], [1, 2, 0, 172]])
        one_by_one = self.file("one.onfi", DEVICE.replace("shape,2,2,1,1", "shape,2,2,0,1"))
        self.assertEqual(self.answers(load, "way", "rfirst:all", device=one_by_one), [[0, 1, 0, 150], [1, 2, 0, 150 + 120]])

    def test_strict_devices(self) -> None:
        """Blocks 0 and 5 are of two planes, and agree above the plane bits with none."""
        load, strict = "0,read,0,0,3\n0,read,0,5,3\n", self.file("strict.onfi", "strict,1\n" + DEVICE)
        self.assertEqual(self.answers(load, "way", "rfirst:all")[1][3], 12 + 10 + 100 + 2 * 40)
        self.assertEqual(self.answers(load, "way", "rfirst:all", device=strict)[1][3], 2 * 150)

    def test_all_is_measured(self) -> None:
        told = self.told("5,read,0,0,3\n5,erase,1,4,0\n", "way", "fifo").stdout
        self.assertIn("answered 2 requests\nrate 1951219.512 requests/s\n", told)  # from 5 to 1,030, when the status of the erase ends
        self.assertIn("reads 1 requests\nread_mean 0.150 us\nread_50 0.150 us\n", told)

    def test_phases_are_a_trace(self) -> None:
        ran = self.told("0,program,0,0,0\n0,read,0,5,3,0,1\n0,read,0,6,3,0,1\n", "way", "rfirst:all", "print", "phases")
        self.assertEqual(ran.stdout.splitlines()[:4], ["0 10 0 read cmd 5 3 00 32 1", "12 22 0 read cmd 6 3 00 30 2", "122 132 0 read post 5 3 06 E0 1",
                                                       "132 142 0 read post 6 3 06 E0 2"])
        self.assertEqual(ran.stdout.splitlines()[-1], "692 697 0 program post 0 0 78 - 0")
        self.assertEqual(support.run_tool("draw-trace", "--script", self.device, given=ran.stdout).returncode, 0)

    def test_loads_and_devices_that_cant_be_read(self) -> None:
        rows = {"1,read,0,0": "not time,op,lun,block,page", "x,read,0,0,0": "not time", "1,trim,0,0,0": "not time", "1,read,2,0,0": "a LUN that",
                "1,read,0,65536,0": "not time", "1,read,0,0,4096": "not time", "1,erase,0,0,1": "an erase of another page", "0,read,0,0,0": "a time before",
                "1,program,0,0,0,0,1": "sectors of what is no read", "1,read,0,0,0,0,5": "sectors of what", "1,read,0,0,0,0": "not time"}
        for row, said in rows.items():
            ran = self.told(f"{HEADING}1,read,0,0,0\n{row}\n")
            self.assertEqual((ran.returncode, ran.stdout), (2, ""), row)
            self.assertIn(f"load.csv:3: {said}", ran.stderr)
        self.assertEqual(self.told(HEADING).stderr, f"rolling: no workload {self.room / 'load.csv'}: there is no request\n")
        for text, said in (("shape,9,0,0,0\nend\n", ":1: not a row shape"), ("shape,1,0,0,0\nspans,read,1,1,1,0\n", ":2: not a row"),
                           ("page,00\nend\n", "rows shape and spans of each kind are asked for"), (DEVICE.replace("sectorpost,1", "sectorpost,8"), ":6: not a row")):
            ran = self.told("1,read,0,0,0\n", device=self.file("wrong.onfi", text))
            self.assertEqual((ran.returncode, ran.stdout), (2, ""), text)
            self.assertIn(said, ran.stderr)

    def test_no_way_passes_the_bound(self) -> None:
        """On drawn loads of few pages, open and closed; and one at a time each way reaches it."""
        rng = random.Random(5)
        for at in range(40):
            load = drawn_load(rng, at % 2 == 1)
            write_load(load, self.room)
            for way in GREEDY:
                outcome = run_load(GREEDY_ALONE, self.room, load, way)
                rate = len(outcome.answers) * 1e9 / (outcome.end() - outcome.begin())
                self.assertLessEqual(rate, load.bound() * (1 + 1e-9), (at, way))
                if load.depth == 1 and load.closed:
                    self.assertAlmostEqual(rate / load.bound(), 1, 9)

    def test_what_may_join_by_hand(self) -> None:
        """Of page 3 of LUN 0: plane 0, the same plane, plane 1, plane 2 of a page more, plane 2, and an erase."""
        blocks = [("read", 0, 0, 3), ("read", 0, 4, 3), ("read", 0, 1, 3), ("read", 0, 2, 4), ("read", 0, 2, 3), ("erase", 0, 5, 0)]
        load = Load([], first_form(DEVICE), SHAPE, [Operation(at, 0, kind, Place(0, *place)) for at, (kind, *place) in enumerate(blocks)], 64, True)
        self.assertEqual(list(load.distances()), [0, 0, 1, 0, 2, 0])
        few = [Request("read", 0, distance=far) for far in (1, 2, 3, 3)]
        self.assertEqual([most_joins(channel(depth=depth)._replace(pages=0), few, "read") for depth in (1, 2, 3, 64)], [0, 2, 3, 3])

    def test_the_commands_of_the_page(self) -> None:
        """As a stranger gives them: own trace, device and scheduler; a planted fault; a picture. No file of the project is changed."""
        for name in ("examples", "include", "tools"):
            (self.room / name).symlink_to(support.ROOT / name)
        found = [it for it in commands_of(SOURCES / "README.md", with_silent=True) if "soonest.py" not in it[0] and "wrong.py" not in it[0]]
        for command, written in found:
            ran = subprocess.run(command, shell=True, capture_output=True, text=True, cwd=self.room)
            self.assertEqual((ran.stdout, ran.stderr), (written, ""), command)
        self.assertEqual(len(found), 5)
        made = {path.name for path in (self.room / "out").iterdir()}
        self.assertEqual(made, {"rolling", "device.onfi", "load.csv", "latencies.csv", "over-time.csv", "over-time.svg"})
        rows = list(csv.DictReader((self.room / "out/over-time.csv").read_text().splitlines()))
        self.assertEqual([len([row for row in rows if row["way"] == way]) for way in ("oldest", "fifo", "rfirst:all")], [WINDOWS] * 3)
        done = sum(float(row["operations_per_s"]) * (int(row["to_ns"]) - int(row["from_ns"])) / 1e9 for row in rows if row["way"] == "fifo")
        self.assertAlmostEqual(done, 14, 3)
        root = ET.parse(self.room / "out/over-time.svg").getroot()
        self.assertEqual(len([it for it in root.iter() if it.tag.endswith("polyline")]), 6)

    @unittest.skipUnless(support.program(), "no built program")
    def test_the_sequencer_beside_it(self) -> None:
        """One request alone takes what it takes by any way; of some that come at once the sequencer answers each, and ends no sooner than the bound says."""
        device = self.file("page.onfi", "sector,4608\n" + (support.ROOT / "examples/devices/tlc.onfi").read_text())
        words = ["--device", device, "--ways", "rfirst:all", "--run", str(support.program()), "--into", str(self.room)]
        for load, same in (("7,read,1,5,3,1,2\n", True), ("0,program,1,4,0,0,0\n", True), ("0,read,1,5,3\n0,R,0,8,3,0,1\n9,P,3,4,0\n9,E,2,4,0\n", False)):
            ran = support.run_tool("bench", "rolling", "--trace", self.file("trace.csv", HEADING + load), *words)
            self.assertEqual((ran.returncode, ran.stderr), (0, ""))
            rows = list(csv.DictReader((self.room / "latencies.csv").read_text().splitlines()))
            found = {way: [row["end_ns"] for row in rows if row["way"] == way] for way in ("rfirst:all", "run --by rule", "run --by next")}
            self.assertEqual({len(ends) for ends in found.values()}, {load.count("\n")})
            self.assertTrue(not same or len(set(map(tuple, found.values()))) == 1, found)
            self.assertTrue(all(float(row.split("|")[4]) <= 100 for row in ran.stdout.splitlines()[2:4]), ran.stdout)
        ran = support.run_tool("bench", "rolling", "--trace", self.file("trace.csv", HEADING + load), *words, "--closed")
        self.assertEqual((ran.returncode, ran.stderr[:31]), (1, "bench rolling: `run` takes requ"))

    def test_faults_that_are_planted(self) -> None:
        """Each is refused with its time, LUN, request and line, and a status."""
        plain = (SOURCES / "own/oldest.c").read_text()
        faults = [("{want->id}", "{want->id + 999}", "at 0 ns, LUN 0, request 999: a request begins that doesn't wait"),
                  (".members = 1, .member = {want->id}", ".members = 2, .member = {want->id, want->id}", "at 0 ns, LUN 0, request 0 (line 2): a request begins twice"),
                  (".lun = want->lun", ".lun = 1", "at 0 ns, LUN 1, request 0 (line 2): a request begins on another LUN than its own"),
                  ("return step->start < NEVER", "step->start -= step->start > 0 && !step->members;\n    return step->start < NEVER",
                   "at 109 ns, LUN 0, request 0 (line 2): the LUN isn't ready before 110 ns"),
                  ("return step->start < NEVER", "return false", "at 0 ns, LUN 0, request 0 (line 2): requests are left, and nothing is done")]
        for before, after, said in faults:
            self.assertEqual(plain.count(before), 1, before)
            program = build(self.room / "wrong", None, Path(self.file("wrong.c", plain.replace(before, after))))
            ran = self.told(HEADING + "0,read,0,0,3,0,0\n0,program,1,0,0,0,0\n", "way", "oldest", program=program)
            self.assertEqual((ran.returncode, ran.stdout, ran.stderr), (1, "", f"rolling: oldest: {said}\n"))


SHAPE = Shape(1, 2, 4, 64, 16, 400, 4)


def drawn_load(rng: random.Random, closed: bool) -> Load:
    """Some requests of few pages and blocks, some of them reads of sectors."""
    operations, time = [], 0
    for at in range(rng.randint(1, 60)):
        kind = rng.choices(("read", "program", "erase"), (6, 3, 1))[0]
        place = Place(0, rng.randrange(2), rng.randrange(12), 0 if kind == "erase" else rng.randrange(2))
        operations.append(Operation(at, time, kind, place, 0, rng.choice((0, 0, 1, 3)) if kind == "read" else 0))
        time += rng.choice((0, 0, 30, 400))
    return Load([], first_form(DEVICE), SHAPE, operations, rng.choice((1, 2, 5, 64)), closed)


class Plans(Greedy):
    ways = list(PLANS)
    requests = 80

    @classmethod
    def setUpClass(cls) -> None:
        found = support.library(Path(ROOM.name))
        if found is None:
            raise unittest.SkipTest("no built library")
        cls.program = build(Path(ROOM.name) / "planned", found)

    def test_a_search_that_is_over_is_counted(self) -> None:
        """Plans that end early are plans at any limit, so that none is over."""
        for way in self.ways:
            figures = run_way(self.program, TWELVE[0], way, ASKED._replace(limit=1))
            self.assertEqual(figures["over"] > 0, way in EXACT, way)
            self.assertEqual(figures["answered"], 180, way)

    def test_loads_of_sectors_and_pages(self) -> None:
        """Each answers all requests, by lengths of sectors or as if all reads were as long as the shortest."""
        for closed in (False, True):
            load = drawn_load(random.Random(11), closed)._replace(depth=16)
            write_load(load, Path(ROOM.name))
            for way in self.ways:
                self.assertEqual(len(run_load(self.program, Path(ROOM.name), load, way).answers), len(load.operations), way)

    def test_the_line_of_the_page(self) -> None:
        """By which a C compiler alone makes the simulator with a way of one's own."""
        line = re.search(r"^    (cc .*) lib/libonfi.a -lm -o rolling$", (SOURCES / "README.md").read_text(), re.MULTILINE)
        archive = support.library(Path(ROOM.name))
        assert line and archive
        made = Path(ROOM.name) / "by-hand"
        subprocess.run(f"{line[1]} {archive}/libonfi.a -lm -o {made}", shell=True, cwd=support.ROOT, check=True)
        for way in ("oldest", *self.ways):
            self.assertEqual(run_way(made, TWELVE[0], way, ASKED._replace(requests=20))["answered"], 18, way)

    def test_plans_fill_the_planes_by_hand(self) -> None:
        for way in self.ways:
            figures = run_way(self.program, Configuration("tlc", "sequential", 2, luns=1), way, ASKED)
            self.assertAlmostEqual(figures["rate"], 4e9 / FOUR, 2, way)


class WithoutSearch(Plans):
    """Plans by the rule, and phase by phase."""

    ways = list(WITHOUT_SEARCH)
    requests = 200

    def test_a_search_that_is_over_is_counted(self) -> None:
        """There is none."""
        for way in self.ways:
            self.assertEqual(run_way(self.program, TWELVE[0], way, ASKED._replace(limit=1))["over"], 0, way)

    def test_phase_by_phase_whole_groups_wait_for_their_mates(self) -> None:
        """Sixteen programs of eight LUNs, four planes each: in groups of four, as the greedy way has them."""
        of = Configuration("tlc", "sequential", 2, depth=16)
        figures = run_way(self.program, of, "steady", ASKED)
        self.assertEqual(figures["group"], 4)
        self.assertAlmostEqual(figures["rate"] / run_way(self.program, of, BASE, ASKED)["rate"], 1, 4)


def measured_by(rates: Dict[str, List[float]]) -> List[Measured]:
    """Configurations on which each way has a rate, latencies of 1 us, and what else the tables name."""
    figures: Figures = {"bound": 125, "bus": 0.5, "reads": 1, "programs": 1, "plans": 1, "over": 0, "planning_us": 2, "planning_longest_us": 3000, "erasing": 2}
    figures.update({f"{kind}_{which}": 1.0 for kind in ("read", "program") for which in ("mean", "99", "999")})
    made = []
    for at in range(max(map(len, rates.values()))):
        by_way: Dict[str, Figures] = {way: {**figures, "rate": rates[way][at] if way in rates else 100.0} for way in WAYS}
        made.append(Measured(ALL[at], by_way))
    return made


class Tables(unittest.TestCase):
    def test_what_is_measured(self) -> None:
        self.assertEqual((len(ALL), len(set(ALL)), len(TWELVE), set(TWELVE) - set(ALL)), (216, 216, 12, set()))

    def test_spread_by_hand(self) -> None:
        """Ten configurations: nine of ten are at least the second least. Reads take twice as long on all but one, which has none."""
        measured = measured_by({"plan": [150, 90, 100.5, 80, 100, 100, 100, 100, 100, 100]})
        for one in measured[1:]:
            one.by_way["plan"]["read_99"] = 2.0
        for figures in measured[0].by_way.values():
            figures["read_99"] = 0.0
        row = "| plan in order | 100.0 | 90.0 | 80.0 | 150.0 | 1; 2 | 80; 64 | 1.00 | 2.00 | 1.00 | 1.00 |"
        self.assertEqual(spread_table("of ten", measured, ["plan"])[2], row)
        self.assertEqual(quantile(range(216), 0.1), 21)

    def test_where_there_is_room_by_hand(self) -> None:
        """Reads first over all has 80 % of a bound of 125; of three configurations one has a bound of 105."""
        measured = measured_by({"plan": [150, 90, 100]})
        for figures in measured[0].by_way.values():
            figures["bound"] = 105
        self.assertEqual([round(of_bound(one, BASE)) for one in measured], [95, 80, 80])
        self.assertEqual(room_table(measured, ["plan"])[0].split("|")[1].strip(), "on the 2 with at most 95 % of the bound")
        self.assertEqual(room_table(measured, ["plan"])[2], "| plan in order | 95.0 | 95.0 | 100.0 | 90.0 | 76; 72 | 1.00 |")
        self.assertEqual(len(room_table(measured[:1], ["plan"])), 2)

    def test_sectors_beside_pages_by_hand(self) -> None:
        """Two configurations: reads first gives 100 and 200, 150 and 150 a second; phase by phase as many of pages, of sectors 210 and 120."""
        pages, sectors = measured_by({BASE: [100, 150], "steady": [100, 150]}), measured_by({BASE: [200, 150], "steady": [210, 120]})
        sectors = [one._replace(configuration=of) for of, one in zip(six_of("reads-4k"), sectors)]
        for figures in sectors[0].by_way.values():
            figures["read_mean"] = 0.5
        pairs = list(zip(pages, sectors))
        rows = sector_table(pairs, [BASE, "steady"])
        self.assertEqual(rows[2], "| tlc, random reads of 4 KiB, 2 ns, 8 LUNs, 64 | 100 | 200 | 2.00 | 160 | 100; 105 |")
        self.assertEqual(rows[3].split("|")[2:], [" 150 ", " 150 ", " 1.00 ", " 120 ", " 100; 80 ", ""])
        self.assertEqual(gain_table(pairs, [BASE, "steady"])[3],
                         "| random reads of 4 KiB, phase by phase | 0.80 | 1.45 | 2.10 | 0.75 | 92.5; 80.0; 105.0 | 132; 96 |")

    def test_runs_with_erases_are_longer(self) -> None:
        self.assertEqual([ASKED.requests_of(of) for of in TWELVE[7:9]], [ASKED.requests, WITH_ERASES])
        self.assertEqual(ASKED._replace(requests=20_000).requests_of(TWELVE[8]), 20_000)

    def test_figures_are_kept_as_they_come(self) -> None:
        """A run that the file has isn't run again: with no program at all the figures are there, and the file is as it was."""
        path = Path(ROOM.name) / "rows.csv"
        of = [TWELVE[10], TWELVE[8]]
        found = measure(GREEDY_ALONE, of[:1], list(GREEDY), ASKED, Rows(path))
        lines = path.read_text().splitlines()
        self.assertEqual(len(lines), 1 + len(GREEDY))
        self.assertEqual([line.split(",")[8] for line in lines[1:]], list(GREEDY))
        self.assertEqual(measure(Path("/nowhere"), of[:1], list(GREEDY), ASKED, Rows(path)), found)
        self.assertEqual(path.read_text().splitlines(), lines)
        both = measure(GREEDY_ALONE, of, [BASE], ASKED, Rows(path))
        self.assertEqual(path.read_text().splitlines()[:-1], lines)
        self.assertEqual(Rows(path).found[key_of(of[1], BASE, ASKED)], both[1].by_way[BASE])

    def test_a_file_keeps_its_columns(self) -> None:
        """Of a run what the file has columns for; of a way of one's own nothing, since it may be another one the next time."""
        path = Path(ROOM.name) / "columns.csv"
        head = ",".join([*Configuration._fields, "way", "requests", "seed", "limit", "answered", "rate"])
        path.write_text(head + "\n")
        figures: Figures = {"rate": 2, "read_50": 3, "answered": 1}
        for way in ("fifo", "oldest"):
            Rows(path).keep(key_of(TWELVE[0], way, ASKED), figures)
        self.assertEqual([line.split(",")[8:] for line in path.read_text().splitlines()[1:]], [["fifo", "200", "3", "0", "1", "2"]])

    def test_the_tool(self) -> None:
        """Each table has each way, also one of one's own."""
        own = ["--own", str(SOURCES / "own/oldest.c")]
        for words, count in ((["--quick", *own], 9), (["--workload", "erases"], 9), (["--quick", "--workload", "reads-4k"], 2)):
            ran = support.run_tool("bench", "rolling", *words, "--ways", "fifo", "--requests", "50")
            self.assertEqual((ran.returncode, ran.stderr), (0, ""))
            tables = [part.splitlines() for part in ran.stdout.split("\n\n")][:-1]
            self.assertEqual(len(tables), count)
            for rows in tables:
                self.assertEqual(len({row.count("|") for row in rows}), 1, rows[0])
                self.assertGreater(len(rows), 2)
                self.assertTrue("oldest" in "\n".join(rows) or "--own" not in words, rows)


def channel(luns: int = 1, depth: int = 1, planes: int = 4) -> Channel:
    """Phases of 10 and 30 ns, gaps of 2; arrays of 100, 500 and 1,000."""
    spans = {kind: Spans(10, 2, array, 30) for kind, array in (("read", 100), ("program", 500), ("erase", 1000))}
    return Channel(spans, planes, 10**15, luns, depth)


def reads(*luns: int) -> List[Request]:
    return [Request("read", lun) for lun in luns]


class Bounds(unittest.TestCase):
    def test_the_bus_has_each_command_and_post(self) -> None:
        self.assertAlmostEqual(bus_bound(channel(), reads(0, 0, 0)), 1e9 / 40)

    def test_groups_of_programs(self) -> None:
        """By LUNs, outstanding programs and planes the ns from answer to answer. One has its LUN for 540 ns, four for 4 * 40 + 3 * 2 + 500.

        Two LUNs with two outstanding: one by one 540 / 2 ns; in pairs 145.5 of the LUNs, but 283.5 of the stays. Three with five: one by one
        180 by the LUNs and 108 by the stays, in pairs 97 and 113.4; the same where a share of 72 / 88.4 goes in pairs: 180 - 83 x = 108 + 5.4 x.
        """
        programs = [Request("program", 0)] * 20
        times = {(8, 1, 4): 540, (1, 256, 4): 666 / 4, (1, 256, 2): 582 / 2, (1, 3, 2): 291, (2, 2, 2): 270, (3, 5, 2): 108 + 5.4 * 72 / 88.4}
        for shape, time in times.items():
            self.assertAlmostEqual(1e9 / dies_bound(channel(*shape), programs), time, 6, shape)
        self.assertAlmostEqual(bounds_of(channel(8, 1), programs, 10)["loop"], 1e9 / 540)

    def test_mates_come_beyond_the_room(self) -> None:
        erases = [Request("erase", 0), *[Request("erase", 0, True)] * 3]
        self.assertEqual(most_outstanding(channel(depth=16), erases), 19)
        self.assertEqual(most_outstanding(channel(depth=16), erases[:1]), 16)
        # All four have had their parts, 1,166 / 4 ns each, after the stay of 1,040.
        self.assertAlmostEqual(loop_bound(channel(depth=1), erases, range(0, 4)), 4e9 / 1166)

    def test_reads_find_mates_seldom(self) -> None:
        self.assertEqual(found_mates(channel(luns=2, depth=16)._replace(pages=100), 16), 15 * 3 / (4 * 2 * 100))
        few = channel(depth=2)._replace(pages=2)
        self.assertAlmostEqual(dies_bound(few, reads(0) * 8), 1e9 / (140 - 3 / 8 * 98))

    def test_the_loop_by_hand(self) -> None:
        """Two outstanding, LUNs 0 0 0 1: the first two are of LUN 0, so that LUN 1 has nothing to do until its read comes at 280."""
        requests = reads(0, 0, 0, 1, 0, 1)
        found = [loop_bound(channel(luns=2, depth=2), requests, range(0, answers)) for answers in (1, 2, 3, 4)]
        for bound, answers, end in zip(found, (1, 2, 3, 4), (140, 280, 420, 420)):
            self.assertAlmostEqual(bound, answers * 1e9 / end, 3)

    def test_the_loop_goes_on_with_the_shortest(self) -> None:
        """A program of one plane runs when a read comes to its LUN: 540 ns of it and 140 of the read, which is answered first."""
        requests = [Request("program", 0), Request("read", 1), Request("read", 0), Request("read", 1), Request("read", 1)]
        bound = loop_bound(channel(luns=2, depth=2, planes=1), requests, range(0, 4))
        # Reads of LUN 1 and LUN 0 at 140 and 280, then two of LUN 1 at 420 and 560; the program at 680.
        self.assertAlmostEqual(bound, 4e9 / 560, 3)


class Simulated(unittest.TestCase):
    def test_it_is_reached(self) -> None:
        """Where one LUN, one request or the bus decides, the greedy way has all that there is."""
        reached = {
            "dies": (Configuration("tlc", "sequential", 2, luns=1), 4e9 / FOUR),
            "loop": (Configuration("tlc", "reads", 2, luns=1, depth=1), 1e9 / (READ + ARRAY + OUTPUT)),
            "bus": (TWELVE[4], 1e9 / (175 + 15_354 + 675)),
        }
        for name, (of, rate) in reached.items():
            bounds = bounds_there(GREEDY_ALONE, of, LONG)
            self.assertEqual(min(bounds.values()), bounds[name], name)
            self.assertAlmostEqual(bounds[name] / run_way(GREEDY_ALONE, of, "rfirst:all", LONG)["rate"], 1, 3, name)
            self.assertLess(abs(bounds[name] / rate - 1), 0.01, name)

    def test_no_way_passes_it(self) -> None:
        """A run may by what it leaves undone: with erases by a twentieth, else by a hundredth."""
        conditions = [*TWELVE, *ALL[::31], TWELVE[10]._replace(array="0.4-0.7"), TWELVE[10]._replace(load=0.9), TWELVE[1]._replace(array="0.4-0.7", told=False)]
        for of in conditions:
            bound = min(bounds_there(GREEDY_ALONE, of, LONG).values())
            for way in GREEDY:
                self.assertLess(run_way(GREEDY_ALONE, of, way, LONG)["rate"], bound * (1.05 if of.workload == "erases" else 1.01), (of, way))
