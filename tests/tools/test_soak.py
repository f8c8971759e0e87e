"""tools/soak and its die model: worked answers, and programs that answer rightly and wrongly."""

import random
import sys
import tempfile
import unittest
from typing import Any, Dict, List, Set, Tuple

import support
from onfi_tools.die import Block, Device, Operation
from onfi_tools.next_run import report_of

SOAK: Any = support.load("soak")

USUAL = Device(64, 528, False)
# A program that does something else with its script, or its answer, than the built one.
PROGRAM = """#!{python} -SI
import re, subprocess, sys
words, script = sys.argv[1:], sys.stdin.read()
limit = words[-1] if "--limit" in words else ""
{changed}
ran = subprocess.run([{program!r}, *words], input=script, capture_output=True, text=True)
lines, status = ran.stdout.splitlines(), ran.returncode
{spoilt}
print(*lines, sep="\\n")
sys.exit(status)
"""
OVER = """
if {where}:
    channels = sorted(set(re.findall("^op(?:read)?,.,(.)", script, re.MULTILINE)))
    buses = [line for line in lines if line.startswith("bus,")]
    lines, status = [*(f"over,{{it}},{count}" for it in channels), *buses, "closed"], 6
"""


def over(where: str, count: str = "{limit}") -> str:
    """Each channel with an operation is over there, with that many nodes, before it answers anything."""
    return OVER.format(where=where, count=count)


def every(form: str, other: str) -> str:
    """Lines of a report with something else in place of what has this form."""
    return f"lines = [re.sub({form!r}, {other!r}, line) for line in lines]"


def soaked(spoilt: str, *words: str, changed: str = "") -> Tuple[int, str]:
    """Status and output of the tool on a program that does this with its lines before it prints them, and that with its script."""
    with tempfile.TemporaryDirectory() as folder:
        text = PROGRAM.format(python=sys.executable, program=support.program(), spoilt=spoilt, changed=changed)
        said = support.run_tool("soak", "600", support.executable(folder, text), "--scripts", "30", "--only", "mixed", *words)
    return said.returncode, said.stdout + said.stderr


def answers(device: Device, faults: "frozenset[int]", asked: List[Operation]) -> List[str]:
    block = Block(device, faults)
    return [block.apply(operation) for operation in asked]


READ, ERASE = Operation("read", 0), Operation("erase", 0)
ONE, OTHER = (Operation("program", 0, byte * 528) for byte in (b"\xa5", b"\x5a"))
HIGH_THEN_LOW = [Operation("program", 3, b"\x11" * 528), Operation("program", 2, b"\x22" * 528), Operation("read", 2)]
# What is asked of a device, which of its programs and erases fail, and what it answers.
ANSWERED: Dict[str, Tuple[Device, List[int], List[Operation], List[str]]] = {
    "a program of a page that holds bytes fails and changes nothing": (USUAL, [], [ONE, OTHER, READ], ["done", "failed", "read,*A5"]),
    "an erase makes each page erased": (USUAL, [], [ONE, ERASE, READ], ["done", "done", "read,*FF"]),
    "pages go in order where the device asks for it": (USUAL, [], HIGH_THEN_LOW, ["done", "failed", "read,*FF"]),
    "else they don't": (USUAL._replace(any_page_order=True), [], HIGH_THEN_LOW, ["done", "done", "read,*22"]),
    "a fault tears": (USUAL, [0], [ONE, READ], ["failed", "read,*00"]),
    "it counts among failed ones": (USUAL, [2], [ONE, ONE, ERASE, READ, ONE], ["done", "failed", "failed", "read,*00", "failed"]),
}


class DieModel(unittest.TestCase):
    def test_what_is_answered(self) -> None:
        for name, (device, faults, asked, told) in ANSWERED.items():
            self.assertEqual(answers(device, frozenset(faults), asked), told, name)

    def test_a_read_gives_its_sectors(self) -> None:
        page = bytes(byte % 251 for byte in range(528))
        device = USUAL._replace(sector_bytes=132)
        asked = [Operation("read", 0, first=1, sectors=2), Operation("program", 0, page), Operation("read", 0, first=1, sectors=2),
                 Operation("read", 0, first=3, sectors=1)]
        told = answers(device, frozenset([1]), [*asked, Operation("read", 0), Operation("erase", 0), asked[0]])
        hexed = page.hex().upper()
        self.assertEqual(told, ["read,*FF", "done", "read," + hexed[264:792], "read," + hexed[792:], "read," + hexed, "failed", "read,*00"])


BEHIND = "the lines behind the replies"
TURNED = """
replies = [line.split(",", 4) for line in lines if line.startswith("reply")]
answers = [reply.pop() for reply in replies]
lines[: len(replies)] = [",".join([*reply, answer]) for reply, answer in zip(replies, answers[1:] + answers[:1])]
"""
# What a program does to its lines that is a difference, the message, and further words.
DIFFERENCES = {
    "a lost reply": ("lines = lines[1:]", "or none to [(", ""),
    "a lost reply within a limit": ("lines = lines[1:] if limit else lines", "or none to [(", ""),
    "an answer under the serial of another request": (TURNED, "no order of acceptance", ""),
    "a reply twice": ("lines = lines[:1] + lines", "replies that don't rise", ""),
    "a wrong answer": (every("done", "failed"), "no order of acceptance", ""),
    "a stop reported as a closing": ('lines, status = [line for line in lines if "stopped" not in line], 0', BEHIND, ""),
    "a channel that plans by the best so far and is over": (over('limit and "within" in words'), BEHIND, ""),
    "another limit": (over("limit", "{int(limit) - 1}"), BEHIND, ""),
    "a channel that is over without a limit": (over("not limit", "1048576"), BEHIND, ""),
    "a channel that must stop and says nothing within a limit": ('lines = [line for line in lines if not limit or "stopped" not in line]', BEHIND, "--seed 2"),
    "status 0 where a channel was over": (over("limit").replace("6\n", "0\n"), "status 0", ""),
    "another cause": (every("(stopped,.),.*", r"\1,Clock"), BEHIND, ""),
    "a channel that goes phase by phase and is over": (over('"next" in words', "1"), BEHIND, ""),
    "a reply before its operation": (every(r"^(reply,\d+,\d+,\d+),\d+,", r"\1,0,"), "a reply at 0 to what arrived at", ""),
    "no moments by a clock": (every(r"^(reply,\d+,\d+,\d+),\d+,", r"\1,"), "moments", ""),
    "a phase later": (every(r"^(bus,\d,\d+),(\d+)$", r"\1,\g<2>0"), "another report than the model's", ""),
    "another latency": (every(r"^(latency,\w+,\d+,\d+),\d+$", r"\1,0"), "the lines of latencies", ""),
    "a bus that is busy for too long": (every(r"^(bus,\d),\d+,(\d+)$", r"\1,\g<2>9,\2"), "the lines of buses", ""),
}
# What a program reads in place of the sectors that are asked for: the page, those from the first on, one.
OTHER_READS = (r"op,\1,read,\2", r"opread,\1,\2,0,\4", r"opread,\1,\2,\3,1")


@unittest.skipUnless(support.program(), "no built program")
class Soak(unittest.TestCase):
    def test_what_is_no_difference(self) -> None:
        """Answers as the program has them, and a channel that is over within a few nodes."""
        for spoilt in ("", over('limit and "within" not in words')):
            status, said = soaked(spoilt)
            self.assertEqual((status, said.splitlines()[-1]), (0, "30 passed, 0 failed"), spoilt)
            self.assertRegex(said, r"\n?[1-9]\d+ operations, 0 differences")

    def test_what_is_a_difference(self) -> None:
        for name, (spoilt, told, words) in DIFFERENCES.items():
            with self.subTest(name):
                status, said = soaked(spoilt, *words.split())
                self.assertEqual(status, 1, said)
                self.assertIn(told, said)

    def test_reads_of_other_sectors(self) -> None:
        for other in OTHER_READS:
            with self.subTest(other):
                status, said = soaked("", changed=f'script = re.sub(r"opread,(.,.),(.,.,.),(.+),(.)", r"{other}", script)')
                self.assertEqual((status, "no order of acceptance" in said), (1, True))


LENGTHS = """channels,1
geometry,8,4,4,0
shape,2,1,1,1
spans,read,10,5,100,20
spans,program,30,5,500,2
spans,erase,3,5,900,2
"""
# Operations, and the report that a run phase by phase has of them, worked by hand.
WORKED = {
    "outputs one after the other": ("op,0,0,read,0,0,0\nop,0,0,read,1,0,0\n",
                                    "reply,0,0,0,130,read,*FF\nreply,0,0,1,150,read,*FF\nbus,0,60,150\nlatency,read,2,140,150\n"),
    "a program waits for its mate, which comes at 50": (
        "op,0,0,read,1,0,0\nop,0,0,program,0,0,0,*01\nat,50\nop,0,0,program,0,1,0,*02\n",
        "reply,0,0,0,135,read,*FF\nreply,0,0,1,617,done\nreply,0,0,2,619,done\nbus,0,94,619\nlatency,read,1,135,135\nlatency,program,2,593,617\n"),
    "an array that is done early": ("op,0,0,read,0,0,0\narray,0,0,0,40\n", "reply,0,0,0,70,read,*FF\nbus,0,30,70\nlatency,read,1,70,70\n"),
    "a fault tears": ("op,0,0,program,0,1,0,*01\nop,0,0,read,0,1,0\nfault,0,0,1,0\n",
                      "reply,0,0,0,532,failed\nreply,0,0,1,662,read,*00\nbus,0,62,662\nlatency,read,1,662,662\nlatency,program,1,532,532\n"),
}


class NextRun(unittest.TestCase):
    """The model of runs phase by phase."""

    def test_worked_reports(self) -> None:
        for name, (operations, report) in WORKED.items():
            self.assertEqual(report_of(f"{LENGTHS}{operations}end\n"), report + "closed\n", name)


class Drawn(unittest.TestCase):
    """What scripts are drawn in each way."""

    def drawn(self, way: str, count: int = 40) -> List[Any]:
        made = []
        for number in range(count):
            rng = random.Random(f"1 {number}")
            made.append(SOAK.drawn_script(rng, SOAK.WAYS[way](rng)))
        return made

    def test_squeezed_hosts_send_reads_in_turn_with_others_behind_small_queues(self) -> None:
        for script in self.drawn("squeezed"):
            self.assertLessEqual((script.sizes.submitcap, script.sizes.limit), (2, 5))
            self.assertTrue(all((one.operation.kind == "read") == (one.serial % 2 == 1) for one in script.asked))

    def test_aside_there_are_more_operations_on_one_channel_than_it_leaves_unanswered(self) -> None:
        scripts = self.drawn("aside")
        for script in scripts:
            self.assertEqual(len({one.spot[0] for one in script.asked}), 1)
            self.assertGreaterEqual(len(script.asked), 200)
            self.assertLessEqual(script.sizes.postcap, 2)
        self.assertEqual({script.asked[0].spot[0] for script in scripts}, {0, 1, 2, 3})

    def test_heavy_are_a_thousand_operations_of_each_of_four_hosts(self) -> None:
        script, = self.drawn("heavy", 1)
        self.assertEqual((len(script.asked), script.sizes.hosts, script.sizes.postcap), (4000, 4, 1))

    def test_sectors_that_are_read_lie_on_their_page(self) -> None:
        counts: Set[int] = set()
        for number in range(40):
            rng = random.Random(f"1 {number}")
            script = SOAK.drawn_script(rng, SOAK.mixed(rng)._replace(sectors=True))
            self.assertEqual([row for row in script.rows if row.startswith("sector,")], [f"sector,{script.device.sector_bytes}"])
            for one in (it.operation for it in script.asked if it.operation.sectors):
                self.assertEqual(one.kind, "read")
                self.assertLessEqual((one.first + one.sectors) * script.device.sector_bytes, script.device.page_bytes)
                counts.add(one.sectors)
        self.assertEqual(counts, {1, 2, 3, 4})

    def test_wide_are_eight_luns_of_four_planes(self) -> None:
        scripts = self.drawn("wide")
        self.assertEqual({(script.sizes.luns, script.sizes.plane_bits) for script in scripts}, {(8, 2)})
        self.assertEqual({one.spot[1] for script in scripts for one in script.asked}, set(range(8)))
