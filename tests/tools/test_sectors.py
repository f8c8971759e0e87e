"""Reads of some sectors: where all reads put out as many, a script gives the texts of one in which that is a page's output.

Runs too: reads of all sectors are those of the page, and on one LUN, one by one, each reply has its bytes and comes when the
lengths of all before it are over.
"""

import random
import unittest
from typing import Any, Iterator, List, Tuple

import support
from onfi_tools.device import SHEET, hex_rows, page_of
from onfi_tools.die import Block, Device, Operation
from onfi_tools.drawn import any_script
from onfi_tools.script import lengths_of, outputs_of

SOAK: Any = support.load("soak")
CLOCK = ["run", "--quiet", "--clock", "simulated"]
RUNS = 100
MOST_OPERATIONS = 10_000
DRAWN = 250
LIMIT = ["--limit", "2000"]
# Each way to plan, and how its plan is checked.
WAYS = ((["plan", *LIMIT], ["check"]), (["plan", "--by", "within", *LIMIT], ["check", "--by", "within"]),
        (["plan", "--by", "rule"], ["check", "--by", "within"]), (["plan", "--early", *LIMIT], ["check"]))


def rows_of_reads(lines: List[str], count: int) -> List[str]:
    """Each read of a script, also of what runs, puts out that many sectors."""
    rows = [line.split(",") for line in lines]
    kinds = [row[1] for row in rows if row[0] == "want"]
    asked = [f"sectors,{number},{count}" for number, kind in enumerate(kinds) if kind == "read"]
    runs = [row for row in rows if row[0] == "running" and row[4] == "read"]
    return asked + [",".join(["runsectors", row[1], *[str(count)] * len(row[6:])]) for row in runs]


def in_sectors(rng: random.Random, script: str) -> str:
    """The script with the output of its reads as that of some sectors; pages, and other counts, take as long or longer."""
    lines, count = script.splitlines(), rng.randint(1, 7)
    place = next(number for number, line in enumerate(lines) if line.startswith("spans,read,"))
    *spans, post = lines[place].split(",")
    lines[place] = ",".join([*spans, str(int(post) + rng.randint(0, int(post)))])
    rows = [f"sectorpost,{count},{post}"] + rows_of_reads(lines, count)
    rows += [f"sectorpost,{other},{int(post) + rng.randint(0, 1000)}" for other in range(1, 8) if other != count and rng.random() < 0.5]
    for row in rows:
        lines.insert(rng.randrange(len(lines)), row)
    return "\n".join([*lines, ""])


@unittest.skipUnless(support.program(), "no built program")
class Texts(unittest.TestCase):
    def test_drawn_scripts(self) -> None:
        rng = random.Random(62)
        planned = 0
        for _ in range(DRAWN):
            whole = any_script(rng)
            script = in_sectors(rng, whole)
            for words, check in WAYS:
                found, wanted = (support.run_program(*words, given=text) for text in (script, whole))
                self.assertEqual((found.stdout, found.returncode), (wanted.stdout, wanted.returncode), script)
                if found.returncode == 0:
                    judged = support.run_program(*check, given=script + found.stdout)
                    self.assertIn(judged.returncode, (0, 8), script)
                    planned += 1
        self.assertGreater(planned, DRAWN * len(WAYS) // 2)


def with_reads(script: Any, count: int) -> str:
    """The script whose reads all put out that many sectors from the first on; of none, the page."""
    asked = [one._replace(operation=Operation("read", one.operation.page, sectors=count)) if one.operation.kind == "read" else one for one in script.asked]
    rows = iter(map(SOAK.row_of, asked))
    return "\n".join([next(rows) if row.startswith("op") else row for row in script.rows] + ["end", ""])


def drawn_asked(rng: random.Random, device: Device) -> Iterator[Operation]:
    """Operations of one block, one after another: a page is written, and two or three reads of it follow."""
    yield Operation("erase", 0)
    for page in range(4):
        yield Operation("program", page, rng.randbytes(device.page_bytes))
        for _ in range(rng.randint(2, 3)):
            count = rng.randint(0, min(7, device.page_bytes // device.sector_bytes))
            first = rng.randint(0, device.page_bytes // device.sector_bytes - count) if count else 0
            yield Operation("read", page, first=first, sectors=count)


def one_by_one(rng: random.Random) -> Tuple[str, Device, List[Operation]]:
    """A script of one host and one LUN, whose plans hold one request each."""
    size = rng.randint(1, 200)
    device = Device(4, size, False, rng.randint(-(-size // 8), size))
    numbers = {**SOAK.PAGE, "data_bytes": size, "luns": 1, "plane_bits": 1, "multi_plane_reads": 1, "multi_plane_writes": 1}
    asked = list(drawn_asked(rng, device))
    rows = hex_rows(page_of(numbers, {})) + [f"sheet,{name},{rng.randint(1, 100)}" for name in SHEET]
    rows += ["batch,1", *(SOAK.row_of(SOAK.Asked(0, at, (0, 0, 3), one)) for at, one in enumerate(asked)), f"sector,{device.sector_bytes}"]
    return "\n".join([*rows, "end", ""]), device, asked


def replies_of(script: str, device: Device, asked: List[Operation]) -> List[str]:
    """The lines of the replies: each command, array and post lies after all before it."""
    spans, outputs, block = lengths_of(script), outputs_of(script), Block(device)
    found: List[str] = []
    moment = 0
    for serial, one in enumerate(asked):
        own = spans[one.kind]
        moment += own.cmd + own.array + (outputs[one.sectors - 1] if one.sectors else own.post)
        found.append(f"reply,0,0,{serial},{moment},{block.apply(one)}")
    return found


@unittest.skipUnless(support.program(), "no built program")
class Runs(unittest.TestCase):
    def test_reads_of_all_sectors_are_reads_of_the_page(self) -> None:
        for number in range(RUNS):
            rng = random.Random(f"sectors {number}")
            script = SOAK.drawn_script(rng, SOAK.mixed(rng)._replace(sectors=True))
            count, rest = divmod(script.device.page_bytes, script.device.sector_bytes)
            if rest == 0:
                found, wanted = (support.run_program(*CLOCK, given=with_reads(script, many)) for many in (count, 0))
                self.assertEqual((found.stdout, found.returncode), (wanted.stdout, wanted.returncode), with_reads(script, count))
                self.assertTrue(found.stdout.endswith("closed\n"))

    def test_one_by_one_each_reply_has_its_bytes_and_its_moment(self) -> None:
        for number in range(RUNS):
            script, device, asked = one_by_one(random.Random(f"one by one {number}"))
            said = support.run_program(*CLOCK, given=script)
            told = [line for line in said.stdout.splitlines() if line.startswith("reply,")]
            self.assertEqual((told, said.returncode), (replies_of(script, device, asked), 0), script)

    def test_they_count_among_the_operations_of_a_script(self) -> None:
        script, _, asked = one_by_one(random.Random(1))
        front = script[: script.index("op,")]
        row = front.count("\n") + MOST_OPERATIONS + 1
        rows = MOST_OPERATIONS // 2 * ["opread,0,0,0,3,0,0,1", "op,0,0,read,0,3,0"]
        for more in ("opread,0,0,0,3,0,0,1", "op,0,0,read,0,3,0"):
            said = support.run_program("run", "--quiet", given="\n".join([front.rstrip("\n"), *rows, more, "end", ""]))
            self.assertEqual((said.stdout, said.returncode), (f"script refused {row} OutOfRange\n", 1))
