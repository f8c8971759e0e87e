"""Instructions of whole calls of the library for C, made in one process under callgrind."""

import random
import re
import subprocess
import tempfile
from pathlib import Path
from typing import Dict, Iterable, List, NamedTuple, Optional, Sequence

from onfi_tools.bench.runs import ROOT, built, cells_at, counted, said, table
from onfi_tools.bench.worth import drawn_batch
from onfi_tools.drawn import SETS

SEED = 1
REQUESTS = (1, 3, 8)
SCRIPTS = 40
LIMIT = 100_000
# The nodes that a search has at least whose plan is checked.
MANY = 1000
PART = re.compile(r"^desc: Trigger: Client Request: (\w+ \d+)$.*?^(?:summary|totals): (\d+)$", re.DOTALL | re.MULTILINE)


class Answer(NamedTuple):
    """What planning a script answered: its status, how many nodes its search opened, nodes and tokens of the certificate."""

    status: int
    opened: int
    nodes: int
    tokens: int


class Cost(NamedTuple):
    """An answer, and the instructions of planning and of checking; of checking 0 where there is no plan."""

    answer: Answer
    plan: int
    check: int


def parts_of(counts: str) -> Dict[str, int]:
    """Instructions of each named part of a file of callgrind."""
    return {name: int(instructions) for name, instructions in PART.findall(counts)}


def answers_of(output: str) -> List[Answer]:
    return [Answer(*map(int, line.split())) for line in output.splitlines()]


def chosen(scripts: Sequence[Path], answers: Sequence[Answer], count: int, low: int, high: int) -> List[Path]:
    """The first scripts whose searches opened that many nodes."""
    return [script for script, answer in zip(scripts, answers) if answer.status == 0 and low <= answer.opened <= high][:count]


def drawn_batches(count: int, requests: int) -> List[str]:
    """Scripts of `tools/bench worth` with that many requests."""
    rng = random.Random(SEED)
    return [drawn_batch(rng, requests).script() for _ in range(count)]


def drawn_sets(count: int) -> Dict[str, List[str]]:
    """That many scripts of each set of `tools/bench remember`."""
    rng = random.Random(SEED)
    return {name: [draw(rng) for _ in range(count)] for name, draw in SETS.items()}


class Library:
    """A library for C, and a program over it that plans and checks scripts. `room` is a folder for what it makes."""

    def __init__(self, folder: Path, room: Path) -> None:
        self.room = room
        self.program = room / "count_calls"
        sources = [f"-I{ROOT / 'include'}", f"-I{ROOT / 'tests/libraries'}", ROOT / "tools/onfi_tools/count_calls.c"]
        built("cc", ["-O2", *sources, folder / "libonfi.a"], self.program)

    def files_of(self, scripts: Sequence[str]) -> List[Path]:
        folder = Path(tempfile.mkdtemp(dir=self.room))
        files = [folder / f"{number}.onfi" for number in range(len(scripts))]
        for file, script in zip(files, scripts):
            file.write_text(script)
        return files

    def answers(self, way: str, limit: int, scripts: Sequence[Path]) -> List[Answer]:
        words = [str(self.program), way, str(limit), *map(str, scripts)]
        return answers_of(subprocess.run(words, check=True, capture_output=True, text=True).stdout)

    def costs(self, way: str, limit: int, scripts: Sequence[Path]) -> List[Cost]:
        counts = self.room / "counts"
        ran = counted(counts, [self.program, way, str(limit), *scripts], parts=True)
        ran.check_returncode()
        answers = answers_of(ran.stdout)
        parts = parts_of(counts.read_text(errors="replace"))
        counts.unlink()
        return [Cost(answer, parts[f"plan {at}"], parts.get(f"check {at}", 0)) for at, answer in enumerate(answers)]

    def small(self, way: str, requests: int) -> List[Optional[int]]:
        """Instructions of whole plans of scripts of `tools/bench worth`; none where one is over."""
        costs = self.costs(way, LIMIT, self.files_of(drawn_batches(SCRIPTS, requests)))
        return [None if cost.answer.status else cost.plan for cost in costs]

    def long(self, way: str, sets: Iterable[List[str]], count: int, high: int) -> List[Cost]:
        """Of that many scripts of each set whose searches open many nodes, and not more than the limit."""
        files: List[Path] = []
        for scripts in sets:
            some = self.files_of(scripts)
            files += chosen(some, self.answers(way, high, some), count, MANY, high)
        return self.costs(way, high, files)


def a_node(costs: Sequence[Cost]) -> float:
    """Instructions of planning for each node, of the search and of the walk that writes the certificate together."""
    return sum(cost.plan for cost in costs) / sum(cost.answer.opened + cost.answer.nodes for cost in costs)


def a_token(costs: Sequence[Cost]) -> float:
    return sum(cost.check for cost in costs) / sum(cost.answer.tokens for cost in costs)


def small_cell(costs: Sequence[Optional[int]]) -> str:
    """Median and nine of ten, where one that is over counts as greater than all, and the greatest of the others."""
    known = sorted(cost for cost in costs if cost is not None)
    places = (len(costs) // 2, -(-9 * len(costs) // 10) - 1, max(len(known) - 1, 0))
    over = f" ({len(costs) - len(known)} over)" if len(known) < len(costs) else ""
    return cells_at(known, places) + over


def rows_of(library: Library) -> Dict[str, str]:
    """What each row of the table says of a library."""
    rows = {}
    for way, word in (("plain", "plan"), ("within", "plan --by within"), ("early", "plan --by within --early")):
        for requests in REQUESTS:
            rows[f"`{word}` of {requests}, median / nine of ten / greatest"] = small_cell(library.small(way, requests))
    plain, known = library.long("plain", [drawn_batches(1000, 8)], 12, 30_000), library.long("within", drawn_sets(500).values(), 6, 14_000)
    rows[f"a node of `plan`, with its certificate, {len(plain)} scripts"] = said(round(a_node(plain)))
    rows[f"a node of `plan --by within`, all walks, {len(known)} scripts"] = said(round(a_node(known)))
    rows["a token of `check`, read and checked"] = said(round(a_token(plain)))
    rows["a token of `check --by within`, read and checked"] = said(round(a_token(known)))
    return rows


def columns(folders: Sequence[Path]) -> List[str]:
    """A column for each folder's library."""
    found = []
    for folder in folders:
        with tempfile.TemporaryDirectory() as room:
            found.append(rows_of(Library(folder, Path(room))))
    names = list(dict.fromkeys(name for rows in found for name in rows))
    return table(["instructions of", *map(str, folders)], [[name, *(rows.get(name, "") for rows in found)] for name in names])
