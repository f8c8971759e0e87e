"""Writes the figures of pages that don't depend on a clock, each as it is measured now: instructions, sizes, stack, what examples print.

    tools/bench pages [PROGRAM [FOLDER]] [--check] [--only WORD]

FOLDER holds libonfi.a, lib where none is named, and those of other processors in FOLDER/aarch64, FOLDER/riscv64 and so on; what is
measured of a processor whose library, compiler or emulator isn't here stays as the page has it, and so do instructions without valgrind.
Both are said. With --check nothing is written: each figure that differs by more than its share from what is measured is reported, and
the status is 1. --only WORD takes the figures of pages whose names have the word.
"""

import argparse
import functools
import itertools
import re
import shutil
import subprocess
import tempfile
from pathlib import Path
from typing import Callable, Dict, Iterator, List, NamedTuple, Optional, Sequence, Tuple

from onfi_tools import stacks
from onfi_tools.bench import decisions, driver_costs, whole_plans
from onfi_tools.bench.instructions import Program
from onfi_tools.bench.runs import HARD, MOST, OVER, PROGRAM, ROOT, built, greatest_over, is_short, run
from onfi_tools.kit import KIT
from onfi_tools.rolling_use import TWELVE, build

EXAMPLES = ROOT / "examples/c"
NUMBER = re.compile(r"\d[\d,]*(?:\.\d+)?")
# By how much a figure may differ where it is checked: of instructions compilers of other versions make a little more or less.
SHARE = 0.05
# By how much it may where it is written: two runs count a part in a thousand more or less.
LEAST = 0.002
POOL = "-DPOOL_BYTES=67108864"
# Structs by their names in the page.
STRUCTS = {"a channel": "channel", "a LUN": "lun", "a want": "want", "a phase": "phase", "a dispatcher": "dispatcher", "a schedule": "schedule"}
DISPATCHER = ("begin", "accept", "accept_again", "cancel", "next", "ran", "ready")
# What is linked of the library, by calls: what they don't reach is left out.
LINKED = {
    "linked for `onfi_plan` and `onfi_check` alone": ["plan", "check"],
    ".. for `onfi_plan`, `onfi_due`, `onfi_ran`": ["plan", "due", "ran"],
    ".. for the calls of a dispatcher, `onfi_output_of`": [*(f"dispatcher_{it}" for it in DISPATCHER), "output_of"],
}
# Where libraries of other processors stand, by the order of columns.
FOLDERS = (".", "aarch64", "riscv64", "armv7", "thumbv7em", "riscv32")
PLANNERS = ("within", "early")
LIMITS = (200, 2000)
LOADS = ("", " workload erases")
HERE = "x86-64"
CELL = r"([\d,]+(?:\.\d+)?)"
# The driver's ways, each with that of the simulator of channels.
WAYS = {"greedy": "rfirst:all", "phase by phase": "steady", "plans by the rule": "rule", "plans within": "plan", "plans early": "plan-early"}
CALLS = {"plan": "plain", "plan --by within": "within", "plan --by within --early": "early"}


class Lacking(Exception):
    """What is measured can't be here, and why."""


class Figure(NamedTuple):
    """Where a page has figures, a pattern of which the groups are texts with numbers, what they are now, and by how much they may differ."""

    page: str
    place: str
    now: Callable[[], Sequence[Optional[str]]]
    share: float = SHARE


def thousands(number: float) -> str:
    return f"{number:,.0f}"


def kilobytes(count: int) -> str:
    """Rounded up, so that no page says less than is taken."""
    return thousands(-(-count // 1000))


class Measured:
    """What is measured over a program and the libraries of a folder; each once."""

    def __init__(self, program: str, libraries: Path, room: Path) -> None:
        self.program, self.libraries, self.room = program, libraries, room

    def machine(self, name: str) -> stacks.Machine:
        lacking = stacks.lacks(stacks.MACHINES[name], self.libraries)
        if lacking:
            raise Lacking(lacking)
        return stacks.MACHINES[name]

    @functools.lru_cache(maxsize=None)
    def driver(self, name: str, pool: bool) -> List[str]:
        """How the driver is run on a processor; over a pool it says what a turn takes."""
        machine = self.machine(name)
        sources: List[object] = [*sorted(EXAMPLES.glob("firmware*.c")), *([EXAMPLES / "pool.c", POOL] if pool else [])]
        words = ["-std=c99", "-O2", f"-I{ROOT / 'include'}", *sources, self.libraries / machine.folder / "libonfi.a", "-lm"]
        return [*machine.emulator, str(built(machine.compiler[0], words, self.room / f"firmware-{machine.folder.strip('.')}{pool}"))]

    @functools.lru_cache(maxsize=None)
    def driven(self, words: str, name: str = HERE, pool: bool = True) -> str:
        """What the driver prints."""
        return subprocess.run([*self.driver(name, pool), *words.split()], check=True, capture_output=True, text=True).stdout

    def printed(self) -> List[str]:
        """What the driver prints of two loads, as the page sets it."""
        runs = [self.driven(words, pool=False) for words in ("way all", "way all byte 0.833 load 0.7 array 0.4-0.7")]
        return ["\n\n".join("\n".join(f"    {line}" for line in it.splitlines()) for it in runs)]

    def suspended(self) -> List[str]:
        """Reads and programs with suspends and without: in the mean, and 99 of 100."""
        sources = ["suspend.c", *(f"firmware{part}.c" for part in ("", "_board", "_host"))]
        words = ["-std=c99", "-O2", f"-I{ROOT / 'include'}", *(EXAMPLES / name for name in sources), self.libraries / "libonfi.a", "-lm"]
        ran = subprocess.run([str(built("cc", words, self.room / "suspend"))], check=True, capture_output=True, text=True)
        rows = re.findall(r"(reads|programs): ([\d.]+) us in the mean, 99 % within ([\d.]+) us", ran.stdout)
        reads, programs, reads_then, programs_then = [[thousands(float(it)) for it in row[1:]] for row in rows]
        return [*reads_then, *reads, programs_then[0], programs[0], programs_then[1], programs[1]]

    def taken(self, planner: str, limit: int, name: str = HERE) -> Tuple[int, int]:
        """Memory and stack of a turn in bytes, the greater of two loads."""
        runs = [self.driven(f"way plans requests 300 plan {planner} limit {limit}{load}", name) for load in LOADS]
        found = [re.findall(r"memory (\d+) bytes, stack (\d+) bytes", it)[0] for it in runs]
        memory, stack = (max(int(it[at]) for it in found) for at in range(2))
        return memory, stack

    def planner(self, planner: str, limit: int) -> List[str]:
        """Memory and stack in KB, and the requests a second of the first load."""
        rate = re.findall(r": ([\d.]+) requests a second", self.driven(f"way plans requests 300 plan {planner} limit {limit}"))[0]
        return [*map(kilobytes, self.taken(planner, limit)), thousands(float(rate))]

    def turn_stacks(self) -> List[Optional[str]]:
        """The stack of a turn by each planner, on each processor."""
        cells: List[Optional[str]] = []
        for name, machine in stacks.MACHINES.items():
            is_here = not stacks.lacks(machine, self.libraries)
            most = [self.taken(planner, LIMITS[0], name)[1] for planner in PLANNERS] if is_here else []
            cells.append(", ".join(map(kilobytes, most)) if is_here else None)
        return cells

    def phases_stack(self) -> List[str]:
        return [kilobytes(int(it)) for it in re.findall(r"stack (\d+) bytes", self.driven("requests 2000"))]

    def ask_for_valgrind(self) -> None:
        if shutil.which("valgrind") is None:
            raise Lacking("Debian's valgrind is not installed")

    @functools.lru_cache(maxsize=None)
    def turns(self, way: str) -> driver_costs.Turns:
        self.ask_for_valgrind()
        return driver_costs.turns_by(driver_costs.built_driver(self.libraries, self.room), way)

    def turn(self, way: str) -> List[str]:
        """The cells of a way that aren't empty."""
        turns = self.turns(way)
        columns = (("dispatcher_accept",), ("due", "dispatcher_next"), ("ran", "dispatcher_ran"), ("plan",))
        calls = [sum(count for call, count in turns.calls.items() if call[5:].startswith(column)) for column in columns]
        own = turns.whole - sum(turns.calls.values())
        return [*map(thousands, (turns.whole, own, *filter(None, calls))), *([f"{turns.plans:.2f}"] if turns.plans else [])]

    @functools.lru_cache(maxsize=None)
    def simulator(self) -> Path:
        return build(self.room / "rolling", self.libraries)

    def rate(self, way: str, us: float, how: str) -> float:
        return decisions.rate(self.simulator(), TWELVE[1], decisions.Decisions(WAYS[way], us, how), 4000, 1)

    def decided(self, way: str) -> List[str]:
        """What is left of the throughput phase by phase where a request's instructions take a ns each, half of them before each of its two phases."""
        us, whole = self.turns(way).whole / 2000, self.rate("phase by phase", 0, "idle")
        return [thousands(100 * self.rate(way, us, how) / whole) for how in decisions.HOW]

    def phase_by_phase(self) -> List[str]:
        """Instructions of a request, of its acceptance, and of two calls of a phase, of which a request has two."""
        turns = self.turns("phase by phase")
        calls = (turns.calls["onfi_dispatcher_accept"], turns.calls["onfi_dispatcher_next"] / 2, turns.calls["onfi_dispatcher_ran"] / 2)
        return [thousands(round(it, -1)) for it in (turns.whole, *calls)]

    @functools.lru_cache(maxsize=None)
    def counted(self) -> Program:
        self.ask_for_valgrind()
        return Program(self.program)

    def of_program(self) -> List[str]:
        program, scripts = self.counted(), {it.stem: it for it in HARD}
        nodes = [program.search(scripts[name])[0] for name in ("long-certificate", "mixed-on-eight-luns")]
        plans = [program.plan("one-read.onfi"), program.plan("batch.onfi")]
        others = [program.certificate(), program.remembering(), program.token(False), program.token(True)]
        return [*map(thousands, [*nodes, *plans, *others])]

    def operation(self) -> List[str]:
        return [thousands(self.counted().operation())]

    def opened(self) -> List[str]:
        """The least nodes that `plan` opens on a hard script on which it isn't over, and the most of `plan --by within`."""
        def least_limit(script: str, *options: str) -> int:
            return 1 + greatest_over(lambda limit: is_short(run([self.program, "plan", *options, "--limit", str(limit)], script)))

        scripts = [it.read_text() for it in HARD]
        plain = [least_limit(it) for it in scripts if run([self.program, "plan"], it).status != OVER] or [MOST]
        return [thousands(min(plain)), thousands(max(least_limit(it, "--by", "within") for it in scripts))]

    @functools.lru_cache(maxsize=None)
    def library(self) -> whole_plans.Library:
        self.ask_for_valgrind()
        return whole_plans.Library(self.libraries, self.room)

    def whole_call(self, way: str, requests: int) -> List[str]:
        """The median, the one that nine of ten don't pass, and the greatest of plans of scripts."""
        return whole_plans.small_cell(self.library().small(way, requests)).split(" (")[0].split(" / ")

    def nodes(self) -> List[str]:
        """Instructions of a node of the two searches with their certificates, and of a token of their checks."""
        scripts = whole_plans.drawn_batches(1000, 8)
        plain, known = self.library().long("plain", [scripts], 12, 30_000), self.library().long("within", whole_plans.drawn_sets(500).values(), 6, 14_000)
        return [thousands(it) for it in (whole_plans.a_node(plain), whole_plans.a_node(known), whole_plans.a_token(plain), whole_plans.a_token(known))]

    def stack_of(self, calls: Sequence[str]) -> List[str]:
        """What the header says that these calls take, by what is measured on each processor that it speaks of."""
        return [thousands(stacks.enough_for(stacks.most_of(calls, [self.stacks(name) for name in stacks.PROVED])))]

    @functools.lru_cache(maxsize=None)
    def stacks(self, name: str) -> Dict[str, int]:
        machine = self.machine(name)
        return stacks.measured(machine, stacks.build(machine, self.libraries, self.room))

    def structs(self) -> List[str]:
        """Their sizes."""
        rows = "".join(f' printf("%zu ", sizeof(onfi_{name}));' for name in STRUCTS.values())
        (self.room / "sizes.c").write_text(f"#include <onfi.h>\n#include <stdio.h>\nint main(void) {{{rows} return 0; }}\n")
        made = built("cc", [f"-I{ROOT / 'include'}", self.room / "sizes.c"], self.room / "sizes")
        return [thousands(int(it)) for it in subprocess.run([str(made)], check=True, capture_output=True, text=True).stdout.split()]

    def of_kit(self, tool: str, *words: object) -> str:
        """What a tool of the kit's compiler prints: all of them are one program by several names."""
        executable = str(KIT / "toolchain/bin/clang")
        return subprocess.run([tool, *map(str, words)], executable=executable, check=True, capture_output=True, text=True).stdout

    def code(self, calls: Sequence[str] = ()) -> List[Optional[str]]:
        """Code and constants in KB of each processor's library that is here: all, or what some calls reach."""
        found: List[Optional[str]] = []
        for folder in FOLDERS:
            archive, made = self.libraries / folder / "libonfi.a", self.room / "linked"
            if not archive.is_file():
                found.append(None)
                continue
            if calls:
                reached = [f"--undefined=onfi_{call}" for call in calls]
                how = [*reached, f"--entry=onfi_{calls[0]}", "--gc-sections", "--unresolved-symbols=ignore-all", "--whole-archive"]
                self.of_kit("ld.lld", *how, archive, "-o", made)
            sizes = self.of_kit("llvm-size", made if calls else archive).splitlines()[1:]
            found.append(kilobytes(sum(int(row.split()[0]) for row in sizes)))
        return found


def header_figures(of: Measured) -> Iterator[Figure]:
    for row in stacks.rows_of((ROOT / stacks.HEADER).read_text()):
        yield Figure(stacks.HEADER, rf" \*     {CELL} bytes: {row.calls[0]}\b", functools.partial(of.stack_of, row.calls))


def example_figures(of: Measured) -> Iterator[Figure]:
    page = "examples/c/README.md"
    stopped = r"Reads then take {0} µs in the mean, 99 % within {0}, for {0} and {0} without; programs {0} for {0}, 99 % within {0} for {0}\."
    yield Figure(page, r"### What it prints\n\n[^\n]*\n\n((?:    [^\n]*\n|\n(?=    ))*[^\n]*)\n\n", of.printed, 0)
    yield Figure(page, stopped.format(CELL), of.suspended, 0)


def embedded_figures(of: Measured) -> Iterator[Figure]:
    page, sizes = "docs/EMBEDDED.md", r"[^|]*" + 6 * rf"\|(?: {CELL})? " + r"\|"
    yield Figure(page, r"structs, " + ", ".join(rf"{name} {CELL}(?: bytes)?" for name in STRUCTS), of.structs, 0)
    yield Figure(page, rf"a turn goes {CELL} KB deep", of.phases_stack)
    place = rf"a request takes {CELL} instructions in all: {CELL} to accept it, and of each of its two phases {CELL} to say that it is next and {CELL} after it ran"
    yield Figure(page, place, of.phase_by_phase)
    for planner, limit in itertools.product(PLANNERS, LIMITS):
        place = rf"\| {planner} (?:\|[^\n]*\n\| )?\| {limit:,} \| {CELL} \| {CELL} \|[^|]*\|[^|]*\| {CELL} \|"
        yield Figure(page, place, functools.partial(of.planner, planner, limit))
    yield Figure(page, r"\| code and constants, all calls" + sizes, of.code)
    for label, calls in LINKED.items():
        yield Figure(page, rf"\| {re.escape(label)}{sizes}", functools.partial(of.code, calls))
    yield Figure(page, r"\| stack of a turn[^|]*\| ([\d, ]+) \| ([\d, ]+) \|[^|]*\|(?: ([\d, ]+))? \|", of.turn_stacks)


def speed_figures(of: Measured) -> Iterator[Figure]:
    page = "docs/SPEED.md"
    rows = ("a node of `long-certificate`", "a node of `mixed-on-eight-luns`", "a plan of one read; of three", "a node, with its certificate",
            "a node, remembering states, with its certificate", "a token checked; read")
    nodes = (r"A node of `plan`, with its certificate, takes {0}, of `plan --by within`, all walks, {0}; "
             r"a token of `check`, read and checked, {0}, of `check --by within` {0}\.")
    yield Figure(page, "".join(rf"\| {re.escape(label)} \| {CELL}(?:; {CELL})? \|[^\n]*\n" for label in rows), of.of_program)
    yield Figure(page, rf"\| an operation of a run \| {CELL} ", of.operation, 0.2)
    yield Figure(page, nodes.format(CELL), of.nodes)
    for way in WAYS:
        yield Figure(page, rf"\| {re.escape(way)} " + 7 * rf"\| *(?:{CELL})? *" + r"\|", functools.partial(of.turn, way))
        yield Figure(page, rf"\| {re.escape(way)} " + 7 * r"\|[^|\n]*" + rf"\| {CELL}; {CELL} \|", functools.partial(of.decided, way), 0.25)
    yield Figure("docs/REMEMBER.md", rf"`plan` opens {CELL} nodes or more, `plan --by within` at most {CELL}\.", of.opened, 0)
    for (name, way), requests in itertools.product(CALLS.items(), (1, 8)):
        yield Figure(page, rf"\| `{name}` of {requests} " + 3 * rf"\| {CELL} " + r"\|", functools.partial(of.whole_call, way, requests))


def figures(of: Measured) -> Iterator[Figure]:
    yield from header_figures(of)
    yield from example_figures(of)
    yield from embedded_figures(of)
    yield from speed_figures(of)


def numbers_in(text: str) -> List[float]:
    return [float(it.replace(",", "")) for it in NUMBER.findall(text)]


def differs(here: str, now: str, share: float) -> bool:
    """Whether a text has other words, or a number that is off by more than the share."""
    if NUMBER.sub("", here) != NUMBER.sub("", now):
        return True
    return any(abs(one - other) > share * max(one, other) for one, other in zip(numbers_in(here), numbers_in(now)))


def now_in(figure: Figure, text: str) -> Iterator[Tuple[int, int, str]]:
    """Where in a page's text the figure's groups stand that are measured, and what they are now; ValueError where the page has no such place."""
    found = re.search(figure.place, text, re.DOTALL)
    if found is None:
        raise ValueError(f"{figure.page} has no place of the form {figure.place}")
    groups = [at for at in range(1, len(found.groups()) + 1) if found[at]]
    now = figure.now()
    if len(now) == len(found.groups()):
        now = [now[at - 1] for at in groups]
    if len(now) != len(groups):
        raise ValueError(f"{figure.page}: {len(groups)} figures for {now} at {found[0]}")
    for at, value in zip(groups, now):
        if value is not None:
            yield found.start(at), found.end(at), value


def look_at(figure: Figure, is_checked: bool) -> int:
    """Writes a figure where it differs, or only says so; gives how many do."""
    path, count = ROOT / figure.page, 0
    text = path.read_text(encoding="utf-8")
    for begin, after, value in reversed([*now_in(figure, text)]):
        if differs(text[begin:after], value, figure.share if is_checked else min(figure.share, LEAST)):
            line = text.count("\n", 0, begin) + 1
            pairs = itertools.zip_longest(text[begin:after].splitlines(), value.splitlines(), fillvalue="")
            here, there = next(pair for pair in pairs if pair[0] != pair[1])
            print(f"{figure.page}:{line}: '{here.strip()}' is '{there.strip()}' now", flush=True)
            text, count = text[:begin] + value + text[after:], count + 1
    if count and not is_checked:
        path.write_text(text, encoding="utf-8")
    return count


def words(parser: argparse.ArgumentParser) -> None:
    parser.add_argument("program", nargs="?", default=PROGRAM, metavar="PROGRAM")
    parser.add_argument("folder", nargs="?", type=Path, default=ROOT / "lib", metavar="FOLDER")
    parser.add_argument("--check", action="store_true")
    parser.add_argument("--only", default="", metavar="WORD")


def main(asked: argparse.Namespace) -> int:
    count, lacking = 0, set()
    with tempfile.TemporaryDirectory(prefix="onfi-pages-") as room:
        for figure in figures(Measured(asked.program, asked.folder.resolve(), Path(room))):
            if asked.only in figure.page:
                try:
                    count += look_at(figure, asked.check)
                except Lacking as why:
                    lacking.add(f"{figure.page}: not all is measured, since {why}")
    print("\n".join([*sorted(lacking), f"{count} figures {'differ' if asked.check else 'written'}"]))
    return 1 if asked.check and count else 0
