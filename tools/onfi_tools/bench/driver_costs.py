"""Instructions of a turn of the driver of examples/c, by way, for each request that it answers; counted by callgrind."""

import os
import re
import tempfile
from pathlib import Path
from typing import Counter, Dict, Iterator, List, NamedTuple, Sequence

from onfi_tools.bench.runs import ROOT, built, counted, table

EXAMPLES = ROOT / "examples" / "c"
# tlc, 70 % reads, 2 ns a byte, eight LUNs, 64 outstanding: what the driver takes where no word says otherwise.
REQUESTS = 400
WAYS = {
    "greedy": "way greedy",
    "phase by phase": "way phases",
    "plans by the rule": "way plans plan rule",
    "plans within": "way plans plan within",
    "plans early": "way plans plan early",
}
FUNCTION = re.compile(r"(c?)fn=(\(\d+\)) ?(.*)")
COST = re.compile(r"(?:[+-]?\d+|\*) (\d+)$")
TURN = re.compile(r"(?:driver|plans|greedy)_(?:accept|ready|next|run)$")
BOARD = re.compile(r"board_(?:command|data_in|data_out|status)$")
SAID = re.compile(r": [\d.]+ requests a second, .*, (\d+) plans$", re.MULTILINE)


class Cost(NamedTuple):
    """Instructions of a function itself, or where it calls another, of these calls with all that they call."""

    caller: str
    callee: str
    instructions: int


def costs_of(counts: str) -> Iterator[Cost]:
    """The costs of a file of callgrind: a line of cost stands below its function, and one that stands below a call is the callee's."""
    names: Dict[str, str] = {}
    caller = callee = ""
    is_call = False
    for line in counts.splitlines():
        named, cost = FUNCTION.match(line), COST.match(line)
        if named:
            name = names.setdefault(named[2], named[3])
            caller, callee = (caller, name) if named[1] else (name, callee)
        elif cost:
            yield Cost(caller, callee if is_call else "", int(cost[1]))
        is_call = line.startswith("calls=")


class Turns(NamedTuple):
    """What a run's turns took for each request that was answered: all, and of it each call of the library; and its plans."""

    whole: float
    calls: Dict[str, float]
    plans: float


def turns_of(counts: str, said: str, requests: int) -> Turns:
    """The driver's functions without the board's, which aren't its own, by names without what the compiler adds to them."""
    turns, calls = 0, Counter[str]()
    for cost in costs_of(counts):
        caller, callee = (re.split(r"[.']", name)[0] for name in (cost.caller, cost.callee))
        turns += cost.instructions if TURN.match(callee) and not TURN.match(caller) else 0
        turns -= cost.instructions if BOARD.match(callee) else 0
        if callee.startswith("onfi_") and not caller.startswith("onfi_"):
            calls[callee] += cost.instructions
    plans = SAID.search(said)
    assert plans is not None, said
    return Turns(turns / requests, {name: number / requests for name, number in calls.items()}, int(plans[1]) / requests)


def built_driver(folder: Path, room: Path) -> Path:
    """The driver over the library of a folder, in a folder for what is made."""
    sources = sorted(EXAMPLES.glob("firmware*.c"))
    return built(os.environ.get("CC", "cc"), ["-std=c99", "-O2", f"-I{ROOT / 'include'}", *sources, folder / "libonfi.a", "-lm"], room / "firmware")


def turns_by(driver: Path, way: str, words: Sequence[str] = ()) -> Turns:
    counts = driver.parent / "counts"
    ran = counted(counts, [driver, *WAYS[way].split(), "requests", str(REQUESTS), *words])
    ran.check_returncode()
    return turns_of(counts.read_text(errors="replace"), ran.stdout, REQUESTS)


def cells_of(turns: Turns, calls: Sequence[str]) -> List[str]:
    own = turns.whole - sum(turns.calls.values())
    found = [f"{turns.calls[call]:,.0f}" if call in turns.calls else "" for call in calls]
    return [f"{turns.whole:,.0f}", f"{own:,.0f}", *found, f"{turns.plans:.2f}"]


def ways(folder: Path) -> List[str]:
    """A row for each way, with a column for each call of the library, in the order of the first that makes it."""
    with tempfile.TemporaryDirectory() as room:
        driver = built_driver(folder, Path(room))
        found = {way: turns_by(driver, way) for way in WAYS}
    calls = list(dict.fromkeys(call for turns in found.values() for call in turns.calls))
    columns = ["instructions a request", "a turn", "the driver's own", *calls, "plans"]
    return table(columns, [[way, *cells_of(turns, calls)] for way, turns in found.items()])
