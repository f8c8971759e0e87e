"""What is left of a channel's throughput where each decision takes time: phase by phase and greedy, the bus idle meanwhile or decided ahead.

    tools/bench decisions [--us LIST] [--ways NAMES] [--library FOLDER] [--own FILE.c] [--requests N] [--seeds N] [--jobs N]

It runs the twelve configurations of `tools/bench rolling --quick` by the same simulator (examples/simulator/rolling), with a decision of
each time of LIST, in us (0,2,3,6,24), before each phase:

    idle     it begins as the bus comes free, by all that has come by then, and the bus is idle until it is made; where no phase can
             begin yet, another one is made as a request comes or a LUN is ready
    ahead    it begins with the phase before, by what had come as that one was decided, and the bus is idle for what is left of it;
             where the phase that it chose can't begin as the bus comes free, another one is made then, as if idle

Each number is the throughput in % of that of the first way where decisions take no time, of N requests a run (4,000; with erases 10,000)
and the mean of seeds 1 to N (3). JOBS run at a time (one for each processor). Last is the mean of the twelve.
"""

import argparse
import os
import statistics
import tempfile
from concurrent.futures import ThreadPoolExecutor
from pathlib import Path
from typing import List, NamedTuple

from onfi_tools.bench.rolling import add_own, built, ways_named
from onfi_tools.bench.runs import ROOT, add_numbers, table
from onfi_tools.rolling_tables import title_with
from onfi_tools.rolling_use import TWELVE, Asked, Configuration, output_of
from onfi_tools.rolling_ways import BASE, title_of

# Of nodes, where a way searches.
LIMIT = 2000
HOW = {"idle": "no", "ahead": "yes"}


class Decisions(NamedTuple):
    """How a way decides: the time of each decision in us, idle or ahead."""

    way: str
    us: float
    how: str

    def words(self) -> List[str]:
        return ["decide", str(round(1000 * self.us)), "ahead", HOW[self.how]]


def times_named(names: str) -> List[float]:
    found = [float(name) for name in names.split(",")]
    if not all(0 <= us <= 1e6 for us in found):
        raise argparse.ArgumentTypeError("a decision takes 0 to 1,000,000 us")
    return found


def words(parser: argparse.ArgumentParser) -> None:
    parser.add_argument("--us", type=times_named, default=[0.0, 2.0, 3.0, 6.0, 24.0], metavar="LIST")
    parser.add_argument("--ways", type=ways_named, default=["steady", BASE], metavar="NAMES")
    parser.add_argument("--library", type=Path, default=ROOT / "lib", metavar="FOLDER")
    add_own(parser)
    add_numbers(parser, requests=4000, seeds=3, jobs=os.cpu_count() or 1)


def rate(program: Path, of: Configuration, by: Decisions, requests: int, seeds: int) -> float:
    """Requests a second, the mean of some seeds."""
    asked = [Asked(requests, seed, LIMIT, jobs=1) for seed in range(1, seeds + 1)]
    runs = [output_of(program, of, it.requests_of(of), it, "way", by.way, *by.words()) for it in asked]
    return statistics.mean(float(line.split()[1]) for run in runs for line in run.splitlines() if line.startswith("rate "))


def shares(program: Path, of: Configuration, columns: List[List[Decisions]], asked: argparse.Namespace) -> List[List[float]]:
    """The throughput of each column's decisions, in % of the first way's without them."""
    whole = rate(program, of, columns[0][0]._replace(us=0, how="idle"), asked.requests, asked.seeds)
    return [[100 * rate(program, of, by, asked.requests, asked.seeds) / whole for by in column] for column in columns]


def cell(numbers: List[float]) -> str:
    return ", ".join(f"{number:.0f}" for number in numbers)


def main(asked: argparse.Namespace) -> int:
    with tempfile.TemporaryDirectory(prefix="decisions-") as room:
        program, own = built(asked, Path(room), asked.ways)
        columns = [[Decisions(way, us, how) for us in asked.us] for way in [*asked.ways, *own] for how in HOW]
        with ThreadPoolExecutor(asked.jobs) as pool:
            found = list(pool.map(lambda of: shares(program, of, columns, asked), TWELVE))
    means = [[statistics.mean(at) for at in zip(*column)] for column in zip(*found)]
    titles = [f"{title_of(column[0].way)}, {column[0].how}" for column in columns]
    rows = [[title_with(of), *map(cell, its)] for of, its in zip(TWELVE, found)]
    first = f"% of throughput at 0 us; {', '.join(f'{us:g}' for us in asked.us)} us a decision"
    print("\n".join([*table([first, *titles], [*rows, ["mean", *map(cell, means)]]), "",
                     f"seeds 1 to {asked.seeds}, {asked.requests:,} requests a run"]))
    return 0
