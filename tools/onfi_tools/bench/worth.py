"""How much sooner the optimum ends than plain ways to keep the bus busy.

    tools/bench worth [PROGRAM] [--scripts N] [--seed N] [--limit N] [--check N] [--profiles]

From the seed come N scripts of eight requests on a device whose LUNs are idle, whose optimum is that of `plan`. A script whose search is
over the limit is counted and left out. For each way it prints how much sooner the optimum ends, in % of the way's finish: median, mean,
best and worst (the most and the least that the optimum saves), for all scripts, by mix and by device. The ways, which
tools/onfi_tools/policies.py has in full:

    first in first out           requests in list order, none grouped
    round robin                  the LUNs in turn, each with the largest group that it can start
    round robin, commands first  the same, but of the LUNs that can start those with a command come before posts
    best of eight                for each script the best of the two round robins and of six ways in which of what can start soonest
                                 goes next what ranks highest: by size of group, by the work that its LUN has left with large or small
                                 groups, commands first, posts first, reads first

Device, mix and the number of LUNs (2, 4 or 8) are drawn evenly for each script. The devices, all with multi-plane reads, programs and
erases, and two column and three row cycles:

    small        512 + 16 bytes a page, 2 planes, tR 25, tPROG 200, tBERS 1,500 microseconds, 20 ns a byte
    two planes   16,384 + 2,048 bytes a page, 2 planes, tR 60, tPROG 1,200, tBERS 6,000, 20 ns a byte
    four planes  16,384 + 2,048 bytes a page, 4 planes, tR 90, tPROG 800, tBERS 12,000, 20 ns a byte
    four, fast   the same at 2 ns a byte and cycle, as a faster data interface has it

--profiles takes those of examples/devices in their place, whose data go by strobes: slc, tlc and qlc.

The mixes; where nothing else is said LUN, block (0 to 7) and page (0 or 1; 0 for an erase) are drawn evenly:

    reads        reads alone
    programs     programs alone
    most reads   70 % reads, 25 % programs, 5 % erases
    most writes  30 % reads, 60 % programs, 10 % erases
    stripes      reads or programs of one run of pages, over the LUNs first, then the planes, then the pages

--check N: the schedules of all ways on the first N scripts (100) are given to `check` with a certificate that proves nothing. An answer
of `Illegal`, and an optimum that ends later than one of the ways, end the run with status 1.
"""

import argparse
import random
import statistics
from typing import Dict, List, NamedTuple, Optional, Sequence, Tuple

from onfi_tools.bench.runs import MOST, OVER, ROOT, add_words, run, table
from onfi_tools.channel import Device, Want, script_of
from onfi_tools.drawn import LARGE, SMALL, device_of, drawn_wants
from onfi_tools.policies import Policy, best_of_ranks, first_in_first_out, round_robin, round_robin_commands_first
from onfi_tools.script import lengths_of, page_numbers

REQUESTS = 8
FOUR = {**LARGE, "tR_us": 90, "tPROG_us": 800, "tBERS_us": 12000}
# Plane address bits, page fields, ns a byte and cycle.
DEVICES: Dict[str, Tuple[int, Dict[str, int], int]] = {
    "small": (1, SMALL, 20),
    "two planes": (1, LARGE, 20),
    "four planes": (2, FOUR, 20),
    "four, fast": (2, FOUR, 2),
}
PROFILES = {path.stem: path.read_text() for path in sorted((ROOT / "examples" / "devices").glob("*.onfi"))}
# How many of twenty requests are reads, programs and erases; none where requests go in stripes.
MIXES: Dict[str, Optional[Tuple[int, int, int]]] = {
    "reads": (20, 0, 0),
    "programs": (0, 20, 0),
    "most reads": (14, 5, 1),
    "most writes": (6, 12, 2),
    "stripes": None,
}
WAYS: Dict[str, Policy] = {
    "first in first out": first_in_first_out,
    "round robin": round_robin,
    "round robin, commands first": round_robin_commands_first,
    "best of eight": best_of_ranks,
}


class Batch(NamedTuple):
    """What a script asks for, and the names of its device and its mix."""

    device_name: str
    mix: str
    device: Device
    wants: List[Want]

    def script(self) -> str:
        return script_of(self.device, self.wants)


class Measured(NamedTuple):
    """A script's optimum, and the finish of each way."""

    batch: Batch
    optimum: int
    finishes: Dict[str, int]


def named_device(name: str, luns: int) -> Device:
    if name in PROFILES:
        return Device(luns, page_numbers(PROFILES[name])["plane_bits"], True, True, lengths_of(PROFILES[name]))
    return device_of(*DEVICES[name], luns)


def stripe(rng: random.Random, device: Device, requests: int) -> List[Want]:
    kind = rng.choice(("read", "program"))
    planes = 1 << device.plane_bits
    wants = []
    for number in range(requests):
        row, lun = divmod(number, device.luns)
        wants.append(Want(number, kind, lun, row % planes, row // planes))
    return wants


def drawn_batch(rng: random.Random, requests: int = REQUESTS, devices: Sequence[str] = tuple(DEVICES)) -> Batch:
    name, mix = rng.choice(list(devices)), rng.choice(list(MIXES))
    device = named_device(name, rng.choice((2, 4, 8)))
    weights = MIXES[mix]
    wants = stripe(rng, device, requests) if weights is None else drawn_wants(rng, device.luns, weights, requests, 8)
    return Batch(name, mix, device, wants)


def measure(program: str, limit: int, batch: Batch) -> Optional[Measured]:
    """A script's optimum beside the ways; none where the search is over its limit."""
    script = batch.script()
    ran = run([program, "plan", "--limit", str(limit)], script)
    if ran.status == OVER:
        return None
    if ran.status:
        raise ValueError(f"no plan: {ran.output.strip()}\n{script}")
    optimum = int(ran.output.split()[3])
    finishes = {name: way(batch.device, batch.wants).finish for name, way in WAYS.items()}
    if min(finishes.values()) < optimum:
        raise ValueError(f"a way ends before the optimum {optimum}: {finishes}\n{script}")
    return Measured(batch, optimum, finishes)


def check_ways(program: str, batches: List[Batch]) -> None:
    """Has the program judge the schedules of all ways."""
    for batch in batches:
        for name, way in WAYS.items():
            plan = way(batch.device, batch.wants).text()
            answer = run([program, "check"], batch.script() + plan).output.strip()
            if not answer.startswith(("accepted", "refused")) or answer.startswith(("refused plan", "refused 1 ")):
                raise ValueError(f"{name}: {answer}\n{batch.script()}{plan}")


def row_of(title: str, measured: List[Measured]) -> List[str]:
    cells = [title, f"{len(measured)}"]
    for name in WAYS:
        saved = [100 * (1 - one.optimum / one.finishes[name]) for one in measured]
        numbers = (statistics.median(saved), statistics.mean(saved), max(saved), min(saved))
        cells.append(" / ".join(f"{number:.1f}" for number in numbers))
    return cells


def table_of(measured: List[Measured]) -> List[str]:
    parts = [("all", measured)]
    parts += [(mix, [one for one in measured if one.batch.mix == mix]) for mix in MIXES]
    parts += [(name, [one for one in measured if one.batch.device_name == name]) for name in [*DEVICES, *PROFILES]]
    return table(["scripts", "count", *WAYS], [row_of(title, own) for title, own in parts if own])


def words(parser: argparse.ArgumentParser) -> None:
    add_words(parser, scripts=1000, seed=1, limit=MOST, check=100)
    parser.add_argument("--profiles", action="store_true")


def main(asked: argparse.Namespace) -> int:
    rng = random.Random(asked.seed)
    devices = list(PROFILES) if asked.profiles else list(DEVICES)
    batches = [drawn_batch(rng, REQUESTS, devices) for _ in range(asked.scripts)]
    checked = batches[: asked.check]
    check_ways(asked.program, checked)
    measured = [one for batch in batches if (one := measure(asked.program, asked.limit, batch))]
    lines = [f"seed {asked.seed}, {asked.scripts:,} scripts, {asked.scripts - len(measured)} over the limit of "
             f"{asked.limit:,} nodes and left out; {len(checked) * len(WAYS):,} schedules of the ways judged legal by `check`"]
    for name in WAYS:
        met = sum(one.finishes[name] == one.optimum for one in measured)
        lines.append(f"{name}: as soon as the optimum on {met} of {len(measured)}")
    print("\n".join([*table_of(measured), "", *lines]))
    return 0
