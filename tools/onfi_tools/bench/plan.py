"""How fast the built program plans.

    tools/bench plan [PROGRAM] [--rounds N] [--random N] [--seed N]
    tools/bench plan --workers [PROGRAM] [--rounds N] [--random N] [--seed N]
    tools/bench plan --prototypes [PROGRAM] [--rounds N] [--random N] [--seed N]

It runs on the scripts of examples/hard and on random ones, made from the seed, that take many nodes. Of each are printed the nodes
that the search opens, the nodes a second of processor time, best of the rounds, and where a plan is found the tokens of its
certificate and the time that writing it took. The nodes are those of the largest `--limit` that answers `over`, so that no certificate
is written in that time.

--workers: how much sooner 2 and 4 workers have the plan and its certificate, on the scripts of examples/hard and on random ones for
which one search finds a plan after more than 10,000 nodes. A run is as long as its longest chain of processor time, each thread on a
processor of its own. Beside it stands the work of all workers together, over that of the plain run. A script without a plan, by one or
by several, isn't counted.

--prototypes: PROGRAM beside both plain searches in C++ of bench/, built with `g++ -O3` (or what CXX names): `plan` and the same tree in
turns, with the ratio of their nodes a second, over 1 where PROGRAM is faster; then `plan --by within` and the search that remembers
states, on the scripts of examples/hard and on random ones of the sets of `tools/bench remember` for which that search opens at least
1,000 nodes. Both have to find the same finish.
"""

import argparse
import itertools
import os
import random
import re
import statistics
import subprocess
import tempfile
from pathlib import Path
from typing import Callable, Dict, Iterator, List, NamedTuple, Optional, Sequence, Tuple

from onfi_tools.bench.runs import HARD, MOST, OVER, ROOT, Run, add_words, best_of, built, greatest_over, run
from onfi_tools.drawn import SETS, long_search

TEAMS = (2, 4)
# What random scripts for the search that remembers states have to take.
LEAST_REMEMBERED = 1000
# Scripts by their names.
Scripts = Dict[str, str]
HARD_SCRIPTS: Scripts = {path.name: path.read_text() for path in HARD}


def plan(program: str, script: str, limit: int = MOST) -> Run:
    return run([program, "plan", "--limit", str(limit)], script)


def run_bnb(bnb: Path, script: str, limit: int) -> Run:
    """The plain search; its third word is how many nodes it opened."""
    return run([str(bnb), "-l", str(limit), "/dev/stdin"], script)


def run_rem(rem: Path, script: str) -> Run:
    """The plain search that remembers states: `-s g -b W` has it look at the schedules and windows that the program does."""
    return run([str(rem), "-s", "g", "-b", "W", "-k", "64", "-l", str(MOST), "/dev/stdin"], script)


def walks_of(ran: Run) -> Tuple[str, int]:
    """Of that search the finish, and how many nodes its two walks opened."""
    row = ran.output.splitlines()[1].split()
    return row[1], int(row[4]) + int(row[8])


def drawn_scripts(name: str, count: int, drawn: Iterator[str], fits: Callable[[str], bool]) -> Scripts:
    """The first drawn ones that fit."""
    found = itertools.islice(filter(fits, drawn), count)
    return {f"{name}-{number}.onfi": script for number, script in enumerate(found, 1)}


def long_scripts(rng: random.Random, count: int, fits: Callable[[str], bool]) -> Scripts:
    return drawn_scripts("random", count, (long_search(rng) for _ in itertools.count()), fits)


def line_of_certificate(program: str, script: str, search: Run) -> str:
    """How many tokens, and the time that they took beside the search."""
    whole = best_of([plan(program, script) for _ in range(3)])
    if whole.status != 0:
        return ""
    tokens = len(whole.output.split("ONFICERT", 1)[1].split("\n", 2)[1].split())
    return f"; {tokens:,} tokens in {max(whole.processor - search.processor, 0):.3f} s"


class Measured(NamedTuple):
    """Nodes and the best time of the program on a script, and those of a plain search."""

    nodes: int
    seconds: float
    other_nodes: int = 0
    other_seconds: float = 0


def measure(program: str, bnb: Optional[Path], name: str, script: str, rounds: int) -> Measured:
    """Prints the line of a script; gives nodes and best times, also of the plain search where there is one."""
    limit = greatest_over(lambda limit: plan(program, script, limit).status == OVER)
    mine, theirs = [], []
    for _ in range(rounds):
        mine.append(plan(program, script, limit))
        theirs += [run_bnb(bnb, script, limit)] if bnb else []
    best = best_of(mine)
    speed = limit / best.processor
    line = f"{name}: {limit:,} nodes, {speed / 1e6:.2f} M/s ({best.processor:.3f} s, {best.clock:.3f} s by the clock)"
    line += line_of_certificate(program, script, best)
    result = Measured(limit, best.processor)
    if bnb:
        rival = best_of(theirs)
        nodes = int(rival.output.split()[2])
        result = Measured(limit, best.processor, nodes, rival.processor)
        line += f"; other {nodes / rival.processor / 1e6:.2f} M/s, ratio {speed * rival.processor / nodes:.2f}"
    print(line, flush=True)
    return result


def measure_remembering(program: str, rem: Path, name: str, script: str, rounds: int) -> Measured:
    """Prints the line of a script; gives the best times of the two for the whole plan, and the prototype's nodes."""
    pairs = [(run([program, "plan", "--by", "within", "--limit", str(MOST)], script), run_rem(rem, script)) for _ in range(rounds)]
    best, rival = (best_of(runs) for runs in zip(*pairs))
    finish = best.output.split("\n", 2)[1].split()[-1] if best.status == 0 else "none"
    wanted, nodes = walks_of(rival)
    if finish != wanted:
        raise ValueError(f"{name}: finish {finish} where the prototype finds {wanted}")
    ratio = rival.processor / best.processor
    print(f"{name}: {nodes:,} nodes, {best.processor * 1e3:.1f} ms, other {rival.processor * 1e3:.1f} ms, ratio {ratio:.2f}", flush=True)
    return Measured(nodes, best.processor, nodes, rival.processor)


def print_all(results: Sequence[Measured]) -> None:
    """Nodes a second over all scripts, and their ratio where another program ran beside."""
    nodes, seconds, other_nodes, other_seconds = (sum(column) for column in zip(*results))
    line = f"all: {nodes / seconds / 1e6:.2f} M/s"
    if other_nodes:
        line += f"; other {other_nodes / other_seconds / 1e6:.2f} M/s, ratio {nodes / seconds * other_seconds / other_nodes:.2f}"
    print(line, flush=True)


def bench_alone(asked: argparse.Namespace, rng: random.Random, bnb: Optional[Path] = None) -> int:
    scripts = {**HARD_SCRIPTS, **long_scripts(rng, asked.random, lambda script: plan(asked.program, script, 50_000).status == OVER)}
    print_all([measure(asked.program, bnb, name, script, asked.rounds) for name, script in scripts.items()])
    return 0


def bench_prototypes(asked: argparse.Namespace, rng: random.Random, folder: str) -> int:
    options = ["-O3", "-std=c++17", "-w"]
    bnb, rem = (built(os.environ.get("CXX", "g++"), [*options, ROOT / "bench" / f"{name}.cpp"], Path(folder) / name) for name in ("bnb", "rem"))
    print("plan, beside bnb", flush=True)
    bench_alone(asked, rng, bnb)
    print("plan --by within, beside rem", flush=True)
    drawn = (draw(rng) for draw in itertools.cycle(SETS.values()))
    few = drawn_scripts("remembered", asked.random, drawn, lambda script: walks_of(run_rem(rem, script))[1] >= LEAST_REMEMBERED)
    print_all([measure_remembering(asked.program, rem, name, script, asked.rounds) for name, script in {**HARD_SCRIPTS, **few}.items()])
    return 0


class Chain(NamedTuple):
    """The plan of a script by that many workers: status and text, the run's longest chain of work and all its work, in ns."""

    workers: int
    status: int
    output: str
    longest: int
    work: int


def chain_of(program: str, script: str, workers: int, span: Path) -> Chain:
    words = [program, "plan", "--workers", str(workers)]
    ran = subprocess.run(words, input=script, capture_output=True, text=True, env={**os.environ, "LD_PRELOAD": str(span), "SPAN_TOLD": "2"})
    found = re.search(r"^(\d+) (\d+)\n\Z", ran.stderr, re.MULTILINE)
    if not found:
        raise ValueError(f"{' '.join(words)}: no chain: {ran.stderr[-300:]}")
    return Chain(workers, ran.returncode, ran.stdout, int(found[1]), int(found[2]))


def measure_teams(program: str, name: str, script: str, rounds: int, span: Path) -> Optional[List[Tuple[float, float]]]:
    """Prints the line of a script; gives the speed-up and the work of each team, or nothing where a plan lacks."""
    runs = [[chain_of(program, script, workers, span) for workers in (1, *TEAMS)] for _ in range(rounds)]
    first = runs[0]
    lacking = next((one for one in first if one.status != 0), None)
    if lacking:
        print(f"{name}: no plan by {lacking.workers}: {lacking.output[:80].strip()}", flush=True)
        return None
    finishes = {one.output.split("\n", 2)[1] for turn in runs for one in turn}
    if len(finishes) > 1 or any(one.output != first[1].output for turn in runs for one in turn[1:]):
        raise ValueError(f"{name}: the plans of several workers differ, or end at another time")
    longest, work = ([min(getattr(one, it) for one in column) for column in zip(*runs)] for it in ("longest", "work"))
    found = [(longest[0] / longest[at], work[at] / work[0]) for at in range(1, len(first))]
    teams = ", ".join(f"by {workers} {sooner:.2f} (work {more:.2f})" for workers, (sooner, more) in zip(TEAMS, found))
    print(f"{name}: {longest[0] / 1e6:.1f} ms by one, {teams}", flush=True)
    return found


def compare_teams(asked: argparse.Namespace, scripts: Scripts, span: Path, what: str) -> int:
    """Measures scripts, and prints the best, median and worst of each team."""
    measured = [found for name, script in scripts.items() if (found := measure_teams(asked.program, name, script, asked.rounds, span))]
    print(f"{what}: {len(measured)} of {len(scripts)} measured")
    for workers, of_team in zip(TEAMS, zip(*measured)):
        parts = [f"{name} {max(numbers):.2f} at most, {statistics.median(numbers):.2f} median, {min(numbers):.2f} at least"
                 for name, numbers in zip(("speed-up", "work"), zip(*of_team))]
        print(f"{what}, {workers} workers: {'; '.join(parts)}", flush=True)
    return len(measured)


def bench_workers(asked: argparse.Namespace, rng: random.Random, folder: str) -> int:
    source = ROOT / "tools" / "onfi_tools" / "span.c"
    span = built(os.environ.get("CC", "cc"), ["-O1", "-shared", "-fPIC", source], Path(folder) / "span.so")
    measured = compare_teams(asked, HARD_SCRIPTS, span, "hard")

    def is_long(script: str) -> bool:
        return plan(asked.program, script, 10_000).status == OVER and plan(asked.program, script).status == 0

    return 0 if measured + compare_teams(asked, long_scripts(rng, asked.random, is_long), span, "random") else 1


def words(parser: argparse.ArgumentParser) -> None:
    add_words(parser, rounds=5, random=3, seed=1)
    parser.add_argument("--workers", action="store_true")
    parser.add_argument("--prototypes", action="store_true")


def main(asked: argparse.Namespace) -> int:
    rng = random.Random(asked.seed)
    with tempfile.TemporaryDirectory() as folder:
        if asked.workers or asked.prototypes:
            return (bench_workers if asked.workers else bench_prototypes)(asked, rng, folder)
    return bench_alone(asked, rng)
