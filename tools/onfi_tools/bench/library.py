"""How many plans a second the library for C makes in one process.

    tools/bench library FOLDER [BNB] [--scripts N] [--seed N] [--rounds N]

FOLDER holds libonfi.a. From the seed come N scripts of eight requests, those of `tools/bench worth`; each is planned in one process by
onfi_plan, with its certificate. BNB is a plain search, run as `BNB -l LIMIT FILE..` that prints `FILE FINISH OPENED FIRST SECONDS ..`
for each; it writes no certificate. The two run in turns, and the best of the rounds count. Scripts whose search has over 100,000 nodes
are left out.
"""

import argparse
import random
import subprocess
import tempfile
from pathlib import Path

from onfi_tools.bench.runs import ROOT, add_numbers, built
from onfi_tools.bench.worth import drawn_batch

MOST = 100_000


def output(*words: object) -> str:
    return subprocess.run([str(word) for word in words], check=True, capture_output=True, text=True).stdout


def words(parser: argparse.ArgumentParser) -> None:
    parser.add_argument("folder", type=Path)
    parser.add_argument("bnb", nargs="?")
    add_numbers(parser, scripts=1000, seed=1, rounds=5)


def main(asked: argparse.Namespace) -> int:
    with tempfile.TemporaryDirectory() as folder:
        room, rng = Path(folder), random.Random(asked.seed)
        files = [room / f"{number}.onfi" for number in range(asked.scripts)]
        for file in files:
            file.write_text(drawn_batch(rng).script())
        if asked.bnb:
            opened = [int(line.split()[2]) for line in output(asked.bnb, "-l", MOST, *files).splitlines()]
            files = [file for file, nodes in zip(files, opened) if nodes < MOST]
        sources = [ROOT / "tests/libraries/plan_scripts.c", asked.folder / "libonfi.a"]
        program = built("cc", ["-O2", f"-I{ROOT / 'include'}", *sources], room / "plan_scripts")
        best, other, calls = 1e9, 1e9, 0
        for _ in range(asked.rounds):
            made, seconds = output(program, 1, *files).split()
            calls, best = int(made), min(best, float(seconds))
            if asked.bnb:
                other = min(other, sum(float(line.split()[4]) for line in output(asked.bnb, *files).splitlines()))
    beside = f", {Path(asked.bnb).name} {calls / other:.0f}, ratio {other / best:.2f}" if asked.bnb else ""
    print(f"{calls} scripts: onfi_plan {calls / best:.0f} plans a second{beside}")
    return 0
