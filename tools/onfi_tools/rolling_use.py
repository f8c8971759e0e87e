"""Channels in rolling use: the simulator built, and its configurations run by all ways."""

import csv
import itertools
import os
import subprocess
from concurrent.futures import ThreadPoolExecutor
from functools import lru_cache
from pathlib import Path
from typing import Dict, Iterable, List, NamedTuple, Optional, Sequence, Tuple

from onfi_tools.channel_bound import bounds_of, read_source, requests_for
from onfi_tools.rolling_ways import PLANS, WAYS

ROOT = Path(__file__).resolve().parent.parent.parent
SOURCES = ROOT / "examples/simulator/rolling"
# What it shares with the driver of examples/c; and what calls the library.
SHARED = ("firmware_host.c", "firmware_rule.c")
OF_THE_LIBRARY = ("library.c",)
STRICT = ("-std=c99", "-O2", "-Wall", "-Wextra", "-Werror", "-pedantic")

# That many requests at least are answered where erases come: before, a way gains by leaving them undone.
WITH_ERASES = 10_000

# The workloads of the 216 configurations; those of others are asked for by their names.
OF_ALL = {"reads": "random reads", "mixed": "70 % reads", "sequential": "sequential programs", "erases": "with erases"}
WORKLOADS = {**OF_ALL, "random-programs": "random programs", "reads-4k": "random reads of 4 KiB", "mixed-4k": "70 % reads of 4 KiB"}
# Those whose reads put out one sector of four, each with the one whose reads put out their pages.
OF_SECTORS = {"reads-4k": "reads", "mixed-4k": "mixed"}

Figures = Dict[str, float]


class Configuration(NamedTuple):
    """What is simulated. Real array times in shares of the stated ones; with a load requests come by themselves."""

    device: str
    workload: str
    byte: float
    luns: int = 8
    depth: int = 64
    load: float = 0
    array: str = "1-1"
    told: bool = True

    def words(self) -> List[str]:
        told = "yes" if self.told else "no"
        words = {**self._asdict(), "told": told}
        return [str(part) for name_and_value in words.items() for part in name_and_value]

    def title(self) -> str:
        return f"{self.device}, {WORKLOADS[self.workload]}, {self.byte:g} ns, {self.luns} LUNs, {self.depth}"


class Measured(NamedTuple):
    """What each way made of a configuration."""

    configuration: Configuration
    by_way: Dict[str, Figures]


class Asked(NamedTuple):
    """How it is measured: requests a run, seed, limit of nodes, how many runs at a time. Where erases come runs are longer."""

    requests: int
    seed: int
    limit: int
    jobs: int

    def requests_of(self, of: Configuration) -> int:
        """How many requests a run answers."""
        return max(self.requests, WITH_ERASES) if of.workload == "erases" else self.requests


Key = Tuple[str, ...]


def key_of(of: Configuration, way: str, asked: Asked) -> Key:
    """What a run is, in the columns before its figures. Of a way that doesn't search the limit is 0."""
    limit = asked.limit if way in PLANS else 0
    return tuple(map(str, (*of, way, asked.requests_of(of), asked.seed, limit)))


class Rows:
    """All figures in a file, a run a line, written as they come, in the columns that it has. A run that stands there already isn't run again.

    Ways of one's own aren't kept: what they do may be another thing the next time.
    """

    def __init__(self, path: Optional[Path]) -> None:
        self.path = path
        self.found: Dict[Key, Figures] = {}  # also where there is no file: what is asked for twice is run once
        self.names: List[str] = []
        if path and path.is_file():
            names, *rows = csv.reader(path.read_text().splitlines())
            start = names.index("answered")
            self.names = names[start:]
            self.found = {tuple(row[:start]): dict(zip(self.names, map(float, row[start:]))) for row in rows}

    def keep(self, key: Key, figures: Figures) -> None:
        if key in self.found or key[len(Configuration._fields)] not in WAYS:
            return
        head = "" if self.names else ",".join([*Configuration._fields, "way", "requests", "seed", "limit", *figures]) + "\n"
        self.names = self.names or list(figures)
        self.found[key] = figures
        if not self.path:
            return
        with open(self.path, "a") as file:
            file.write(head + ",".join([*key, *(f"{figures[name]:.12g}" for name in self.names)]) + "\n")


TWELVE = [
    Configuration("tlc", "mixed", 0.833),
    Configuration("tlc", "mixed", 2),
    Configuration("tlc", "mixed", 20, luns=2),
    Configuration("tlc", "reads", 2, luns=4, depth=16),
    Configuration("tlc", "reads", 0.833),
    Configuration("qlc", "mixed", 0.833),
    Configuration("slc", "mixed", 2),
    Configuration("tlc", "sequential", 2),
    Configuration("tlc", "erases", 0.833),
    Configuration("tlc", "sequential", 2, depth=16),
    Configuration("tlc", "mixed", 2, luns=4, depth=16),
    Configuration("tlc", "erases", 2, luns=4, depth=16),
]


def all_of(workloads: Iterable[str]) -> List[Configuration]:
    """Each device, these workloads, each bus, number of LUNs and of requests outstanding."""
    parts = itertools.product(("slc", "tlc", "qlc"), workloads, (20, 2, 0.833), (2, 4, 8), (16, 64))
    return [Configuration(*part) for part in parts]


ALL = all_of(OF_ALL)
# Device, bus, LUNs and requests outstanding of those in which sectors are measured beside pages.
SIX = [("tlc", 2, 8, 64), ("tlc", 2, 4, 16), ("tlc", 0.833, 8, 64), ("tlc", 0.833, 4, 16), ("qlc", 2, 8, 64), ("slc", 2, 8, 64)]


def six_of(workload: str) -> List[Configuration]:
    return [Configuration(device, workload, byte, luns, depth) for device, byte, luns, depth in SIX]


ARRAYS = ("0.7-0.9", "0.4-0.7")
LOADS = (0.04, 0.4, 0.7)


def readiness(of: Configuration) -> List[Configuration]:
    """Arrays that take what is stated, or less, which LUNs report; where they don't, all is as with the first."""
    return [of, *(of._replace(array=array) for array in ARRAYS)]


def open_loops(of: Configuration) -> List[Configuration]:
    return [of._replace(load=load) for load in LOADS]


def sources_of(is_with_library: bool) -> List[Path]:
    """The simulator's sources; without the library it has greedy ways alone."""
    sources = [*sorted(SOURCES.glob("*.c")), *(ROOT / "examples/c" / name for name in SHARED)]
    return [source for source in sources if is_with_library or source.name not in OF_THE_LIBRARY]


def build(made: Path, library: Optional[Path], own: Optional[Path] = None) -> Path:
    """The simulator, with a way of one's own where a file has one; without a library it has greedy ways alone. ValueError says what the compiler said."""
    line = [os.environ.get("CC", "cc"), *STRICT, f"-I{ROOT / 'include'}"]
    if own:
        line += ["-Wno-error", "-DWITH_OWN_WAY", f"-I{SOURCES}", str(own)]
    if library is None:
        line.append("-DWITHOUT_LIBRARY")
    elif not (library / "libonfi.a").is_file():
        raise ValueError(f"no libonfi.a in {library}: `make library` builds it")
    archive = [str(library / "libonfi.a")] if library else []
    ran = subprocess.run([*line, *map(str, sources_of(bool(library))), *archive, "-lm", "-o", str(made)], capture_output=True, text=True)
    if ran.returncode:
        raise ValueError(ran.stderr)
    return made


def ways_of(program: Path) -> List[str]:
    """All ways that a built simulator has; one's own comes first."""
    return subprocess.run([str(program), "ways"], capture_output=True, text=True, check=True).stdout.split()


def output_of(program: Path, of: Configuration, requests: int, asked: Asked, *words: str) -> str:
    """What a run prints. ValueError says what was illegal."""
    line = [str(program), *of.words(), "requests", str(requests), "seed", str(asked.seed), "limit", str(asked.limit), *words]
    ran = subprocess.run(line, capture_output=True, text=True)
    if ran.returncode:
        raise ValueError(f"{of.title()}: {ran.stderr.strip()}")
    return ran.stdout


def run_way(program: Path, of: Configuration, way: str, asked: Asked) -> Figures:
    """What comes of a configuration by a way."""
    lines = output_of(program, of, asked.requests_of(of), asked, "way", way).splitlines()
    return {name: float(number) for name, number, _ in (line.split() for line in lines)}


@lru_cache(maxsize=None)
def bounds_there(program: Path, of: Configuration, asked: Asked) -> Dict[str, float]:
    """The throughputs that no scheduler passes there, of a run of the same requests."""
    answers = asked.requests_of(of)
    text = output_of(program, of, requests_for(answers, of.depth), asked, "print", "requests")
    array = float(of.array.split("-")[0]) if of.told else 1
    return bounds_of(*read_source(text, of.luns, of.depth, array), answers)


def measure(program: Path, configurations: Sequence[Configuration], ways: Sequence[str], asked: Asked, rows: Rows) -> List[Measured]:
    """Runs each configuration by each way, that many at a time; beside the figures stands the bound that no way passes."""
    measured = [Measured(of, {}) for of in configurations]
    runs = [(one, way) for one in measured for way in ways]

    def figures_of(run: Tuple[Measured, str]) -> Figures:
        of, way = run[0].configuration, run[1]
        return rows.found.get(key_of(of, way, asked)) or run_way(program, of, way, asked)

    with ThreadPoolExecutor(asked.jobs) as pool:
        for (one, way), figures in zip(runs, pool.map(figures_of, runs)):
            if "bound" not in figures:
                figures["bound"] = round(min(bounds_there(program, one.configuration, asked).values()), 3)
            rows.keep(key_of(one.configuration, way, asked), figures)
            one.by_way[way] = figures
    return measured
