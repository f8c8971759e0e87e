"""What a channel gets done where requests come while others run: greedy ways, plans, phase by phase, and one of your own.

    tools/bench rolling [--quick] [--library FOLDER] [--requests N] [--seed N] [--limit N] [--jobs N] [--rows FILE] [--ways NAMES]
                        [--own FILE.c] [--workload NAME]
    tools/bench rolling --trace TRACE.csv --device SCRIPT [--own FILE].. [--ways NAMES] [--run PROGRAM] [--closed] [--depth N]
                        [--into FOLDER] [--unit us] [--page-bytes N] [--from-zero] [--wrap] [--fresh] [--library FOLDER]

It builds the simulator of a channel (examples/simulator/rolling) with the library of FOLDER (lib; greedy ways alone need none), and runs
216 configurations by each way, JOBS at a time (one for each processor), until N requests are answered (4,000; with erases at least
10,000, since a shorter run gains by leaving them undone); the first tenth isn't measured. Each step is judged by code of its own, and
an illegal one ends all with status 1, and a line that says when, on which LUN and of which request. A search opens at most LIMIT nodes
(100,000); where it is over, round robin decides until there is something new, and that is counted. Beside each throughput stands a bound
that no scheduler passes, of the same requests (tools/onfi_tools/channel_bound.py says why).

--quick takes twelve of the configurations, and of two of them early arrays and open loops, and 1,000 requests where no N is named:
within ten minutes of processor time. --ways takes these ways alone, with commas between them, beside the one that each is compared
with; --own compiles FILE.c, which has a way `own_way` (examples/simulator/rolling/README.md), and takes it too; --workload takes the 54
configurations of one workload, also of those beside the 216: `random-programs`, the next page of a plane of any LUN; `reads-4k` and
`mixed-4k`, whose reads put out one sector of four, 4 KiB of tlc and qlc. Of these two --quick takes six, beside whole pages. --rows keeps
all figures of all runs in a file, each as it comes; a run that the file has isn't run again.

--trace takes a load of your own, of bytes or of pages, on the device of SCRIPT in place of all that (docs/WORKLOADS.md has both forms,
and what --unit to --fresh mean), by `fifo`, `rfirst:all`, with the library `steady`, or by those of --ways, and by your own: of a file in C, and
of any in Python, whose first class with `accept`, `next` and `ran`, as a `Scheduler` of the package onfi, is made of channel and geometry, and
judged by the library's audit. Requests come at their times, or --closed with answers, at most 64 or --depth of them outstanding. --run adds
`run --clock simulated` of onfi_sim by the rule and by the next phase, of up to 10,000 operations: there one host sends all as they come. It
prints operations and bytes a second, beside the bound, and latencies of lines, from arrival to the end of all that a line asks for. --into
puts into FOLDER `latencies.csv`, with each line by each way, `over-time.csv` and its picture `over-time.svg`, with operations and bytes a
second, and the simulator `rolling` with its `device.onfi` and `load.csv`.

All that is random comes from the seed, the same for all ways: which requests come and when, and how long arrays take. Devices, buses,
requests and ways are in docs/WORTH.md.
"""

import argparse
import os
import tempfile
from pathlib import Path
from typing import List, Optional

from onfi_tools.bench.runs import ROOT, add_numbers, processor_time
from onfi_tools.python_way import run_python
from onfi_tools.rates_svg import Panel, picture
from onfi_tools.rolling_load import RUNS, Load, Outcome, latency_rows, run_load, run_sequencer, tables_of, window_rows, windows_of, write_load
from onfi_tools.rolling_tables import apart, gain_table, quick_tables, sector_table, whole_tables
from onfi_tools.rolling_use import ALL, OF_SECTORS, TWELVE, WORKLOADS, Asked, Rows, all_of, build, measure, open_loops, readiness, six_of, ways_of
from onfi_tools.rolling_ways import BASE, GREEDY, PLAIN, WAYS, WAYS_OF_SECTORS, title_of
from onfi_tools.script import first_form, rows_of
from onfi_tools.workload import DEVICE_ROWS, Mapping, add_trace_words, operations_of, positive, read_requests, shape_of


# The name of a scheduler in Python ends so.
PYTHON = ".py"


def quick(program: Path, ways: List[str], asked: Asked, rows: Rows) -> List[str]:
    """The twelve configurations, early arrays of two, open loops of one."""
    early, loops = [*readiness(TWELVE[0]), *readiness(TWELVE[10])], open_loops(TWELVE[1])
    return quick_tables([measure(program, of, ways, asked, rows) for of in (TWELVE, early, loops)], ways)


def beside_pages(program: Path, workload: str, ways: List[str], asked: Asked, rows: Rows) -> List[str]:
    """Six configurations whose reads put out a sector, beside the same with whole pages."""
    pages, sectors = (measure(program, six_of(name), ways, asked, rows) for name in (OF_SECTORS[workload], workload))
    pairs = list(zip(pages, sectors))
    return apart(sector_table(pairs, ways), gain_table(pairs, ways))


def ways_named(names: str) -> List[str]:
    found = names.split(",")
    wrong = [name for name in found if name not in WAYS]
    if wrong:
        raise argparse.ArgumentTypeError(f"no way {wrong[0]}; there are {', '.join(WAYS)}")
    return found


def add_own(parser: argparse.ArgumentParser) -> None:
    parser.add_argument("--own", type=Path, action="append", default=[], metavar="FILE")


def words(parser: argparse.ArgumentParser) -> None:
    parser.add_argument("--quick", action="store_true")
    parser.add_argument("--library", type=Path, default=ROOT / "lib")
    parser.add_argument("--requests", type=int)
    add_numbers(parser, seed=1, limit=100_000, jobs=os.cpu_count() or 1)
    parser.add_argument("--rows", type=Path)
    parser.add_argument("--ways", type=ways_named)
    add_own(parser)
    parser.add_argument("--workload", choices=WORKLOADS)
    parser.add_argument("--trace", type=Path, metavar="TRACE.csv")
    parser.add_argument("--device", type=Path, metavar="SCRIPT")
    parser.add_argument("--run", type=Path, metavar="PROGRAM")
    parser.add_argument("--closed", action="store_true")
    parser.add_argument("--depth", type=positive, default=64)
    parser.add_argument("--into", type=Path, metavar="FOLDER")
    add_trace_words(parser)


def load_of(asked: argparse.Namespace) -> Load:
    """ValueError names the first line of the trace that can't be read."""
    if not asked.device:
        raise ValueError("--trace asks for --device")
    text = asked.device.read_text()
    shape = shape_of(rows_of(text), 1, asked.page_bytes)
    with asked.trace.open(newline="") as lines:
        operations = list(operations_of(read_requests(lines, asked.unit), Mapping(shape, asked.wrap, not asked.fresh), asked.from_zero))
    if not operations:
        raise ValueError(f"{asked.trace}: nothing is asked for")
    script = [",".join(row) for row in rows_of(text) if row and row[0] in DEVICE_ROWS]
    return Load(script, first_form(text), shape, operations, asked.depth, asked.closed)


def write_outcomes(load: Load, outcomes: List[Outcome], folder: Path) -> None:
    """Latencies, what is done over time, and a picture of it."""
    windows = windows_of(load, outcomes)
    (folder / "latencies.csv").write_text("\n".join([*latency_rows(outcomes), ""]))
    (folder / "over-time.csv").write_text("\n".join([*window_rows(windows), ""]))
    own = {one.way: [it for it in windows if it.way == one.way] for one in outcomes}
    moved = {title_of(way): [(it.end, it.bytes_a_second / 1e6) for it in its] for way, its in own.items()}
    done = {title_of(way): [(it.end, it.operations_a_second) for it in its] for way, its in own.items()}
    (folder / "over-time.svg").write_text(picture([Panel("MB a second", moved), Panel("operations a second", done)]))


def own_load(asked: argparse.Namespace, room: Path) -> List[str]:
    """A trace of one's own by each way; what isn't to be kept is put into the room."""
    load, folder = load_of(asked), asked.into or room
    folder.mkdir(parents=True, exist_ok=True)
    write_load(load, folder)
    program, own = built(asked, folder, asked.ways or [])
    named = asked.ways or [way for way in PLAIN if way in ways_of(program)]
    outcomes = [run_load(program, folder, load, way) for way in own]
    outcomes += [run_python(it, asked.library, load) for it in asked.own if it.suffix == PYTHON]
    outcomes += [run_load(program, folder, load, way) for way in named]
    outcomes += [run_sequencer(asked.run, load, way) for way in RUNS if asked.run]
    if asked.into:
        write_outcomes(load, outcomes, folder)
    return apart(*tables_of(load, outcomes))


def built(asked: argparse.Namespace, folder: Path, ways: List[str]) -> "tuple[Path, List[str]]":
    """The simulator, with the library where one of the ways needs it, or it is there; and one's own way, if any."""
    is_asked = bool(set(ways) - set(GREEDY))
    library: Optional[Path] = asked.library if is_asked or (asked.library / "libonfi.a").is_file() else None
    own = [it for it in asked.own if it.suffix != PYTHON]
    if len(own) > 1 or (len(own) < len(asked.own) and not vars(asked).get("trace")):
        raise ValueError("--own takes one file in C, and with --trace any in Python")
    program = build(folder / "rolling", library, *own)
    return program, ways_of(program)[:1] if own else []


def configurations(asked: argparse.Namespace, room: Path) -> List[str]:
    """The configurations that are asked for, by the ways that are."""
    how = Asked(asked.requests or (1000 if asked.quick else 4000), asked.seed, asked.limit, asked.jobs)
    is_beside = asked.quick and asked.workload in OF_SECTORS
    named = asked.ways or (WAYS_OF_SECTORS if is_beside else list(WAYS))
    program, own = built(asked, room, named)
    ways, rows = [BASE, *own, *(name for name in named if name != BASE)], Rows(asked.rows)
    if is_beside:
        lines = beside_pages(program, asked.workload, ways, how, rows)
    elif asked.quick:
        lines = quick(program, ways, how, rows)
    else:
        chosen = all_of([asked.workload]) if asked.workload else ALL
        lines = whole_tables(measure(program, chosen, ways, how, rows), ways)
    return [*lines, "", f"seed {how.seed}, {how.requests:,} requests a run, at most {how.limit:,} nodes a search; {processor_time():,.0f} s of processor time"]


def main(asked: argparse.Namespace) -> int:
    with tempfile.TemporaryDirectory(prefix="rolling-") as room:
        print("\n".join(own_load(asked, Path(room)) if asked.trace else configurations(asked, Path(room))))
    return 0
