"""One's own load on one's own device by the simulator of channels: how long each line takes, and what is done over time."""

import csv
import io
import itertools
import re
import subprocess
from pathlib import Path
from typing import Dict, Iterator, List, NamedTuple, Sequence, Tuple

from onfi_tools.bench.runs import quantile, table
from onfi_tools.channel_bound import Channel, Request, bounds_to_the_end
from onfi_tools.device import KINDS, Spans
from onfi_tools.rolling_ways import title_of
from onfi_tools.script import lengths_of
from onfi_tools.workload import MOST_OPERATIONS, Operation, Shape, paged_rows

# How the sequencer runs a load: by plans of the rule, and phase by phase.
RUN = ("run", "--clock", "simulated", "--by")
RUNS = ("rule", "next")
# Into how many equal parts the time is cut, from the first arrival to the last end of all ways.
WINDOWS = 100
SHARES = {"50 %": 0.5, "95 %": 0.95, "99 %": 0.99, "99.9 %": 0.999}


class Load(NamedTuple):
    """The rows of the device in its own form and in the first, how its drive looks, and the operations as they arrive; that many may be outstanding."""

    script: List[str]
    device: List[str]
    shape: Shape
    operations: List[Operation]
    depth: int
    closed: bool

    def spans(self) -> Dict[str, Spans]:
        """How long the phases of each kind take; reads of N sectors are the kind `read N`."""
        spans = lengths_of(self.device_text())
        posts = [row.split(",")[1:] for row in self.device if row.startswith("sectorpost,")]
        return {**spans, **{f"read {count}": spans["read"]._replace(post=int(post)) for count, post in posts}}

    def device_text(self) -> str:
        return "\n".join([*self.device, "end", ""])

    def bytes_of(self, operation: Operation) -> int:
        """Of the drive, that go over the bus."""
        if operation.kind == "erase":
            return 0
        return self.shape.page_bytes * operation.sectors // self.shape.sectors if operation.sectors else self.shape.page_bytes

    def bound(self) -> float:
        """The throughput that no scheduler passes, in operations a second."""
        times = (0 if self.closed else it.time for it in self.operations)
        requests = [Request(kind_of(it), it.place.lun, False, time, far) for it, time, far in zip(self.operations, times, self.distances())]
        return min(bounds_to_the_end(Channel(self.spans(), self.shape.planes, 0, self.shape.luns, self.depth), requests).values())

    def distances(self) -> Iterator[int]:
        """Of each operation, how many arrivals before it the last one came on another plane that it may run as one with; 0: there is none."""
        last: Dict[Tuple[int, str, int], Dict[int, int]] = {}
        for at, (_, _, kind, (_, lun, block, page), _, _) in enumerate(self.operations):
            planes = last.setdefault((lun, kind, page), {})
            plane = block % self.shape.planes
            yield at - max((place for other, place in planes.items() if other != plane), default=at)
            planes[plane] = at


def kind_of(operation: Operation) -> str:
    return f"read {operation.sectors}" if operation.sectors else operation.kind


class Answer(NamedTuple):
    """When an operation or a line arrived, and when it ended, in ns."""

    line: int
    kind: str
    arrived: int
    end: int


class Outcome(NamedTuple):
    """What a way made of a load: the answers in the order of its operations."""

    way: str
    answers: List[Answer]

    def begin(self) -> int:
        return min(it.arrived for it in self.answers)

    def end(self) -> int:
        return max(it.end for it in self.answers)

    def lines(self) -> List[Answer]:
        """Those of lines: from the arrival to the last end of all that it asks for; a program where one of that is."""
        found: Dict[int, Answer] = {}
        for it in self.answers:
            before = found.get(it.line, it)
            kind = "program" if "program" in (it.kind, before.kind) else it.kind
            found[it.line] = Answer(it.line, kind, min(it.arrived, before.arrived), max(it.end, before.end))
        return list(found.values())


def write_load(load: Load, folder: Path) -> None:
    """The device and the requests as the simulator reads them."""
    (folder / "device.onfi").write_text(load.device_text())
    (folder / "load.csv").write_text("\n".join([*paged_rows(load.operations), ""]))


def run_load(program: Path, folder: Path, load: Load, way: str) -> Outcome:
    """What a way makes of what write_load wrote. ValueError says what the way did wrong, and when."""
    files = ["device", str(folder / "device.onfi"), "workload", str(folder / "load.csv"), "closed", "yes" if load.closed else "no"]
    ran = subprocess.run([str(program), *files, "way", way, "depth", str(load.depth), "print", "answers"], capture_output=True, text=True)
    if ran.returncode:
        raise ValueError(ran.stderr.strip())
    rows = sorted(csv.DictReader(io.StringIO(ran.stdout)), key=lambda row: int(row["request"]))
    return Outcome(way, [Answer(int(row["line"]), row["op"], int(row["arrived_ns"]), int(row["end_ns"])) for row in rows])


def script_of(load: Load) -> str:
    """The load as one host's operations on one channel. ValueError where a script can't have them."""
    if load.closed or len(load.operations) > MOST_OPERATIONS:
        raise ValueError(f"`run` takes requests at their times, and at most {MOST_OPERATIONS:,} operations")
    moments = itertools.groupby(load.operations, key=lambda it: it.time)
    rows = (row for time, own in moments for row in (f"at,{time}", *(it.row() for it in own)))
    return "\n".join([*load.script, "submitcap,1024", "postcap,1024", *rows, "end", ""])


def run_sequencer(program: Path, load: Load, way: str) -> Outcome:
    """What `onfi_sim run` makes of a load by one of its ways. ValueError where it doesn't answer all."""
    ran = subprocess.run([str(program), *RUN, way], input=script_of(load), capture_output=True, text=True)
    ends = re.findall(r"^reply,0,0,\d+,(\d+),", ran.stdout, re.MULTILINE)
    if ran.returncode:
        raise ValueError(f"{program} run: status {ran.returncode}: {ran.stderr.strip() or ran.stdout[-80:]}")
    return Outcome(f"run --by {way}", [Answer(it.line, it.kind, it.time, int(end)) for it, end in zip(load.operations, ends)])


def throughput_table(load: Load, outcomes: Sequence[Outcome]) -> List[str]:
    spans, bound = load.spans(), load.bound()
    busy = sum(spans[kind_of(it)].cmd + spans[kind_of(it)].post for it in load.operations)
    moved = sum(map(load.bytes_of, load.operations))
    rows = []
    for one in outcomes:
        time = one.end() - one.begin()
        rate = len(one.answers) * 1e9 / time
        numbers = [f"{rate:,.0f}", f"{moved * 1e3 / time:,.1f}", f"{100 * rate / bound:.1f}", f"{100 * busy / time:.1f}", f"{time / 1e6:,.3f}"]
        rows.append([title_of(one.way), *numbers])
    return table(["throughput", "operations a second", "MB a second", "% of what no scheduler passes", "bus busy, %", "in all, ms"], rows)


def latency_row(way: str, latencies: Sequence[int]) -> List[str]:
    mean = sum(latencies) / len(latencies)
    numbers = [mean, *(quantile(latencies, share) for share in SHARES.values()), max(latencies)]
    return [title_of(way), f"{len(latencies):,}", *(f"{number / 1000:,.1f}" for number in numbers)]


def latency_table(kind: str, outcomes: Sequence[Outcome]) -> List[str]:
    """From a line's arrival to its end; nothing where no line is of the kind."""
    found = [(one.way, [it.end - it.arrived for it in one.lines() if it.kind == kind]) for one in outcomes]
    rows = [latency_row(way, latencies) for way, latencies in found if latencies]
    return table([f"latency of {kind}s, us", "lines", "mean", *SHARES, "most"], rows) if rows else []


def tables_of(load: Load, outcomes: Sequence[Outcome]) -> List[List[str]]:
    return [throughput_table(load, outcomes), *(latency_table(kind, outcomes) for kind in KINDS)]


class Window(NamedTuple):
    """What a way did in a part of the time, of which `begin` and `end` are ns; an operation counts where it ends."""

    way: str
    begin: int
    end: int
    operations_a_second: float
    bytes_a_second: float


def windows_of(load: Load, outcomes: Sequence[Outcome]) -> List[Window]:
    begin, end = min(one.begin() for one in outcomes), max(one.end() for one in outcomes)
    length = -(-(end - begin) // WINDOWS)
    return [window for one in outcomes for window in windows_by(load, one, begin, length)]


def windows_by(load: Load, one: Outcome, begin: int, length: int) -> Iterator[Window]:
    counts, moved = [0] * WINDOWS, [0] * WINDOWS
    for operation, answer in zip(load.operations, one.answers):
        at = (answer.end - begin - 1) // length
        counts[at] += 1
        moved[at] += load.bytes_of(operation)
    for at in range(WINDOWS):
        yield Window(one.way, begin + at * length, begin + (at + 1) * length, counts[at] * 1e9 / length, moved[at] * 1e9 / length)


def latency_rows(outcomes: Sequence[Outcome]) -> Iterator[str]:
    yield "way,line,op,arrived_ns,end_ns,latency_ns"
    for one in outcomes:
        for line, kind, arrived, end in one.lines():
            yield f"{one.way},{line},{kind},{arrived},{end},{end - arrived}"


def window_rows(windows: Sequence[Window]) -> Iterator[str]:
    yield "way,from_ns,to_ns,operations_per_s,bytes_per_s"
    for way, begin, end, operations, moved in windows:
        yield f"{way},{begin},{end},{operations:.1f},{moved:.1f}"
