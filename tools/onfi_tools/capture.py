"""Captures of an ONFI bus: its cycles, read from samples as CSV or VCD, and captures that show a trace."""

from __future__ import annotations

import csv
import itertools
import re
from typing import Dict, Iterable, Iterator, List, NamedTuple, Optional, Sequence, Tuple

from onfi_tools.trace import Phase

CLE, ALE, WE, RE, DQ = "cle", "ale", "we_n", "re_n", "dq"
LINES = (CLE, ALE, WE, RE, DQ)
CE = re.compile(r"ce(\d+)_n")
UNITS = {"ps": 0.001, "ns": 1.0, "us": 1000.0, "ms": 1e6}


class Sample(NamedTuple):
    """What the lines are from a moment on, in ns, by their names: `cle`, `ale`, `we_n`, `re_n`, `dq`, and `ce0_n` and up."""

    moment: int
    lines: Dict[str, int]


class Cycle(NamedTuple):
    """One byte over the bus of a target, from the falling to the rising edge of WE# or RE#, in ns."""

    start: int
    end: int
    target: int
    what: str
    byte: int


class Geometry(NamedTuple):
    """Cycles of a column and of a row address, and how many bits of a row are the page's and the block's; LUNs of a target follow them."""

    columns: int
    rows: int
    page_bits: int
    block_bits: int
    luns: int


def checked(lines: Dict[str, int], where: str) -> Dict[str, int]:
    missing = [name for name in LINES if name not in lines] or ([] if any(map(CE.fullmatch, lines)) else ["ce0_n"])
    if missing:
        raise ValueError(f"{where}: no line {missing[0]}")
    return lines


def read_csv(rows: Iterable[str]) -> Iterator[Sample]:
    """The samples of a table: a column `ns`, and one for each line; DQ in hexadecimal."""
    reader = csv.DictReader(rows)
    names = [name for name in reader.fieldnames or [] if name != "ns"]
    checked(dict.fromkeys(names, 0), "line 1")
    for number, row in enumerate(reader, 2):
        try:
            yield Sample(int(row["ns"]), {name: int(row[name], 16 if name == DQ else 2) for name in names})
        except (KeyError, TypeError, ValueError):
            raise ValueError(f"line {number}: not a sample") from None


def declared(head: str) -> Tuple[float, Dict[str, str]]:
    """The ns of a unit of a dump, and the names of its lines by their short names."""
    scale = re.search(r"\$timescale\s+(\d+)\s*(\w+)\s+\$end", head)
    if not scale or scale[2] not in UNITS:
        raise ValueError("a dump without a time scale of ps, ns, us or ms")
    names = {key: name.lower() for key, name in re.findall(r"\$var\s+\w+\s+\d+\s+(\S+)\s+(\w+).*?\$end", head)}
    checked(dict.fromkeys(names.values(), 0), "the dump's head")
    return int(scale[1]) * UNITS[scale[2]], {key: name for key, name in names.items() if name in LINES or CE.fullmatch(name)}


def level(word: str) -> Tuple[str, int]:
    """The short name of a line that changes, and what it is then; what is unknown counts as 1, as a line that nobody pulls."""
    value, key = word[1:].split() if word[0] in "bB" else (word[0], word[1:])
    return key, int(re.sub("[xXzZ]", "1", value), 2)


def read_vcd(text: str) -> Iterator[Sample]:
    """The samples of a value change dump, whose lines have the names of the table's columns in any scope."""
    head, found, body = text.partition("$enddefinitions $end")
    if not found:
        raise ValueError("no value change dump")
    unit, names = declared(head)
    lines = {name: 0 if name in (CLE, ALE, DQ) else 1 for name in names.values()}
    moment: Optional[int] = None
    for word in map(str.strip, body.splitlines()):
        if word.startswith("#"):
            if moment is not None:
                yield Sample(moment, dict(lines))
            moment = round(int(word[1:]) * unit)
        elif word and not word.startswith("$"):
            key, value = level(word)
            if key in names:
                lines[names[key]] = value
    if moment is not None:
        yield Sample(moment, dict(lines))


def what_of(lines: Dict[str, int], strobe: str) -> str:
    """What a cycle of these lines is."""
    if strobe == RE:
        return "output"
    return {(1, 0): "command", (0, 1): "address", (0, 0): "input"}.get((lines[CLE], lines[ALE]), "command and address")


def cycles(samples: Iterable[Sample]) -> Iterator[Cycle]:
    """The cycles of a capture, one at each rising edge of WE# or RE# while one CE# is low."""
    falls: Dict[str, int] = {}
    before: Optional[Sample] = None
    for sample in samples:
        # (before the first sample both strobes were high)
        before = before or Sample(sample.moment, {**sample.lines, WE: 1, RE: 1})
        if sample.moment < before.moment:
            raise ValueError(f"at {sample.moment} ns: a sample before the one above it")
        for strobe in (WE, RE):
            if before.lines[strobe] and not sample.lines[strobe]:
                falls[strobe] = sample.moment
            elif not before.lines[strobe] and sample.lines[strobe] and strobe in falls:
                yield from cycle_of(before.lines, strobe, falls.pop(strobe), sample.moment)
        before = sample


def cycle_of(lines: Dict[str, int], strobe: str, start: int, end: int) -> Iterator[Cycle]:
    """The cycle of those lines; none where no target is chosen."""
    chosen = [int(name[2:-2]) for name in sorted(lines) if CE.fullmatch(name) and not lines[name]]
    if len(chosen) > 1:
        raise ValueError(f"at {start} ns: CE# of targets {chosen[0]} and {chosen[1]} are low at once")
    if chosen:
        yield Cycle(start, end, chosen[0], what_of(lines, strobe), lines[DQ])


# Captures of a trace

ADDRESSED = {"00": "all", "80": "all", "06": "all", "60": "row", "78": "row"}
READY = 0xE0


def address_of(phase: Phase, geometry: Geometry) -> List[int]:
    """The address cycles of a phase, low bytes first."""
    row = phase.page | phase.block << geometry.page_bits | phase.lun % geometry.luns << (geometry.page_bits + geometry.block_bits)
    column = [0] * geometry.columns if ADDRESSED[phase.opener] == "all" else []
    return column + [row >> 8 * at & 255 for at in range(geometry.rows)]


def bytes_of(phase: Phase, geometry: Geometry, data: int) -> List[Tuple[str, int]]:
    """What goes over the bus in a phase, of a page `data` bytes."""
    found = [("command", int(phase.opener, 16)), *(("address", byte) for byte in address_of(phase, geometry))]
    if phase.opener == "80":
        found += [("input", at % 256) for at in range(data)]
    if phase.closer != "-":
        found.append(("command", int(phase.closer, 16)))
    outputs = {"06": data, "78": 1}.get(phase.opener, 0)
    return found + [("output", READY) for _ in range(outputs)]


def shown(phases: Sequence[Phase], geometry: Geometry, data: int) -> List[Cycle]:
    """The cycles that show these phases, evenly from the start to a ns before the end of each."""
    found: List[Cycle] = []
    for phase in phases:
        sent = bytes_of(phase, geometry, data)
        edges = 2 * len(sent)
        if phase.end - phase.start < edges:
            raise ValueError(f"a phase of {phase.end - phase.start} ns is too short for {len(sent)} cycles")
        times = [phase.start + (phase.end - 1 - phase.start) * at // (edges - 1) for at in range(edges)]
        found += [
            Cycle(fall, rise, phase.lun // geometry.luns, what, byte)
            for fall, rise, (what, byte) in zip(times[::2], times[1::2], sent)
        ]
    return found


def samples_of(shown_cycles: Iterable[Cycle], targets: int) -> Iterator[Sample]:
    """The samples of these cycles: the lines at each edge, with CE# low of the cycle's target."""
    idle = {CLE: 0, ALE: 0, WE: 1, RE: 1, DQ: 0, **{f"ce{at}_n": 1 for at in range(targets)}}
    yield Sample(-1, idle)
    for cycle in shown_cycles:
        strobe = RE if cycle.what == "output" else WE
        lines = {**idle, f"ce{cycle.target}_n": 0, CLE: int(cycle.what == "command"), ALE: int(cycle.what == "address"), DQ: cycle.byte}
        yield Sample(cycle.start, {**lines, strobe: 0})
        yield Sample(cycle.end, lines)


def csv_of(samples: Sequence[Sample]) -> str:
    names = list(samples[0].lines)
    rows = [",".join([str(it.moment), *(f"{it.lines[name]:02X}" if name == DQ else str(it.lines[name]) for name in names)]) for it in samples]
    return "\n".join([",".join(["ns", *names]), *rows, ""])


def vcd_of(samples: Sequence[Sample]) -> str:
    names = list(samples[0].lines)
    keys = {name: chr(33 + at) for at, name in enumerate(names)}
    widths = {name: 8 if name == DQ else 1 for name in names}
    head = ["$timescale 1 ns $end", "$scope module bus $end"]
    head += [f"$var wire {widths[name]} {keys[name]} {name} $end" for name in names]
    body: List[str] = []
    last: Dict[str, int] = {}
    for moment, group in itertools.groupby(samples, key=lambda it: max(it.moment, 0)):
        *_, sample = group
        body.append(f"#{moment}")
        for name in (name for name in names if last.get(name) != sample.lines[name]):
            value = sample.lines[name]
            body.append(f"b{value:08b} {keys[name]}" if name == DQ else f"{value}{keys[name]}")
        last = sample.lines
    return "\n".join([*head, "$upscope $end", "$enddefinitions $end", *body, ""])
