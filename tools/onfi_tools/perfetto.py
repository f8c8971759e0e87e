"""A trace in the Trace Event Format, the form that the viewers of Perfetto and Chrome read."""

import json
from typing import Any, Dict, List, Mapping, Optional

from onfi_tools.device import Spans
from onfi_tools.trace import Overlap, Part, Phase, Stretch, Window, by_lun, on_the_bus, overlaps, stretches, whole

CHANNEL = 1
BUS = 1
FIRST_LUN = 2

Event = Dict[str, Any]


def picture(phases: List[Phase], lengths: Optional[Mapping[str, Spans]], window: Optional[Window] = None) -> str:
    """The JSON: a track for the bus and each LUN, one event for each stretch. Its times are microseconds; the
    arguments `start` and `end` are ns."""
    luns = by_lun(phases)
    window = window or whole(phases)
    names = {BUS: "bus", **{FIRST_LUN + lun: f"LUN {lun}" for lun in luns}}
    events = [described("process_name", 0, name="ONFI channel")]
    events += [described("thread_name", track, name=name) for track, name in names.items()]
    events += [described("thread_sort_index", track, sort_index=track) for track in names]
    events += [bus_event(phase) for phase in window.of(phases)]
    events += [fault_event(overlap) for overlap in window.of(overlaps(phases))]
    for own in luns.values():
        events += [lun_event(stretch) for stretch in window.of(stretches(own, 0, lengths))]
    return json.dumps({"displayTimeUnit": "ns", "traceEvents": events}, indent=1) + "\n"


def described(what: str, track: int, **arguments: object) -> Event:
    return {"ph": "M", "name": what, "pid": CHANNEL, "tid": track, "args": arguments}


def timed(track: int, start: int, end: int, name: str, arguments: Mapping[str, Any]) -> Event:
    when = {"ts": start / 1000, "dur": (end - start) / 1000}
    return {"ph": "X", "name": name, "cat": "onfi", "pid": CHANNEL, "tid": track, **when, "args": {"start": start, "end": end, **arguments}}


def bus_event(phase: Phase) -> Event:
    stretch = on_the_bus(phase)
    name = f"LUN {phase.lun} {phase.kind} {stretch.part.value}"
    bytes_ = {"opener": phase.opener, "closer": phase.closer}
    return timed(BUS, phase.start, phase.end, name, {"block": phase.block, "page": phase.page, **bytes_, **requested(phase.request)})


def requested(request: Optional[str]) -> Dict[str, int]:
    """The number of the request, where the trace has one."""
    return {} if request in (None, "-") else {"request": int(str(request))}


def fault_event(overlap: Overlap) -> Event:
    """A mark where phases overlap."""
    place = {"ph": "i", "s": "p", "cat": "onfi", "pid": CHANNEL, "tid": BUS, "ts": overlap.start / 1000, "cname": "terrible"}
    return {"name": f"line {overlap.line} overlaps line {overlap.earlier}", **place, "args": {"start": overlap.start, "end": overlap.end}}


def lun_event(stretch: Stretch) -> Event:
    name = stretch.part.value if stretch.part in (Part.WAIT, Part.BEFORE) else f"{stretch.kind} {stretch.part.value}"
    place = {} if stretch.block is None else {"block": stretch.block, "page": stretch.page, **requested(stretch.request)}
    return timed(FIRST_LUN + stretch.lun, stretch.start, stretch.end, name, place)
