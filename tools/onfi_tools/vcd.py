"""A trace as a value change dump (IEEE 1364), which waveform viewers such as GTKWave open."""

from collections import Counter, defaultdict
from typing import Counter as Counts, Dict, Iterable, List, Mapping, Optional, Tuple

from onfi_tools.device import Spans
from onfi_tools.trace import Part, Phase, Stretch, Window, by_lun, finish_of, stretches, whole

BUSY = (Part.GAP, Part.ARRAY, Part.EARLY)
# The short name of the bus's variable, and its value where nobody has it, and where several do.
BUS, FREE, SEVERAL = "!", "zzz", "xxx"
# Before the value of a variable that is a text.
TEXT = "s"
# The variables of a LUN, each with its value where the LUN has nothing to do.
IDLE = {"ready": "1", "phase": TEXT + "idle", "kind": TEXT + "none", "block": 16 * "z", "page": 12 * "z"}
MEANING = (
    "bus_owner: number of the LUN, z where nobody has the bus, x where phases overlap",
    "ready: 0 in gap and array time, else 1; x where the trace doesn't tell",
    "phase, kind: texts; the kind is the group's",
    "block, page: of the phase on the bus; z where there is none",
)


def picture(phases: List[Phase], lengths: Optional[Mapping[str, Spans]], window: Optional[Window] = None) -> str:
    """The dump, from 0 to the finish or of a window, in ns; waits for the bus are shown only where the lengths are known."""
    luns = by_lun(phases)
    window = window or whole(phases)
    # The values that begin at each time, by the short names of their variables; a later one takes the place of another.
    values: Dict[int, Dict[str, str]] = defaultdict(dict)
    values[window.begin][BUS] = FREE
    for lun in luns:
        values[window.begin].update(keyed(lun, IDLE))
    for time, owner in owners(window.of(phases)).items():
        values[time][BUS] = owner
    for lun, own in luns.items():
        for stretch in window.of(stretches(own, 0, lengths)):
            values[stretch.start].update(keyed(lun, values_in(stretch)))
            values[stretch.end].update(keyed(lun, IDLE))
    end = []
    if window.end < finish_of(phases):
        # (what is cut off there goes on)
        values.pop(window.end, None)
        end = [f"#{window.end}"]
    return "\n".join(header(luns) + dumped(values) + end) + "\n"


def owners(phases: List[Phase]) -> Dict[int, str]:
    """Who has the bus from when on."""
    changes: Dict[int, List[Tuple[int, int]]] = defaultdict(list)
    for phase in phases:
        changes[phase.start].append((phase.lun, 1))
        changes[phase.end].append((phase.lun, -1))
    found: Dict[int, str] = {}
    on: Counts[int] = Counter()
    for time in sorted(changes):
        for lun, count in changes[time]:
            on[lun] += count
        who = list(on.elements())
        found[time] = FREE if not who else f"{who[0]:03b}" if len(who) == 1 else SEVERAL
    return found


def keyed(lun: int, values: Mapping[str, str]) -> Dict[str, str]:
    """The values of a LUN's variables by their short names."""
    return {chr(34 + len(IDLE) * lun + at): value for at, value in enumerate(values.values())}


def values_in(stretch: Stretch) -> Dict[str, str]:
    """Those of a LUN in a stretch."""
    phase = TEXT + stretch.part.value.replace(" ", "_")
    found = {**IDLE, "ready": "0" if stretch.part in BUSY else "1", "kind": TEXT + stretch.kind, "phase": phase}
    if stretch.part is Part.BEFORE:
        return {**found, "ready": "x"}
    if stretch.block is not None:
        found.update(block=f"{stretch.block:016b}", page=f"{stretch.page:012b}")
    return found


def declared(key: str, name: str, value: str) -> str:
    if value.startswith(TEXT):
        return f"$var string 1 {key} {name} $end"
    span = f" [{len(value) - 1}:0]" if len(value) > 1 else ""
    return f"$var wire {len(value)} {key} {name}{span} $end"


def header(luns: Iterable[int]) -> List[str]:
    lines = [f"$comment {line} $end" for line in MEANING]
    lines += ["$timescale 1 ns $end", "$scope module channel $end", declared(BUS, "bus_owner", FREE)]
    for lun in luns:
        lines += [declared(key, f"lun{lun}_{name}", value) for name, (key, value) in zip(IDLE, keyed(lun, IDLE).items())]
    return lines + ["$upscope $end", "$enddefinitions $end"]


def changed(key: str, value: str) -> str:
    if value.startswith(TEXT):
        return f"{value} {key}"
    return f"b{value} {key}" if len(value) > 1 else value + key


def dumped(values: Mapping[int, Mapping[str, str]]) -> List[str]:
    """The changes by time, without those that change nothing."""
    lines: List[str] = []
    seen: Dict[str, str] = {}
    for time in sorted(values):
        told = [changed(key, value) for key, value in values[time].items() if seen.get(key) != value]
        if told:
            lines += [f"#{time}"] + (told if lines else ["$dumpvars"] + told + ["$end"])
        seen.update(values[time])
    return lines
