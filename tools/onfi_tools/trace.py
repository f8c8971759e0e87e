"""Traces of `onfi_sim plan --trace` or `--requests`: their phases, what overlaps, and what each LUN does from one phase to the next."""

import enum
import itertools
from typing import Dict, Iterable, List, Mapping, NamedTuple, Optional, Sequence, TypeVar

from onfi_tools.device import KINDS, Spans

LUNS = 8
PART_WORDS = ("cmd", "post")


class Part(enum.Enum):
    """What a LUN does, in the words of the legends."""

    COMMAND = "command"
    GAP = "gap"
    ARRAY = "array time"
    EARLY = "array ready early"
    WAIT = "wait for the bus"
    OUTPUT = "data output"
    STATUS = "status"
    BEFORE = "runs since before"


class Phase(NamedTuple):
    """One line of a trace. Times are ns of the channel's clock; a phase covers its start and not its end."""

    start: int
    end: int
    lun: int
    kind: str
    is_post: bool
    block: int
    page: int
    opener: str
    closer: str
    # The request of `--requests`, and which line it is.
    request: Optional[str] = None
    line: int = 0
    # How many sectors of its page the read puts out; 0 where the line doesn't say it.
    sectors: int = 0


class Overlap(NamedTuple):
    """A stretch of time in which the phase of a line has the bus while that of an earlier one does."""

    start: int
    end: int
    lun: int
    line: int
    earlier: int


class Stretch(NamedTuple):
    """A LUN does one thing from `start` up to `end`; on the bus, with the block and the page that it is about."""

    start: int
    end: int
    lun: int
    part: Part
    kind: str
    block: Optional[int] = None
    page: Optional[int] = None
    request: Optional[str] = None


Span = TypeVar("Span", Phase, Stretch, Overlap)


class Window(NamedTuple):
    """The part of a trace that is drawn: from `begin` up to `end`, in ns."""

    begin: int
    end: int

    def of(self, spans: List[Span]) -> List[Span]:
        """What lies in it; of what reaches out of it the part within."""
        within = [it for it in spans if it.start < self.end and self.begin < it.end]
        return [it._replace(start=max(it.start, self.begin), end=min(it.end, self.end)) for it in within]


def read_trace(lines: Iterable[str], lengths: Optional[Mapping[str, Spans]] = None, posts: Optional[Mapping[int, int]] = None) -> List[Phase]:
    """The phases of a trace, in its order, or where the lengths are known, with those of outputs by their count of sectors, those of a
    log that doesn't say when they end; ValueError names the first line that is none. Comments, which begin with #, and lines that say
    when a LUN was ready are passed over."""
    phases: List[Phase] = []
    for number, line in enumerate(lines, 1):
        if line.strip() and not line.startswith("#") and not is_report(line):
            phases.append(phase_of(number, line if lengths is None else with_end(line, lengths, posts or {})))
    return phases


def is_report(line: str) -> bool:
    """Whether a line of a log says when a LUN was ready."""
    fields = line.split()
    return len(fields) == 3 and is_number(fields[0]) and is_number(fields[1]) and fields[2] in ("ready", "edge")


def overlaps(phases: List[Phase]) -> List[Overlap]:
    """Of each phase that begins before the ones above it are over, how long it does beside the one that ends last."""
    found = []
    last: Optional[Phase] = None
    for phase in phases:
        if last is not None and phase.start < last.end:
            found.append(Overlap(phase.start, min(phase.end, last.end), phase.lun, phase.line, last.line))
        if last is None or phase.end > last.end:
            last = phase
    return found


def is_number(field: str) -> bool:
    return field.isascii() and field.isdigit()


def sectors_in(page: str) -> Optional[int]:
    """How many sectors PAGE:COUNT counts, 0 where no COUNT stands there; None where it is no number from 1 to 7."""
    colon, count = page.partition(":")[1:]
    if not colon:
        return 0
    return int(count) if is_number(count) and 1 <= int(count) <= 7 else None


def with_end(line: str, lengths: Mapping[str, Spans], posts: Mapping[int, int]) -> str:
    """A line of a log, START LUN KIND PART BLOCK PAGE [REQUEST], as a trace has it, without command bytes; any other as it is."""
    fields = line.split()
    if len(fields) not in (6, 7) or not is_number(fields[0]) or fields[2] not in lengths:
        return line
    spans = lengths[fields[2]]
    post = posts.get(sectors_in(fields[5]) or 0, spans.post)
    end = int(fields[0]) + (post if fields[3] == "post" else spans.cmd)
    return " ".join([fields[0], str(end), *fields[1:6], "-", "-", *fields[6:]])


def phase_of(number: int, line: str) -> Phase:
    fields = line.split()
    request = fields.pop() if len(fields) == 10 and (is_number(fields[9]) or fields[9] == "-") else None
    fault = ValueError(f"line {number}: not a line of a trace: {line.strip()}")
    if len(fields) != 9:
        raise fault
    numbers, sectors = [*fields[:3], fields[5], fields[6].partition(":")[0]], sectors_in(fields[6])
    if sectors is None or not all(map(is_number, numbers)):
        raise fault
    start, end, lun, block, page = map(int, numbers)
    kind, part = fields[3:5]
    if start >= end or lun >= LUNS or kind not in KINDS or part not in PART_WORDS or (sectors and kind != "read"):
        raise fault
    return Phase(start, end, lun, kind, part == "post", block, page, fields[7], fields[8], request, number, sectors)


def whole(phases: List[Phase]) -> Window:
    """From 0 to the finish."""
    return Window(0, finish_of(phases))


def finish_of(phases: List[Phase]) -> int:
    return max((phase.end for phase in phases), default=0)


def by_lun(phases: List[Phase]) -> Dict[int, List[Phase]]:
    """The phases of each LUN that has one, in rising LUN."""
    luns = sorted({phase.lun for phase in phases})
    return {lun: [phase for phase in phases if phase.lun == lun] for lun in luns}


def on_the_bus(phase: Phase) -> Stretch:
    part = Part.COMMAND
    if phase.is_post:
        part = Part.OUTPUT if phase.kind == "read" else Part.STATUS
    return Stretch(phase.start, phase.end, phase.lun, part, phase.kind, phase.block, phase.page, phase.request)


def runs_at_first(own: List[Phase]) -> bool:
    """Whether a LUN's first group was running before the trace: it has more posts than commands left."""
    commands = len([*itertools.takewhile(lambda phase: not phase.is_post, own)])
    posts = len([*itertools.takewhile(lambda phase: phase.is_post, own[commands:])])
    return posts > commands


def stretches(own: List[Phase], begin: int, lengths: Optional[Mapping[str, Spans]]) -> List[Stretch]:
    """What a LUN does from `begin` to its last phase, without idle time, in order.

    Where the lengths are known, a gap or an array time ends when it is over, and the wait for the bus follows, and an array is early
    where the next phase comes sooner; else they go up to the next phase.
    """
    found = []
    if own and own[0].start > begin and runs_at_first(own):
        found.append(Stretch(begin, own[0].start, own[0].lun, Part.BEFORE, own[0].kind))
    for phase, behind in zip(own, own[1:] + own[-1:]):
        found.append(on_the_bus(phase))
        found += between(phase, behind, lengths)
    return found


def between(phase: Phase, behind: Phase, lengths: Optional[Mapping[str, Spans]]) -> List[Stretch]:
    """What a LUN does between two of its phases: nothing where the later one begins a group."""
    if phase.is_post and not behind.is_post:
        return []
    over = phase.end
    cells = []
    if not phase.is_post:
        part = Part.ARRAY if behind.is_post else Part.GAP
        stated = behind.start if lengths is None else phase.end + wait_of(part, lengths[phase.kind])
        over = min(behind.start, stated)
        if part is Part.ARRAY and over < stated:
            part = Part.EARLY
        cells.append(Stretch(phase.end, over, phase.lun, part, phase.kind))
    cells.append(Stretch(over, behind.start, phase.lun, Part.WAIT, phase.kind))
    return [cell for cell in cells if cell.start < cell.end]


def misfit(phases: List[Phase], lengths: Mapping[str, Spans], outputs: Sequence[int]) -> Optional[str]:
    """What these lengths, and those of outputs of some sectors, contradict first in a trace, in words; None where it may be one
    of a device that has them."""
    for number, phase in enumerate(phases, 1):
        wanted = lengths[phase.kind].post if phase.is_post else lengths[phase.kind].cmd
        others = outputs if phase.is_post and phase.kind == "read" else []
        if phase.end - phase.start not in (wanted, *others):
            return f"line {number}: the phase takes {phase.end - phase.start} ns, by the script {wanted}"
    for own in by_lun(phases).values():
        for phase, behind in zip(own, own[1:]):
            if not phase.is_post and not behind.is_post and behind.start < phase.end + lengths[phase.kind].gap:
                return f"line {phases.index(behind) + 1}: starts before the {Part.GAP.value} of the script is over"
    return None


def wait_of(part: Part, spans: Spans) -> int:
    return spans.array if part is Part.ARRAY else spans.gap
