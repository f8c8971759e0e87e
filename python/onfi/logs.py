"""Logs of a channel's phases, of any length: which phase breaks which condition."""

from __future__ import annotations

import ctypes
import enum
from dataclasses import dataclass
from typing import Any, Callable, Dict, Iterable, Iterator, Optional, Sequence, Tuple, Union

from onfi.calls import DONE, CProblem, refusal, text
from onfi.library import library
from onfi.model import Channel, Kind, Lengths, Lun, Phase, Spans, Want
from onfi.refused import REFUSALS, BadKind, BadLun, Illegal, Refused
from onfi.structs import WANTS, CAudit, CLogBroken, CPhase, number


class LogCondition(enum.Enum):
    """What a phase has to keep, so that a log stays legal."""

    NO_LUN = "NoLun"
    """Its LUN is there."""
    NOTHING_RUNS = "NothingRuns"
    """A post is of a LUN that has one left."""
    OTHER_PHASE = "OtherPhase"
    """A LUN goes on with the next phase of its group."""
    UNKNOWN_REQUEST = "UnknownRequest"
    """A command is of a request that waits."""
    BLOCK_ORDER = "BlockOrder"
    """Of two requests on one block the earlier begins first."""
    NOT_GROUPED = "NotGrouped"
    """A command makes a group with those of its LUN before it."""
    BUS_NOT_FREE = "BusNotFree"
    """It starts once the bus is free."""
    LUN_NOT_FREE = "LunNotFree"
    """A group starts once its LUN is free."""
    NOT_READY = "NotReady"
    """A further phase of a group starts once the wait after the one before it is over."""
    NOT_CLOSED = "NotClosed"
    """After a closer that another plane's command must follow no post comes; of lines alone, as the two below."""
    OTHER_END = "OtherEnd"
    """END of a line is when its phase ends."""
    OTHER_BYTES = "OtherBytes"
    """The command bytes of a line are those of its phase."""


@dataclass(frozen=True)
class Logged:
    """A phase as a log has it; a `Phase` has the same, and more."""

    start: int
    """When it started, in ns; below 2^62."""
    lun: int
    kind: Kind
    """Where the channel has lengths also one of `kind_by`."""
    is_post: bool
    """Whether it is a data output or a status byte; else it is a command."""
    block: int
    page: int

    @classmethod
    def of_line(cls, line: str) -> Logged:
        """The phase of a line as `audit` takes it, of a read of a whole page; END, bytes and request aren't looked at. `ValueError` of another line."""
        words = line.split()
        at = {6: 1, 7: 1, 9: 2, 10: 2}.get(len(words))
        if at is None or words[at + 1] not in KINDS or words[at + 2] not in ("cmd", "post"):
            raise ValueError(f"a line that is no phase: {line}")
        block, page = (int(word) for word in words[at + 3 : at + 5])
        return cls(int(words[0]), int(words[at]), KINDS[words[at + 1]], words[at + 2] == "post", block, page)


KINDS = {"read": Kind.READ, "program": Kind.PROGRAM, "erase": Kind.ERASE}
# What a log has: phases, or lines of text.
Entry = Union[Phase, Logged, str]


@dataclass(frozen=True)
class LogBreach:
    """A condition that a phase breaks. What it doesn't tell is None. Times are ns. `pandas.DataFrame` takes a list of `row`s."""

    at: int
    """The place of the phase in the log, from 0."""
    condition: LogCondition
    lun: Optional[int] = None
    start: Optional[int] = None
    earliest: Optional[int] = None
    """From when on it could start, as far as this condition goes."""
    is_post: Optional[bool] = None
    """Of the phase that is next on the LUN: whether it is a post."""
    block: Optional[int] = None
    """.. its block; or the block on which no such request waits."""
    page: Optional[int] = None
    """.. and its page."""
    earlier: Optional[int] = None
    """The place in the list of wants of the request that comes first on the block."""
    later: Optional[int] = None
    """.. and of the one that began."""
    end: Optional[int] = None
    """END of the line."""
    ends: Optional[int] = None
    """.. and when its phase ends."""
    opener: Optional[str] = None
    """The first command byte of the phase, in hexadecimal."""
    closer: Optional[str] = None
    """.. and its last one; `-` where it has none."""

    def row(self) -> Dict[str, Union[int, str, bool, None]]:
        """All that it tells by name, the condition by its name too: a row of a table."""
        return {**{name: getattr(self, name) for name in self.__dataclass_fields__}, "condition": self.condition.value}


def number_of(word: str) -> int:
    return int(word)


def is_post_of(word: str) -> bool:
    return word == "post"


# What the words after a condition say.
TOLD: Dict[LogCondition, Tuple[Tuple[str, Callable[[str], Union[int, bool, str]]], ...]] = {
    LogCondition.NO_LUN: (("lun", number_of),),
    LogCondition.NOTHING_RUNS: (("lun", number_of),),
    LogCondition.OTHER_PHASE: (("lun", number_of), ("is_post", is_post_of), ("block", number_of), ("page", number_of)),
    LogCondition.UNKNOWN_REQUEST: (("lun", number_of), ("block", number_of)),
    LogCondition.BLOCK_ORDER: (("earlier", number_of), ("later", number_of)),
    LogCondition.NOT_GROUPED: (("lun", number_of),),
    LogCondition.BUS_NOT_FREE: (("start", number_of), ("earliest", number_of)),
    LogCondition.LUN_NOT_FREE: (("lun", number_of), ("start", number_of), ("earliest", number_of)),
    LogCondition.NOT_READY: (("lun", number_of), ("start", number_of), ("earliest", number_of)),
    LogCondition.NOT_CLOSED: (("lun", number_of),),
    LogCondition.OTHER_END: (("end", number_of), ("ends", number_of)),
    LogCondition.OTHER_BYTES: (("opener", str), ("closer", str)),
}


def kind_of(of: Union[Phase, Logged, Want], lengths: Optional[Lengths]) -> Kind:
    """Its kind; `BadKind` where it has none, or sectors, and there are no lengths."""
    try:
        kind = Kind(of.kind)
    except ValueError:
        raise refusal(BadKind.status) from None
    if kind.sectors and lengths is None:
        raise refusal(BadKind.status)
    return kind


def word_of(kind: Kind) -> str:
    return kind.operation.name.lower()


def row_of_spans(word: str, spans: Spans) -> str:
    return f"spans,{word},{spans.cmd},{spans.gap},{spans.array},{spans.post}"


def rows_of_lun(number: int, lun: Lun, lengths: Optional[Lengths]) -> Iterator[str]:
    if not lun.members:
        yield f"free,{number},{lun.since}"
        return
    kinds, pages = [kind_of(want, lengths) for want in lun.members], {want.page for want in lun.members}
    words = {word_of(kind) for kind in kinds}
    if len(words) > 1 or len(pages) > 1 or any(want.lun != number for want in lun.members):
        raise refusal(BadLun.status, lun=number)
    blocks = ",".join(str(want.block) for want in lun.members)
    yield f"running,{number},{lun.next},{lun.since},{words.pop()},{pages.pop()},{blocks}"
    if any(kind.sectors for kind in kinds):
        yield f"runsectors,{number}," + ",".join(str(kind.sectors) for kind in kinds)


def rows_of_want(at: int, want: Want, lengths: Optional[Lengths]) -> Iterator[str]:
    kind = kind_of(want, lengths)
    yield f"want,{word_of(kind)},{want.lun},{want.block},{want.page}"
    if kind.sectors and at >= WANTS:
        raise ValueError(f"wants[{at}]: a log takes sectors of its first {WANTS} wants alone")
    if kind.sectors:
        yield f"sectors,{at},{kind.sectors}"


def script_of(channel: Channel, wants: Sequence[Want]) -> str:
    """The rows that say a channel and its requests."""
    timing, rules, lengths = channel.timing, channel.rules, channel.lengths
    rows = [f"shape,{len(channel.luns)},{rules.plane_bits},{int(rules.read)},{int(rules.write)}", f"bus,{channel.bus_free}", *["strict,1"] * rules.strict]
    rows += [row_of_spans(word, spans) for word, spans in (("read", timing.read), ("program", timing.program), ("erase", timing.erase))]
    rows += [f"sectorpost,{count},{post}" for count, post in (lengths.sectors if lengths else {}).items()]
    rows += [row for number, lun in enumerate(channel.luns) for row in rows_of_lun(number, lun, lengths)]
    rows += [row for at, want in enumerate(wants) for row in rows_of_want(at, want, lengths)]
    return "\n".join([*rows, "end\n"])


def line_of(phase: Entry, lengths: Optional[Lengths]) -> str:
    if isinstance(phase, str):
        line = phase[:-1] if phase.endswith("\n") else phase
        if "\n" in line:
            raise ValueError(f"more than a line: {phase!r}")
        return f"{line}\n"
    if not 0 <= phase.start < 1 << 62:
        raise ValueError(f"the start of a phase is not from 0 to 2^62 - 1: {phase.start}")
    word = word_of(kind_of(phase, lengths))
    return f"{phase.start} {phase.lun} {word} {'post' if phase.is_post else 'cmd'} {phase.block} {phase.page}\n"


def breach_in(line: str) -> LogBreach:
    _, number, name, *words = line.split()
    condition = LogCondition(name)
    told: Dict[str, Any] = {what: read(word) for (what, read), word in zip(TOLD[condition], words)}
    return LogBreach(int(number) - 1, condition, **told)


def refused_by(line: str) -> Union[Refused, ValueError]:
    """Why what a log begins with is none: the refusal of that name, else that a number is out of its range."""
    name = line.split()[-1]
    found = [it.status for it in REFUSALS.values() if it.__name__ == name]
    return refusal(found[0]) if found else ValueError(f"the channel of a log: {line}")


def audit(
    channel: Channel,
    phases: Iterable[Entry],
    wants: Iterable[Want] = (),
) -> Iterator[LogBreach]:
    """Judges a log of any length, which begins with the channel as it is said: gives each breach, in order; none where it is legal.

    A phase that only starts too soon counts as run, and any other that breaks a condition as not there, so that the next one can be
    judged. Commands of a LUN that follow each other without a post between are one group. With wants, of any number, each command is of
    the one that waits first on its block; their ids aren't looked at. Without, each command brings its own request.

    A line of text is one as `onfi_sim audit` takes it, of reads of whole pages: its END, its command bytes and the number of its request are
    judged too. Where the channel has `lengths` reads may put out some sectors: of wants the first eight, as their kinds say, and without wants as a command's does.

    It is what `text("audit --all", ..)` says, with lengths and without wants what `Audit` does, so that it is proved. Raises `BadKind`, `BadLun`,
    `NoLengths`, `Clock`, `Memory`; `ValueError` where another number of the channel or a phase is out of its range, or a line says no phase.
    """
    wants, phases, lengths = tuple(wants), tuple(phases), channel.lengths
    if lengths is not None and not wants and not any(isinstance(phase, str) for phase in phases):
        return iter([*audit_phases(channel, phases)])
    log = [line_of(phase, lengths) for phase in phases]
    answer = text("audit --all", script_of(channel, wants) + "".join(log))
    lines = answer.text.decode("ascii").splitlines()
    if answer.status == 1:
        raise refused_by(lines[0])
    for line in lines:
        if line.startswith("refused "):
            at = int(line.split()[-1]) - 1
            raise ValueError(f"line {at} says no phase: {log[at]!r}" if isinstance(phases[at], str) else f"a number of phase {at} is out of its range")
    return (breach_in(line) for line in lines if line.startswith("illegal "))


def logged(phase: Union[Phase, Logged]) -> CPhase:
    """What of a phase an `Audit` looks at."""
    return CPhase(
        start=number(phase.start, 1 << 64, "the start of a phase"),
        lun=number(phase.lun, 256, "the LUN of a phase"),
        kind=number(phase.kind, 256, "the kind of a phase"),
        is_post=phase.is_post,
        block=number(phase.block, 65536, "the block of a phase"),
        page=number(phase.page, 65536, "the page of a phase"),
    )


def breach_told(at: int, lun: int, broken: CLogBroken) -> LogBreach:
    """What the struct tells of the phase at that place, which is of that LUN."""
    condition = list(LogCondition)[broken.condition - 1]
    told: Dict[str, Any] = {what: lun if what == "lun" else getattr(broken, what) for what, _ in TOLD[condition]}
    return LogBreach(at, condition, **told)


class Audit:
    """A log that is judged phase by phase, as it comes, and that begins with the channel as it is said.

    Commands of a LUN that follow each other without a post between are one group; each command brings its own request. Raises what
    `plan` raises of a channel.
    """

    def __init__(self, channel: Channel) -> None:
        said = CProblem(channel, ())
        self._audit = CAudit()
        self._judged = 0
        status = library().onfi_audit_begin(ctypes.byref(said.channel), ctypes.byref(self._audit))
        if status != DONE:
            raise said.refused(status)

    def __repr__(self) -> str:
        return f"Audit({self._audit.channel.lun_count} LUNs, {self._judged} phases judged, bus free from {self.bus_free} ns)"

    @property
    def bus_free(self) -> int:
        """From when on the bus is free, in ns."""
        return int(self._audit.channel.bus_free)

    def judge(self, entry: Entry) -> Optional[LogBreach]:
        """The condition that the next phase breaks; None where it is legal. Of a line its phase is judged, as `Logged.of_line` has it.

        One that only starts too soon counts as run, and any other that breaks a condition as not there. Raises `BadKind`, `Clock`;
        where it begins a request `BadLun` of an erase of another page than 0, `NoLengths`, `Memory`: then it isn't judged, nor counted.
        `ValueError` where a number doesn't fit its place in onfi.h.
        """
        phase, broken = Logged.of_line(entry) if isinstance(entry, str) else entry, CLogBroken()
        status = library().onfi_audit_phase(ctypes.byref(self._audit), ctypes.byref(logged(phase)), ctypes.byref(broken))
        if status not in (DONE, Illegal.status):
            raise refusal(status)
        at, self._judged = self._judged, self._judged + 1
        return None if status == DONE else breach_told(at, phase.lun, broken)

    def judge_all(self, entries: Iterable[Entry]) -> Iterator[LogBreach]:
        """The breaches of phases or lines that come next, in order: each is judged when it is taken from `entries`."""
        return (breach for breach in map(self.judge, entries) if breach is not None)

    def ready(self, lun: int, moment: int) -> None:
        """Notes that the LUN was reported ready at that moment, in ns: what its group has next may come from then on. Raises `BadLun`."""
        status = library().onfi_audit_ready(ctypes.byref(self._audit), number(lun, 256, "a LUN"), number(moment, 1 << 64, "a time"))
        if status != DONE:
            raise refusal(status)


def audit_phases(channel: Channel, phases: Iterable[Entry]) -> Iterator[LogBreach]:
    """The breaches of a log as it comes, as `Audit.judge` tells them: each phase is judged when it is taken from `phases`."""
    return Audit(channel).judge_all(phases)
