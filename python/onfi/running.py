"""A trace of requests on a channel: a small event loop over a scheduler, ours or one of your own, and what came of it."""

from __future__ import annotations

import heapq
import math
from collections import deque
from dataclasses import dataclass
from typing import Deque, Dict, Iterable, Iterator, List, Optional, Protocol, Sequence, Tuple, Union

from onfi import pictures
from onfi.calls import row
from onfi.logs import Audit
from onfi.model import Channel, Geometry, Kind, Phase, Spans, Want
from onfi.refused import Refused, TooMany

Arrival = Tuple[int, Want]
Cell = Union[int, float, str, bool]
# Columns by their names, as `pandas.DataFrame` takes them.
Columns = Dict[str, List[Cell]]
SHARES = (50, 95, 99, 99.9)
OPENER = {Kind.READ: 0x00, Kind.PROGRAM: 0x80, Kind.ERASE: 0x60}
# After the last command of a group, and after another one.
CLOSER = {Kind.READ: (0x30, 0x32), Kind.PROGRAM: (0x10, 0x11), Kind.ERASE: (0xD0, 0xD1)}


class Decides(Protocol):
    """What says which phase is next: a `Dispatcher`, a `Scheduler`, or anything with these three."""

    def accept(self, want: Want) -> None:
        """Takes a request in; raises `TooMany` where there is no room for it now."""

    def next(self, now: int) -> Optional[Phase]:
        """The phase that is next where it is `now`, and when; None where nothing runs and nothing waits."""

    def ran(self, started: int) -> None:
        """That phase runs from then on."""


class BadStep(Exception):
    """A phase that may not be there: when it starts, on which LUN, for which request, and why not."""

    def __init__(self, phase: Phase, why: str) -> None:
        super().__init__(f"at {phase.start} ns, LUN {phase.lun}, request {phase.want}: {why}")
        self.phase = phase


class Source:
    """What of a trace has come, and what of it finds no room yet."""

    def __init__(self, trace: Iterable[Arrival]) -> None:
        self._left = iter(trace)
        self._outside: Dict[int, Deque[Tuple[int, Want]]] = {}
        self.following = next(self._left, None)
        self.arrived: Dict[int, int] = {}

    def _take(self) -> None:
        assert self.following is not None
        time, want = self.following
        self._outside.setdefault(want.lun, deque()).append((len(self.arrived), want))
        self.arrived[want.id] = time
        self.following = next(self._left, None)
        if self.following is not None and self.following[0] < time:
            raise ValueError(f"a trace whose times fall: {self.following[0]} after {time}")

    def give(self, scheduler: Decides, now: int) -> List[Want]:
        """Gives the scheduler what has come by now; what a LUN has no room for waits, and what comes after it for that LUN. Those that it took."""
        while self.following is not None and self.following[0] <= now:
            self._take()
        heads = [(own[0][0], lun) for lun, own in self._outside.items() if own]
        heapq.heapify(heads)
        taken: List[Want] = []
        while heads:
            own = self._outside[heapq.heappop(heads)[1]]
            try:
                scheduler.accept(own[0][1])
            except TooMany:
                continue
            taken.append(own.popleft()[1])
            if own:
                heapq.heappush(heads, (own[0][0], taken[-1].lun))
        return taken


class Judge:
    """Says of each phase whether it may be there: by requests that wait and that began, and where there is one by an audit."""

    def __init__(self, audit: Optional[Audit]) -> None:
        self.audit = audit
        self.waiting: Dict[int, Want] = {}
        self.begun: Dict[int, Want] = {}

    def take(self, phase: Phase) -> None:
        want = (self.begun if phase.is_post else self.waiting).pop(phase.want, None)
        if want is None:
            raise BadStep(phase, "it has no data or status left" if phase.is_post else "it doesn't wait")
        if (want.kind, want.lun, want.block, want.page) != (phase.kind, phase.lun, phase.block, phase.page):
            raise BadStep(phase, f"the phase isn't that of {want}")
        if not phase.is_post:
            self.begun[phase.want] = want
        try:
            breach = self.audit.judge(phase) if self.audit else None
        except Refused as why:
            raise BadStep(phase, str(why)) from why
        if breach is not None:
            told = ", ".join(f"{name} {value}" for name, value in breach.row().items() if name not in ("at", "condition") and value is not None)
            raise BadStep(phase, f"{breach.condition.value} ({told})")


def phases_of(scheduler: Decides, trace: Iterable[Arrival], audit: Optional[Audit] = None, now: int = 0) -> Iterator[Phase]:
    """The phases that the bus has, each as it starts, until all requests of the trace are answered.

    A trace has pairs of a time in ns and a `Want`, by rising times. Each phase is judged: `BadStep` says which one may not be there, of a
    request that doesn't wait, say; with an audit of the channel each condition of a log is looked at. A request that is refused
    raises what `accept` raises; one that finds no room waits outside.
    """
    return phases_from(scheduler, Source(trace), audit, now)


def phases_from(scheduler: Decides, source: Source, audit: Optional[Audit], now: int) -> Iterator[Phase]:
    judge = Judge(audit)
    while True:
        judge.waiting.update((want.id, want) for want in source.give(scheduler, now))
        phase, following = scheduler.next(now), source.following
        if following is not None and (phase is None or following[0] <= phase.start):
            now = following[0]
        elif phase is None:
            return
        else:
            judge.take(phase)
            scheduler.ran(phase.start)
            yield phase
            now = phase.end


@dataclass(frozen=True)
class Run:
    """What came of a trace. A notebook shows its chart."""

    phases: Sequence[Phase]
    arrived: Dict[int, int]
    """When each request came, in ns."""

    def requests(self) -> Columns:
        """A row for each request that was answered, by number; times in ns."""
        began = {it.want: it for it in self.phases if not it.is_post}
        rows: List[Tuple[Cell, ...]] = []
        for last in sorted((it for it in self.phases if it.is_post), key=lambda it: it.want):
            came, place = self.arrived[last.want], (word_of(last.kind), last.lun, last.block, last.page, last.kind.sectors)
            rows.append((last.want, *place, came, began[last.want].start, last.end, last.end - came))
        return columns_of(("request", "kind", "lun", "block", "page", "sectors", "arrived", "began", "ended", "latency"), rows)

    def bus(self) -> Columns:
        """A row for each phase that the bus had, in order; times in ns."""
        rows = [(it.start, it.end, it.lun, word_of(it.kind), it.is_post, it.block, it.page, it.want) for it in self.phases]
        return columns_of(("start", "end", "lun", "kind", "post", "block", "page", "request"), rows)

    def latencies(self) -> Columns:
        """A row for each kind: how many, and of their latencies in ns the mean, what 50, 95, 99 and 99.9 of 100 don't exceed, and the most."""
        found = [(word_of(it.kind), it.end - self.arrived[it.want]) for it in self.phases if it.is_post]
        rows: List[Tuple[Cell, ...]] = []
        for kind in sorted({kind for kind, _ in found}):
            own = sorted(latency for of, latency in found if of == kind)
            shares = [own[max(math.ceil(len(own) * share / 100) - 1, 0)] for share in SHARES]
            rows.append((kind, len(own), sum(own) / len(own), *shares, own[-1]))
        return columns_of(("kind", "count", "mean", *(f"{share} %" for share in SHARES), "most"), rows)

    def svg(self, begin: int = 0, end: Optional[int] = None) -> str:
        """A Gantt chart: the bus and each LUN, from one time to another, in ns."""
        return pictures.gantt(self.phases, begin, end)

    def _repr_html_(self) -> str:
        return self.svg()


def play(scheduler: Decides, trace: Iterable[Arrival], audit: Optional[Audit] = None) -> Run:
    """Runs all of a trace, as `phases_of` does, and keeps what came of it."""
    source = Source(trace)
    return Run([*phases_from(scheduler, source, audit, 0)], source.arrived)


def columns_of(names: Sequence[str], rows: Iterable[Tuple[Cell, ...]]) -> Columns:
    """Rows as columns by their names."""
    kept = [*rows]
    return {name: [it[at] for it in kept] for at, name in enumerate(names)}


def word_of(kind: Kind) -> str:
    return kind.operation.name.lower()


@dataclass(frozen=True)
class Step:
    """What a LUN can do next."""

    start: int
    """From when on it may, in ns: its LUN is ready, and the bus free."""
    wants: Sequence[Want]
    """The group, planes rising: the one that runs, or one that would begin."""
    number: int
    """Which phase of it: 0 begins it, commands come first, then as many posts."""

    @property
    def lun(self) -> int:
        return self.wants[0].lun

    @property
    def kind(self) -> Kind:
        return self.wants[0].kind

    @property
    def is_post(self) -> bool:
        return self.number >= len(self.wants)

    @property
    def want(self) -> Want:
        """The request that the phase is of."""
        return self.wants[self.number % len(self.wants)]


class Scheduler:
    """A scheduler of one's own: `choose` says which of the steps that may come is next. The rest is the channel's books.

        class Oldest(Scheduler):
            def choose(self, steps):
                return min(steps, key=lambda step: step.want.id)

        run = play(Oldest(channel, geometry), trace, Audit(channel))
    """

    def __init__(self, channel: Channel, geometry: Geometry) -> None:
        self.channel, self.geometry = channel, geometry
        self.waiting: List[Want] = []
        """What waits, in order."""
        self._bus = channel.bus_free
        self._step: Optional[Step] = None
        self._luns: List[Tuple[int, int, Tuple[Want, ...]]] = [(it.since, it.next, tuple(it.members)) for it in channel.luns]

    def __repr__(self) -> str:
        return f"{type(self).__name__}({len(self._luns)} LUNs, {len(self.waiting)} wait)"

    def choose(self, steps: Sequence[Step]) -> Step:
        """The one that is next; it may begin a group with fewer of its requests."""
        raise NotImplementedError

    def accept(self, want: Want) -> None:
        self.waiting.append(want)

    def ready(self, lun: int, moment: int) -> None:
        """The array of a LUN was done at that moment, in ns."""
        since, number, members = self._luns[lun]
        if members and number == len(members):
            self._luns[lun] = (min(since, moment), number, members)

    def next(self, now: int) -> Optional[Phase]:
        steps = [*self.steps(now)]
        if not steps:
            return None
        self._step = self.choose(steps)
        return self.phase(self._step)

    def ran(self, started: int) -> None:
        step = self._step
        if step is None:
            raise ValueError("no phase was given")
        end, spans, count = started + self.length(step), self.spans(step.kind), len(step.wants)
        if step.number == 0:
            ids = {want.id for want in step.wants}
            self.waiting = [want for want in self.waiting if want.id not in ids]
        wait = spans.gap if step.number + 1 < count else spans.array if step.number + 1 == count else 0
        over = step.number + 1 == 2 * count
        self._luns[step.lun] = (end + wait, 0 if over else step.number + 1, () if over else tuple(step.wants))
        self._bus, self._step = end, None

    def steps(self, now: int) -> Iterator[Step]:
        """What may come next: the next phase of each group that runs, and of each free LUN each request with all that can join it."""
        for number, (since, following, members) in enumerate(self._luns):
            start = max(now, self._bus, since)
            if members:
                yield Step(start, members, following)
            else:
                ready = self.ready_on(number)
                alike: Dict[Tuple[int, int, int], List[Want]] = {}
                for want in ready:
                    alike.setdefault(self.mark(want), []).append(want)
                yield from (Step(start, self.group(want, alike[self.mark(want)]), 0) for want in ready)

    def ready_on(self, lun: int) -> List[Want]:
        """Of what waits for a LUN the first on each block: what comes after it there has to wait for it."""
        found: Dict[int, Want] = {}
        for want in self.waiting:
            if want.lun == lun:
                found.setdefault(want.block, want)
        return [*found.values()]

    def mark(self, want: Want) -> Tuple[int, int, int]:
        """What the members of a group have in common: kind, page, and where the device is strict the block above its plane bits."""
        rules = self.channel.rules
        return want.kind.operation, want.page, want.block >> rules.plane_bits if rules.strict else 0

    def group(self, head: Want, alike: Sequence[Want]) -> Tuple[Want, ...]:
        """A request with all of those like it that can join it, one on each plane."""
        rules, planes = self.channel.rules, 1 << self.channel.rules.plane_bits
        found = {head.block % planes: head}
        may = rules.read if head.kind.operation == Kind.READ else rules.write
        for want in alike if may else ():
            found.setdefault(want.block % planes, want)
        return tuple(found[plane] for plane in sorted(found))

    def spans(self, kind: Kind) -> Spans:
        timing = self.channel.timing
        return (timing.read, timing.program, timing.erase)[kind.operation]

    def length(self, step: Step) -> int:
        """How long its phase has the bus, in ns."""
        spans, sectors, lengths = self.spans(step.kind), step.want.kind.sectors, self.channel.lengths
        if not step.is_post:
            return spans.cmd
        return lengths.sectors[sectors] if sectors and lengths else spans.post

    def phase(self, step: Step) -> Phase:
        """It as a phase, with the bytes and the address of ONFI."""
        want, count, kind = step.want, len(step.wants), step.kind.operation
        opener, closer = OPENER[kind], CLOSER[kind][step.number + 1 < count]
        if step.is_post:
            opener, closer = (0x06, 0xE0) if kind == Kind.READ else (0x78, 0x00)
        address = row(self.geometry, want.lun, want.block, want.page)
        end, cycles = step.start + self.length(step), self.geometry.row_address_cycles
        return Phase(step.start, end, want.id, address, want.block, want.page, want.lun, want.kind, step.number, count, opener, closer, cycles, step.is_post)
