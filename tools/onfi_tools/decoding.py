"""Phases of an ONFI bus from its cycles, and what of them is no phase."""

from __future__ import annotations

import dataclasses
from typing import Dict, Iterable, Iterator, List, Mapping, NamedTuple, Optional, Set, Tuple, Union

from onfi_tools.capture import Cycle, Geometry
from onfi_tools.device import Spans

# Of a command by its opener: its operation, and the closers of its last plane and of another.
COMMANDS = {0x00: ("read", 0x30, 0x32), 0x80: ("program", 0x10, 0x11), 0x60: ("erase", 0xD0, 0xD1)}
OUTPUT, STATUS, OUTPUT_CLOSER = 0x06, 0x78, 0xE0
# The bit of a status byte that says that the LUN is ready.
RDY = 0x40


class Found(NamedTuple):
    """A phase of a capture; its times are those of its first and its last edge, in ns."""

    start: int
    end: int
    lun: int
    kind: str
    is_post: bool
    block: int
    page: int
    opener: int
    closer: Optional[int]


class Poll(NamedTuple):
    """A status that said ready, of a LUN of which no status is due, and when it ended, in ns."""

    moment: int
    lun: int


class Amiss(NamedTuple):
    """Cycles that are no phase: from when on, in ns, and why."""

    start: int
    why: str


Item = Union[Found, Poll, Amiss]


@dataclasses.dataclass
class Sent:
    """What a target got since an opener."""

    start: int
    end: int
    target: int
    opener: int
    address: List[int] = dataclasses.field(default_factory=list)
    inputs: int = 0
    outputs: List[int] = dataclasses.field(default_factory=list)
    closer: Optional[int] = None

    @property
    def is_over(self) -> bool:
        """Whether nothing but another opener may follow: a command that is closed, or a status that was read."""
        return (self.opener in COMMANDS and self.closer is not None) or (self.opener == STATUS and bool(self.outputs))


@dataclasses.dataclass
class Decoder:
    """A bus whose cycles are taken one by one."""

    geometry: Geometry
    sent: Optional[Sent] = None
    # Of each LUN the statuses that are due: of which block and page.
    due: Dict[int, List[Tuple[str, int, int]]] = dataclasses.field(default_factory=dict)
    # LUNs a status of whose commands was read: where another command follows it was that of all their planes.
    answered: Set[int] = dataclasses.field(default_factory=set)

    def take(self, cycle: Cycle) -> Iterator[Item]:
        """What is found once this cycle is over."""
        if self.sent is not None and cycle.target != self.sent.target:
            yield from self.end()
        if cycle.what == "command" and (self.sent is None or not self.closes(cycle.byte)):
            yield from self.end()
            yield from self.open(cycle)
        elif self.sent is None:
            yield Amiss(cycle.start, f"{article(cycle)} without an opener")
        else:
            yield from self.add(self.sent, cycle)

    def closes(self, byte: int) -> bool:
        """Whether the byte is a closer of what was opened."""
        sent = self.sent
        if sent is None or sent.closer is not None:
            return False
        return byte in COMMANDS[sent.opener][1:] if sent.opener in COMMANDS else sent.opener == OUTPUT and byte == OUTPUT_CLOSER

    def open(self, cycle: Cycle) -> Iterator[Item]:
        if cycle.byte in (*COMMANDS, OUTPUT, STATUS):
            self.sent = Sent(cycle.start, cycle.end, cycle.target, cycle.byte)
        else:
            yield Amiss(cycle.start, f"{cycle.byte:02X}h opens no phase")

    def add(self, sent: Sent, cycle: Cycle) -> Iterator[Item]:
        sent.end = cycle.end
        if cycle.what == "command":
            sent.closer = cycle.byte
        elif cycle.what == "address" and sent.closer is None and not sent.inputs and not sent.outputs:
            sent.address.append(cycle.byte)
        elif cycle.what == "input" and sent.opener == 0x80:
            sent.inputs += 1
        elif cycle.what == "output" and (sent.opener == STATUS or sent.closer == OUTPUT_CLOSER):
            sent.outputs.append(cycle.byte)
        else:
            yield Amiss(cycle.start, f"{article(cycle)} after {sent.opener:02X}h")
            self.sent = None
            return
        if sent.is_over:
            yield from self.end()

    def end(self) -> Iterator[Item]:
        """What the cycles since the last opener are, as nothing more comes of them."""
        sent, self.sent = self.sent, None
        if sent is not None:
            wrong = self.wrong(sent)
            if wrong:
                yield Amiss(sent.start, wrong)
            elif sent.opener == STATUS:
                yield from self.status_of(sent)
            else:
                yield self.phase_of(sent)

    def wrong(self, sent: Sent) -> Optional[str]:
        """Why they are no phase."""
        row = self.geometry.rows
        wanted = row if sent.opener in (0x60, STATUS) else self.geometry.columns + row
        if len(sent.address) != wanted:
            return f"{len(sent.address)} address cycles after {sent.opener:02X}h in place of {wanted}"
        if sent.opener != STATUS and sent.closer is None:
            return f"{sent.opener:02X}h without a closer"
        if sent.opener in (OUTPUT, STATUS) and not sent.outputs:
            return f"{sent.opener:02X}h without an output"
        lun, _, _ = self.place_of(sent)
        return None if lun < self.geometry.luns * (sent.target + 1) else f"a row of LUN {lun - self.geometry.luns * sent.target} of its target"

    def place_of(self, sent: Sent) -> Tuple[int, int, int]:
        """LUN of the channel, block and page of the row address."""
        row = int.from_bytes(bytes(sent.address[-self.geometry.rows :]), "little")
        page, above = row % (1 << self.geometry.page_bits), row >> self.geometry.page_bits
        block, lun = above % (1 << self.geometry.block_bits), above >> self.geometry.block_bits
        return self.geometry.luns * sent.target + lun, block, page

    def phase_of(self, sent: Sent) -> Found:
        lun, block, page = self.place_of(sent)
        if sent.opener in COMMANDS:
            kind = COMMANDS[sent.opener][0]
            if lun in self.answered:
                self.answered.remove(lun)
                self.due[lun] = []
            self.due.setdefault(lun, []).extend([(kind, block, page)] if kind != "read" else [])
            return Found(sent.start, sent.end, lun, kind, False, block, page, sent.opener, sent.closer)
        return Found(sent.start, sent.end, lun, "read", True, block, page, OUTPUT, OUTPUT_CLOSER)

    def status_of(self, sent: Sent) -> Iterator[Item]:
        """A status that was read: the post that is due, or a poll; one that says busy is neither."""
        if not sent.outputs[-1] & RDY:
            return
        lun, block, page = self.place_of(sent)
        due = self.due.get(lun, [])
        found = next((it for it in due if it[1:] == (block, page)), None)
        if found is None:
            yield Poll(sent.end, lun)
            return
        due.remove(found)
        self.answered.add(lun)
        yield Found(sent.start, sent.end, lun, found[0], True, block, page, STATUS, None)


def article(cycle: Cycle) -> str:
    """A cycle, as a message names it."""
    what = f"{cycle.byte:02X}h as {cycle.what}" if cycle.what == "command" else cycle.what
    return f"{'an' if what[0] in 'aio' else 'a'} {what}" + ("" if cycle.what == "command" else " cycle")


def decoded(cycles: Iterable[Cycle], geometry: Geometry) -> Iterator[Item]:
    """What the cycles are, in their order."""
    decoder = Decoder(geometry)
    for cycle in cycles:
        yield from decoder.take(cycle)
    yield from decoder.end()


def log_line(item: Union[Found, Poll], lengths: Optional[Mapping[str, Spans]]) -> str:
    """The line of a log; where the lengths of phases are known with END and the command bytes. ValueError where the phase is longer."""
    if isinstance(item, Poll):
        return f"{item.moment} {item.lun} ready"
    part = "post" if item.is_post else "cmd"
    place = f"{item.lun} {item.kind} {part} {item.block} {item.page}"
    if lengths is None:
        return f"{item.start} {place}"
    stated = lengths[item.kind].post if item.is_post else lengths[item.kind].cmd
    if item.end - item.start > stated:
        raise ValueError(f"it takes {item.end - item.start} ns, by the script {stated}")
    closer = "-" if item.closer is None else f"{item.closer:02X}"
    return f"{item.start} {item.start + stated} {place} {item.opener:02X} {closer}"
