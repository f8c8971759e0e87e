"""A judge of logs apart from all else: by the page of texts alone, for scripts of the first form."""

from __future__ import annotations

import copy
import dataclasses
from typing import Dict, List, Optional, Sequence, Tuple, Union

END = 2**62
# First and last command byte, and the last one of a command after which another plane's comes.
OPENERS = {("read", "cmd"): "00", ("program", "cmd"): "80", ("erase", "cmd"): "60", ("read", "post"): "06"}
CLOSERS = {("read", "cmd"): "30", ("program", "cmd"): "10", ("erase", "cmd"): "D0", ("read", "post"): "E0"}
FURTHER = {"read": "32", "program": "11", "erase": "D1"}


@dataclasses.dataclass(frozen=True)
class Want:
    number: Optional[int]
    kind: str
    lun: int
    block: int
    page: int
    sectors: int = 0


@dataclasses.dataclass
class Lun:
    """What a LUN does: its members, how many phases of them are over, and from when on it may go on."""

    ready: int = 0
    members: Tuple[Want, ...] = ()
    over: int = 0
    is_open: bool = False
    more: int = 0
    # What the last command that began a request closed with, where the line says it and it is one of such a command.
    closer: str = ""


@dataclasses.dataclass
class Line:
    start: int
    lun: int
    kind: str
    part: str
    block: int
    page: int
    number: Optional[int]
    end: Optional[int] = None
    opener: str = ""
    closer: str = ""

    @property
    def bytes(self) -> Tuple[str, str]:
        """Opener and closer of such a phase, of a command that is the last of its group."""
        work = (self.kind, self.part)
        return OPENERS.get(work, "78"), CLOSERS.get(work, "-")

    def names(self, want: Want) -> bool:
        return (want.kind, want.lun, want.block, want.page) == (self.kind, self.lun, self.block, self.page)


def number_in(word: str, most: int) -> int:
    if not (word.isascii() and word.isdigit()) or int(word) > most:
        raise ValueError(word)
    return int(word)


def line_of(text: str) -> Line:
    words = text.split(" ")
    at = {6: 1, 7: 1, 9: 2, 10: 2}.get(len(words))
    if at is None or words[at + 1] not in ("read", "program", "erase") or words[at + 2] not in ("cmd", "post"):
        raise ValueError(text)
    number = words[-1] if len(words) in (7, 10) else "-"
    start, lun, block, page = map(number_in, (words[0], words[at], *words[at + 3 : at + 5]), (END - 1, 7, 65535, 4095))
    end, opener, closer = (number_in(words[1], 2**63 - 1), words[7], words[8]) if at == 2 else (None, "", "")
    request = None if number == "-" else number_in(number, 2**63 - 1)
    return Line(start, lun, words[at + 1], words[at + 2], block, page, request, end, opener, closer)


@dataclasses.dataclass
class Poll:
    """By a poll of its status, which ended at the start, or by its R/B# the LUN was ready."""

    start: int
    lun: int
    sign: str = "ready"


@dataclasses.dataclass
class Remark:
    """A comment."""

    text: str


Entry = Union[Line, Poll, Remark]


@dataclasses.dataclass(frozen=True)
class Manner:
    """How a log is taken."""

    every: bool = False
    by_status: bool = False
    tolerance: int = 0
    one_status: bool = False

    @property
    def words(self) -> List[str]:
        """The options that ask for it."""
        flags = {"--all": self.every, "--ready-by-status": self.by_status, "--one-status": self.one_status}
        return [word for word, given in flags.items() if given] + (["--tolerance", str(self.tolerance)] if self.tolerance else [])


def entry_of(text: str, by_status: bool) -> Entry:
    words = text.split(" ")
    if text.startswith("#"):
        return Remark(text)
    if not by_status or len(words) != 3:
        return line_of(text)
    if words[2] not in ("ready", "edge"):
        raise ValueError(text)
    return Poll(number_in(words[0], END - 1), number_in(words[1], 7), words[2])


class Judge:
    """A channel, and a log as far as it was judged."""

    def __init__(self, rows: Sequence[Sequence[str]], manner: Manner = Manner()) -> None:
        self.manner = manner
        # By how much a phase that ran came too soon at most, and whether the one that is judged ran.
        self.used, self.ran = 0, False
        of: Dict[str, List[Sequence[str]]] = {}
        for name, *fields in rows:
            of.setdefault(name, []).append(fields)
        count, self.plane_bits, reads, writes = (int(it) for it in of["shape"][0])
        self.may_group = {"read": reads, "program": writes, "erase": writes}
        self.strict = int(of.get("strict", [["0"]])[0][0])
        self.spans = {kind: [int(it) for it in spans] for kind, *spans in of["spans"]}
        self.posts = {int(number): int(post) for number, post in of.get("sectorpost", [])}
        self.bus = int(of.get("bus", [["0"]])[0][0])
        self.luns = [Lun() for _ in range(count)]
        for lun, since in of.get("free", []):
            self.luns[int(lun)].ready = int(since)
        asked = {int(lun): counts for lun, *counts in of.get("runsectors", [])}
        for lun, over, ready, kind, page, *blocks in of.get("running", []):
            counts = [int(it) for it in asked.get(int(lun), [])] + [0] * len(blocks)
            members = tuple(Want(None, kind, int(lun), int(block), int(page), sectors) for block, sectors in zip(blocks, counts))
            self.luns[int(lun)] = Lun(int(ready), members, int(over))
        put_out = {int(request): int(sectors) for request, sectors in of.get("sectors", [])}
        self.waiting = [
            Want(number, kind, int(lun), int(block), int(page), put_out.get(number, 0))
            for number, (kind, lun, block, page) in enumerate(of.get("want", []))
        ]
        self.mentioned = not self.waiting
        self.greatest: Dict[Tuple[int, int], int] = {}

    def copied(self) -> Judge:
        """One that goes on from here by itself; they share wants, which nothing changes."""
        other = copy.copy(self)
        other.luns = [copy.copy(it) for it in self.luns]
        other.waiting, other.greatest = list(self.waiting), dict(self.greatest)
        return other

    def post_of(self, want: Want) -> int:
        return self.posts[want.sectors] if want.kind == "read" and want.sectors else self.spans[want.kind][3]

    def is_group(self, members: Sequence[Want]) -> bool:
        first, planes = members[0], [it.block % 2**self.plane_bits for it in members]
        above = {it.block >> self.plane_bits for it in members}
        return (
            len(members) <= 4
            and all(it.kind == first.kind for it in members)
            and all(a < b for a, b in zip(planes, planes[1:]))
            and (first.kind == "erase" or all(it.page == first.page for it in members))
            and (len(members) == 1 or bool(self.may_group[first.kind]))
            and (not self.strict or len(above) == 1)
        )

    def run(self, line: Line, lun: Lun, members: Tuple[Want, ...], phase: int, may_join: bool) -> None:
        """That phase of these members runs."""
        self.ran = True
        cmd, gap, array, _ = self.spans[members[0].kind]
        count = len(members)
        ended = line.start + (cmd if phase < count else self.post_of(members[phase - count]))
        self.bus = max(self.bus, ended)
        lun.members, lun.over, lun.is_open = members, phase + 1, may_join
        lun.more = ended + gap
        lun.ready = ended + (gap if lun.over < count else array if lun.over == count else 0)
        if lun.over == 2 * count:
            lun.members, lun.over, lun.is_open = (), 0, False

    def judge(self, line: Entry) -> Optional[str]:
        """The condition that the line breaks, if it breaks one; its phase counts as run where it may."""
        if isinstance(line, Remark):
            return None
        if line.lun >= len(self.luns):
            return f"NoLun {line.lun}"
        if isinstance(line, Poll):
            return self.poll(line)
        self.ran = False
        self.face(line, self.luns[line.lun])
        broken = self.judge_phase(line, self.luns[line.lun])
        if broken and not self.ran:
            self.regain(line)
        return broken

    def face(self, line: Line, lun: Lun) -> None:
        """A status is that of its whole group, where a log has one for each group."""
        named = next((it for it in lun.members if line.names(it)), None)
        if self.manner.one_status and line.part == "post" and line.kind != "read" and named and lun.over >= len(lun.members):
            lun.members, lun.over, lun.is_open = (named,), 1, False

    def regain(self, line: Line) -> None:
        """The line runs where it may come once phases are taken as missing before it, else the LUN does what it did."""
        before = self.luns[line.lun]
        lun = copy.copy(before)
        self.luns[line.lun] = lun
        if line.part == "cmd":
            lun.members, lun.over, lun.is_open, lun.ready = (), 0, False, 0
            self.begin(line, lun)
        else:
            at = next((at for at, it in enumerate(lun.members) if line.names(it)), None)
            if at is not None:
                lun.over, lun.is_open, lun.ready = len(lun.members) + at, False, 0
                self.go_on(line, lun)
        if not self.ran:
            self.luns[line.lun] = before

    def judge_phase(self, line: Line, lun: Lun) -> Optional[str]:
        begins = line.part == "cmd" and (not lun.members or lun.is_open)
        known = None if begins or line.part == "post" else lun.over + 1 == len(lun.members)
        amiss = self.misclosed(line, lun)
        broken = self.begin(line, lun) if begins else self.go_on(line, lun)
        return amiss or broken or self.misfit(line, known)

    def misclosed(self, line: Line, lun: Lun) -> Optional[str]:
        """A command after the last one of a group, or a post in place of a further command, by the closer before it."""
        if not lun.is_open:
            return None
        kind, first = lun.members[0].kind, lun.members[0]
        if line.part == "cmd" and lun.closer == CLOSERS[kind, "cmd"]:
            return f"OtherPhase {line.lun} post {first.block} {first.page}"
        return f"NotClosed {line.lun}" if line.part == "post" and lun.closer == FURTHER[kind] else None

    def misfit(self, line: Line, known: Optional[bool]) -> Optional[str]:
        """What END and the command bytes of a phase that may come aren't; of some commands it is known whether they are a group's last."""
        if line.end is not None and line.end != self.bus:
            return f"OtherEnd {line.end} {self.bus}"
        opener, last = line.bytes
        further = FURTHER[line.kind]
        closers = [last] if line.part == "post" or known else [further] if known is False else [last, further]
        if line.end is None or (line.opener == opener and line.closer in closers):
            return None
        return f"OtherBytes {opener} {closers[0]}"

    def poll(self, poll: Poll) -> Optional[str]:
        """What a LUN runs goes on from then, if not sooner; a status comes over the bus, an edge at any moment."""
        if poll.sign == "ready" and poll.start < self.bus:
            return f"BusNotFree {poll.start} {self.bus}"
        lun = self.luns[poll.lun]
        if lun.members:
            lun.ready, lun.more = min(lun.ready, poll.start), min(lun.more, poll.start)
        return None

    def go_on(self, line: Line, lun: Lun) -> Optional[str]:
        if not lun.members:
            return f"NothingRuns {line.lun}"
        count = len(lun.members)
        member = lun.members[lun.over % count]
        part = "cmd" if lun.over < count else "post"
        if part != line.part or not line.names(member):
            return f"OtherPhase {line.lun} {part} {member.block} {member.page}"
        broken = self.too_soon(line, f"NotReady {line.lun}", lun.ready)
        self.run(line, lun, lun.members, lun.over, False)
        return broken

    def too_soon(self, line: Line, what: str, since: int) -> Optional[str]:
        early = max(0, max(self.bus, since) - line.start)
        self.used = max(self.used, early)
        if early <= self.manner.tolerance:
            return None
        if line.start < self.bus:
            return f"BusNotFree {line.start} {self.bus}"
        return f"{what} {line.start} {since}" if line.start < since else None

    def begin(self, line: Line, lun: Lun) -> Optional[str]:
        block = (line.lun, line.block)
        here = [it for it in self.waiting if (it.lun, it.block) == block]
        unknown = f"UnknownRequest {line.lun} {line.block}"
        misnamed = None
        if self.mentioned:
            here = [] if line.kind == "erase" and line.page else [Want(line.number, line.kind, line.lun, line.block, line.page)]
            before = self.greatest.get(block, -1)
            if line.number is not None and line.number <= before:
                misnamed = unknown if line.number == before else f"BlockOrder {line.number} {before}"
        elif here and line.number is not None and line.number != here[0].number:
            assert here[0].number is not None
            misnamed = f"BlockOrder {here[0].number} {line.number}" if here[0].number < line.number else unknown
        if not here or not line.names(here[0]):
            later = next((it for it in self.waiting if line.names(it)), None)
            return misnamed or (unknown if not here or later is None else f"BlockOrder {here[0].number} {later.number}")
        members = (*lun.members, here[0])
        if not self.is_group(members):
            return misnamed or f"NotGrouped {line.lun}"
        broken = self.too_soon(line, f"{'NotReady' if lun.members else 'LunNotFree'} {line.lun}", lun.more if lun.members else lun.ready)
        self.run(line, lun, members, len(lun.members), True)
        lun.closer = line.closer if line.opener == line.bytes[0] else ""
        if not self.mentioned:
            self.waiting.remove(here[0])
        elif line.number is not None:
            self.greatest[block] = max(self.greatest.get(block, -1), line.number)
        return misnamed or broken


def answer_of(script: str, log: str, manner: Manner) -> str:
    """The answer to a log that begins with the channel of a script."""
    judge = Judge([row.split(",") for row in script.split("\n")[:-2]], manner)
    found: List[str] = []
    phases = 0
    *lines, last = log.split("\n")
    for number, text in enumerate([*lines, last] if last else lines, 1):
        try:
            line = entry_of(text if number <= len(lines) else "", manner.by_status)
        except ValueError:
            return "".join([*found, f"refused log {number}\n"])
        phases += isinstance(line, Line)
        broken = judge.judge(line)
        if broken:
            found.append(f"illegal {number} {broken}\n")
            if not manner.every:
                break
    return "".join(found) or f"legal {phases}\n" + (f"used {judge.used}\n" if manner.tolerance else "")
