"""A plain model of a dispatcher, and of a plan by the rule; it calls nothing of the library.

Each LUN that runs nothing gives its oldest request that is due, else its oldest read, program, erase, with the mates that may join it;
but programs that lack their last plane wait for it while they hold the newest program and some LUN has work. Of what LUNs give goes
first what may start soonest, then by what it does. A plan by the rule is what comes of a batch so, where nothing is due or held.
"""

from __future__ import annotations

from typing import Callable, Counter, Dict, Iterable, List, NamedTuple, Optional, Sequence, Tuple

READ, PROGRAM, ERASE = range(3)
DUE = {READ: 128, PROGRAM: 128, ERASE: 512}
BEGINS = {READ: 2, PROGRAM: 5, ERASE: 3}
OPENER = {READ: 0x00, PROGRAM: 0x80, ERASE: 0x60}
LAST = {READ: 0x30, PROGRAM: 0x10, ERASE: 0xD0}
NOT_LAST = {READ: 0x32, PROGRAM: 0x11, ERASE: 0xD1}
DONE, BAD_KIND, TOO_MANY, BAD_LUN, CLOCK, BAD_PLACE, BAD_ORDER, NO_LENGTHS = 0, 13, 20, 21, 22, 23, 27, 28
NOTHING_DUE, NOT_DUE, TOO_SOON, NOT_WAITING = 31, 33, 34, 35
LATE = 1 << 62


class Want(NamedTuple):
    id: int
    kind: int
    lun: int
    block: int
    page: int

    @property
    def does(self) -> int:
        return self.kind % 32

    @property
    def sectors(self) -> int:
        return self.kind // 32 % 8


class Spans(NamedTuple):
    cmd: int
    gap: int
    array: int
    post: int


class Lun(NamedTuple):
    """From when on its next phase may start, which one that is, and the members of its group; none where it is free."""

    since: int
    next: int
    members: Tuple[Want, ...]


class Step(NamedTuple):
    """The LUN that has the bus next, from when on, and the group that begins; none where one goes on."""

    start: int
    lun: int
    group: Tuple[Want, ...]


class Device(NamedTuple):
    """Lengths of each kind and of reads of sectors, which kinds may run on several planes, and what it has of blocks, pages and LUNs."""

    plane_bits: int
    read: int
    write: int
    strict: int
    spans: Tuple[Spans, ...]
    posts: Tuple[int, ...]
    blocks: int
    pages: int
    luns: int

    def plane(self, want: Want) -> int:
        return want.block % (1 << self.plane_bits)

    def row(self, want: Want) -> int:
        return want.block >> self.plane_bits

    def may_group(self, does: int) -> bool:
        return bool(self.read if does == READ else self.write)

    def post(self, want: Want) -> int:
        return self.posts[want.sectors - 1] if want.sectors else self.spans[want.does].post

    def refusal(self, want: Want) -> int:
        """Why it has no such request; 0 where it has."""
        if want.does > ERASE:
            return BAD_KIND
        if want.lun >= self.luns or want.block >= self.blocks or want.page >= self.pages:
            return BAD_PLACE
        if want.does == ERASE and want.page:
            return BAD_LUN
        return NO_LENGTHS if want.sectors and (want.does != READ or not self.posts[want.sectors - 1]) else DONE


class Channel:
    """A device, when the bus is free, what LUNs do, and what waits with how often it was passed over."""

    def __init__(self, device: Device, bus: int, luns: Sequence[Lun], waiting: Sequence[Want]) -> None:
        self.device, self.bus, self.luns, self.waiting = device, bus, list(luns), list(waiting)
        self.passed: Dict[Want, int] = {}
        self.newest: Optional[int] = None  # the newest accepted program; none in a plan, where nothing is held back
        self.met: Counter[str] = Counter()  # the rules that set one group or phase before another

    def on(self, lun: int) -> List[Want]:
        return [want for want in self.waiting if want.lun == lun]

    def ready(self, lun: int) -> List[Want]:
        """The first of each block."""
        blocks: Dict[int, Want] = {}
        for want in self.on(lun):
            blocks.setdefault(want.block, want)
        return list(blocks.values())

    def due(self, want: Want) -> bool:
        return self.passed.get(want, 0) >= DUE[want.does]

    def group_of(self, head: Optional[Want], ready: Sequence[Want]) -> Tuple[Want, ...]:
        if head is None:
            return ()
        group = {self.device.plane(head): head}
        for want in ready if self.device.may_group(head.does) else []:
            alike = want.does == head.does and (want.does == ERASE or want.page == head.page)
            if alike and (not self.device.strict or self.device.row(want) == self.device.row(head)):
                group.setdefault(self.device.plane(want), want)
        return tuple(group[plane] for plane in sorted(group))

    def turned_to(self, ready: Sequence[Want]) -> Optional[Want]:
        order = [want for want in ready if self.due(want)] + sorted(ready, key=lambda it: it.does)
        return order[0] if order else None

    def has_work(self, number: int) -> bool:
        lun = self.luns[number]
        if not lun.members:
            return any(want.does == READ for want in self.on(number))
        if lun.next < len(lun.members):
            return lun.members[0].does != ERASE
        return lun.since <= self.bus + self.device.spans[PROGRAM].array

    def held(self, head: Want, group: Sequence[Want]) -> bool:
        may_grow = head.does == PROGRAM and not self.due(head) and self.device.write
        lacks_last = all(self.device.plane(want) != (1 << self.device.plane_bits) - 1 for want in group)
        return bool(may_grow) and lacks_last and self.newest in {want.id for want in group} and any(map(self.has_work, range(len(self.luns))))

    def begins(self, lun: int, even_held: bool) -> Tuple[Want, ...]:
        ready = self.ready(lun)
        head = self.turned_to(ready)
        group = self.group_of(head, ready)
        if head and self.due(head):
            self.met["an erase that is due" if head.does == ERASE else "a program that is due"] += head.does != READ
        if head and not even_held and self.held(head, group):
            erases = self.group_of(next((want for want in ready if want.does == ERASE), None), ready)
            self.met["an erase meanwhile" if erases else "held"] += 1
            return erases
        return group

    def given(self) -> List[Tuple[Tuple[int, ...], int, Step]]:
        """What each LUN gives: how soon it goes, its end, and the step; a command that keeps the bus has the end -1."""
        found: List[Tuple[Tuple[int, ...], int, Step]] = []
        for number, lun in enumerate(self.luns):
            start, group = max(self.bus, lun.since), () if lun.members else self.begins(number, False)
            members = lun.members or group
            if not members:
                continue
            does, spans, command = members[0].does, self.device.spans[members[0].does], lun.next < len(members)
            rank = BEGINS[does] if group else 0 if command else 4 if does == READ else 1
            keeps = not group and command and start <= self.bus + spans.gap
            self.met["the bus is kept"] += keeps
            end = -1 if keeps else start + self.length(members, lun.next)
            found.append(((start, rank, -len(group), min(want.id for want in members)), end, Step(start, number, group)))
        return found

    def length(self, members: Sequence[Want], number: int) -> int:
        return self.device.spans[members[0].does].cmd if number < len(members) else self.device.post(members[number - len(members)])

    def next(self) -> Optional[Step]:
        given = self.given()
        kept = min((key[0] for key, end, _ in given if end == -1), default=1 << 64)
        if given:
            return min(given, key=lambda it: (it[1] > kept, *it[0]))[2]
        held = ((max(self.bus, lun.since), number, self.begins(number, True)) for number, lun in enumerate(self.luns) if not lun.members)
        return next((Step(*step) for step in held if step[2]), None)

    def run(self, step: Step, started: int) -> None:
        """The step runs from then on."""
        lun = self.luns[step.lun]
        members, at = lun.members or step.group, lun.next
        spans = self.device.spans[members[0].does]
        self.bus = started + self.length(members, at)
        wait = spans.gap if at + 1 < len(members) else spans.array if at + 1 == len(members) else 0
        over = at + 1 == 2 * len(members)
        self.luns[step.lun] = Lun(self.bus + wait, 0 if over else at + 1, () if over else members)
        self.waiting = [want for want in self.waiting if want not in step.group]
        for want in self.on(step.lun) if step.group else []:
            if want.id < max(it.id for it in step.group):
                self.passed[want] = self.passed.get(want, 0) + 1


class Reader:
    """What lines of numbers say, as dispatcher_trials.c prints them: calls and answers, each of which is the model's or not."""

    def __init__(self) -> None:
        self.met: Counter[str] = Counter()
        self.step: Optional[Step] = None

    def take(self, line: str) -> bool:
        what, *numbers = map(int, line.split())
        calls: Tuple[Callable[[List[int]], bool], ...]
        calls = (self.begin, self.accept, self.accept_again, self.cancel, self.ready, self.ran, self.next, self.plan)
        return calls[what](numbers)

    @staticmethod
    def wants(numbers: List[int], count: int) -> Tuple[Want, ...]:
        return tuple(Want(*(numbers.pop(0) for _ in range(5))) for _ in range(count))

    def luns(self, numbers: List[int]) -> List[Lun]:
        found = []
        for _ in range(numbers.pop(0)):
            since, at, members = (numbers.pop(0) for _ in range(3))
            found.append(Lun(since, at, self.wants(numbers, members)))
        return found

    def begin(self, numbers: List[int]) -> bool:
        spans = tuple(Spans(*numbers[at : at + 4]) for at in (4, 8, 12))
        bits, read, write, strict = numbers[:4]
        blocks, pages, luns = numbers[23:26]
        device = Device(bits, read, write, strict, spans, tuple(numbers[16:23]), blocks, pages, luns)
        bus, *rest = numbers[26:]
        self.channel, self.step = Channel(device, bus, self.luns(rest), []), None
        self.channel.met = self.met
        return True

    def refusal(self, want: Want, again: bool) -> int:
        refused = self.channel.device.refusal(want)
        own = self.channel.on(want.lun)
        if refused or want.lun >= len(self.channel.luns):
            return refused or BAD_LUN
        if len(own) == 64:
            return TOO_MANY
        wrong = any(it.id == want.id for it in own) if again else bool(own) and want.id <= own[-1].id
        return BAD_ORDER if wrong else DONE

    def accept(self, numbers: List[int]) -> bool:
        want = Want(*numbers[1:])
        status = self.refusal(want, False)
        if status == DONE:
            self.channel.waiting.append(want)
            self.channel.passed.pop(want, None)
            self.channel.newest = want.id if want.does == PROGRAM else self.channel.newest
            self.step = None
        return status == numbers[0]

    def accept_again(self, numbers: List[int]) -> bool:
        want = Want(*numbers[1:])
        status = self.refusal(want, True)
        if status == DONE:
            self.channel.waiting.insert(0, want)
            self.channel.passed.pop(want, None)
            self.step = None
        return status == numbers[0]

    def cancel(self, numbers: List[int]) -> bool:
        status, number = numbers
        lun = min((want.lun for want in self.channel.waiting if want.id == number), default=None)
        if lun is not None:
            self.channel.waiting = [want for want in self.channel.waiting if (want.lun, want.id) != (lun, number)]
            self.step = None
        return status == (NOT_WAITING if lun is None else DONE)

    def ready(self, numbers: List[int]) -> bool:
        status, lun, moment = numbers
        if lun >= len(self.channel.luns):
            return status == BAD_LUN
        was = self.channel.luns[lun]
        if not was.members or was.next != len(was.members):
            return status == NOT_DUE
        self.channel.luns[lun], self.step = was._replace(since=min(was.since, moment)), None
        return status == DONE

    def ran(self, numbers: List[int]) -> bool:
        status, started = numbers
        if self.step is None:
            return status == NOTHING_DUE
        if started < self.step.start or started >= LATE:
            return status == (TOO_SOON if started < self.step.start else CLOCK)
        self.channel.run(self.step, started)
        self.step = None
        return status == DONE

    def next(self, numbers: List[int]) -> bool:
        status, now, *fields = numbers
        bus, self.channel.bus = self.channel.bus, max(self.channel.bus, now)
        self.step = self.channel.next()
        self.channel.bus = bus
        if self.step is None:
            return status == NOTHING_DUE
        return status == DONE and fields == self.phase_of(self.step)

    def phase_of(self, step: Step) -> List[int]:
        """The fields of the phase, in the order in which they are printed."""
        lun = self.channel.luns[step.lun]
        members, number = lun.members or step.group, lun.next
        want, count = members[number % len(members)], len(members)
        opener, closer = OPENER[want.does], (LAST if number + 1 == count else NOT_LAST)[want.does]
        if number >= count:
            opener, closer = (0x06, 0xE0) if want.does == READ else (0x78, 0x00)
        row = want.page + (want.block + (want.lun << 10) << 2)
        end = step.start + self.channel.length(members, number)
        return [step.start, end, want.id, row, want.block, want.page, want.lun, want.kind, number, count, opener, closer, 3, int(number >= count)]

    def plan(self, numbers: List[int]) -> bool:
        bus = numbers.pop(0)
        luns = self.luns(numbers)
        channel = Channel(self.channel.device, bus, luns, self.wants(numbers, numbers.pop(0)))
        rest: List[List[int]] = [[] for _ in luns]
        groups: List[Tuple[Tuple[Want, ...], List[int]]] = []
        last: Dict[int, List[int]] = {}
        for step in iter(channel.next, None):
            if step.group:
                groups.append((step.group, []))
                last[step.lun] = groups[-1][1]
            last.get(step.lun, rest[step.lun]).append(step.start)
            channel.run(step, step.start)
        said = [number for starts in rest for number in (len(starts), *starts)]
        for group, starts in groups:
            said += [len(group), *(want.id for want in group), *starts]
        return said == numbers


def answers_of(lines: Iterable[str]) -> Tuple[Reader, List[str]]:
    """The reader of these lines, and those whose answer isn't the model's."""
    reader = Reader()
    return reader, [line for line in lines if not reader.take(line)]
