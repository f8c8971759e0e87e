"""What `run --by next --clock simulated` reports of a script, by a plain model of hosts, queues, channels and chips; it calls no program.

Each LUN that runs nothing gives its oldest request that is due, else its oldest read, program, erase, with the mates that may join it;
but programs that lack their last plane wait for it while they hold the newest program and some LUN has work. Of what LUNs give goes
first what may start soonest, then by what it does. Chips that fail are none of it.
"""

import collections
from typing import Deque, Dict, Iterable, Iterator, List, NamedTuple, Optional, Tuple

from onfi_tools.device import KINDS, Spans, first_copy, numbers_of, spans_of, strobed_spans_of
from onfi_tools.die import Block, Device, Operation

DUE = {"read": 128, "program": 128, "erase": 512}
BEGINS = {"read": 2, "program": 5, "erase": 3}
UNANSWERED = 64
NEVER = 1 << 64


class Chips(NamedTuple):
    """The chips of a script: what their answers depend on, lengths in ns, of outputs by sectors, and which groups may run."""

    die: Device
    spans: Dict[str, Spans]
    outputs: Dict[int, int]
    luns: int
    plane_bits: int
    reads: bool
    writes: bool
    strict: bool


class Asked(NamedTuple):
    """An operation of a host, its number among those of the host on that channel, and when it arrives, if that is said."""

    host: int
    serial: int
    channel: int
    lun: int
    block: int
    operation: Operation
    arrives: Optional[int]


class Want(NamedTuple):
    """An accepted operation, with its number in order of acceptance."""

    id: int
    asked: Asked

    @property
    def kind(self) -> str:
        return self.asked.operation.kind

    @property
    def page(self) -> int:
        return self.asked.operation.page

    @property
    def spot(self) -> Tuple[int, int]:
        return self.asked.lun, self.asked.block


class Lun(NamedTuple):
    """From when on its next phase may start, which one that is, and the members of its group; none where it is free."""

    since: int
    next: int
    members: Tuple[Want, ...]


class Step(NamedTuple):
    """The LUN that has the bus next, from when on, and the group that begins; none where one goes on."""

    start: int
    lun: int
    group: Tuple[Want, ...]


class Reply(NamedTuple):
    asked: Asked
    answer: str


class Script:
    """What the rows of a script say."""

    def __init__(self, text: str) -> None:
        self.rows = [row.split(",") for row in text.split("\nend\n")[0].splitlines()]
        self.chips = self.chips_of()
        self.channels, self.hosts, self.submitcap, self.postcap = (self.count(*it) for it in (("channels", 1), ("hosts", 1), ("submitcap", 64), ("postcap", 64)))
        self.faults: Dict[Tuple[int, int, int], List[int]] = collections.defaultdict(list)
        for channel, lun, block, number in self.numbers("fault"):
            self.faults[channel, lun, block].append(number)
        self.arrays = {(channel, lun, number): length for channel, lun, number, length in self.numbers("array")}
        self.asked = list(self.asked_rows())

    def numbers(self, name: str) -> Iterator[List[int]]:
        return ([int(field) for field in row[1:]] for row in self.rows if row[0] == name)

    def count(self, name: str, usual: int) -> int:
        return next((found[0] for found in self.numbers(name)), usual)

    def chips_of(self) -> Chips:
        strict, sector = bool(self.count("strict", 0)), self.count("sector", 0)
        if any(row[0] == "geometry" for row in self.rows):
            _, pages, size, any_order = next(self.numbers("geometry"))
            luns, bits, reads, writes = next(self.numbers("shape"))
            spans = {row[1]: Spans(*map(int, row[2:])) for row in self.rows if row[0] == "spans"}
            return Chips(Device(pages, size, bool(any_order)), spans, {}, luns, bits, bool(reads), bool(writes), strict)
        page = numbers_of(first_copy(bytes.fromhex("".join(row[1] for row in self.rows if row[0] == "page"))))
        outputs = {count: self.spans(page, count * sector)["read"].post for count in range(1, 8)} if sector else {}
        size = page["data_bytes"] + page["spare_bytes"]
        die = Device(page["pages_per_block"], size, bool(page["any_page_order"]), sector)
        return Chips(die, self.spans(page, size), outputs, page["luns"], page["plane_bits"], bool(page["multi_plane_reads"]),
                     bool(page["multi_plane_writes"]), strict)

    def spans(self, page: Dict[str, int], size: int) -> Dict[str, Spans]:
        """The lengths where that many bytes are put out or taken in."""
        sized = {**page, "data_bytes": size, "spare_bytes": 0}
        sheet, strobes = ({row[1]: int(row[2]) for row in self.rows if row[0] == name} for name in ("sheet", "strobe"))
        return strobed_spans_of(sized, sheet, strobes) if strobes else spans_of(sized, sheet)

    def asked_rows(self) -> Iterator[Optional[Asked]]:
        """By row the operation that it asks for, if it asks for one."""
        serials: Dict[Tuple[int, int], int] = collections.defaultdict(int)
        arrives = None
        for row in self.rows:
            arrives = int(row[1]) if row[0] == "at" else arrives
            if row[0] not in ("op", "opread"):
                yield None
                continue
            host, channel = int(row[1]), int(row[2])
            kind, (lun, block, page, *part) = (row[3], map(int, row[4:7])) if row[0] == "op" else ("read", map(int, row[3:]))
            first, sectors = part or (0, 0)
            content = self.content(row[7]) if kind == "program" else b""
            yield Asked(host, serials[host, channel], channel, lun, block, Operation(kind, page, content, first, sectors), arrives)
            serials[host, channel] += 1

    def content(self, field: str) -> bytes:
        return bytes([int(field[1:], 16)]) * self.chips.die.page_bytes if field.startswith("*") else bytes.fromhex(field)


class Books:
    """What waits on a channel, with how often it was passed over, when the bus is free, and what LUNs do."""

    def __init__(self, chips: Chips) -> None:
        self.chips, self.bus, self.luns = chips, 0, [Lun(0, 0, ())] * chips.luns
        self.waiting: List[Want] = []
        self.passed: Dict[int, int] = collections.defaultdict(int)
        self.newest = -1

    def accept(self, want: Want) -> None:
        self.waiting.append(want)
        self.newest = want.id if want.kind == "program" else self.newest

    def plane(self, want: Want) -> int:
        return want.asked.block % (1 << self.chips.plane_bits)

    def is_first(self, want: Want) -> bool:
        """Whether no earlier request on its block waits."""
        return next(it for it in self.waiting if it.spot == want.spot) == want

    def is_due(self, want: Want) -> bool:
        return self.passed[want.id] >= DUE[want.kind]

    def may_join(self, head: Want, want: Want) -> bool:
        same = (head.kind, head.asked.lun) == (want.kind, want.asked.lun) and (head.kind == "erase" or head.page == want.page)
        row = not self.chips.strict or head.asked.block >> self.chips.plane_bits == want.asked.block >> self.chips.plane_bits
        return same and row and (self.chips.reads if head.kind == "read" else self.chips.writes)

    def group_of(self, head: Optional[Want]) -> Tuple[Want, ...]:
        """The request with its mates, in the order of their planes."""
        group = {self.plane(head): head} if head else {}
        for want in self.waiting if head else []:
            if head and self.may_join(head, want) and self.is_first(want):
                group.setdefault(self.plane(want), want)
        return tuple(group[plane] for plane in sorted(group))

    def turned_to(self, lun: int, kinds: Iterable[str], even_due: bool) -> Optional[Want]:
        own = [want for want in self.waiting if want.asked.lun == lun and self.is_first(want)]
        due = [want for want in own if even_due and self.is_due(want)]
        return next(iter([*due, *(want for kind in kinds for want in own if want.kind == kind)]), None)

    def has_work(self, number: int) -> bool:
        lun = self.luns[number]
        if not lun.members:
            return any(want.asked.lun == number and want.kind == "read" for want in self.waiting)
        if lun.next < len(lun.members):
            return lun.members[0].kind != "erase"
        return lun.since <= self.bus + self.chips.spans["program"].array

    def is_held(self, group: Tuple[Want, ...], head: Optional[Want]) -> bool:
        if not head or self.is_due(head) or head.kind != "program" or not self.chips.writes:
            return False
        is_open = all(self.plane(want) != (1 << self.chips.plane_bits) - 1 for want in group)
        return is_open and self.newest in {want.id for want in group} and any(map(self.has_work, range(len(self.luns))))

    def begun_on(self, lun: int, even_held: bool) -> Tuple[Want, ...]:
        head = self.turned_to(lun, KINDS, True)
        group = self.group_of(head)
        if not even_held and self.is_held(group, head):
            return self.group_of(self.turned_to(lun, ["erase"], False))
        return group

    def length(self, members: Tuple[Want, ...], at: int) -> int:
        spans, output = self.chips.spans[members[0].kind], members[at % len(members)].asked.operation.sectors
        return spans.cmd if at < len(members) else self.chips.outputs.get(output, spans.post) if output else spans.post

    def given(self) -> Iterator[Tuple[Tuple[int, ...], int, Step]]:
        """What each LUN gives: how soon it goes, its end, and the step; a command that keeps the bus has the end -1."""
        for number, lun in enumerate(self.luns):
            start, group = max(self.bus, lun.since), () if lun.members else self.begun_on(number, False)
            members = lun.members or group
            if not members:
                continue
            kind, is_command = members[0].kind, lun.next < len(members)
            rank = BEGINS[kind] if group else 0 if is_command else 4 if kind == "read" else 1
            keeps = not group and is_command and start <= self.bus + self.chips.spans[kind].gap
            end = -1 if keeps else start + self.length(members, lun.next)
            yield (start, rank, -len(group), min(want.id for want in members)), end, Step(start, number, group)

    def next(self) -> Optional[Step]:
        given = list(self.given())
        kept = min((key[0] for key, end, _ in given if end == -1), default=NEVER)
        if given:
            return min(given, key=lambda it: (it[1] > kept, *it[0]))[2]
        held = ((max(self.bus, lun.since), number, self.begun_on(number, True)) for number, lun in enumerate(self.luns))
        return next((Step(*step) for step in held if step[2]), None)

    def begin(self, group: Tuple[Want, ...], lun: int) -> None:
        self.waiting = [want for want in self.waiting if want not in group]
        for want in self.waiting:
            if want.asked.lun == lun and want.id < max(it.id for it in group):
                self.passed[want.id] += 1

    def run(self, step: Step) -> Tuple[Tuple[Want, ...], int]:
        """The step runs; the members of its group, and its number."""
        lun = self.luns[step.lun]
        members, at = lun.members or step.group, lun.next
        if step.group:
            self.begin(step.group, step.lun)
        spans = self.chips.spans[members[0].kind]
        self.bus = step.start + self.length(members, at)
        wait = spans.gap if at + 1 < len(members) else spans.array if at + 1 == len(members) else 0
        is_over = at + 1 == 2 * len(members)
        self.luns[step.lun] = Lun(self.bus + wait, 0 if is_over else at + 1, () if is_over else members)
        return members, at


class Channel:
    """A channel with its queues and its chip."""

    def __init__(self, script: Script, number: int) -> None:
        self.script, self.number, self.books = script, number, Books(script.chips)
        self.queue: Deque[Asked] = collections.deque()
        self.held: List[Deque[Reply]] = [collections.deque() for _ in range(4)]
        self.posted: List[Deque[Reply]] = [collections.deque() for _ in range(4)]
        self.accepted = self.answered = self.wakes = self.busy = self.until = 0
        self.blocks: Dict[Tuple[int, int], Block] = {}
        self.started: Dict[int, int] = collections.defaultdict(int)
        self.early: Dict[int, int] = {}
        self.answers: Dict[int, str] = {}

    def turn(self, now: int) -> bool:
        """A turn at that moment, if the channel may make one; whether it did."""
        if max(self.wakes, self.books.bus) > now:
            return False
        self.wakes = self.act(now)
        if now < self.books.bus:
            self.busy, self.until = self.busy + self.books.bus - now, self.books.bus
        return True

    def act(self, now: int) -> int:
        """Posts, accepts or runs a phase; from when on a turn may do more."""
        for host in range(4):
            if self.held[host] and len(self.posted[host]) < self.script.postcap:
                self.posted[host].append(self.held[host].popleft())
                self.answered += 1
                return 0
        if self.queue and self.accepted - self.answered < UNANSWERED:
            self.books.accept(Want(self.accepted, self.queue.popleft()))
            self.accepted += 1
            return 0
        step = self.books.next()
        if step and step.start != now:
            self.pass_time(now)
            step = self.books.next()
        if not step:
            return NEVER
        if step.start > now:
            return min([step.start, *(moment for moment in self.early.values() if moment > now)])
        self.run(step)
        return 0

    def pass_time(self, now: int) -> None:
        """The bus waits, and each LUN whose array works is asked whether it is ready."""
        self.books.bus = max(self.books.bus, now)
        for number, lun in enumerate(self.books.luns):
            if lun.members and lun.next == len(lun.members) and self.early.get(number, NEVER) <= now:
                self.books.luns[number] = lun._replace(since=min(lun.since, now))

    def run(self, step: Step) -> None:
        members, at = self.books.run(step)
        if at == 0:
            self.answers.update((want.id, self.block(want).apply(want.asked.operation)) for want in members)
        if at + 1 == len(members):
            length = self.script.arrays.get((self.number, step.lun, self.started[step.lun]))
            self.started[step.lun] += 1
            if length is not None:
                self.early[step.lun] = self.books.bus + min(length, self.script.chips.spans[members[0].kind].array)
        if at >= len(members):
            self.early.pop(step.lun, None)
            want = members[at - len(members)]
            self.held[want.asked.host].append(Reply(want.asked, self.answers.pop(want.id)))

    def block(self, want: Want) -> Block:
        faults = frozenset(self.script.faults.get((self.number, *want.spot), ()))
        return self.blocks.setdefault(want.spot, Block(self.script.chips.die, faults))


class Host:
    """A host, which goes from row to row."""

    def __init__(self, number: int) -> None:
        self.number, self.passed = number, 0
        self.sent: Dict[Asked, int] = {}
        self.got: Dict[Asked, Tuple[int, str]] = {}

    def comes(self, script: Script) -> int:
        """When the next row comes for which it waits."""
        moments = [int(row[1]) for row in script.rows[: self.passed + 1] if row[0] == "at"]
        return NEVER if self.passed == len(script.rows) else moments[-1] if moments else 0

    def act(self, script: Script, channels: List[Channel], now: int) -> bool:
        """Submits what has arrived while queues have room, and collects one reply of each channel; whether it did anything."""
        before = self.passed
        while self.comes(script) <= now and self.submit(script, channels, now):
            self.passed += 1
        replies = [channel.posted[self.number].popleft() for channel in channels if channel.posted[self.number]]
        self.got.update((reply.asked, (now, reply.answer)) for reply in replies)
        return bool(replies) or self.passed > before

    def submit(self, script: Script, channels: List[Channel], now: int) -> bool:
        asked = script.asked[self.passed]
        if not asked or asked.host != self.number:
            return True
        channel = channels[asked.channel]
        if len(channel.queue) >= script.submitcap:
            return False
        channel.queue.append(asked)
        channel.wakes = 0
        self.sent[asked] = now
        return True


def settled(script: Script) -> Tuple[List[Channel], List[Host]]:
    """Channels and hosts after a run."""
    channels, hosts = [Channel(script, number) for number in range(script.channels)], [Host(number) for number in range(4)]
    now = 0
    while now < NEVER:
        while any([host.act(script, channels, now) for host in hosts] + [channel.turn(now) for channel in channels]):
            pass
        dues = [max(channel.wakes, channel.books.bus) for channel in channels] + [host.comes(script) for host in hosts]
        now = min((due for due in dues if due > now), default=NEVER)
    return channels, hosts


def latency(kind: str, hosts: List[Host]) -> Iterator[str]:
    spent = sorted(at - (host.sent[asked] if asked.arrives is None else asked.arrives) for host in hosts for asked, (at, _) in host.got.items()
                   if asked.operation.kind == kind)
    if spent:
        yield f"latency,{kind},{len(spent)},{sum(spent) // len(spent)},{spent[(99 * len(spent) + 99) // 100 - 1]}"


def report_of(text: str) -> str:
    """The report of a script that is taken."""
    channels, hosts = settled(Script(text))
    lines = []
    for host in hosts:
        for asked in sorted(host.got, key=lambda it: (it.channel, it.serial)):
            lines.append(",".join(["reply", *map(str, (host.number, asked.channel, asked.serial, host.got[asked][0])), host.got[asked][1]]))
    lines += [f"bus,{channel.number},{channel.busy},{channel.until}" for channel in channels]
    lines += [line for kind in KINDS for line in latency(kind, hosts)]
    return "\n".join([*lines, "closed", ""])
