"""Random channels, requests, and schedules of them that are legal and seldom good."""

from __future__ import annotations

import random
from typing import List, Sequence, Tuple

from loop_model import can_join, length_of, spans_of, wait_behind
from onfi import Channel, Geometry, Group, Kind, Lun, Rules, Schedule, Spans, Timing, Want


def bits_for(count: int) -> int:
    return max(count - 1, 0).bit_length()


def drawn_spans(draw: random.Random) -> Spans:
    return Spans(draw.randint(1, 300), draw.randint(0, 50), draw.choice((0, 40, 700, 3_000)), draw.randint(1, 300))


def drawn_channel(draw: random.Random, luns: Sequence[Lun]) -> Channel:
    timing = Timing(drawn_spans(draw), drawn_spans(draw), drawn_spans(draw))
    rules = Rules(draw.random() < 0.8, draw.random() < 0.8, draw.random() < 0.2, draw.randint(0, 2))
    return Channel(timing, rules, luns, bus_free=draw.randint(0, 1_000))


def drawn_geometry(draw: random.Random, luns: int, plane_bits: int) -> Geometry:
    """One that a parameter page can give; at least sixteen blocks of three pages."""
    blocks, pages = draw.randint(16, 65_536), draw.randint(3, 4_096)
    bits = bits_for(pages), bits_for(blocks), bits_for(luns)
    cycles = -(-sum(bits) // 8) + draw.randint(0, 1)
    return Geometry(blocks, *bits, pages, 4_096, 224, luns, plane_bits, 2, cycles, draw.random() < 0.5, draw.random() < 0.5, draw.random() < 0.5)


def drawn_want(draw: random.Random, number: int, geometry: Geometry) -> Want:
    """Of few blocks and pages, so that requests join and wait for each other; now and then of the last ones."""
    kind = draw.choice((Kind.READ, Kind.READ, Kind.PROGRAM, Kind.ERASE))
    block = geometry.blocks_per_lun - 1 if draw.random() < 0.05 else draw.randrange(8)
    page = geometry.pages_per_block - 1 if draw.random() < 0.05 else draw.randrange(2)
    return Want(number, kind, draw.randrange(geometry.lun_count), block, 0 if kind is Kind.ERASE else page)


class Drawing:
    """A schedule that is drawn phase by phase, each at the soonest or somewhat later."""

    def __init__(self, draw: random.Random, channel: Channel, wants: Sequence[Want]) -> None:
        self.draw, self.channel, self.bus_free = draw, channel, channel.bus_free
        self.luns, self.waiting = list(channel.luns), list(wants)
        self.rest: List[List[int]] = [[] for _ in channel.luns]
        self.groups: List[Tuple[List[Want], List[int]]] = []
        self.starts = list(self.rest)

    def can_begin(self, want: Want) -> bool:
        earlier = (other for other in self.waiting if other.id < want.id)
        return not self.luns[want.lun].members and all((other.lun, other.block) != (want.lun, want.block) for other in earlier)

    def begin(self) -> None:
        """A group of a request that can begin, and of some that can join it."""
        startable = [want for want in self.waiting if self.can_begin(want)]
        group = [self.draw.choice(startable)]
        for want in startable:
            if self.draw.random() < 0.8 and len(group) < 4 and all(can_join(self.channel.rules, member, want) for member in group):
                group.append(want)
        group.sort(key=lambda want: want.block % (1 << self.channel.rules.plane_bits))
        self.waiting = [want for want in self.waiting if want not in group]
        lun = group[0].lun
        self.groups.append((group, []))
        self.starts[lun] = self.groups[-1][1]
        self.luns[lun] = Lun(self.luns[lun].since, group, 0)
        self.run(lun)

    def run(self, number: int) -> None:
        """The next phase of a LUN."""
        lun = self.luns[number]
        spans, members = spans_of(self.channel, lun.members[0].kind), len(lun.members)
        start = max(self.bus_free, lun.since) + self.draw.choice((0, 0, 0, 1, 90))
        self.starts[number].append(start)
        self.bus_free = start + length_of(spans, members, lun.next)
        ready = self.bus_free + wait_behind(spans, members, lun.next)
        self.luns[number] = Lun(ready, lun.members, lun.next + 1) if lun.next + 1 < 2 * members else Lun(ready)

    def step(self) -> bool:
        """False where nothing is left."""
        running = [number for number, lun in enumerate(self.luns) if lun.members]
        if not running and not self.waiting:
            return False
        if any(self.can_begin(want) for want in self.waiting) and (not running or self.draw.random() < 0.4):
            self.begin()
        else:
            self.run(self.draw.choice(running))
        return True

    def schedule(self) -> Schedule:
        while self.step():
            pass
        groups = tuple(Group(tuple(want.id for want in group), tuple(starts)) for group, starts in self.groups)
        return Schedule(tuple(map(tuple, self.rest)), groups)


def drawn_schedule(draw: random.Random, channel: Channel, wants: Sequence[Want]) -> Schedule:
    return Drawing(draw, channel, wants).schedule()
