"""A plain model of the calls of a firmware's own loop: which phase is due, what stands after it.

It is written from what include/onfi.h says of these calls, over the package's dataclasses, and calls nothing of the library.
"""

from __future__ import annotations

from dataclasses import replace
from typing import Dict, List, NamedTuple, Sequence, Tuple

from onfi import Channel, Geometry, Group, Kind, Lun, Phase, Rules, Schedule, Spans, Stand, Want

OPENER: Dict[int, int] = {Kind.READ: 0x00, Kind.PROGRAM: 0x80, Kind.ERASE: 0x60}
LAST: Dict[int, int] = {Kind.READ: 0x30, Kind.PROGRAM: 0x10, Kind.ERASE: 0xD0}
NOT_LAST: Dict[int, int] = {Kind.READ: 0x32, Kind.PROGRAM: 0x11, Kind.ERASE: 0xD1}


class Part(NamedTuple):
    """A phase that a schedule has left. Of equal starts running groups come before new ones, then the lower place."""

    start: int
    is_new: bool
    place: int
    number: int
    members: Tuple[Want, ...]

    @property
    def want(self) -> Want:
        return self.members[self.number % len(self.members)]

    @property
    def is_post(self) -> bool:
        return self.number >= len(self.members)


def spans_of(channel: Channel, kind: int) -> Spans:
    lengths: Dict[int, Spans] = {Kind.READ: channel.timing.read, Kind.PROGRAM: channel.timing.program, Kind.ERASE: channel.timing.erase}
    return lengths[kind]


def row_of(geometry: Geometry, want: Want) -> int:
    return want.page + (want.block + (want.lun << geometry.block_bits) << geometry.page_bits)


def length_of(spans: Spans, members: int, number: int) -> int:
    return spans.cmd if number < members else spans.post


def wait_behind(spans: Spans, members: int, number: int) -> int:
    """How long a LUN can't have its next phase after that one."""
    if number + 1 < members:
        return spans.gap
    return spans.array if number + 1 == members else 0


# What is left of a schedule.


def parts_of(channel: Channel, wants: Sequence[Want], schedule: Schedule) -> List[Part]:
    """All phases that are left, the one that is due first in front."""
    by_id = {want.id: want for want in wants}
    found = []
    for place, (lun, starts) in enumerate(zip(channel.luns, schedule.rest)):
        found += [Part(start, False, place, lun.next + at, tuple(lun.members)) for at, start in enumerate(starts)]
    for place, group in enumerate(schedule.groups):
        members = tuple(by_id[number] for number in group.wants)
        found += [Part(start, True, place, at, members) for at, start in enumerate(group.starts)]
    return sorted(found, key=lambda part: part[:4])


def phase_of(channel: Channel, geometry: Geometry, part: Part) -> Phase:
    """The phase as it goes over the bus."""
    want, is_last = part.want, part.number + 1 == len(part.members)
    opener, closer = OPENER[want.kind], (LAST if is_last else NOT_LAST)[want.kind]
    if part.is_post:
        opener, closer = (0x06, 0xE0) if want.kind is Kind.READ else (0x78, 0x00)
    length = length_of(spans_of(channel, want.kind), len(part.members), part.number)
    return Phase(
        start=part.start,
        end=part.start + length,
        want=want.id,
        row=row_of(geometry, want),
        block=want.block,
        page=want.page,
        lun=want.lun,
        kind=want.kind,
        number=part.number,
        members=len(part.members),
        opener=opener,
        closer=closer,
        row_cycles=geometry.row_address_cycles,
        is_post=part.is_post,
    )


def later(starts: Sequence[int], by: int) -> Tuple[int, ...]:
    return tuple(start + by for start in starts)


def stand_behind(channel: Channel, wants: Sequence[Want], schedule: Schedule, part: Part, started: int) -> Stand:
    """What stands after the due phase, which began at `started`."""
    spans, members, lun = spans_of(channel, part.want.kind), len(part.members), part.want.lun
    end = started + length_of(spans, members, part.number)
    ready = end + wait_behind(spans, members, part.number)
    is_over = part.number + 1 == 2 * members
    new_luns = list(channel.luns)
    new_luns[lun] = Lun(ready) if is_over else Lun(ready, part.members, part.number + 1)
    begun = {want.id for want in part.members} if part.is_new else set()
    left = [(place, group) for place, group in enumerate(schedule.groups) if not (part.is_new and place == part.place)]
    rest = [later(starts, started - part.start) for starts in schedule.rest]
    of_group = schedule.groups[part.place].starts if part.is_new else schedule.rest[lun]
    rest[lun] = later(of_group[1:], started - part.start)
    groups = tuple(Group(tuple(group.wants), later(group.starts, started - part.start)) for _, group in left)
    new_channel = replace(channel, luns=new_luns, bus_free=end)
    return Stand(new_channel, [want for want in wants if want.id not in begun], Schedule(tuple(rest), groups))


def can_join(rules: Rules, one: Want, other: Want) -> bool:
    """Whether two wants may run in one group."""
    planes = 1 << rules.plane_bits
    if not (rules.read if one.kind is Kind.READ else rules.write):
        return False
    if (one.kind, one.lun) != (other.kind, other.lun) or (one.kind is not Kind.ERASE and one.page != other.page):
        return False
    is_row = not rules.strict or one.block // planes == other.block // planes
    return is_row and one.block % planes != other.block % planes
