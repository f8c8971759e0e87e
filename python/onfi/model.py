"""What calls take and give, as plain dataclasses. Times and lengths are ns."""

from __future__ import annotations

import enum
from dataclasses import dataclass, field
from typing import List, Mapping, NamedTuple, Optional, Sequence

# Where a kind has its count of sectors: above the number of its operation.
SECTORS_AT = 5


class Kind(enum.IntEnum):
    """What a request does to a page or a block. Those of reads of some sectors, by `kind_by`, are named beside these: `READ_BY_3`."""

    READ = 0
    PROGRAM = 1
    ERASE = 2

    @classmethod
    def _missing_(cls, value: object) -> Optional[Kind]:
        """The kind with a count of sectors; of equal ones always the same."""
        if not isinstance(value, int) or not 0 < value < 8 << SECTORS_AT:
            return None
        operation, sectors = value & (1 << SECTORS_AT) - 1, value >> SECTORS_AT
        if operation not in cls._value2member_map_ or not sectors:
            return None
        made = int.__new__(cls, value)
        made._name_, made._value_ = f"{cls(operation).name}_BY_{sectors}", value
        cls._value2member_map_[value] = made
        return made

    @property
    def operation(self) -> Kind:
        """The kind without its sectors."""
        return Kind(self & (1 << SECTORS_AT) - 1)

    @property
    def sectors(self) -> int:
        """How many sectors of its page a read puts out; 0 where it is all of it."""
        return self >> SECTORS_AT


def kind_by(kind: Kind, sectors: int = 0) -> Kind:
    """The kind of a read that puts out so many sectors of its page, 1 to 7, for a channel that has `lengths`; with 0 it is the kind.

    `ValueError` where the sectors aren't from 0 to 7.
    """
    if not 0 <= sectors <= 7:
        raise ValueError(f"the sectors of a kind are not from 0 to 7: {sectors}")
    return Kind(kind | sectors << SECTORS_AT)


def keep_tuples(of: object, *names: str) -> None:
    """Makes tuples of these members of a frozen dataclass, which may be given as any iterables, so that it can be hashed."""
    for name in names:
        object.__setattr__(of, name, tuple(getattr(of, name)))


@dataclass(frozen=True)
class Spans:
    """How long the phases of a kind take, in ns, each below 2^50."""

    cmd: int
    """A command with its address and data, at least 1."""
    gap: int
    """The wait between two commands of a group."""
    array: int
    """The wait between the last command and the first post."""
    post: int
    """A post, which is a data output or a status byte, at least 1."""


@dataclass(frozen=True)
class Timing:
    """The lengths of each kind."""

    read: Spans
    program: Spans
    erase: Spans


@dataclass(frozen=True)
class Lengths:
    """How long outputs of some sectors hold the bus: the post, in ns, below 2^50, of reads by how many sectors they put out, 1 to 7.

    All else of them is as for other reads. Of sectors that aren't there, or with 0, none is stated.
    """

    sectors: Mapping[int, int]

    def __hash__(self) -> int:
        return hash(frozenset(self.sectors.items()))


@dataclass(frozen=True)
class Rules:
    """What may run as one on several planes of a LUN."""

    read: bool = False
    """Reads may."""
    write: bool = False
    """Programs may, and erases."""
    strict: bool = False
    """Only blocks whose numbers agree above the plane bits: for a device with block address restrictions."""
    plane_bits: int = 0
    """How many low bits of a block number name its plane, 0 to 2."""


@dataclass(frozen=True)
class Want:
    """A request. Its plane is the one that the low bits of its block name."""

    id: int
    """A number of the caller's, below 2^64; each want of a list has a greater one than that before it."""
    kind: Kind
    """Where the channel has `lengths` also one of `kind_by`."""
    lun: int
    """From 0."""
    block: int
    """From 0, below 65,536."""
    page: int = 0
    """From 0, below 65,536; an erase names page 0."""


@dataclass(frozen=True)
class Lun:
    """What a LUN does as the planning begins: nothing, or the group of `members`, of which phase `next` comes next."""

    since: int = 0
    """From when on a group may begin, or the next phase may start, in ns."""
    members: Sequence[Want] = ()
    """The wants of the running group, one to four, planes rising; none where the LUN is free."""
    next: int = 0
    """Commands are phases 0 .., posts follow; at least one is over and one is left."""

    def __post_init__(self) -> None:
        keep_tuples(self, "members")


@dataclass(frozen=True)
class Channel:
    """A channel as it stands: its device's lengths, its rules, what its LUNs do, and from when on its bus is free, in ns."""

    timing: Timing
    rules: Rules = Rules()
    luns: Sequence[Lun] = (Lun(),)
    """One to eight; the place of a LUN is its number."""
    lengths: Optional[Lengths] = None
    """Of reads of some sectors; None where no read is one of `kind_by`."""
    bus_free: int = 0

    def __post_init__(self) -> None:
        keep_tuples(self, "luns")


@dataclass(frozen=True)
class Group:
    """A new group: one to four wants of one LUN that run as one."""

    wants: Sequence[int]
    """Their ids, planes rising."""
    starts: Sequence[int]
    """In ns: for each member of its command, then for each of its post."""

    def __post_init__(self) -> None:
        keep_tuples(self, "wants", "starts")


class BusPhase(NamedTuple):
    """A phase of a schedule: from when to when it has the bus, in ns, and whose it is."""

    start: int
    end: int
    lun: int
    want: int
    """The id of its request; of a running group's the id that the member has in the channel's LUNs."""
    kind: Kind
    is_post: bool
    """Whether it is a data output or a status byte; else it is a command with its address and data."""


@dataclass(frozen=True)
class Problem:
    """What is to be planned."""

    channel: Channel
    wants: Sequence[Want]

    def __post_init__(self) -> None:
        keep_tuples(self, "wants")

    def length_of(self, kind: Kind, is_post: bool) -> int:
        """How long a phase has the bus, in ns."""
        timing, lengths = self.channel.timing, self.channel.lengths
        if is_post and kind.sectors and lengths:
            return lengths.sectors[kind.sectors]
        spans = (timing.read, timing.program, timing.erase)[kind.operation]
        return spans.post if is_post else spans.cmd


@dataclass(frozen=True)
class Schedule:
    """Starts for all phases of a problem, in ns."""

    rest: Sequence[Sequence[int]]
    """For each LUN the starts of the phases that are left of its running group, none where it is free."""
    groups: Sequence[Group]
    """The new groups; in a plan by rising first start."""

    def __post_init__(self) -> None:
        object.__setattr__(self, "rest", tuple(tuple(starts) for starts in self.rest))
        keep_tuples(self, "groups")

    def phases(self, problem: Problem) -> List[BusPhase]:
        """The phases that the bus has by this schedule of the problem, by rising start.

        `KeyError` where it names a want that isn't there, `IndexError` a LUN; `ValueError` where a kind is none.
        """
        wants = {want.id: want for want in problem.wants}
        running = [(problem.channel.luns[at].members, problem.channel.luns[at].next, starts) for at, starts in enumerate(self.rest) if starts]
        groups = [(tuple(wants[want] for want in group.wants), 0, group.starts) for group in self.groups]
        found = []
        for members, first, starts in [*running, *groups]:
            for number, start in enumerate(starts, first):
                want, is_post = members[number % len(members)], number >= len(members)
                kind = Kind(want.kind)
                found.append(BusPhase(start, start + problem.length_of(kind, is_post), want.lun, want.id, kind, is_post))
        return sorted(found)


@dataclass(frozen=True)
class Plan:
    """A schedule, and what shows how near it is to the best."""

    schedule: Schedule
    finish: int
    """When its last phase ends, in ns; where there is none, from when on the bus is free."""
    below: int
    """Nothing ends before this time, in ns, as the certificate shows. Where it is the finish, no legal schedule beats this one."""
    certificate: bytes
    opened: int = 0
    """How many nodes the search opened that found it; 0 by the rule."""
    problem: Optional[Problem] = field(default=None, repr=False, compare=False)
    """What was planned."""

    def phases(self) -> List[BusPhase]:
        """Its phases by rising start, each as (start, end, lun, want, kind, is_post); `ValueError` of a plan that no call gave."""
        if self.problem is None:
            raise ValueError("a plan that no call gave has no problem: ask its schedule for the phases of one")
        return self.schedule.phases(self.problem)

    def svg(self) -> str:
        """A Gantt chart of its phases."""
        from onfi.pictures import gantt  # what a picture is of stands here

        return gantt(self.phases())

    def _repr_html_(self) -> str:
        return self.svg()


@dataclass(frozen=True)
class Phase:
    """A phase on the bus, with the bytes and the address that a driver gives out for it."""

    start: int
    """When it starts by the schedule, in ns."""
    end: int
    """When it ends if it starts then, in ns."""
    want: int
    """The id of its request; of a running group's the id that the member has in the list of LUNs."""
    row: int
    """The row address of its page."""
    block: int
    page: int
    lun: int
    kind: Kind
    """That of its request."""
    number: int
    """Its number in its group: commands are 0 .., posts follow."""
    members: int
    """How many requests its group has."""
    opener: int
    """The first command byte: 00h, 80h, 60h; of a data output 06h, of a status 78h."""
    closer: int
    """The last one: 30h, 10h, D0h; with more of its group after it 32h, 11h, D1h; of a data output E0h; of a status 0: none."""
    row_cycles: int
    """How many cycles of the row address, lowest byte first."""
    is_post: bool
    """Whether it is a data output or a status byte; else it is a command with its address and data."""


@dataclass(frozen=True)
class Output:
    """What a phase puts out of its page."""

    column: int
    """At which byte of the page it begins: the column address of its 06h .. E0h, as many cycles as the geometry has, lowest byte first."""
    bytes: int
    """How many bytes the host takes; 0 where it takes no byte of a page."""


@dataclass(frozen=True)
class Stand:
    """A channel as it stands, the requests that wait, and the schedule that is left."""

    channel: Channel
    wants: Sequence[Want]
    schedule: Schedule

    def __post_init__(self) -> None:
        keep_tuples(self, "wants")


@dataclass(frozen=True)
class Geometry:
    """What of a device its addressing rests on, and what it may do at the same time."""

    blocks_per_lun: int
    page_bits: int
    block_bits: int
    lun_bits: int
    pages_per_block: int
    data_bytes: int
    spare_bytes: int
    lun_count: int
    plane_address_bits: int
    column_address_cycles: int
    row_address_cycles: int
    any_page_order: bool
    multi_plane_writes: bool
    multi_plane_reads: bool


@dataclass(frozen=True)
class Device:
    """A device by its parameter page and its timing sheet.

    Its rules are never strict: byte 114 of the page, the multi-plane attributes, isn't looked at. Bit 1 of that byte says, where
    it is set, that there are no block address restrictions; where it is clear, plan with `dataclasses.replace(device.rules,
    strict=True)`.
    """

    timing: Timing
    rules: Rules
    geometry: Geometry
    lengths: Lengths = Lengths({})
    """Of reads of 1 to 7 sectors, as far as a page has their bytes; none without sectors."""


@dataclass(frozen=True)
class Answer:
    """What the program onfi_sim writes, and the status that it ends with."""

    text: bytes
    status: int
