"""A channel between two phases: what each LUN runs, which requests wait, what may come next, and what is left after it."""

from __future__ import annotations

from typing import Dict, Iterator, List, Mapping, NamedTuple, Optional, Sequence, Tuple

from onfi_tools.device import KINDS, Spans


class Device(NamedTuple):
    """LUNs, plane address bits, may reads and may programs and erases run as one on several planes, lengths in ns."""

    luns: int
    plane_bits: int
    group_reads: bool
    group_writes: bool
    lengths: Mapping[str, Spans]

    def plane(self, block: int) -> int:
        return block % (1 << self.plane_bits)

    def may_group(self, kind: str) -> bool:
        return self.group_reads if kind == "read" else self.group_writes

    def rows(self) -> List[str]:
        flags = f"{int(self.group_reads)},{int(self.group_writes)}"
        spans = [f"spans,{kind}," + ",".join(map(str, self.lengths[kind])) for kind in KINDS]
        return [f"shape,{self.luns},{self.plane_bits},{flags}"] + spans


class Want(NamedTuple):
    number: int
    kind: str
    lun: int
    block: int
    page: int

    def row(self) -> str:
        return f"want,{self.kind},{self.lun},{self.block},{self.page}"


class Group(NamedTuple):
    """Requests that run as one: kind, page, blocks, which phase comes next, and their numbers, none where they ran before."""

    kind: str
    page: int
    blocks: Tuple[int, ...]
    next: int = 0
    numbers: Tuple[int, ...] = ()

    @property
    def size(self) -> int:
        return len(self.blocks)

    @property
    def begins(self) -> bool:
        return self.next == 0

    @property
    def posts(self) -> bool:
        """Whether the next phase is a post."""
        return self.next >= self.size


class Lun(NamedTuple):
    """From when on a LUN's next phase may start, in ns, and the group that it runs."""

    since: int = 0
    group: Optional[Group] = None

    def row(self, lun: int) -> str:
        if self.group is None:
            return f"free,{lun},{self.since}"
        kind, page, blocks, phase, _ = self.group
        return ",".join(map(str, ["running", lun, phase, self.since, kind, page, *blocks]))


class Move(NamedTuple):
    """A phase: its start, its LUN, and the group whose next phase it is."""

    start: int
    lun: int
    group: Group


class Channel(NamedTuple):
    """From when on the bus is free, in ns, each LUN, and the requests that wait."""

    device: Device
    bus: int
    luns: Tuple[Lun, ...]
    wants: Tuple[Want, ...]

    def script(self) -> str:
        rows = [f"bus,{self.bus}", *(lun.row(at) for at, lun in enumerate(self.luns)), *(want.row() for want in self.wants)]
        return "\n".join([*self.device.rows(), *rows, "end", ""])

    def moves(self) -> Iterator[Move]:
        """Each phase that may come next, as early as it may: LUN by LUN its group goes on, or one begins."""
        for at, lun in enumerate(self.luns):
            groups = [lun.group] if lun.group else map(group_of, groups_of(self.device, self.wants, at))
            yield from (Move(max(self.bus, lun.since), at, group) for group in groups)

    def after(self, move: Move) -> Channel:
        """The channel once the phase is done."""
        group, spans = move.group, self.device.lengths[move.group.kind]
        end = move.start + spans.length(group.size, group.next)
        is_last = group.next + 1 == 2 * group.size
        lun = Lun(end + spans.wait_after(group.size, group.next), None if is_last else group._replace(next=group.next + 1))
        luns = (*self.luns[: move.lun], lun, *self.luns[move.lun + 1 :])
        return Channel(self.device, end, luns, tuple(want for want in self.wants if want.number not in group.numbers))

    def work_of(self, group: Group) -> int:
        """How long a group takes from its next phase on, if nothing else has the bus."""
        spans = self.device.lengths[group.kind]
        return sum(spans.length(group.size, phase) + spans.wait_after(group.size, phase) for phase in range(group.next, 2 * group.size))


def idle(device: Device, wants: Sequence[Want]) -> Channel:
    """A channel on which nothing ran yet."""
    return Channel(device, 0, (Lun(),) * device.luns, tuple(wants))


def script_of(device: Device, wants: Sequence[Want]) -> str:
    return "\n".join([*device.rows(), *(want.row() for want in wants), "end", ""])


def group_of(members: Sequence[Want]) -> Group:
    return Group(members[0].kind, members[0].page, tuple(it.block for it in members), 0, tuple(it.number for it in members))


def groups_of(device: Device, waiting: Sequence[Want], lun: int) -> Iterator[List[Want]]:
    """All startable groups of a LUN, of the first request of each block, by rising bit mask of list positions; planes rise."""
    firsts: Dict[int, Want] = {}
    for want in waiting:
        if want.lun == lun:
            firsts.setdefault(want.block, want)
    for mask in range(1, 1 << len(firsts)):
        chosen = [want for at, want in enumerate(firsts.values()) if mask >> at & 1]
        if is_group(device, chosen):
            yield sorted(chosen, key=lambda want: device.plane(want.block))


def is_group(device: Device, wants: Sequence[Want]) -> bool:
    if len(wants) == 1:
        return True
    planes = {device.plane(want.block) for want in wants}
    one_kind_and_page = len({(want.kind, want.page) for want in wants}) == 1
    return device.may_group(wants[0].kind) and len(planes) == len(wants) and one_kind_and_page
