"""Plain ways to keep a bus busy, as schedules of a batch on an idle device."""

import functools
from typing import Callable, Dict, List, NamedTuple, Sequence, Tuple

from onfi_tools.channel import Channel, Device, Move, Want, group_of, idle
from onfi_tools.device import KINDS


class Planned(NamedTuple):
    """When a schedule ends, and the starts of each group's phases, by the numbers of its requests."""

    finish: int
    starts: Dict[Tuple[int, ...], List[int]]

    def text(self) -> str:
        """The plan text, with a certificate of one token that proves nothing."""
        groups = [" ".join(["group", "+".join(map(str, numbers)), *map(str, starts)]) for numbers, starts in self.starts.items()]
        return "\n".join(["ONFIPLAN 1", f"finish {self.finish}", *groups, "ONFICERT 1", "X", ""])


Policy = Callable[[Device, Sequence[Want]], Planned]
# The least is done next; the last argument is the LUN after the one that had the bus last.
Key = Callable[[Channel, Move, int], Tuple[float, ...]]
Rank = Callable[[Channel, Move], float]


def greedy(device: Device, wants: Sequence[Want], key: Key) -> Planned:
    """Again and again the phase of the least key goes next."""
    channel, turn = idle(device, wants), 0
    starts: Dict[Tuple[int, ...], List[int]] = {}
    while moves := list(channel.moves()):
        move = min(moves, key=lambda it: key(channel, it, turn))
        starts.setdefault(move.group.numbers, []).append(move.start)
        channel, turn = channel.after(move), (move.lun + 1) % device.luns
    return Planned(channel.bus, starts)


def first_in_first_out(device: Device, wants: Sequence[Want]) -> Planned:
    """Requests in list order, none grouped.

    The next request's command goes out once the bus is free and its LUN idle, and no later request's before it; posts
    go in the order of their commands. Of the next command and the next post the one that can start sooner has the bus,
    the command where both can start at one time.
    """
    def in_order(channel: Channel, move: Move, _: int) -> Tuple[float, ...]:
        first = min((lun.group.numbers for lun in channel.luns if lun.group), default=())
        wanted = (channel.wants[0].number,) if move.group.begins else first
        return move.group.numbers != wanted, move.start, not move.group.begins

    return greedy(device, wants, in_order)


def size_of(_: Channel, move: Move) -> int:
    """How many requests a phase begins."""
    return move.group.size if move.group.begins else 0


def work_of(channel: Channel, move: Move) -> int:
    """How much work its LUN has left, in ns."""
    waiting = sum(channel.work_of(group_of([want])) for want in channel.wants if want.lun == move.lun)
    return waiting + (0 if move.group.begins else channel.work_of(move.group))


def by_commands(channel: Channel, move: Move) -> float:
    """Commands before posts; larger groups first, then erases, programs, reads."""
    return size_of(channel, move) + (-10 if move.group.posts else 10) + KINDS.index(move.group.kind) / 10


def by_posts(channel: Channel, move: Move) -> float:
    """Posts before commands, then the larger group."""
    return size_of(channel, move) + (10 if move.group.posts else 0)


def by_reads(channel: Channel, move: Move) -> float:
    """What goes on with commands, statuses, commands of reads, data outputs, data of programs, erases."""
    if not move.group.begins:
        return 95 if move.group.posts and move.group.kind != "read" else 50 if move.group.posts else 100
    return {"read": 94, "program": 40, "erase": 30}[move.group.kind] + move.group.size / 10


# The second and the fifth take the LUN that has most left first, then the larger and the smaller group.
RANKS: Tuple[Rank, ...] = (
    size_of, lambda channel, move: 8 * work_of(channel, move) + size_of(channel, move), by_commands, by_posts,
    lambda channel, move: 8 * work_of(channel, move) - size_of(channel, move), by_reads,
)


def ranked(device: Device, wants: Sequence[Want], rank: Rank) -> Planned:
    """What can start soonest goes next; of that, what ranks highest."""
    return greedy(device, wants, lambda channel, move, _: (move.start, -rank(channel, move)))


def round_robin(device: Device, wants: Sequence[Want], commands_first: bool = False) -> Planned:
    """What can start soonest goes next, of that the LUNs in turn; an idle LUN starts its largest group, the first in rising bit mask of
    list positions among equals. With `commands_first` a LUN whose next phase is a command comes before those whose next is a post."""
    return greedy(device, wants, lambda channel, move, turn: (
        move.start, commands_first and move.group.posts, (move.lun - turn) % device.luns, -size_of(channel, move)))


round_robin_commands_first: Policy = functools.partial(round_robin, commands_first=True)


def best_of_ranks(device: Device, wants: Sequence[Want]) -> Planned:
    """For each batch the schedule that ends first of those by all ranks, and by round robin."""
    plans = [ranked(device, wants, rank) for rank in RANKS]
    plans += [round_robin(device, wants), round_robin_commands_first(device, wants)]
    return min(plans, key=lambda planned: planned.finish)
