"""Plan texts played on a channel: what is left after some phases, when requests end, and the least that any schedule costs."""

import functools
import itertools
import re
from typing import Any, Dict, Iterator, List, Mapping, NamedTuple, Optional, Sequence, Tuple

from onfi_tools.channel import Channel, Move, Want, group_of

REST = re.compile(r"^rest (\d+) ([\d ]+)$", re.MULTILINE)
GROUP = re.compile(r"^group ([\d+]+) ([\d ]+)$", re.MULTILINE)
# A phase's start, its LUN, and the requests that it starts; none where its group runs.
Phase = Tuple[int, int, Tuple[Want, ...]]


def phases_of(channel: Channel, plan: str) -> List[Phase]:
    """The phases of a plan text, by rising start."""
    found: List[Phase] = [(int(start), int(lun), ()) for lun, starts in REST.findall(plan) for start in starts.split()]
    wants = {want.number: want for want in channel.wants}
    for numbers, starts in GROUP.findall(plan):
        members = tuple(wants[int(number)] for number in numbers.split("+"))
        found += [(int(start), members[0].lun, () if at else members) for at, start in enumerate(starts.split())]
    return sorted(found)


def played(channel: Channel, plan: str) -> Iterator[Tuple[Move, Channel]]:
    """Each phase of a plan text, with the channel after it."""
    for start, lun, members in phases_of(channel, plan):
        group = group_of(members) if members else channel.luns[lun].group
        assert group is not None, plan
        move = Move(start, lun, group)
        channel = channel.after(move)
        yield move, channel


def left(channel: Channel, plan: str, count: int) -> Channel:
    """The channel once that many phases of the plan are done, the requests that wait numbered anew; groups that run then ran before."""
    for _, channel in itertools.islice(played(channel, plan), count):
        pass
    luns = (lun._replace(group=lun.group._replace(numbers=())) if lun.group else lun for lun in channel.luns)
    return channel._replace(luns=tuple(luns), wants=numbered(channel.wants))


def filled(channel: Channel, more: Sequence[Want], most: int) -> Channel:
    """The channel with further requests, up to that many in all."""
    return channel._replace(wants=numbered([*channel.wants, *more][:most]))


def numbered(wants: Sequence[Want]) -> Tuple[Want, ...]:
    return tuple(want._replace(number=number) for number, want in enumerate(wants))


def finish_of(plan: str) -> Optional[int]:
    found = re.search(r"^finish (\d+)$", plan, re.MULTILINE)
    return int(found[1]) if found else None


def below_of(plan: str) -> Optional[int]:
    """The time of a line `below`, else the finish."""
    found = re.search(r"^below (\d+)$", plan, re.MULTILINE)
    return int(found[1]) if found else finish_of(plan)


def ended_by(move: Move) -> Optional[int]:
    """The number of the request that a phase ends; -1 of one that ran before, none where it ends none."""
    if not move.group.posts:
        return None
    return move.group.numbers[move.group.next - move.group.size] if move.group.numbers else -1


class Ends(NamedTuple):
    """When each request of a plan ends, by its number, and those of running groups, in ns."""

    wants: Dict[int, int]
    running: List[int]

    def cost(self, weights: Mapping[int, int]) -> int:
        return sum(weights.get(number, 1) * end for number, end in self.wants.items()) + sum(self.running)

    def mean(self) -> float:
        ends = [*self.wants.values(), *self.running]
        return sum(ends) / len(ends)


def ends_of(channel: Channel, plan: str) -> Ends:
    """The ends of the requests of a plan text."""
    found = [(number, after.bus) for move, after in played(channel, plan) if (number := ended_by(move)) is not None]
    return Ends({number: end for number, end in found if number >= 0}, [end for number, end in found if number < 0])


def least_cost(channel: Channel, weights: Mapping[int, int], latest: int) -> Optional[int]:
    """The least sum of weight times end over all requests, of all schedules that end by `latest`; none where none does.

    A schedule whose phases come in the same order, each as early as it may, ends each phase no later. So the orders of phases,
    and the groups, are all that is tried.
    """
    @functools.cache
    def least(*state: Any) -> Optional[int]:
        left = Channel(channel.device, *state)
        if left.bus > latest:
            return None
        return cheapest([(cost_of(move, left.after(move).bus), least(*left.after(move)[1:])) for move in left.moves()])

    def cost_of(move: Move, end: int) -> int:
        number = ended_by(move)
        return 0 if number is None else weights.get(number, 1) * end

    return least(*channel[1:])


def cheapest(moves: Sequence[Tuple[int, Optional[int]]]) -> Optional[int]:
    """The least of what a phase costs with what follows it: nothing where no phase is left, none where nothing follows in time."""
    return min((cost + rest for cost, rest in moves if rest is not None), default=None) if moves else 0


def weight_rows(weights: Mapping[int, int]) -> str:
    return "".join(f"weight,{number},{weight}\n" for number, weight in weights.items())
