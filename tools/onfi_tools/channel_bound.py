"""A throughput that no scheduler of a channel passes: the least of three bounds, in requests a second.

They are of runs without end. A run that ends may pass them a little, since it may leave undone what takes long: that many requests as
may be outstanding.

The bus. Each request has it for its command and its post, and it serves one at a time.

Dies and outstanding requests. A LUN runs one group at a time. Of the time that a group takes, a member's part is least where the group
has a member on each plane. But a member of a large group stays longer: from its acceptance it waits at least for all commands of its
group, the array, and the posts up to its own. Time by time no more LUNs run than there are, and no more requests stay than may be
outstanding (Little's law). So with T the time from answer to answer, in the mean,

    T * LUNs >= a request's part of its LUN's time, T * outstanding >= its stay, both in the mean of all requests,

for the same sizes of groups. So for any weight of the first and the second T times the weighted sum of LUNs and outstanding is at least
the weighted sum of part and stay; and that is at least what it is for the size of group for which it is least. Each weight gives a bound.
The greatest stands at a weight where the best size of a kind changes, or at an end.

The closed loop. A request comes with each answer, and for each scheduler the same ones come in the same order, each for its LUN. Give
each LUN a bus of its own; let it stop a request for another and go on with it later; let each take its least part of a LUN's time alone,
and be answered as soon as that many are served and that many have stayed as long as one that runs alone. Whatever a scheduler does, these
LUNs have answered as many by then. For when the j-th member of a group is answered, the group has had its LUN for at least j of those
parts; of all orders the one that goes on with what has the least left has served the most at any time; and what comes sooner is answered
no later. So, answer by answer, that loop is never later.

Random reads of pages run as one only where two of a LUN are of one page on two planes. Whichever reads a scheduler holds back for that, not
knowing which will come, of those that come at most `found_mates` find one such in the mean, and each of them saves an array. That much is
taken from the part of each.

A load of one's own is run to its end, and all of it counts: from the first arrival to the last answer it takes at least what the bus, the
dies and the loop do, in which no request comes before it arrives. In a group of m, m - 1 members join one of the same LUN, kind and page on
another plane, which came before and waits for them. While it waits it has one of the rooms; at each arrival at most all rooms but one are
taken; so the distances from each to the one that joins it, counted in arrivals, are together at most the rooms but one times the arrivals.
The shortest that fit give the most that may join, and each saves at most the best of all sizes of groups. Reads of some sectors are a kind
of their own; who stays for the posts of others does so at least for the shortest of their kind.
"""

import heapq
import itertools
from collections import Counter, deque
from typing import Dict, Iterator, List, NamedTuple, Sequence, Tuple

from onfi_tools.device import Spans

KINDS = READ, PROGRAM, ERASE = "read", "program", "erase"
MOST_PLANES = 4


class Request(NamedTuple):
    """What comes: a mate comes with the one before it, room or not."""

    kind: str
    lun: int
    is_mate: bool = False
    arrival: int = 0
    distance: int = 0  # of a load of one's own: how many arrivals before it the last one came that it may join; 0: there is none


class Channel(NamedTuple):
    """What serves the requests. `depth` may be outstanding; reads are of that many pages of a block, evenly; of a load of one's own 0."""

    spans: Dict[str, Spans]
    planes: int
    pages: int
    luns: int
    depth: int


def group_time(spans: Spans, members: int) -> float:
    """How long a group has its LUN."""
    return members * spans.cmd + (members - 1) * spans.gap + spans.array + members * spans.post


def stay(spans: Spans, members: int, other: int) -> float:
    """How long a member of a group stays, in the mean of its members, where it was accepted as the group began; posts of others take so long."""
    return members * spans.cmd + (members - 1) * spans.gap + spans.array + spans.post + (members - 1) / 2 * other


def most_outstanding(channel: Channel, requests: Sequence[Request]) -> int:
    """How many requests are outstanding at most: the last room may be taken by one that has mates on all other planes."""
    return channel.depth + (channel.planes - 1 if any(each.is_mate for each in requests) else 0)


def found_mates(channel: Channel, outstanding: int) -> float:
    """Of how many reads that come, in shares, one is outstanding that could run with it: the others are of different pages."""
    return (outstanding - 1) * (channel.planes - 1) / (channel.planes * channel.luns * channel.pages)


Size = Tuple[float, float]


def sizes_of(channel: Channel, outstanding: int) -> Dict[str, List[Size]]:
    """Of each kind a member's part of its LUN's time, and its stay, for each size that its group may have."""
    sizes = {}
    for kind, spans in channel.spans.items():
        other = min(each.post for name, each in channel.spans.items() if name.split()[0] == kind.split()[0])
        sizes[kind] = [(group_time(spans, members) / members, stay(spans, members, other)) for members in range(1, channel.planes + 1)]
    if channel.pages:
        spans = channel.spans[READ]
        part = group_time(spans, 1) - found_mates(channel, outstanding) * (spans.array - spans.gap)
        sizes[READ] = [(part, stay(spans, 1, spans.post))]
    return sizes


def weights_of(sizes: Dict[str, List[Size]]) -> Iterator[float]:
    """The weights of the dies' side, of 1, at which the best size of a kind may change, with the ends."""
    yield from (0, 1)
    for (part, long), (other_part, other_long) in itertools.chain(*(itertools.combinations(each, 2) for each in sizes.values())):
        slope = (part - long) - (other_part - other_long)
        if slope and 0 < (other_long - long) / slope < 1:
            yield (other_long - long) / slope


def bus_bound(channel: Channel, requests: Sequence[Request]) -> float:
    return len(requests) * 1e9 / sum(channel.spans[each.kind].cmd + channel.spans[each.kind].post for each in requests)


def dies_bound(channel: Channel, requests: Sequence[Request]) -> float:
    """That of dies and outstanding requests."""
    outstanding = most_outstanding(channel, requests)
    sizes, counts = sizes_of(channel, outstanding), Counter(each.kind for each in requests)

    def least_time(weight: float) -> float:
        sums = {kind: min(weight * part + (1 - weight) * long for part, long in sizes[kind]) for kind in counts}
        return sum(counts[kind] * sums[kind] for kind in counts) / (weight * channel.luns + (1 - weight) * outstanding)

    return len(requests) * 1e9 / max(map(least_time, weights_of(sizes)))


class Die:
    """A LUN of the loop: it goes on with what has the least left."""

    def __init__(self) -> None:
        self.left: List[float] = []
        self.since = 0.0  # from when on it has gone on with the first of them
        self.served = self.stayed = 0  # how many have had their part, and how many have stayed long enough

    def accept(self, part: float, now: float) -> None:
        if self.left:
            self.left[0] -= now - self.since
        self.since = now
        heapq.heappush(self.left, part)

    def serves_at(self) -> float:
        return self.since + self.left[0] if self.left else float("inf")

    def serve(self) -> None:
        self.since += heapq.heappop(self.left)
        self.served += 1


class Loop:
    """The closed loop, of requests that are taken in order as there is room."""

    def __init__(self, channel: Channel, requests: Sequence[Request]) -> None:
        sizes = sizes_of(channel, most_outstanding(channel, requests))
        self.depth = channel.depth
        self.parts = {kind: min(part for part, _ in sizes[kind]) for kind in sizes}
        self.stays = {kind: stay(spans, 1, spans.post) for kind, spans in channel.spans.items()}
        self.dies = [Die() for _ in range(channel.luns)]
        self.staying: List[Tuple[float, int]] = []  # until when each stays at least, and on which LUN
        self.coming = deque(requests)
        self.now, self.accepted, self.answered = 0.0, 0, 0

    def next_arrival(self) -> float:
        """When the next request may be accepted, as far as is known."""
        has_room = self.coming and (self.accepted - self.answered < self.depth or self.coming[0].is_mate)
        return self.coming[0].arrival if has_room else float("inf")

    def accept_all(self) -> None:
        while self.next_arrival() <= self.now:
            kind, lun = self.coming.popleft()[:2]
            self.dies[lun].accept(self.parts[kind], self.now)
            heapq.heappush(self.staying, (self.now + self.stays[kind], lun))
            self.accepted += 1

    def go_on(self) -> None:
        """Up to when the next one arrives, is served, or has stayed long enough."""
        die = min(self.dies, key=Die.serves_at)
        stayed = self.staying[0][0] if self.staying else float("inf")
        if self.next_arrival() < min(stayed, die.serves_at()):
            self.now = self.next_arrival()
        elif stayed < die.serves_at():
            self.now, lun = heapq.heappop(self.staying)
            self.dies[lun].stayed += 1
        else:
            self.now = die.serves_at()
            die.serve()
        self.answered = sum(min(die.served, die.stayed) for die in self.dies)

    def answers(self) -> Iterator[float]:
        """When each answer comes."""
        while True:
            self.accept_all()
            before = self.answered
            self.go_on()
            if self.answered > before:
                yield self.now


def loop_bound(channel: Channel, requests: Sequence[Request], measured: range) -> float:
    """That of the closed loop, from one number of answers to another; requests come beyond the last of them."""
    ends = [0.0, *itertools.islice(Loop(channel, requests).answers(), measured.stop)]
    return len(measured) * 1e9 / (ends[measured.stop] - ends[measured.start])


def bounds_of(channel: Channel, requests: Sequence[Request], answers: int) -> Dict[str, float]:
    """The three by their names, of a run that answers that many of the requests and measures all but the first tenth."""
    measured = range(max(1, answers // 10), answers)
    own = requests[measured.start : measured.stop]
    return {"bus": bus_bound(channel, own), "dies": dies_bound(channel, own), "loop": loop_bound(channel, requests, measured)}


def most_joins(channel: Channel, requests: Sequence[Request], kind: str) -> int:
    """How many requests of a kind join others at most."""
    distances = sorted(each.distance for each in requests if each.distance and each.kind.split()[0] == kind)
    room, members = (channel.depth - 1) * len(requests), sum(each.kind.split()[0] == kind for each in requests)
    return min(sum(taken <= room for taken in itertools.accumulate(distances)), members * (channel.planes - 1) // channel.planes)


def saving(spans: Spans, other: int, planes: int, weight: float) -> float:
    """What one who joins saves at most, of the weighted sum of times and stays."""

    def cost(members: int) -> float:
        return weight * group_time(spans, members) + (1 - weight) * members * stay(spans, members, other)

    return max((max(0, members * cost(1) - cost(members)) / (members - 1) for members in range(2, planes + 1)), default=0)


def dies_to_the_end(channel: Channel, requests: Sequence[Request]) -> float:
    """The bound of dies and outstanding requests of a load that is run to its end."""
    joins, counts = {kind: most_joins(channel, requests, kind) for kind in KINDS}, Counter(each.kind for each in requests)
    shortest = {kind: min(spans.post for name, spans in channel.spans.items() if name.split()[0] == kind) for kind in KINDS}

    def least_time(weight: float) -> float:
        alone = sum(count * (weight * group_time(spans, 1) + (1 - weight) * stay(spans, 1, 0))
                    for count, spans in ((count, channel.spans[kind]) for kind, count in counts.items()))
        saved = sum(joins[kind] * saving(channel.spans[kind], shortest[kind], channel.planes, weight) for kind in KINDS)
        return (alone - saved) / (weight * channel.luns + (1 - weight) * channel.depth)

    return len(requests) * 1e9 / max(least_time(weight / 20) for weight in range(21))


def bounds_to_the_end(channel: Channel, requests: Sequence[Request]) -> Dict[str, float]:
    """The three of a load that is run to its end, from the first arrival on."""
    last = list(itertools.islice(Loop(channel, requests).answers(), len(requests)))[-1]
    loop = len(requests) * 1e9 / (last - requests[0].arrival)
    return {"bus": bus_bound(channel, requests), "dies": dies_to_the_end(channel, requests), "loop": loop}


def requests_for(answers: int, channel_depth: int) -> int:
    """How many requests come until that many are answered, at most: mates of all other planes may come with the last one."""
    return answers + channel_depth + MOST_PLANES - 1


def read_source(text: str, luns: int, depth: int, array: float) -> Tuple[Channel, List[Request]]:
    """What the simulator prints of a source. Arrays take at least that share of what is stated."""
    planes, pages, *rows = text.splitlines()
    words = [line.split() for line in rows]
    spans = {kind: Spans(int(cmd), int(gap), int(array * int(long)), int(post)) for kind, cmd, gap, long, post in words[: len(KINDS)]}
    requests = [Request(kind, int(lun), word == "mate") for word, kind, lun in words[len(KINDS) :]]
    return Channel(spans, int(planes.split()[1]), int(pages.split()[1]), luns, depth), requests
