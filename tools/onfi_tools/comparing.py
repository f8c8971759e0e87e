"""The requests of a legal log, how long each took, and what the dispatcher makes of the same ones."""

import itertools
import math
from collections import defaultdict, deque
from typing import Any, Deque, Dict, Iterable, Iterator, List, NamedTuple, Optional, Sequence, Tuple

from onfi_tools.script import first_form, lengths_of, posts_of, rows_of
from onfi_tools.trace import read_trace

SHARES = (50, 95, 99, 99.9)
# From here on stand the numbers of what runs as the log begins, past those of its own requests.
BEFORE = 2**32


class Request(NamedTuple):
    """A request of a log, by its number in the order of commands: when its command began and its post ended, in ns."""

    number: int
    kind: str
    sectors: int
    lun: int
    block: int
    page: int
    began: int
    ended: Optional[int] = None


class Outcome(NamedTuple):
    """When requests came and when they ended, in ns, by their numbers."""

    came: Dict[int, int]
    ended: Dict[int, int]

    @property
    def end(self) -> int:
        return max(self.ended.values(), default=0)


class Latencies(NamedTuple):
    """Of the requests of a kind how many, and of their latencies in ns the mean, what 50, 95, 99 and 99.9 of 100 don't exceed, and the most."""

    kind: str
    count: int
    mean: float
    shares: Tuple[int, ...]
    most: int


def asked_sectors(script: str) -> Dict[Tuple[str, ...], Deque[int]]:
    """How many sectors the requests of a script put out, by kind, LUN, block and page, in order; none where it has no requests."""
    rows = rows_of(script)
    counts = {int(row[1]): int(row[2]) for row in rows if row[:1] == ["sectors"]}
    found: Dict[Tuple[str, ...], Deque[int]] = defaultdict(deque)
    for number, row in enumerate(row for row in rows if row[:1] == ["want"]):
        found[tuple(row[1:])].append(counts.get(number, 0))
    return found


def requests_of(script: str, log: str) -> List[Request]:
    """The requests whose command and post a legal log has, in the order of their commands."""
    lengths, posts, asked = lengths_of(script), posts_of(script), asked_sectors(script)
    found: List[Request] = []
    begun: Dict[Tuple[str, ...], Deque[int]] = defaultdict(deque)
    for phase in read_trace(log.splitlines(), lengths, posts):
        place = tuple(map(str, (phase.kind, phase.lun, phase.block, phase.page)))
        if not phase.is_post:
            sectors = asked[place].popleft() if asked[place] else phase.sectors
            begun[place].append(len(found))
            found.append(Request(len(found), phase.kind, sectors, phase.lun, phase.block, phase.page, phase.start))
        elif begun[place]:
            at = begun[place].popleft()
            length = posts[found[at].sectors] if found[at].sectors else lengths[phase.kind].post
            found[at] = found[at]._replace(ended=phase.start + length)
    over = [it for it in found if it.ended is not None]
    return [it._replace(number=number) for number, it in enumerate(over)]


def ended_of(request: Request) -> int:
    assert request.ended is not None
    return request.ended


def of_log(requests: Sequence[Request], outstanding: Optional[int]) -> Outcome:
    """The log itself: each request came with its command, or with that many outstanding as the one that many before it ended, if that was sooner."""
    ended = {it.number: ended_of(it) for it in requests}
    came = {it.number: it.began for it in requests}
    if outstanding is not None:
        for it in requests:
            came[it.number] = min(it.began, ended[it.number - outstanding]) if it.number >= outstanding else min(came.values())
    return Outcome(came, ended)


def kind_of(onfi: Any, word: str, sectors: int) -> Any:
    kind = onfi.Kind[word.upper()]
    return onfi.kind_by(kind, sectors) if sectors and word == "read" else kind


def want_of(onfi: Any, it: Request) -> Any:
    return onfi.Want(it.number, kind_of(onfi, it.kind, it.sectors), it.lun, it.block, it.page)


def luns_of(onfi: Any, rows: Sequence[Sequence[str]], count: int) -> List[Any]:
    """What the LUNs do as the log begins."""
    luns = [onfi.Lun()] * count
    asked = {int(row[1]): [*map(int, row[2:])] for row in rows if row[:1] == ["runsectors"]}
    numbers = itertools.count(BEFORE)
    for row in rows:
        if row[:1] == ["free"]:
            luns[int(row[1])] = onfi.Lun(since=int(row[2]))
        elif row[:1] == ["running"]:
            lun, over, ready, page = int(row[1]), int(row[2]), int(row[3]), int(row[5])
            counts = asked.get(lun, []) + [0] * len(row)
            members = zip(row[6:], counts)
            luns[lun] = onfi.Lun(ready, [onfi.Want(next(numbers), kind_of(onfi, row[4], its), lun, int(block), page) for block, its in members], over)
    return luns


def channel_of(onfi: Any, script: str) -> Any:
    """The channel of a script, of either form, as the log begins."""
    rows = rows_of(script)
    device = [row.split(",") for row in first_form(script)]
    luns, plane_bits, read, write = next([*map(int, row[1:])] for row in device if row[0] == "shape")
    spans = {row[1]: onfi.Spans(*map(int, row[2:])) for row in device if row[0] == "spans"}
    rules = onfi.Rules(read=bool(read), write=bool(write), strict=["strict", "1"] in device, plane_bits=plane_bits)
    timing = onfi.Timing(spans["read"], spans["program"], spans["erase"])
    free = next((int(row[1]) for row in rows if row[:1] == ["bus"]), 0)
    return onfi.Channel(timing, rules, luns_of(onfi, rows, luns), onfi.Lengths(posts_of(script)), free)


def geometry_of(onfi: Any, channel: Any) -> Any:
    """Addresses for all that a log can name; nothing that is compared rests on them."""
    luns = len(channel.luns)
    return onfi.Geometry(blocks_per_lun=65_536, page_bits=12, block_bits=16, lun_bits=(luns - 1).bit_length(), pages_per_block=4_096, data_bytes=1,
                         spare_bytes=0, lun_count=luns, plane_address_bits=channel.rules.plane_bits, column_address_cycles=2, row_address_cycles=4,
                         any_page_order=True, multi_plane_writes=True, multi_plane_reads=True)


class Loop:
    """The dispatcher on the requests of a log: each comes with its command in the log, or with that many outstanding as the one that many before
    it has ended, the first ones as the log begins its first."""

    def __init__(self, onfi: Any, channel: Any, requests: Sequence[Request], outstanding: Optional[int]) -> None:
        self.onfi, self.outstanding = onfi, outstanding
        self.dispatcher = onfi.Dispatcher(channel, geometry_of(onfi, channel))
        self.first = min((it.began for it in requests), default=0)
        self.left, self.outside = deque(requests), list(requests)[:0]
        self.found = Outcome({}, {})

    def following(self) -> Optional[int]:
        """When the next request comes; None where that isn't known yet, or none is left."""
        if not self.left:
            return None
        it = self.left[0]
        if self.outstanding is None:
            return it.began
        return self.first if it.number < self.outstanding else self.found.ended.get(it.number - self.outstanding)

    def give(self, now: int) -> None:
        """Gives the dispatcher what has come; what a LUN has no room for waits, and what comes after it for that LUN."""
        came = self.following()
        while came is not None and came <= now:
            self.found.came[self.left[0].number] = came
            self.outside.append(self.left.popleft())
            came = self.following()
        self.outside = [it for it in self.outside if not self.takes(it)]

    def takes(self, it: Request) -> bool:
        try:
            self.dispatcher.accept(want_of(self.onfi, it))
        except self.onfi.TooMany:
            return False
        return True

    def run(self) -> Outcome:
        now = 0
        while True:
            self.give(now)
            phase, came = self.dispatcher.next(now), self.following()
            if came is not None and (phase is None or came <= phase.start):
                now = came
            elif phase is None:
                return self.found
            else:
                self.dispatcher.ran(phase.start)
                if phase.is_post and phase.want < BEFORE:
                    self.found.ended[phase.want] = phase.end
                now = phase.end


def latencies(requests: Iterable[Request], outcome: Outcome) -> Iterator[Latencies]:
    """Those of each kind."""
    of: Dict[str, List[int]] = defaultdict(list)
    for it in requests:
        of[it.kind].append(outcome.ended[it.number] - outcome.came[it.number])
    for kind, own in sorted(of.items()):
        own.sort()
        shares = tuple(own[max(math.ceil(len(own) * share / 100) - 1, 0)] for share in SHARES)
        yield Latencies(kind, len(own), sum(own) / len(own), shares, own[-1])


def compared(requests: Sequence[Request], log: Outcome, dispatcher: Outcome) -> Iterator[str]:
    """The lines of the comparison."""
    later = dispatcher.end - log.end
    yield f"end {log.end} {dispatcher.end}"
    yield f"the log ends {later} ns sooner: it is the better" if later > 0 else f"the dispatcher ends {-later} ns sooner" if later else "both end together"
    yield "kind,of,count,mean,50,95,99,99.9,most"
    for own, its in zip(latencies(requests, log), latencies(requests, dispatcher)):
        for name, row in (("log", own), ("dispatcher", its)):
            yield ",".join([row.kind, name, str(row.count), f"{row.mean:.0f}", *map(str, row.shares), str(row.most)])
