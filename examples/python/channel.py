"""A simulated channel whose batches are planned: how busy its bus is, with the standard library alone.

Hosts send requests at random times. Whenever the bus is free, what waits, up to eight requests, is planned as a batch and
runs to its end; the next batch is planned on the LUNs as they are then. It prints the mean latency and how busy the bus was,
for batches in the order of the plan and, to compare, for the same batches by one request after the other. What was on the bus is
kept as a log, which is judged at the end as a whole.
"""

from __future__ import annotations

import random
from typing import Callable, List, NamedTuple, Tuple

from onfi import Channel, Kind, Logged, Lun, Rules, Spans, Timing, Want, audit, check, plan

LUNS = 4
TIMING = Timing(read=Spans(140, 600, 60_100, 37_700), program=Spans(37_900, 600, 800_100, 280), erase=Spans(100, 600, 6_000_100, 280))
CHANNEL = Channel(TIMING, Rules(read=True, write=True, plane_bits=1), [Lun()] * LUNS)


class Request(NamedTuple):
    sent: int
    kind: Kind
    lun: int
    block: int
    page: int


class Ran(NamedTuple):
    """When each request of a batch is answered, when the bus is free again, and what was on it."""

    ends: List[int]
    free: int
    log: List[Logged]


def logged(start: int, it: Request, is_post: bool) -> Logged:
    return Logged(start, it.lun, it.kind, is_post, it.block, it.page)


def drawn(count: int, seed: int) -> List[Request]:
    """Reads mostly, one each 35 microseconds in the mean."""
    draw, now, found = random.Random(seed), 0, []
    for _ in range(count):
        now += draw.randrange(70_000)
        kind = Kind.READ if draw.randrange(10) else Kind.PROGRAM
        found.append(Request(now, kind, draw.randrange(LUNS), draw.randrange(16), draw.randrange(4)))
    return found


def spans_of(kind: int) -> Spans:
    return (TIMING.read, TIMING.program, TIMING.erase)[kind]


def planned(batch: List[Request], now: int) -> Ran:
    """A batch by a plan that is checked."""
    wants = [Want(number, it.kind, it.lun, it.block, it.page) for number, it in enumerate(batch)]
    channel = Channel(TIMING, CHANNEL.rules, [Lun(now)] * LUNS, bus_free=now)
    made = plan(channel, wants)
    assert check(channel, wants, made) == made.finish
    ends = [0] * len(batch)
    log: List[Logged] = []
    for group in made.schedule.groups:
        size = len(group.wants)
        for member, number in enumerate(group.wants):
            command, post = group.starts[member], group.starts[size + member]
            ends[number] = post + spans_of(wants[number].kind).post
            log += [logged(command, batch[number], False), logged(post, batch[number], True)]
    return Ran(ends, made.finish, sorted(log, key=lambda it: it.start))


def one_by_one(batch: List[Request], now: int) -> Ran:
    """The same without overlap."""
    ends: List[int] = []
    log: List[Logged] = []
    for it in batch:
        spans = spans_of(it.kind)
        log += [logged(now, it, False), logged(now + spans.cmd + spans.array, it, True)]
        now += spans.cmd + spans.array + spans.post
        ends.append(now)
    return Ran(ends, now, log)


def simulated(requests: List[Request], way: Callable[[List[Request], int], Ran]) -> Tuple[float, int, List[Logged]]:
    """The mean latency and the end, in ns, and what was on the bus."""
    now = 0
    latencies: List[int] = []
    log: List[Logged] = []
    while len(latencies) < len(requests):
        done = len(latencies)
        now = max(now, requests[done].sent)
        batch = [it for it in requests[done : done + 8] if it.sent <= now]
        ran = way(batch, now)
        now = ran.free
        latencies += [end - it.sent for it, end in zip(batch, ran.ends)]
        log += ran.log
    return sum(latencies) / len(latencies), now, log


def main() -> None:
    requests = drawn(1000, seed=1)
    work = sum(spans_of(it.kind).cmd + spans_of(it.kind).post for it in requests)
    for name, way in (("one by one", one_by_one), ("planned", planned)):
        latency, end, log = simulated(requests, way)
        assert not list(audit(CHANNEL, log))
        print(f"{name:10}  mean latency {latency / 1000:9.1f} us, bus busy {100 * work / end:4.1f} %; its {len(log)} phases are legal")


if __name__ == "__main__":
    main()
