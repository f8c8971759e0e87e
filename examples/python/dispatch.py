"""A channel driven phase by phase, as a firmware drives it: a small event loop, with the standard library alone.

Hosts send requests at random times, one of fifty to a page that the device lacks: that one is refused, and the others go on. The library
says which phase is next; the loop has it on its bus, and each LUN's array works for less than is stated, as R/B# shows. What was on
the bus is judged at the end. It prints how busy the bus was, and latencies.
"""

from __future__ import annotations

import heapq
import random
from typing import Dict, List, NamedTuple, Optional, Tuple

from onfi import Audit, BadPlace, Channel, Dispatcher, Geometry, Kind, Lun, Phase, Rules, Spans, Timing, Want

LUNS = 8
TIMING = Timing(read=Spans(175, 600, 75_100, 37_639), program=Spans(37_439, 600, 800_100, 305), erase=Spans(125, 600, 10_000_100, 305))
CHANNEL = Channel(TIMING, Rules(read=True, write=True, plane_bits=2), [Lun()] * LUNS)
GEOMETRY = Geometry(1_024, 11, 10, 3, 1_152, 16_384, 2_048, LUNS, 2, 2, 3, False, True, True)


class Event(NamedTuple):
    """A request comes, or R/B# of a LUN rises."""

    time: int
    want: Optional[Want]
    lun: int = 0


def drawn(count: int, draw: random.Random) -> List[Event]:
    """Reads mostly, one each 50 microseconds in the mean."""
    now, events = 0, []
    for number in range(count):
        now += draw.randrange(100_000)
        kind = Kind.READ if draw.randrange(10) < 7 else Kind.PROGRAM
        block = draw.randrange(64) if number % 50 else GEOMETRY.blocks_per_lun
        events.append(Event(now, Want(number, kind, draw.randrange(LUNS), block, draw.randrange(16))))
    return events


class Drive:
    """The loop: what is to come, by time, and what has come of it."""

    def __init__(self, events: List[Event], draw: random.Random) -> None:
        self.channel, self.audit, self.draw = Dispatcher(CHANNEL, GEOMETRY), Audit(CHANNEL), draw
        self.events: List[Tuple[int, int, Event]] = [(it.time, at, it) for at, it in enumerate(events)]
        self.arrived: Dict[int, int] = {}
        self.latencies: List[int] = []
        self.now = self.busy = self.refused = 0

    def take(self, event: Event) -> None:
        """A request that the device can't have is refused, and nothing else changes."""
        if event.want is None:
            self.channel.ready(event.lun, event.time)
            self.audit.ready(event.lun, event.time)
            return
        try:
            self.channel.accept(event.want)
            self.arrived[event.want.id] = event.time
        except BadPlace:
            self.refused += 1

    def run(self, phase: Phase) -> None:
        """Has a phase on the bus. After the last command of a group its array works, for four fifths of what is stated or more."""
        assert self.audit.judge(phase) is None
        self.channel.ran(phase.start)
        self.now = phase.end
        self.busy += phase.end - phase.start
        if phase.is_post:
            self.latencies.append(self.now - self.arrived.pop(phase.want))
        elif phase.number + 1 == phase.members:
            stated = (TIMING.read, TIMING.program)[phase.kind].array
            rises = self.now + int(stated * self.draw.uniform(0.8, 0.99))
            heapq.heappush(self.events, (rises, -1, Event(rises, None, phase.lun)))

    def turn(self) -> bool:
        """What has come by now, then the next phase, where nothing comes before it; False where nothing is left."""
        while self.events and self.events[0][0] <= self.now:
            self.take(heapq.heappop(self.events)[2])
        phase = self.channel.next(self.now)
        if phase is not None and not (self.events and self.events[0][0] < phase.start):
            self.run(phase)
        elif self.events:
            self.now = self.events[0][0]
        else:
            return False
        return True


def main() -> None:
    draw = random.Random(1)
    drive = Drive(drawn(2_000, draw), draw)
    while drive.turn():
        pass
    latencies = sorted(drive.latencies)
    mean, most = sum(latencies) / len(latencies) / 1000, latencies[len(latencies) * 99 // 100] / 1000
    print(f"{len(latencies)} answered, {drive.refused} refused; bus busy {100 * drive.busy / drive.now:.1f} %; {mean:.1f} us in the mean, 99 % within {most:.1f} us")


if __name__ == "__main__":
    main()
