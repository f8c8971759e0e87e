"""A drive of two channels of eight LUNs in SimPy: each channel asks again and again which phase is next.

    PYTHONPATH=python python3 examples/python/ssd.py [--requests N] [--seed N] [--load SHARE] [--sectors N] [--ends] ..

A channel has 64 requests outstanding: a new one comes with each answer, or with --load by itself. It does what the driver of
examples/c/firmware.c does: channel 0 answers each request when `firmware` with the same seed does, channel 1 when it does with the next
seed. With --ends it prints when: channel, number, end. With --sectors 1 reads want 4 KiB, one sector of a page's four, as by
`workload mixed-4k` of the driver: the dispatcher knows how long such an output is, and the library says from which column on how many
bytes are taken.

SimPy 3 or later is wanted (Debian's python3-simpy3, or pip's simpy). Without it nothing is simulated. Times are ns.
"""

from __future__ import annotations

import argparse
import dataclasses
import importlib
import math
from typing import Any, Dict, Iterator, List, Tuple

from onfi import Channel, Dispatcher, Geometry, Kind, Lengths, Lun, Phase, Rules, Spans, Timing, Want, kind_by, output_of

CHANNELS, LUNS, PLANES, DEPTH = 2, 8, 4, 64
PAGE_BYTES, PAGES, BLOCKS = 16_384 + 2_048, 1_152, 16_384
SECTORS = 4
SECTOR_BYTES = PAGE_BYTES // SECTORS
READ_BLOCKS, PROGRAM_BLOCKS, FIRST_PROGRAMMED = 512 * PLANES, 400, 1_000
ARRAYS: Dict[int, int] = {Kind.READ: 75_100, Kind.PROGRAM: 800_100, Kind.ERASE: 10_000_100}
GEOMETRY = Geometry(BLOCKS, 11, 14, 3, PAGES, PAGE_BYTES - 2_048, 2_048, LUNS, 2, 2, 4, False, True, True)
WORD = (1 << 64) - 1


@dataclasses.dataclass(frozen=True)
class Setup:
    """How long a byte has the bus, and what is simulated."""

    byte: float
    requests: int
    load: float
    array: Tuple[float, float]
    sectors: int
    ends: bool


def cycle_of(byte: float) -> int:
    return 20 if byte >= 20 else 25


def time_of(data: int, byte: float) -> int:
    """How long that many bytes have the bus, in ns."""
    return int(data * byte + 0.5)


def output_time(data: int, byte: float) -> int:
    return 7 * cycle_of(byte) + 600 + time_of(data, byte)


def lengths_of(byte: float) -> Lengths:
    """How long outputs of sectors have it."""
    return Lengths({count: output_time(count * SECTOR_BYTES, byte) for count in range(1, SECTORS + 1)})


def channel_of(byte: float) -> Channel:
    """A channel by its stated times, in ns."""
    cycle = cycle_of(byte)
    status = 5 * cycle + 180
    read = Spans(7 * cycle, 600, ARRAYS[Kind.READ], output_time(PAGE_BYTES, byte))
    program = Spans(7 * cycle + 400 + time_of(PAGE_BYTES, byte), 600, ARRAYS[Kind.PROGRAM], status)
    return Channel(Timing(read, program, Spans(5 * cycle, 600, ARRAYS[Kind.ERASE], status)), Rules(True, True, False, 2), [Lun()] * LUNS, lengths_of(byte))


class Numbers:
    """A row of random numbers (splitmix64), the same as in C."""

    def __init__(self, state: int) -> None:
        self.state = state & WORD

    def number(self) -> int:
        self.state = (self.state + 0x9E3779B97F4A7C15) & WORD
        mixed = ((self.state ^ self.state >> 30) * 0xBF58476D1CE4E5B9) & WORD
        mixed = ((mixed ^ mixed >> 27) * 0x94D049BB133111EB) & WORD
        return mixed ^ mixed >> 31

    def share(self) -> float:
        """From 0 to below 1."""
        return (self.number() >> 11) / 9007199254740992.0

    def below(self, bound: int) -> int:
        return (self.number() >> 32) * bound >> 32


class Host:
    """Seven of ten requests are reads of any page, the others programs of a run over planes, LUNs, pages."""

    def __init__(self, seed: int, sectors: int) -> None:
        self.wants, self.arrivals, self.places, self.programs = Numbers(2 * seed), Numbers(2 * seed + 1), Numbers(~(2 * seed)), 0
        self.sectors = sectors

    def want(self, number: int) -> Want:
        if self.wants.share() < 0.7:
            lun, block = self.wants.below(LUNS), self.wants.below(READ_BLOCKS)
            return Want(number, kind_by(Kind.READ, self.sectors), lun, block, self.wants.below(PAGES))
        row, place = divmod(self.programs, PLANES * LUNS)
        self.programs += 1
        block = (FIRST_PROGRAMMED + row // PAGES % PROGRAM_BLOCKS) * PLANES + place % PLANES
        return Want(number, Kind.PROGRAM, place // PLANES, block, row % PAGES)

    def first(self, want: Want) -> int:
        """The first sector that it wants."""
        count = want.kind >> 5
        return self.places.below(SECTORS + 1 - count) if count else 0

    def pause(self, mean: float) -> int:
        """How long until the next one comes by itself."""
        return 1 + int(-math.log(1 - self.arrivals.share()) * mean)


class Controller:
    """One channel: its dispatcher, and what is on its bus."""

    def __init__(self, simpy: Any, env: Any, number: int, seed: int, setup: Setup) -> None:
        self.simpy, self.env, self.number, self.seed, self.setup = simpy, env, number, seed, setup
        self.host = Host(seed, setup.sectors)
        self.timing, self.lengths = channel_of(setup.byte).timing, lengths_of(setup.byte)
        self.dispatcher = Dispatcher(channel_of(setup.byte), GEOMETRY)
        self.first: Dict[int, int] = {}
        self.arrived: Dict[int, int] = {}
        self.begun: List[int] = [0] * LUNS
        self.accepted = self.outstanding = self.busy = 0
        self.latencies: List[int] = []
        self.until = 0
        self.news = env.event()
        self.room = env.event()
        env.process(self.open_loop() if setup.load else self.closed_loop())
        self.ended = env.process(self.loop())

    def tell(self) -> None:
        """Wakes the loop where it waits."""
        if not self.news.triggered:
            self.news.succeed()

    def accept(self, arrived: int) -> None:
        want = self.host.want(self.accepted)
        self.accepted += 1
        self.outstanding += 1
        self.dispatcher.accept(want)
        self.arrived[want.id] = arrived
        self.first[want.id] = self.host.first(want)

    def closed_loop(self) -> Iterator[Any]:
        """The first requests; each answer brings the next one."""
        for _ in range(DEPTH):
            self.accept(self.env.now)
        self.tell()
        yield self.env.timeout(0)

    def open_loop(self) -> Iterator[Any]:
        """Requests come one by one, and wait where there is no room."""
        read, program = self.timing.read, self.timing.program
        mean = 0.7 * (read.cmd + (self.lengths.sectors[self.setup.sectors] if self.setup.sectors else read.post))
        mean = (mean + 0.3 * (program.cmd + program.post)) / self.setup.load
        arrival = 0
        while True:
            arrival += self.host.pause(mean)
            yield self.env.timeout(max(arrival - self.env.now, 0))
            while self.outstanding == DEPTH:
                self.room = self.env.event()
                yield self.room
            self.accept(arrival)
            self.tell()

    def array(self, lun: int, time: int) -> Iterator[Any]:
        """R/B# of a LUN rises before the stated time."""
        yield self.env.timeout(time)
        self.dispatcher.ready(lun, self.env.now)
        self.tell()

    def bus_time(self, phase: Phase) -> int:
        """How long it has the bus: a data output by the bytes that are taken, which are those that its request wants."""
        output = output_of(GEOMETRY, SECTOR_BYTES, phase, self.first[phase.want])
        if not output.bytes:
            return phase.end - phase.start
        assert output.column == self.first[phase.want] * SECTOR_BYTES
        assert output.bytes == (self.setup.sectors or SECTORS) * SECTOR_BYTES
        return output_time(output.bytes, self.setup.byte)

    def run_phase(self, phase: Phase) -> Iterator[Any]:
        """Reports to the library that it runs from now on, and has it on the bus."""
        self.dispatcher.ran(self.env.now)
        self.busy += phase.end - phase.start
        if phase.number == 0:
            self.begun[phase.lun] = phase.want
        yield self.env.timeout(self.bus_time(phase))
        if phase.number + 1 == phase.members:
            self.begin_array(phase)
        if phase.is_post:
            self.answer(phase)

    def begin_array(self, phase: Phase) -> None:
        """The array of a LUN works from now on, mostly for less than is stated."""
        stated = ARRAYS[phase.kind & 31]
        least, most = self.setup.array
        share = least + (most - least) * Numbers(self.seed * 0x2545F4914F6CDD1D & WORD ^ self.begun[phase.lun] << 20).share()
        if int(stated * share) < stated:
            self.env.process(self.array(phase.lun, int(stated * share)))

    def answer(self, phase: Phase) -> None:
        self.outstanding -= 1
        self.until = self.env.now
        self.latencies.append(self.env.now - self.arrived.pop(phase.want))
        del self.first[phase.want]
        if self.setup.ends:
            print(self.number, phase.want, self.env.now)
        if not self.setup.load:
            self.accept(self.env.now)
        elif not self.room.triggered:
            self.room.succeed()

    def loop(self) -> Iterator[Any]:
        """Runs what is next, or waits until it may start, or until there is news before."""
        while len(self.latencies) < self.setup.requests:
            self.news = self.env.event()
            phase = self.dispatcher.next(self.env.now)
            if phase is None:
                yield self.news
            elif phase.start > self.env.now:
                yield self.env.timeout(phase.start - self.env.now) | self.news
            else:
                yield from self.run_phase(phase)

    def print_figures(self) -> None:
        latencies, seconds = sorted(self.latencies), self.until / 1e9
        mean, most = sum(latencies) / len(latencies) / 1e3, latencies[len(latencies) * 99 // 100 - 1] / 1e3
        print(f"channel {self.number}: {len(latencies) / seconds:.0f} requests a second, bus busy {self.busy / 1e9 / seconds:.1%}; "
              f"{mean:.1f} us in the mean, 99 % within {most:.1f} us")


def simulate(simpy: Any, seed: int, setup: Setup) -> None:
    env = simpy.Environment()
    channels = [Controller(simpy, env, number, seed + number, setup) for number in range(CHANNELS)]
    for channel in channels:
        env.run(channel.ended)
    if not setup.ends:
        for channel in channels:
            channel.print_figures()


def main() -> None:
    parser = argparse.ArgumentParser(description=__doc__, formatter_class=argparse.RawDescriptionHelpFormatter)
    parser.add_argument("--requests", type=int, default=500, metavar="N", help="answered on each channel")
    parser.add_argument("--seed", type=int, default=1, metavar="N")
    parser.add_argument("--byte", type=float, default=2, metavar="NS", help="how long a byte has the bus")
    parser.add_argument("--load", type=float, default=0, metavar="SHARE", help="of the bus that arrivals ask for; 0: a new one comes with each answer")
    parser.add_argument("--array", type=float, nargs=2, default=(1, 1), metavar="SHARE", help="real array times, in shares of the stated ones")
    parser.add_argument("--sectors", type=int, default=0, choices=range(SECTORS + 1), metavar="N", help="how many of four a read wants; 0: its page")
    parser.add_argument("--ends", action="store_true")
    asked = parser.parse_args()
    try:
        simpy = importlib.import_module("simpy")
    except ImportError:
        print("nothing is simulated: SimPy is not installed (Debian's python3-simpy3, or pip's simpy)")
        return
    least, most = asked.array
    simulate(simpy, asked.seed, Setup(asked.byte, asked.requests, asked.load, (least, most), asked.sectors, asked.ends))


if __name__ == "__main__":
    main()
