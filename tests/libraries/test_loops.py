"""Random loops of a firmware: plan, run phase after phase, each call against a plain model of it."""

from __future__ import annotations

import dataclasses
import os
import random
import sys
import unittest
from pathlib import Path
from typing import List

ROOT = Path(__file__).resolve().parent.parent.parent
sys.dont_write_bytecode = True
sys.path[:0] = [str(ROOT / "python"), str(Path(__file__).resolve().parent)]
os.environ.setdefault("ONFI_LIBRARY", str(Path(os.environ.get("ONFI_LIBRARIES", ROOT / "lib")).resolve() / "libonfi.so"))

import onfi  # noqa: E402
from drawn_loops import bits_for, drawn_channel, drawn_geometry, drawn_schedule, drawn_want  # noqa: E402
from loop_model import Part, parts_of, phase_of, row_of, stand_behind  # noqa: E402

LOOPS = int(os.environ.get("ONFI_LOOPS", "1000"))
PLANS = 4
NODES = 20


class Loop:
    """A channel that plans a few times, and in between runs some phases of the plan."""

    def __init__(self, test: unittest.TestCase, seed: int) -> None:
        self.test, self.draw = test, random.Random(seed)
        self.channel = drawn_channel(self.draw, [onfi.Lun(self.draw.choice((0, 700)))] * self.draw.randint(1, 8))
        self.geometry = drawn_geometry(self.draw, len(self.channel.luns), self.channel.rules.plane_bits)
        self.queue: List[onfi.Want] = []
        self.accepted = self.draw.choice((0, 5, 1 << 40))
        self.batch: List[onfi.Want] = []
        self.schedule = onfi.Schedule([()] * len(self.channel.luns), ())
        self.phases = 0

    def accept(self) -> None:
        """Takes requests in."""
        for _ in range(self.draw.randint(0, 12)):
            want = drawn_want(self.draw, self.accepted, self.geometry)
            self.test.assertEqual(onfi.row(self.geometry, want.lun, want.block, want.page), row_of(self.geometry, want))
            self.queue.append(want)
            self.accepted += 1

    def plan(self) -> None:
        """The first ones, from now on: time may have passed, and a LUN may be ready before its time."""
        bus_free = self.channel.bus_free + self.draw.choice((0, 0, 500))
        luns = [dataclasses.replace(lun, since=lun.since - self.draw.choice((0, 0, lun.since // 2))) for lun in self.channel.luns]
        self.channel = dataclasses.replace(self.channel, bus_free=bus_free, luns=luns)
        self.batch = self.queue[: self.draw.choice((1, 3, 8, 8))]
        if self.draw.random() < 0.5:
            self.schedule = onfi.plan(self.channel, self.batch, "within", NODES).schedule
        else:
            self.schedule = drawn_schedule(self.draw, self.channel, self.batch)

    def refuses(self, part: Part) -> None:
        """Another phase than the due one, one that starts too soon, a bus that isn't free, a device that has no such block, no device."""
        said, want = (self.channel, self.batch), part.want
        self.test.assertRaises(onfi.NotDue, onfi.ran, *said, self.schedule, want.lun, part.number + 1, part.start)
        self.test.assertRaises(onfi.NotDue, onfi.ran, *said, self.schedule, want.lun + 1, part.number, part.start)
        if part.start:
            self.test.assertRaises(onfi.TooSoon, onfi.ran, *said, self.schedule, want.lun, part.number, part.start - 1)
        late = dataclasses.replace(self.channel, bus_free=part.start + 1)
        self.test.assertRaises(onfi.Illegal, onfi.due, late, self.batch, self.geometry, self.schedule)
        if want.block:
            smaller = dataclasses.replace(self.geometry, blocks_per_lun=want.block, block_bits=bits_for(want.block))
            self.test.assertRaises(onfi.BadPlace, onfi.due, *said, smaller, self.schedule)
            self.test.assertRaises(onfi.BadPlace, onfi.row, smaller, want.lun, want.block, want.page)
        none = dataclasses.replace(self.geometry, lun_count=0)
        self.test.assertRaises(onfi.BadGeometry, onfi.due, *said, none, self.schedule)

    def run_due(self, part: Part) -> None:
        """Runs a phase, late now and then, as the library and as the model have it."""
        said = (self.channel, self.batch)
        self.test.assertEqual(onfi.due(*said, self.geometry, self.schedule), phase_of(self.channel, self.geometry, part))
        if self.draw.random() < 0.03:
            self.refuses(part)
        started = part.start + self.draw.choice((0, 0, 0, 1, 777))
        wanted = stand_behind(*said, self.schedule, part, started)
        found = onfi.ran(*said, self.schedule, part.want.lun, part.number, started)
        self.same(found, wanted)
        self.channel, self.batch, self.schedule = wanted.channel, list(wanted.wants), wanted.schedule
        self.queue = [want for want in self.queue if not (part.is_new and want in part.members)]
        self.phases += 1

    def same(self, found: onfi.Stand, wanted: onfi.Stand) -> None:
        """Both stands, whatever sequences they are made of."""
        self.test.assertEqual(found.channel, wanted.channel)
        self.test.assertEqual(list(found.wants), list(wanted.wants))
        self.test.assertEqual([list(starts) for starts in found.schedule.rest], [list(starts) for starts in wanted.schedule.rest])
        self.test.assertEqual([(list(it.wants), list(it.starts)) for it in found.schedule.groups], [(list(it.wants), list(it.starts)) for it in wanted.schedule.groups])

    def run(self, most: int) -> None:
        """Runs that many phases, or up to the end, where nothing is due."""
        for _ in range(most):
            parts = parts_of(self.channel, self.batch, self.schedule)
            if not parts:
                self.test.assertRaises(onfi.NothingDue, onfi.due, self.channel, self.batch, self.geometry, self.schedule)
                return
            self.run_due(parts[0])

    def play(self) -> int:
        """How many phases have run."""
        for at in range(PLANS):
            self.accept()
            self.plan()
            self.run(self.draw.randint(0, 20) if at + 1 < PLANS else 1_000)
        return self.phases


class Loops(unittest.TestCase):
    def test_random_loops(self) -> None:
        phases = 0
        for seed in range(LOOPS):
            with self.subTest(seed=seed):
                phases += Loop(self, seed).play()
        self.assertGreater(phases, 20 * LOOPS)


if __name__ == "__main__":
    unittest.main()
