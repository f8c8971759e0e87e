"""The Python library: refusals by their names, and what dataclasses hold."""

from __future__ import annotations

import ast
import base64
import contextlib
import ctypes
import dataclasses
import hashlib
import inspect
import io
import itertools
import os
import pickle
import random
import re
import shutil
import subprocess
import sys
import tempfile
import textwrap
import unittest
import zipfile
from pathlib import Path
from typing import Any, Callable, Dict, Iterator, List, Optional, Sequence, Tuple, Type, Union

sys.path.insert(0, str(Path(__file__).resolve().parent))
import test_libraries  # noqa: E402, F401

import onfi  # noqa: E402
from onfi_tools.drawn import any_script  # noqa: E402

ROOT = Path(__file__).resolve().parent.parent.parent
TIMING = onfi.Timing(onfi.Spans(140, 600, 25_100, 11_000), onfi.Spans(10_800, 600, 200_100, 280), onfi.Spans(100, 600, 1_500_100, 280))
LUNS = [onfi.Lun(), onfi.Lun(since=500)]
CHANNEL = onfi.Channel(TIMING, onfi.Rules(read=True, write=True, plane_bits=1), LUNS)
WANTS = [onfi.Want(3, onfi.Kind.READ, 0, 0, 5), onfi.Want(5, onfi.Kind.READ, 0, 1, 5), onfi.Want(9, onfi.Kind.READ, 1, 0)]

LENGTHS = onfi.Lengths({1: 3_080, 2: 5_720, 3: 8_360})
SECTORED = dataclasses.replace(CHANNEL, lengths=LENGTHS)
SECTORS = [dataclasses.replace(want, kind=onfi.kind_by(onfi.Kind.READ, count)) for want, count in zip(WANTS, (1, 0, 3))]
GEOMETRY = onfi.Geometry(
    blocks_per_lun=16, page_bits=6, block_bits=4, lun_bits=1, pages_per_block=64, data_bytes=512, spare_bytes=16, lun_count=2, plane_address_bits=1,
    column_address_cycles=2, row_address_cycles=3, any_page_order=False, multi_plane_writes=True, multi_plane_reads=True)


def changed(channel: onfi.Channel, **rules: Any) -> onfi.Channel:
    return dataclasses.replace(channel, rules=dataclasses.replace(channel.rules, **rules))


def with_luns(luns: Any, channel: onfi.Channel = CHANNEL) -> onfi.Channel:
    return dataclasses.replace(channel, luns=luns)


class Plans(unittest.TestCase):
    def test_plan_and_check(self) -> None:
        plan = onfi.plan(CHANNEL, WANTS)
        self.assertEqual({want for group in plan.schedule.groups for want in group.wants}, {3, 5, 9})
        self.assertEqual(len(plan.schedule.rest), 2)
        self.assertGreaterEqual(plan.opened, 1)
        self.assertTrue(plan.certificate.startswith(b"ONFICERT 1\n"))
        self.assertEqual((onfi.check(CHANNEL, WANTS, plan), plan.below), (plan.finish, plan.finish))

    def test_the_lines_of_the_page(self) -> None:
        text = (Path(__file__).resolve().parent.parent.parent / "docs/LIBRARIES.md").read_text()
        block = re.search(r"^    from onfi import .*\n(?:(?:    .*)?\n)*", text, re.MULTILINE)
        assert block
        names: Dict[str, Any] = {}
        exec(textwrap.dedent(block[0]), names)
        self.assertEqual(names["made"].finish, 47_240)

    def test_running_groups(self) -> None:
        plan = onfi.plan(with_luns([onfi.Lun(1000, [WANTS[0], WANTS[1]], 2), onfi.Lun()]), WANTS[2:])
        self.assertEqual(len(plan.schedule.rest[0]), 2)
        self.assertEqual(plan.schedule.rest[1], ())

    def test_nothing_to_do(self) -> None:
        plan = onfi.plan(dataclasses.replace(CHANNEL, bus_free=77), [])
        self.assertEqual((plan.finish, plan.schedule.groups), (77, ()))

    def test_refusals(self) -> None:
        def refused(name: Type[onfi.Refused], channel: onfi.Channel = CHANNEL, wants: Any = WANTS, **how: Any) -> None:
            ways: List[Dict[str, Any]] = [{"by": by, **how} for by in ("plain", "within", "rule")]
            for way in ways[:1] if name is onfi.Over else ways:
                with self.assertRaises(name) as told:
                    onfi.plan(channel, wants, **way)
                self.assertTrue(str(told.exception))
                self.assertIsInstance(told.exception, onfi.Refused)

        zero = dataclasses.replace(TIMING, read=onfi.Spans(0, 1, 1, 1))
        long = dataclasses.replace(TIMING, erase=onfi.Spans(1, 1 << 50, 1, 1))
        refused(onfi.BadBy, by="known")
        refused(onfi.BadLimit, limit=0)
        refused(onfi.BadLimit, limit=1_048_577)
        refused(onfi.BadLimit, limit=-1)
        refused(onfi.BadLimit, limit=0, early=True)
        refused(onfi.Over, limit=1)
        refused(onfi.ZeroSpan, dataclasses.replace(CHANNEL, timing=zero))
        refused(onfi.LongSpan, dataclasses.replace(CHANNEL, timing=long))
        refused(onfi.LongSpan, dataclasses.replace(CHANNEL, lengths=onfi.Lengths({1: 1 << 50})))
        refused(onfi.BadPlaneBits, changed(CHANNEL, plane_bits=3))
        refused(onfi.BadMembers, with_luns([onfi.Lun(0, WANTS[:1] * 5, 1), onfi.Lun()]))
        refused(onfi.BadKind, wants=[dataclasses.replace(WANTS[0], kind=3)])
        refused(onfi.TooMany, with_luns([]))
        refused(onfi.TooMany, with_luns([onfi.Lun()] * 9))
        refused(onfi.TooMany, wants=[dataclasses.replace(WANTS[0], id=number) for number in range(9)])
        refused(onfi.BadLun, wants=[WANTS[1], WANTS[0]])
        refused(onfi.BadLun, wants=[WANTS[0], dataclasses.replace(WANTS[1], id=WANTS[0].id)])
        refused(onfi.BadLun, wants=[dataclasses.replace(WANTS[0], lun=2)])
        refused(onfi.NoLengths, wants=SECTORS)
        refused(onfi.Clock, dataclasses.replace(CHANNEL, bus_free=1 << 62))

    def test_a_refusal_names_what_it_is_of_by_its_place(self) -> None:
        def named(name: Type[onfi.Refused], lun: Optional[int], want: Optional[int], call: Callable[[], object]) -> None:
            with self.assertRaises(name) as told:
                call()
            self.assertEqual((told.exception.lun, told.exception.want), (lun, want))
            places = [f"luns[{lun}]"] * (lun is not None) + [f"wants[{want}]"] * (want is not None)
            self.assertEqual(str(told.exception).split(": ")[1:], places)

        def with_want(**how: Any) -> List[onfi.Want]:
            return [*WANTS[:2], dataclasses.replace(WANTS[2], **how)]

        made = onfi.plan(CHANNEL, WANTS)
        ways: List[Callable[[onfi.Channel, List[onfi.Want]], object]] = [
            onfi.plan,
            lambda channel, wants: onfi.plan(channel, wants, "within"),
            lambda channel, wants: onfi.plan(channel, wants, "rule", early=True),
            lambda channel, wants: onfi.check(channel, wants, made),
            lambda channel, wants: onfi.find_breach(channel, wants, made.schedule),
            lambda channel, wants: onfi.due(channel, wants, GEOMETRY, made.schedule),
            lambda channel, wants: onfi.ran(channel, wants, made.schedule, 0, 0, 0)]
        running = with_luns([onfi.Lun(), onfi.Lun(0, [onfi.Want(0, onfi.Kind.READ, 0, 0)], 1)])
        for way in ways:
            named(onfi.BadLun, None, 2, lambda: way(CHANNEL, with_want(lun=2)))
            named(onfi.BadLun, None, 2, lambda: way(CHANNEL, with_want(id=WANTS[1].id)))
            named(onfi.BadKind, None, 2, lambda: way(CHANNEL, with_want(kind=3)))
            named(onfi.NoLengths, None, 2, lambda: way(CHANNEL, with_want(kind=64)))
            named(onfi.BadLun, 1, None, lambda: way(running, WANTS))
            named(onfi.BadMembers, 0, None, lambda: way(with_luns([onfi.Lun(0, WANTS[:1] * 5, 1), onfi.Lun()]), WANTS))
            named(onfi.Clock, 1, None, lambda: way(with_luns([onfi.Lun(), onfi.Lun(1 << 62)]), WANTS))
            named(onfi.Clock, None, None, lambda: way(dataclasses.replace(CHANNEL, bus_free=1 << 62), WANTS))
            named(onfi.BadPlaneBits, None, None, lambda: way(changed(CHANNEL, plane_bits=3), with_want(lun=2)))
        named(onfi.BadMembers, 0, None, lambda: onfi.Audit(with_luns([onfi.Lun(0, WANTS[:1] * 5, 1)])))
        narrow = dataclasses.replace(GEOMETRY, blocks_per_lun=1, block_bits=0)
        named(onfi.BadPlace, None, 0, lambda: onfi.due(CHANNEL, WANTS[1:2], narrow, onfi.plan(CHANNEL, WANTS[1:2]).schedule))
        runs = with_luns([onfi.Lun(), onfi.Lun(0, [onfi.Want(0, onfi.Kind.READ, 1, 1)], 1)])
        named(onfi.BadPlace, 1, None, lambda: onfi.due(runs, (), narrow, onfi.plan(runs, ()).schedule))

    def test_a_number_that_fits_no_place_is_named_too(self) -> None:
        wrong = [WANTS[0], dataclasses.replace(WANTS[1], lun=-1)]
        self.assertRaisesRegex(ValueError, r"^wants\[1\]: the LUN of a want is not from 0 to 255: -1$", onfi.plan, CHANNEL, wrong)
        self.assertRaisesRegex(ValueError, r"^luns\[1\]: a time is not from 0", onfi.plan, with_luns([onfi.Lun(), onfi.Lun(-1)]), WANTS)
        self.assertRaisesRegex(ValueError, r"^luns\[0\]: members\[1\]: the LUN of a want", onfi.plan, with_luns([onfi.Lun(0, wrong, 1)]), WANTS)

    def test_plan_and_check_that_remember(self) -> None:
        plan = onfi.plan(CHANNEL, WANTS, "within")
        self.assertEqual((plan.finish, plan.below), (onfi.plan(CHANNEL, WANTS).finish,) * 2)
        self.assertTrue(plan.certificate.startswith(b"ONFICERT 3 remember\n"))
        self.assertEqual(onfi.check(CHANNEL, WANTS, plan), plan.finish)
        strict = onfi.plan(changed(CHANNEL, strict=True), WANTS, "within")
        self.assertTrue(strict.certificate.startswith(b"ONFICERT 4 strict remember\n"))

    def test_a_plan_always(self) -> None:
        programs, channel = [onfi.Want(number, onfi.Kind.PROGRAM, number % 4, number) for number in range(8)], with_luns([onfi.Lun()] * 4)
        best = onfi.plan(channel, programs, "within").finish
        for limit in (1, 2, 1_048_576):
            made = onfi.plan(channel, programs, "within", limit)
            self.assertTrue(made.below <= best <= made.finish <= onfi.plan(channel, programs, "rule").finish)
            self.assertEqual(onfi.check(channel, programs, made), made.finish)
        self.assertEqual((made.finish, made.below), (best, best))
        self.assertEqual(onfi.check(channel, programs, dataclasses.replace(made, below=0)), best)

    def test_a_plan_by_the_rule(self) -> None:
        """Of two phases that may start at once a read's command goes before a program's data; nothing ends before two data outputs."""
        reads, channel = [onfi.Want(number, onfi.Kind.READ, number, 0) for number in range(2)], with_luns([onfi.Lun()] * 2)
        made = onfi.plan(channel, reads, "rule")
        self.assertEqual((made.finish, made.below, made.opened), (47_240, 47_240, 0))
        self.assertEqual(made.certificate, b"ONFICERT 3 remember\nL\n")
        self.assertEqual([group.starts for group in made.schedule.groups], [(0, 25_240), (140, 36_240)])
        two = [onfi.Want(0, onfi.Kind.PROGRAM, 0, 0), onfi.Want(1, onfi.Kind.READ, 1, 0)]
        made = onfi.plan(channel, two, "rule")
        self.assertEqual([(group.wants, group.starts[0]) for group in made.schedule.groups], [((1,), 0), ((0,), 140)])
        self.assertTrue(made.below <= onfi.plan(channel, two).finish <= made.finish)
        self.assertEqual(onfi.check(channel, two, made), made.finish)

    def test_a_plan_made_better(self) -> None:
        """Of two reads that take turns the one that counts more goes first."""
        reads, channel = [onfi.Want(number, onfi.Kind.READ, number, 0) for number in range(2)], with_luns([onfi.Lun()] * 2)
        for weights in ([1, 9], [9, 1]):
            made = onfi.plan(channel, reads, "within", early=True, weights=weights)
            first = min(made.schedule.groups, key=lambda group: group.starts[0])
            self.assertEqual(list(first.wants), [weights.index(9)])
            self.assertEqual((made.finish, made.below), (onfi.plan(channel, reads).finish,) * 2)

    def test_a_running_group_that_counts(self) -> None:
        """A status that is due goes before a read's command where it counts, and after it where the read counts more: the data output ends last."""
        running, reads = onfi.Want(0, onfi.Kind.ERASE, 0, 4), [onfi.Want(1, onfi.Kind.PROGRAM, 1, 0)]
        channel = with_luns([onfi.Lun(0, [running], 1), onfi.Lun()])
        best = onfi.plan(channel, reads, "within")
        for weight in (0, 1_000):
            made = onfi.plan(channel, reads, "within", early=True, weights=(1,), running=[(weight,)])
            self.assertEqual((made.finish, made.below), (best.finish, best.below))
            self.assertLessEqual(made.schedule.rest[0][0] * weight + made.finish, best.schedule.rest[0][0] * weight + best.finish)

    def test_refusals_of_weights(self) -> None:
        self.assertRaises(ValueError, onfi.plan, CHANNEL, WANTS, early=True, weights=(65_536,))
        self.assertRaises(ValueError, onfi.plan, CHANNEL, WANTS, early=True, running=[(-1,)])

    def test_refusals_of_a_check(self) -> None:
        made = onfi.plan(CHANNEL, WANTS, "within")
        self.assertRaises(onfi.EndsBefore, onfi.check, CHANNEL, WANTS, dataclasses.replace(made, below=made.finish + 1))
        self.assertRaises(ValueError, onfi.check, CHANNEL, WANTS, dataclasses.replace(made, below=-1))
        late = dataclasses.replace(made.schedule, groups=made.schedule.groups[1:])
        self.assertRaises(onfi.Illegal, onfi.check, CHANNEL, WANTS, dataclasses.replace(made, schedule=late))

    def test_numbers_that_fit_no_place(self) -> None:
        for want in (dataclasses.replace(WANTS[0], block=65536), dataclasses.replace(WANTS[0], lun=-1), dataclasses.replace(WANTS[0], id=1 << 64)):
            self.assertRaises(ValueError, onfi.plan, CHANNEL, [want])
        self.assertRaises(ValueError, onfi.plan, with_luns([onfi.Lun()] * 256), WANTS)


class Given(unittest.TestCase):
    """What calls take and give."""

    def test_generators_are_taken(self) -> None:
        def wants() -> Iterator[onfi.Want]:
            yield from WANTS

        luns: Any = (it for it in LUNS)
        self.assertEqual(with_luns(luns), CHANNEL)
        made = onfi.plan(CHANNEL, wants())
        self.assertEqual(made, onfi.plan(CHANNEL, WANTS))
        self.assertEqual(onfi.check(CHANNEL, wants(), made), made.finish)
        weights = onfi.plan(CHANNEL, wants(), "within", early=True, weights=(it for it in (1, 9)), running=(iter([it]) for it in range(2)))
        self.assertEqual(weights, onfi.plan(CHANNEL, WANTS, "within", early=True, weights=(1, 9), running=((0,), (1,))))
        phase = onfi.due(CHANNEL, wants(), GEOMETRY, made.schedule)
        stand = onfi.ran(CHANNEL, wants(), made.schedule, phase.lun, phase.number, phase.start)
        self.assertEqual(stand, onfi.ran(CHANNEL, WANTS, made.schedule, phase.lun, phase.number, phase.start))
        self.assertEqual([*onfi.audit(CHANNEL, (it for it in [phase]), wants())], [])
        self.assertIsNone(onfi.Audit(CHANNEL).judge(phase))

    def test_each_says_what_it_is(self) -> None:
        made = onfi.plan(CHANNEL, WANTS)
        self.assertEqual(eval(repr(made), {**vars(onfi)}), made)
        self.assertEqual(eval(re.sub(r"<(Kind.\w+): \d+>", r"\1", repr(CHANNEL)), {**vars(onfi)}), CHANNEL)
        dispatcher, audit, driver = onfi.Dispatcher(CHANNEL, GEOMETRY), onfi.Audit(CHANNEL), onfi.Driver(CHANNEL, GEOMETRY)
        self.assertEqual(repr(dispatcher), "Dispatcher(2 LUNs, next: None)")
        dispatcher.accept(WANTS[0])
        phase = dispatcher.next()
        self.assertEqual(repr(dispatcher), f"Dispatcher(2 LUNs, next: {phase})")
        dispatcher.ran(0)
        self.assertEqual(repr(audit), "Audit(2 LUNs, 0 phases judged, bus free from 0 ns)")
        self.assertTrue(repr(driver).startswith("Driver(Stand(channel=Channel(timing=Timing("))

    def test_what_is_equal_hashes_alike(self) -> None:
        members: Any = (it for it in WANTS[:1])
        self.assertEqual(onfi.Lun(0, [WANTS[0]], 1), onfi.Lun(0, members, 1))
        made = onfi.plan(CHANNEL, WANTS)
        for one in (WANTS[0], onfi.Lun(0, [WANTS[0]], 1), CHANNEL, made, made.schedule, made.problem, onfi.Lengths({1: 2}), GEOMETRY):
            self.assertEqual({one: 1}[dataclasses.replace(one)], 1)
        self.assertNotEqual(*({hash(onfi.Lun(since)) for since in range(2)}))

    def test_kinds_are_kinds(self) -> None:
        three = onfi.kind_by(onfi.Kind.READ, 3)
        self.assertIs(three, onfi.Kind(96))
        self.assertEqual((repr(three), three.operation, three.sectors), ("<Kind.READ_BY_3: 96>", onfi.Kind.READ, 3))
        self.assertIs(pickle.loads(pickle.dumps(three)), three)
        self.assertEqual([*onfi.Kind], [onfi.Kind.READ, onfi.Kind.PROGRAM, onfi.Kind.ERASE])
        for wrong in (3, 35, 256, -1):
            self.assertRaises(ValueError, onfi.Kind, wrong)
        schedule = onfi.plan(SECTORED, SECTORS, "within").schedule
        phase = onfi.due(SECTORED, SECTORS, GEOMETRY, schedule)
        stand = onfi.ran(SECTORED, SECTORS, schedule, phase.lun, phase.number, phase.start)
        for kind in (phase.kind, *(want.kind for lun in stand.channel.luns for want in [*lun.members, *stand.wants])):
            self.assertIs(type(kind), onfi.Kind)

    def test_phases_of_a_plan(self) -> None:
        """As traces have them, also of groups that run already."""
        draw = random.Random(8)
        for number in range(60):
            script = any_script(draw)
            channel, wants = test_libraries.said(script)
            luns = [dataclasses.replace(lun, members=[dataclasses.replace(want, id=99) for want in lun.members]) for lun in channel.luns]
            lines = []
            for start, end, lun, want, kind, is_post in onfi.plan(with_luns(luns, channel), wants, "within").phases():
                lines.append(f"{start} {end} {lun} {kind.name.lower()} {'post' if is_post else 'cmd'} {'-' if want == 99 else want}")
            told = onfi.text("plan --by within --requests", script).text.decode().splitlines()
            self.assertEqual(lines, [" ".join([*line.split()[:5], line.split()[-1]]) for line in told], script)
        self.assertRaises(ValueError, onfi.Plan(onfi.Schedule([], []), 0, 0, b"").phases)

    def test_phases_of_sectors(self) -> None:
        made = onfi.plan(SECTORED, SECTORS, "within")
        posts = {it.want: it.end - it.start for it in made.phases() if it.is_post}
        self.assertEqual(posts, {3: 3_080, 5: 11_000, 9: 8_360})

    def test_help_begins_with_the_functions(self) -> None:
        about = str(onfi.__doc__).partition("from onfi import")[0]
        calls = [name for name in onfi.__all__ if inspect.isfunction(getattr(onfi, name))]
        self.assertGreater(len(calls), 12)
        self.assertEqual([name for name in calls if not re.search(rf"\b{name}\b", about)], [])
        names: Dict[str, Any] = {}
        code = str(onfi.__doc__)[len(about):].partition("Times are ns")[0]
        with contextlib.redirect_stdout(io.StringIO()) as told:
            exec("\n".join(line[4:] if line.startswith("    ") else line for line in code.splitlines()), names)
        self.assertEqual(told.getvalue().splitlines()[0], "LUN 0 from 0 to 140 ns: read 0, command")
        self.assertEqual(len(told.getvalue().splitlines()), 4)


class Drivers(unittest.TestCase):
    """All that stands, kept and changed in place."""

    def test_a_loop(self) -> None:
        """Phase by phase the same as by calls that make all anew, with early arrays, late phases and another plan amid them."""
        draw, count = random.Random(12), 0
        for channel, wants in ((CHANNEL, WANTS), (SECTORED, SECTORS)) * 10:
            driver = onfi.Driver(channel, GEOMETRY)
            stand = onfi.Stand(channel, wants, onfi.Schedule([(), ()], []))
            driver.set_wants(wants)
            for at in range(6):
                if at in (0, 3):
                    made = onfi.plan(stand.channel, stand.wants, "within")
                    stand = dataclasses.replace(stand, schedule=made.schedule)
                    driver.plan()
                    self.assertEqual((driver.finish, driver.below, driver.schedule), (made.finish, made.below, made.schedule))
                phase = onfi.due(stand.channel, stand.wants, GEOMETRY, stand.schedule)
                self.assertEqual(driver.due(), phase)
                started = phase.start + draw.choice((0, 0, 7))
                stand = onfi.ran(stand.channel, stand.wants, stand.schedule, phase.lun, phase.number, started)
                driver.ran(phase, started)
                self.assertEqual(driver.stand, stand)
                count += 1
            self.assertEqual((driver.due(), driver.wants, driver.lun(1)), (None, (), stand.channel.luns[1]))
        self.assertEqual(count, 120)

    def test_plans(self) -> None:
        driver = onfi.Driver(CHANNEL, GEOMETRY)
        driver.set_wants(WANTS)
        ways: List[Tuple[Callable[[], None], onfi.Plan]] = [
            (lambda: driver.plan("rule"), onfi.plan(CHANNEL, WANTS, "rule")),
            (lambda: driver.plan(early=True, weights=(1, 9, 9)), onfi.plan(CHANNEL, WANTS, "within", early=True, weights=(1, 9, 9))),
            (driver.plan, onfi.plan(CHANNEL, WANTS, "within"))]
        for plan, made in ways:
            plan()
            self.assertEqual((driver.schedule, driver.finish, driver.below), (made.schedule, made.finish, made.below))

    def test_what_is_said_stands(self) -> None:
        driver = onfi.Driver(CHANNEL, GEOMETRY)
        driver.bus_free = 700
        driver.set_since(0, 900)
        driver.set_lun(1, onfi.Lun(5, [dataclasses.replace(WANTS[2], id=8)], 1))
        driver.set_wants((it for it in WANTS[:1]))
        luns = (onfi.Lun(900), onfi.Lun(5, [dataclasses.replace(WANTS[2], id=8)], 1))
        self.assertEqual((driver.bus_free, driver.lun(0), driver.lun(1), driver.wants), (700, *luns, (WANTS[0],)))
        channel = dataclasses.replace(CHANNEL, bus_free=700, luns=luns)
        made = onfi.plan(channel, WANTS[:1])
        driver.schedule = made.schedule
        phase = driver.due()
        self.assertEqual(phase, onfi.due(channel, WANTS[:1], GEOMETRY, made.schedule))

    def test_refusals_leave_all(self) -> None:
        driver = onfi.Driver(CHANNEL, GEOMETRY)
        driver.set_wants(WANTS)
        driver.plan()
        before, phase = driver.stand, driver.due()
        assert phase is not None
        self.assertRaises(onfi.NotDue, driver.ran, dataclasses.replace(phase, lun=1 - phase.lun), phase.start)
        driver.bus_free = 700
        self.assertRaises(onfi.Illegal, driver.due)
        driver.bus_free = 0
        self.assertRaises(onfi.BadLimit, driver.plan, "within", 0)
        self.assertRaises(ValueError, driver.ran, phase, -1)
        self.assertRaises(IndexError, driver.set_since, 2, 0)
        self.assertRaises(IndexError, driver.lun, -1)
        with self.assertRaises(onfi.TooMany):
            driver.set_wants([dataclasses.replace(WANTS[0], id=number) for number in range(9)])
        self.assertEqual(driver.stand, before)
        driver.set_wants([WANTS[0], dataclasses.replace(WANTS[1], lun=2)])
        with self.assertRaises(onfi.BadLun) as told:
            driver.plan("rule")
        self.assertEqual(told.exception.want, 1)


class Dispatchers(unittest.TestCase):
    """A channel that goes on, phase by phase."""

    def test_by_hand(self) -> None:
        """The read of LUN 1 goes in the gap between the two of LUN 0, which run as one, and is answered first."""
        channel = onfi.Dispatcher(CHANNEL, GEOMETRY)
        for want in WANTS:
            channel.accept(want)
        told = [(phase.start, phase.end, phase.want, phase.number, phase.is_post) for phase in channel.phases()]
        commands = [(0, 140, 3, 0, False), (500, 640, 9, 0, False), (740, 880, 5, 1, False)]
        self.assertEqual(told, [*commands, (25_740, 36_740, 9, 1, True), (36_740, 47_740, 3, 2, True), (47_740, 58_740, 5, 3, True)])
        self.assertIsNone(channel.next(58_740))

    def test_drawn_loads(self) -> None:
        """Each phase is legal, each request is answered once, and those of a block in their order; some arrays are early, some phases late."""
        answered = 0
        for seed in range(40):
            draw = random.Random(seed)
            kinds = [onfi.Kind.READ, onfi.kind_by(onfi.Kind.READ, 2), onfi.Kind.PROGRAM]
            wants = [onfi.Want(number, draw.choice(kinds), draw.randrange(2), draw.randrange(6), draw.randrange(3)) for number in range(30)]
            answers = self.driven(draw, wants)
            self.assertEqual(sorted(answers), list(range(30)))
            for block in itertools.product(range(2), range(6)):
                own = [number for number in answers if (wants[number].lun, wants[number].block) == block]
                self.assertEqual(own, sorted(own), (seed, block))
            answered += len(answers)
        self.assertEqual(answered, 1_200)

    def driven(self, draw: random.Random, wants: Sequence[onfi.Want]) -> List[int]:
        """The requests as they are answered, of a loop in which they come by and by."""
        channel, log = onfi.Dispatcher(SECTORED, GEOMETRY), onfi.Audit(SECTORED)
        left, answers, now = list(wants), [], 0
        phase = None
        while left or phase:
            for want in left[: draw.randrange(4)]:
                channel.accept(left.pop(0))
            phase = channel.next(now)
            if phase is None:
                continue
            started = phase.start + draw.choice((0, 0, 90))
            channel.ran(started)
            self.assertIsNone(log.judge(dataclasses.replace(phase, start=started)))
            now = started + phase.end - phase.start
            answers += [phase.want] * phase.is_post
            if phase.number + 1 == phase.members and draw.random() < 0.5:
                channel.ready(phase.lun, now + 5)
                log.ready(phase.lun, now + 5)
        return answers

    def test_what_waits_is_cancelled_and_taken_in_again(self) -> None:
        channel = onfi.Dispatcher(CHANNEL, GEOMETRY)
        for number in range(3):
            channel.accept(onfi.Want(number, onfi.Kind.READ, 0, 2, number))
        channel.cancel(1)
        first = channel.next()
        assert first is not None
        channel.ran(first.start)
        channel.accept_again(onfi.Want(0, onfi.Kind.READ, 0, 2, 0))
        self.assertEqual([(phase.want, phase.is_post) for phase in channel.phases(first.end)], [(0, True), (0, False), (0, True), (2, False), (2, True)])

    def test_a_lun_that_is_not_ready_is_asked_again(self) -> None:
        """A phase that isn't said to have run is next once more, no sooner than it is now."""
        channel = onfi.Dispatcher(CHANNEL, GEOMETRY)
        channel.accept(onfi.Want(0, onfi.Kind.PROGRAM, 0, 2))
        command = channel.next()
        assert command is not None
        channel.ran(command.start)
        status = channel.next(command.end)
        assert status is not None and status.is_post
        for now in (status.end, status.end + 50):
            self.assertEqual(channel.next(now), dataclasses.replace(status, start=now, end=now + status.end - status.start))
        channel.ran(status.end + 50)
        self.assertIsNone(channel.next())

    def test_a_lun_that_is_reset(self) -> None:
        """What its group has left is said to have run, and what ran and waits is given in again later, in its order."""
        channel = onfi.Dispatcher(CHANNEL, GEOMETRY)
        wants = [onfi.Want(number, onfi.Kind.READ, 0, 2, number) for number in range(3)]
        for want in wants:
            channel.accept(want)
        command = channel.next()
        assert command is not None
        channel.ran(command.start)
        for want in wants[1:]:
            channel.cancel(want.id)
        self.assertEqual([(phase.want, phase.is_post) for phase in channel.phases(command.end)], [(0, True)])
        for want in wants:
            channel.accept(want)
        self.assertEqual([phase.want for phase in channel.phases(900_000)], [0, 0, 1, 1, 2, 2])

    def test_refusals_name_their_request_and_leave_all(self) -> None:
        channel = onfi.Dispatcher(SECTORED, GEOMETRY)
        channel.accept(WANTS[0])

        def refused(name: Type[onfi.Refused], call: Callable[[], object], request: Optional[int] = None, lun: Optional[int] = None) -> None:
            with self.assertRaises(name) as told:
                call()
            self.assertEqual((told.exception.request, told.exception.lun, told.exception.want), (request, lun, None))
            self.assertEqual(str(told.exception).endswith(f": request {request}"), request is not None)

        def asked(**how: Any) -> Callable[[], None]:
            return lambda: channel.accept(dataclasses.replace(WANTS[1], **how))

        for how in ({"lun": 2}, {"block": 16}, {"page": 64}):
            refused(onfi.BadPlace, asked(**how), 5)
        refused(onfi.BadKind, asked(kind=3), 5)
        refused(onfi.BadLun, asked(kind=onfi.Kind.ERASE), 5)
        refused(onfi.NoLengths, asked(kind=onfi.kind_by(onfi.Kind.READ, 7)), 5)
        refused(onfi.BadOrder, asked(id=3), 3)
        refused(onfi.BadOrder, lambda: channel.accept_again(WANTS[0]), 3)
        refused(onfi.NotWaiting, lambda: channel.cancel(9), 9)
        refused(onfi.BadLun, lambda: channel.ready(2, 0), lun=2)
        refused(onfi.NotDue, lambda: channel.ready(1, 0), lun=1)
        refused(onfi.NothingDue, lambda: channel.ran(0))
        refused(onfi.Clock, lambda: channel.next(1 << 62))
        channel.next(7)
        refused(onfi.TooSoon, lambda: channel.ran(6))
        self.assertRaises(ValueError, channel.next, -1)
        self.assertEqual([phase.want for phase in channel.phases()], [3, 3])

    def test_64_wait_for_a_lun(self) -> None:
        channel = onfi.Dispatcher(CHANNEL, GEOMETRY)
        for number in range(128):
            channel.accept(onfi.Want(number, onfi.Kind.READ, number % 2, number % 16))
        self.assertRaises(onfi.TooMany, channel.accept, onfi.Want(128, onfi.Kind.READ, 0, 0))
        self.assertEqual(len([phase for phase in channel.phases() if phase.is_post]), 128)

    def test_what_it_cant_begin_with_is_named(self) -> None:
        runs = [onfi.Lun(), onfi.Lun(0, [onfi.Want(0, onfi.Kind.READ, 1, 1)], 1)]
        for how, name, lun in (({"lun": 0}, onfi.BadLun, 1), ({"block": 16}, onfi.BadPlace, 1), ({"kind": 3}, onfi.BadKind, 1)):
            wrong = [runs[0], onfi.Lun(0, [dataclasses.replace(runs[1].members[0], **how)], 1)]
            with self.assertRaises(name) as told:
                onfi.Dispatcher(with_luns(wrong), GEOMETRY)
            self.assertEqual(told.exception.lun, lun)
        self.assertRaises(onfi.BadGeometry, onfi.Dispatcher, CHANNEL, dataclasses.replace(GEOMETRY, lun_count=0))
        self.assertEqual([phase.want for phase in onfi.Dispatcher(with_luns(runs), GEOMETRY).phases()], [0])


class Checks(unittest.TestCase):
    def refused(self, name: Type[onfi.Refused], schedule: onfi.Schedule, certificate: bytes, place: int = 0, channel: onfi.Channel = CHANNEL) -> None:
        with self.assertRaises(name) as told:
            onfi.check(channel, WANTS, onfi.Plan(schedule, 0, 0, certificate))
        self.assertEqual(told.exception.place, place)

    def test_refusals(self) -> None:
        plan = onfi.plan(CHANNEL, WANTS)
        made, first = plan.schedule, plan.schedule.groups[0]
        late = dataclasses.replace(made, groups=[dataclasses.replace(first, starts=[1 << 63, *first.starts[1:]]), *made.groups[1:]])
        stranger = dataclasses.replace(made, groups=[dataclasses.replace(first, wants=[4, *first.wants[1:]]), *made.groups[1:]])
        self.refused(onfi.BadSchedule, late, plan.certificate)
        self.refused(onfi.BadSchedule, dataclasses.replace(made, rest=[()] * 9), plan.certificate)
        self.refused(onfi.BadSchedule, dataclasses.replace(made, rest=[(1,) * 9, ()]), plan.certificate)
        self.refused(onfi.BadSchedule, dataclasses.replace(made, groups=list(made.groups) * 5), plan.certificate)
        self.refused(onfi.Illegal, stranger, plan.certificate)
        self.refused(onfi.Illegal, dataclasses.replace(made, groups=made.groups[1:]), plan.certificate)
        self.refused(onfi.BadHeader, made, b"")
        self.refused(onfi.BadToken, made, plan.certificate[:-1], place=plan.certificate.count(b" ", 11) + 1)
        self.refused(onfi.OtherOption, made, b"ONFICERT 2 strict\nX\n")
        self.refused(onfi.NotEnd, made, b"ONFICERT 1\nX\n")
        self.refused(onfi.Width, made, b"ONFICERT 1\nB99 X\n")
        self.refused(onfi.ZeroSpan, made, plan.certificate, channel=dataclasses.replace(CHANNEL, timing=dataclasses.replace(TIMING, read=onfi.Spans(1, 1, 1, 0))))

    def test_refusals_that_remember(self) -> None:
        made = onfi.plan(CHANNEL, WANTS, "within").schedule
        self.refused(onfi.OtherOption, made, b"ONFICERT 4 strict remember\nL\n")
        self.refused(onfi.BadToken, made, b"ONFICERT 3 remember\nW1\n")
        self.refused(onfi.UnknownNode, made, b"ONFICERT 3 remember\nR0\n")
        self.refused(onfi.BoundLow, made, b"ONFICERT 3 remember\nW0,0\n")
        self.refused(onfi.NotEnd, made, b"ONFICERT 3 remember\nX\n")

    def test_two_starts_for_each_member(self) -> None:
        plan = onfi.plan(CHANNEL, WANTS)
        short = dataclasses.replace(plan.schedule, groups=[onfi.Group([3], [1])])
        self.assertRaises(ValueError, onfi.check, CHANNEL, WANTS, dataclasses.replace(plan, schedule=short))


class Sectors(unittest.TestCase):
    """Reads that put out some sectors of their pages."""

    def test_kinds(self) -> None:
        self.assertEqual([onfi.kind_by(onfi.Kind.READ, count) for count in (0, 1, 7)], [0, 32, 224])
        self.assertEqual(onfi.kind_by(onfi.Kind.ERASE), onfi.Kind.ERASE)
        for count in (-1, 8):
            self.assertRaises(ValueError, onfi.kind_by, onfi.Kind.READ, count)

    def test_plan_and_check(self) -> None:
        """The three sectors of LUN 1 are out from 25,740 on, behind them the sector and the page of LUN 0, which run as one."""
        made = onfi.plan(SECTORED, SECTORS, "within")
        self.assertEqual((made.finish, made.below), (48_180, 48_180))
        self.assertEqual(onfi.check(SECTORED, SECTORS, made), made.finish)
        others = (onfi.plan(SECTORED, SECTORS, "within", early=True, weights=(1, 9)), onfi.plan(SECTORED, SECTORS, "rule"), onfi.plan(SECTORED, SECTORS))
        for other in others:
            finish = onfi.check(SECTORED, SECTORS, other)
            self.assertEqual((finish, finish >= made.finish), (other.finish, True))

    def test_pages_are_planned_as_without_lengths(self) -> None:
        for lengths in (onfi.Lengths({}), onfi.Lengths({7: 11_000})):
            self.assertEqual(onfi.plan(dataclasses.replace(CHANNEL, lengths=lengths), WANTS, "within"), onfi.plan(CHANNEL, WANTS, "within"))

    def test_scripts_say_the_same(self) -> None:
        rows = ["shape,2,1,1,1", "spans,read,140,600,25100,11000", "spans,program,10800,600,200100,280", "spans,erase,100,600,1500100,280", "free,1,500"]
        rows += [f"sectorpost,{count},{post}" for count, post in LENGTHS.sectors.items()]
        wants = ["want,read,0,0,5", "want,read,0,1,5", "want,read,1,0,0", "sectors,0,1", "sectors,2,3"]
        text = onfi.text("plan --by within", "\n".join([*rows, *wants, "end"]) + "\n")
        numbered = [dataclasses.replace(want, id=at) for at, want in enumerate(SECTORS)]
        made = onfi.plan(SECTORED, numbered, "within")
        self.assertEqual((text.status, text.text), (0, test_libraries.plan_text(made)))

    def test_refusals(self) -> None:
        def refused(name: Type[onfi.Refused], wants: Any = SECTORS, luns: Any = LUNS, lengths: Optional[onfi.Lengths] = LENGTHS) -> None:
            channel, schedule = dataclasses.replace(CHANNEL, luns=luns, lengths=lengths), onfi.Schedule([()] * len(luns), [])
            for by in ("plain", "within", "rule"):
                self.assertRaises(name, onfi.plan, channel, wants, by)
            self.assertRaises(name, onfi.check, channel, wants, onfi.Plan(schedule, 0, 0, b""))
            self.assertRaises(name, onfi.due, channel, wants, GEOMETRY, schedule)
            self.assertRaises(name, onfi.ran, channel, wants, schedule, 0, 0, 0)

        refused(onfi.LongSpan, lengths=onfi.Lengths({1: 1 << 50}))
        refused(onfi.BadKind, wants=[dataclasses.replace(WANTS[0], kind=35)])
        refused(onfi.NoLengths, wants=[dataclasses.replace(WANTS[0], kind=onfi.kind_by(onfi.Kind.READ, 4))])
        refused(onfi.NoLengths, wants=[dataclasses.replace(WANTS[0], kind=onfi.kind_by(onfi.Kind.PROGRAM, 1))])
        refused(onfi.NoLengths, luns=[onfi.Lun(0, [dataclasses.replace(WANTS[0], kind=onfi.kind_by(onfi.Kind.READ, 5))], 1), onfi.Lun()])
        refused(onfi.BadLun, wants=[dataclasses.replace(SECTORS[0], lun=2)], lengths=onfi.Lengths({}))
        refused(onfi.NoLengths, lengths=None)
        for count in (0, 8):
            wrong = dataclasses.replace(CHANNEL, lengths=onfi.Lengths({count: 1}))
            self.assertRaisesRegex(ValueError, f"not of {count}$", onfi.plan, wrong, WANTS)

    def test_phase_by_phase(self) -> None:
        """Posts end as is stated, and kinds are those of the wants."""
        schedule = onfi.plan(SECTORED, SECTORS, "within").schedule
        stand, kinds = onfi.Stand(SECTORED, SECTORS, schedule), {want.id: want.kind for want in SECTORS}
        posts = {0: 11_000, **{count << 5: post for count, post in LENGTHS.sectors.items()}}
        for at in range(6):
            said = (stand.channel, stand.wants)
            phase = onfi.due(*said, GEOMETRY, stand.schedule)
            self.assertEqual((phase.kind, phase.end - phase.start), (kinds[phase.want], posts[phase.kind] if phase.is_post else 140))
            stand = onfi.ran(*said, stand.schedule, phase.lun, phase.number, phase.start)
            self.assertTrue(all(want.kind == kinds[want.id] for lun in stand.channel.luns for want in [*lun.members, *stand.wants]))
        self.assertEqual((stand.channel.bus_free, stand.wants), (48_180, ()))
        self.assertRaises(onfi.NothingDue, onfi.due, stand.channel, stand.wants, GEOMETRY, stand.schedule)


class Outputs(unittest.TestCase):
    """The column and the count of bytes of what a phase puts out; a page has 528 bytes, four sectors of 132."""

    def put_out(self, kind: Any, is_post: bool = True, sector_bytes: int = 132, first: int = 0, geometry: onfi.Geometry = GEOMETRY) -> Tuple[int, int]:
        phase = onfi.Phase(0, 1, 0, 0, 0, 0, 0, kind, 1, 1, 6, 224, 3, is_post)
        told = onfi.output_of(geometry, sector_bytes, phase, first)
        return told.column, told.bytes

    def test_pages_and_sectors(self) -> None:
        one, three = onfi.kind_by(onfi.Kind.READ, 1), onfi.kind_by(onfi.Kind.READ, 3)
        self.assertEqual(self.put_out(onfi.Kind.READ), (0, 528))
        self.assertEqual(self.put_out(onfi.Kind.READ, sector_bytes=0, first=255), (0, 528))
        self.assertEqual([self.put_out(one, first=first) for first in range(4)], [(0, 132), (132, 132), (264, 132), (396, 132)])
        self.assertEqual(self.put_out(three, first=1), (132, 396))
        self.assertEqual([self.put_out(kind, is_post=False) for kind in (onfi.Kind.READ, three, onfi.Kind.PROGRAM)], [(0, 0)] * 3)
        self.assertEqual([self.put_out(kind) for kind in (onfi.Kind.PROGRAM, onfi.Kind.ERASE)], [(0, 0)] * 2)

    def test_of_a_phase_that_is_due(self) -> None:
        schedule = onfi.plan(SECTORED, SECTORS, "within").schedule
        phase = onfi.due(SECTORED, SECTORS, GEOMETRY, schedule)
        self.assertEqual(onfi.output_of(GEOMETRY, 132, phase), onfi.Output(0, 0))
        self.assertEqual(onfi.output_of(GEOMETRY, 132, dataclasses.replace(phase, kind=SECTORS[2].kind, is_post=True), 1), onfi.Output(132, 396))

    def test_refusals(self) -> None:
        two = onfi.kind_by(onfi.Kind.READ, 2)
        self.assertRaises(onfi.BadSectors, self.put_out, two, first=3)
        self.assertRaises(onfi.BadSectors, self.put_out, two, is_post=False, first=3)
        self.assertRaises(onfi.BadSectors, self.put_out, two, sector_bytes=0)
        self.assertRaises(onfi.BadKind, self.put_out, 3, geometry=dataclasses.replace(GEOMETRY, lun_count=9))
        self.assertRaises(onfi.BadGeometry, self.put_out, two, sector_bytes=0, geometry=dataclasses.replace(GEOMETRY, lun_count=9))
        self.assertRaises(ValueError, self.put_out, 256)
        self.assertRaises(ValueError, self.put_out, two, sector_bytes=65_536)
        self.assertRaises(ValueError, self.put_out, two, first=256)
        self.assertRaises(ValueError, self.put_out, two, first=-1)


class Breaches(unittest.TestCase):
    """The condition that a schedule breaks."""

    GROUPS = [onfi.Group([9], [500, 25_740]), onfi.Group([3, 5], [640, 1_380, 36_740, 47_740])]
    LEGAL = onfi.Schedule([(), ()], GROUPS)

    def test_a_legal_schedule_breaks_none(self) -> None:
        self.assertIsNone(onfi.find_breach(CHANNEL, WANTS, self.LEGAL))
        self.assertIsNone(onfi.find_breach(SECTORED, WANTS, self.LEGAL))

    def test_who_and_when(self) -> None:
        late = onfi.Schedule([(), ()], [onfi.Group([9], [500, 25_739]), self.GROUPS[1]])
        breach = onfi.find_breach(CHANNEL, WANTS, late)
        output, command = onfi.NamedPhase(onfi.Part.DATA_OUTPUT, want=9), onfi.NamedPhase(onfi.Part.COMMAND, want=9)
        self.assertEqual(breach, onfi.Breach(onfi.Condition.WAIT_TOO_SHORT, phase=output, other=command, lun=1, start=25_739, earliest=25_740))
        self.assertEqual(str(breach), "the data output of request 9 starts at 25739 ns; behind the command of request 9 its LUN 1 is ready from 25740 ns")
        self.assertIsNone(breach and breach.held)
        soon = onfi.Schedule([(), ()], [onfi.Group([9], [499, 25_740]), self.GROUPS[1]])
        self.assertEqual(onfi.find_breach(CHANNEL, WANTS, soon),
                         onfi.Breach(onfi.Condition.LUN_NOT_FREE, phase=command, lun=1, start=499, earliest=500))

    def test_of_groups(self) -> None:
        mixed = [WANTS[0], dataclasses.replace(WANTS[1], page=6), WANTS[2]]
        breach = onfi.find_breach(CHANNEL, mixed, self.LEGAL)
        self.assertEqual(breach, onfi.Breach(onfi.Condition.MIXED_GROUP, want=5, other_want=3, difference=onfi.Difference.PAGE))
        self.assertEqual(str(breach), "request 5 can't be grouped with request 3: their pages differ")
        running = [onfi.Lun(), onfi.Lun(0, [onfi.Want(0, onfi.Kind.ERASE, 1, 7)], 1)]
        breach = onfi.find_breach(with_luns(running), WANTS, self.LEGAL)
        self.assertEqual(str(breach), "the number of starts for LUN 1's running group is 0 in place of 1")
        early = onfi.Schedule([(), (550,)], self.GROUPS)
        breach = onfi.find_breach(with_luns(running), WANTS, early)
        status, command = onfi.NamedPhase(onfi.Part.STATUS, lun=1, block=7), onfi.NamedPhase(onfi.Part.COMMAND, want=9)
        self.assertEqual(breach, onfi.Breach(onfi.Condition.OVERLAP, phase=status, other=command, start=550, held=500, earliest=640))

    def test_checks_raise_it(self) -> None:
        short = onfi.Schedule([(), ()], self.GROUPS[:1])
        wanted = onfi.Breach(onfi.Condition.MISSING_REQUEST, want=3)
        for by in ("plain", "within", "rule"):
            with self.assertRaises(onfi.Illegal) as told:
                onfi.check(CHANNEL, WANTS, dataclasses.replace(onfi.plan(CHANNEL, WANTS, by), schedule=short, below=0))
            self.assertEqual(told.exception.breach, wanted)
            self.assertEqual(str(told.exception), "the schedule isn't legal: request 3 isn't in the schedule")
        with self.assertRaises(onfi.BadHeader) as other:
            onfi.check(CHANNEL, WANTS, onfi.Plan(short, 0, 0, b""))
        self.assertIsNone(other.exception.breach)

    def test_refusals(self) -> None:
        self.assertRaises(onfi.TooMany, onfi.find_breach, with_luns([]), WANTS, self.LEGAL)
        self.assertRaises(onfi.NoLengths, onfi.find_breach, CHANNEL, SECTORS, self.LEGAL)
        self.assertRaises(onfi.BadSchedule, onfi.find_breach, CHANNEL, WANTS, onfi.Schedule([(), ()], [onfi.Group([], [])]))
        self.assertRaises(ValueError, onfi.find_breach, CHANNEL, WANTS, onfi.Schedule([(), ()], [onfi.Group([9], [500])]))

    def test_each_sentence_tells_what_a_breach_has(self) -> None:
        from onfi.breach import SENTENCES, told_by

        names = {it.name for it in dataclasses.fields(onfi.Breach)} - {"condition"}
        self.assertEqual([*SENTENCES], [*onfi.Condition])
        self.assertEqual(set().union(*map(told_by, SENTENCES)), names)


class Logs(unittest.TestCase):
    """Logs of phases: a read's command takes 10 ns, its array 100, its output 20, a gap 5."""

    TWO = [onfi.Lun(), onfi.Lun()]
    CHANNEL = onfi.Channel(onfi.Timing(onfi.Spans(10, 5, 100, 20), onfi.Spans(40, 5, 200, 2), onfi.Spans(10, 5, 1000, 2)), onfi.Rules(True, True, plane_bits=1), TWO)

    def read(self, start: int, is_post: bool, block: int = 0, lun: int = 0) -> onfi.Logged:
        return onfi.Logged(start, lun, onfi.Kind.READ, is_post, block, 0)

    def broken(self, *phases: onfi.Logged, luns: Sequence[onfi.Lun] = TWO, wants: Sequence[onfi.Want] = ()) -> List[onfi.LogBreach]:
        channel = with_luns(luns, self.CHANNEL)
        told = list(onfi.audit(channel, phases, wants))
        if not wants:
            self.assertEqual(list(onfi.audit_phases(channel, phases)), told)
        return told

    def test_a_legal_log(self) -> None:
        group = [self.read(0, False), self.read(15, False, 1), self.read(125, True), self.read(145, True, 1)]
        self.assertEqual(self.broken(*group), [])
        self.assertEqual(self.broken(), [])
        many = [phase for at in range(1000) for phase in (self.read(130 * at, False), self.read(130 * at + 110, True))]
        self.assertEqual(self.broken(*many), [])

    def test_phases_of_a_plan(self) -> None:
        stand, phases = onfi.Stand(CHANNEL, WANTS, onfi.plan(CHANNEL, WANTS).schedule), []
        for _ in range(6):
            phase = onfi.due(stand.channel, stand.wants, GEOMETRY, stand.schedule)
            phases.append(phase)
            stand = onfi.ran(stand.channel, stand.wants, stand.schedule, phase.lun, phase.number, phase.start)
        self.assertEqual(list(onfi.audit(CHANNEL, phases, WANTS)), [])
        phases[-1] = dataclasses.replace(phases[-1], start=phases[-1].start - 1)
        self.assertEqual([breach.at for breach in onfi.audit(CHANNEL, phases, WANTS)], [5])

    def test_each_breach_is_told(self) -> None:
        condition = onfi.LogCondition
        self.assertEqual(self.broken(self.read(0, False), self.read(109, True)), [onfi.LogBreach(1, condition.NOT_READY, lun=0, start=109, earliest=110)])
        self.assertEqual(self.broken(self.read(0, False), self.read(9, False, 0, 1)), [onfi.LogBreach(1, condition.BUS_NOT_FREE, start=9, earliest=10)])
        self.assertEqual(self.broken(self.read(4, False), luns=[onfi.Lun(5)]), [onfi.LogBreach(0, condition.LUN_NOT_FREE, lun=0, start=4, earliest=5)])
        self.assertEqual(self.broken(self.read(0, False, 0, 2)), [onfi.LogBreach(0, condition.NO_LUN, lun=2)])
        self.assertEqual(self.broken(self.read(0, True)), [onfi.LogBreach(0, condition.NOTHING_RUNS, lun=0)])
        other = onfi.LogBreach(1, condition.OTHER_PHASE, lun=0, is_post=True, block=0, page=0)
        self.assertEqual(self.broken(self.read(0, False), self.read(110, True, 1)), [other])
        self.assertEqual(self.broken(self.read(0, False), self.read(15, False, 2)), [onfi.LogBreach(1, condition.NOT_GROUPED, lun=0)])
        wants = [onfi.Want(0, onfi.Kind.PROGRAM, 0, 0), onfi.Want(1, onfi.Kind.READ, 0, 0)]
        self.assertEqual(self.broken(self.read(0, False), wants=wants), [onfi.LogBreach(0, condition.BLOCK_ORDER, earlier=0, later=1)])
        self.assertEqual(self.broken(self.read(0, False, 1), wants=wants), [onfi.LogBreach(0, condition.UNKNOWN_REQUEST, lun=0, block=1)])

    def test_what_ran_before(self) -> None:
        running = [onfi.Lun(), onfi.Lun(50, [onfi.Want(7, onfi.Kind.ERASE, 1, 3)], 1)]
        status = onfi.Logged(49, 1, onfi.Kind.ERASE, True, 3, 0)
        self.assertEqual(self.broken(status, luns=running), [onfi.LogBreach(0, onfi.LogCondition.NOT_READY, lun=1, start=49, earliest=50)])
        self.assertEqual(self.broken(dataclasses.replace(status, start=50), luns=running), [])

    def test_refusals(self) -> None:
        self.assertRaises(onfi.BadLun, self.broken, wants=[onfi.Want(0, onfi.Kind.READ, 2, 0)])
        self.assertRaises(onfi.BadLun, self.broken, luns=[onfi.Lun(0, [onfi.Want(0, onfi.Kind.READ, 0, 0), onfi.Want(0, onfi.Kind.ERASE, 0, 1)], 1)])
        self.assertRaises(onfi.BadKind, self.broken, dataclasses.replace(self.read(0, False), kind=35))
        self.assertRaises(ValueError, self.broken, self.read(1 << 62, False))
        self.assertRaises(ValueError, self.broken, self.read(0, False, 65_536))
        self.assertRaises(ValueError, self.broken, luns=[onfi.Lun(-1)])

    def test_phases_judged_as_they_come(self) -> None:
        """Whoever looks on learns of a breach before the phase behind it."""
        taken: List[int] = []

        def bus() -> Iterator[onfi.Logged]:
            for at, phase in enumerate([self.read(0, False), self.read(109, True), self.read(130, False, 1), self.read(239, True, 1)]):
                taken.append(at)
                yield phase

        told = onfi.audit_phases(self.CHANNEL, bus())
        self.assertEqual(taken, [])
        self.assertEqual((next(told), taken), (onfi.LogBreach(1, onfi.LogCondition.NOT_READY, lun=0, start=109, earliest=110), [0, 1]))
        self.assertEqual((next(told), taken), (onfi.LogBreach(3, onfi.LogCondition.NOT_READY, lun=0, start=239, earliest=240), [0, 1, 2, 3]))
        self.assertEqual(list(told), [])

    def test_phases_of_chance(self) -> None:
        """Phase by phase the same is told as of the whole log, up to the first phase that came otherwise than too soon: after it a log's
        text goes on as if what is missing had been there. Of 300 logs whose phases are legal by chance alone."""
        draw, seen = random.Random(11), set()
        too_soon = {onfi.LogCondition.BUS_NOT_FREE, onfi.LogCondition.LUN_NOT_FREE, onfi.LogCondition.NOT_READY}
        for _ in range(300):
            channel = with_luns([onfi.Lun(draw.choice([0, 40])) for _ in range(2)], self.CHANNEL)
            phases, start = [], 0
            for _ in range(12):
                kind, is_post = draw.choice(list(onfi.Kind)), draw.random() < 0.5
                page = 0 if kind == onfi.Kind.ERASE else draw.randrange(2)
                phases.append(onfi.Logged(start, draw.choice([0, 0, 0, 1, 1, 1, 2]), kind, is_post, draw.randrange(2), page))
                start += draw.choice([5, 10, 20, 110, 130, 250, 1100])
            told = list(onfi.audit(channel, phases))
            alike = next((at + 1 for at, breach in enumerate(told) if breach.condition not in too_soon), len(told))
            by_phase = list(onfi.audit_phases(channel, phases))
            self.assertEqual(by_phase[:alike], told[:alike])
            self.assertGreaterEqual(len(by_phase), alike)
            seen |= {breach.condition for breach in by_phase}
        of_lines = {onfi.LogCondition.NOT_CLOSED, onfi.LogCondition.OTHER_END, onfi.LogCondition.OTHER_BYTES}
        self.assertEqual(seen, {*onfi.LogCondition} - of_lines - {onfi.LogCondition.UNKNOWN_REQUEST, onfi.LogCondition.BLOCK_ORDER})

    def test_lines(self) -> None:
        """Lines stand beside phases; END, command bytes and closers of lines are judged too."""
        condition, first = onfi.LogCondition, "0 10 0 read cmd 0 0 00 30"
        legal: List[Union[onfi.Logged, str]] = [first, "110 130 0 read post 0 0 06 E0\n", "130 0 read cmd 1 0 7", self.read(240, True, 1)]
        self.assertEqual(list(onfi.audit(self.CHANNEL, legal)), [])
        self.assertEqual(list(onfi.audit_phases(self.CHANNEL, legal)), [])
        late = onfi.LogBreach(1, condition.OTHER_END, end=131, ends=130)
        self.assertEqual(list(onfi.audit(self.CHANNEL, [first, "110 131 0 read post 0 0 06 E0"])), [late])
        other = onfi.LogBreach(1, condition.OTHER_BYTES, opener="06", closer="E0")
        self.assertEqual(list(onfi.audit(self.CHANNEL, [first, "110 130 0 read post 0 0 78 -"])), [other])
        alone = onfi.LogBreach(1, condition.NOT_CLOSED, lun=0)
        self.assertEqual(list(onfi.audit(self.CHANNEL, ["0 10 0 read cmd 0 0 00 32", legal[1]])), [alone])
        self.assertRaisesRegex(ValueError, r"^line 1 says no phase: 'ZZ", onfi.audit, self.CHANNEL, [first, "ZZ hello"])
        self.assertRaisesRegex(ValueError, r"^more than a line", onfi.audit, self.CHANNEL, ["0 0 read cmd 0 0\n\n"])
        self.assertRaises(ValueError, onfi.Audit(self.CHANNEL).judge, "ZZ hello")

    def test_a_row_of_a_table(self) -> None:
        early = next(onfi.Audit(self.CHANNEL).judge_all(["0 0 read cmd 0 0", "109 0 read post 0 0"]))
        told = {name: value for name, value in early.row().items() if value is not None}
        self.assertEqual(told, {"at": 1, "condition": "NotReady", "lun": 0, "start": 109, "earliest": 110})
        self.assertEqual([*early.row()], [it.name for it in dataclasses.fields(onfi.LogBreach)])

    def test_whole_logs_of_sectors(self) -> None:
        """With wants their kinds say how many sectors, without them the commands'; lengths say how long the bus is held."""
        lengths, three = onfi.Lengths({3: 7}), onfi.kind_by(onfi.Kind.READ, 3)
        phases = [dataclasses.replace(self.read(start, is_post, lun=lun), kind=three) for start, is_post, lun in ((0, False, 0), (110, True, 0), (117, False, 1))]
        late = [*phases[:2], dataclasses.replace(phases[2], start=116)]
        wants = [onfi.Want(lun, three, lun, 0) for lun in range(2)]
        none: List[onfi.Want] = []
        early = onfi.LogBreach(2, onfi.LogCondition.BUS_NOT_FREE, start=116, earliest=117)
        channel, others = (dataclasses.replace(self.CHANNEL, lengths=it) for it in (lengths, onfi.Lengths({2: 7})))
        for waiting in (none, wants):
            self.assertEqual([*onfi.audit(channel, phases, waiting)], [])
            self.assertEqual([*onfi.audit(channel, late, waiting)], [early])
            self.assertRaises(onfi.BadKind, onfi.audit, self.CHANNEL, phases, waiting)
            self.assertRaises(onfi.NoLengths, onfi.audit, others, phases, waiting)
        self.assertEqual([*onfi.audit_phases(channel, late)], [early])
        nine = [onfi.Want(number, three, 0, number) for number in range(9)]
        self.assertRaisesRegex(ValueError, r"^wants\[8\]: ", onfi.audit, channel, phases, nine)
        running = with_luns([onfi.Lun(50, wants[:1], 1), onfi.Lun()], channel)
        for waiting in (none, wants[1:]):
            post = dataclasses.replace(phases[1], start=50)
            self.assertEqual([*onfi.audit(running, [post, dataclasses.replace(phases[2], start=57)], waiting)], [])

    def test_a_lun_that_was_ready_sooner(self) -> None:
        log = onfi.Audit(self.CHANNEL)
        self.assertIsNone(log.judge(self.read(0, False)))
        log.ready(0, 60)
        self.assertEqual(log.judge(self.read(59, True)), onfi.LogBreach(1, onfi.LogCondition.NOT_READY, lun=0, start=59, earliest=60))
        self.assertEqual(log.bus_free, 79)
        self.assertRaises(onfi.BadLun, log.ready, 2, 0)
        self.assertRaises(ValueError, log.ready, 0, -1)

    def test_phases_of_sectors(self) -> None:
        log = onfi.Audit(dataclasses.replace(self.CHANNEL, lengths=onfi.Lengths({3: 7})))
        three = dataclasses.replace(self.read(0, False), kind=onfi.kind_by(onfi.Kind.READ, 3))
        self.assertIsNone(log.judge(three))
        self.assertIsNone(log.judge(self.read(110, True)))
        self.assertEqual(log.bus_free, 117)
        self.assertRaises(onfi.NoLengths, log.judge, dataclasses.replace(three, start=200, kind=onfi.kind_by(onfi.Kind.READ, 2)))
        self.assertEqual(log.judge(self.read(150, False, lun=2)), onfi.LogBreach(2, onfi.LogCondition.NO_LUN, lun=2))

    def test_phases_refused(self) -> None:
        log = onfi.Audit(self.CHANNEL)
        self.assertRaises(onfi.Clock, log.judge, self.read(1 << 62, False))
        self.assertRaises(ValueError, log.judge, self.read(1 << 64, False))
        self.assertRaises(onfi.BadKind, log.judge, dataclasses.replace(self.read(0, False), kind=3))
        self.assertRaises(onfi.BadLun, log.judge, onfi.Logged(0, 0, onfi.Kind.ERASE, False, 0, 1))
        self.assertRaises(onfi.TooMany, onfi.Audit, with_luns([], self.CHANNEL))
        self.assertRaises(onfi.BadPlaneBits, onfi.audit_phases, changed(self.CHANNEL, plane_bits=3), [])


class Packages(unittest.TestCase):
    """What a user's own tools see: names, types, a wheel, a library that isn't there."""

    def test_names_are_listed_one_by_one(self) -> None:
        wanted = sorted(["REFUSALS", "Refused", *(it.__name__ for it in onfi.REFUSALS.values())])
        for module in ("__init__", "refused"):
            tree = ast.parse((ROOT / f"python/onfi/{module}.py").read_text())
            lists = [it.value for it in tree.body if isinstance(it, ast.Assign) and isinstance(it.targets[0], ast.Name) and it.targets[0].id == "__all__"]
            names = ast.literal_eval(lists[0])
            self.assertEqual(sorted({*names} & {*wanted}), wanted)
            self.assertEqual(len({*names}), len(names))
            self.assertNotIn("*", [name.name for it in ast.walk(tree) if isinstance(it, ast.ImportFrom) for name in it.names])
        self.assertTrue(all(hasattr(onfi, name) for name in onfi.__all__))

    def test_types_are_strict(self) -> None:
        """Where mypy is there it agrees, also with a caller that names a refusal."""
        source = "from onfi import Kind, Over, Want\n\n\ndef place(told: Over) -> int:\n    return told.place\n\n\nWANT = Want(0, Kind.READ, lun=0, block=0)\n"
        compile(source, "caller", "exec")
        self.assertTrue((ROOT / "python/onfi/py.typed").is_file())
        if shutil.which("mypy"):
            with tempfile.TemporaryDirectory() as room:
                (Path(room) / "caller.py").write_text(source)
                words = ["mypy", "--strict", "--cache-dir", room, str(ROOT / "python/onfi"), f"{room}/caller.py"]
                told = subprocess.run(words, capture_output=True, text=True, env={**os.environ, "MYPYPATH": str(ROOT / "python")})
            self.assertEqual(told.returncode, 0, told.stdout)

    def imported(self, folder: Path, code: str, **how: str) -> "subprocess.CompletedProcess[str]":
        room = {name: value for name, value in os.environ.items() if name != "ONFI_LIBRARY"}
        return subprocess.run([sys.executable, "-B", "-c", code], env={**room, "PYTHONPATH": str(folder), **how}, capture_output=True, text=True, cwd=folder)

    def test_a_missing_library_is_told_with_what_to_do(self) -> None:
        call = "import onfi\ntry:\n    onfi.text('plan', b'end')\nexcept OSError as told:\n    print(told)"
        with tempfile.TemporaryDirectory() as room:
            shutil.copytree(ROOT / "python/onfi", Path(room) / "onfi")
            told = self.imported(Path(room), call).stdout
            for word in (f"{room}/onfi/libonfi.so, beside the package", "libonfi.so.0, where the system looks", "ONFI_LIBRARY is not set", "`make library`"):
                self.assertIn(word, told)
            self.assertNotIn("in lib of its checkout", told)
            named = self.imported(Path(room), call, ONFI_LIBRARY="/no/such.so").stdout
            self.assertIn("/no/such.so, as ONFI_LIBRARY says", named)
            self.assertNotIn("beside the package", named)

    def test_the_library_of_its_checkout_is_found(self) -> None:
        call = "import onfi\ntry:\n    print(onfi.text('plan', b'end').status)\nexcept OSError as told:\n    print(told)"
        with tempfile.TemporaryDirectory() as room:
            top = Path(room)
            shutil.copytree(ROOT / "python/onfi", top / "python/onfi")
            (top / "crates.txt").write_text("")
            self.assertIn(f"{top.resolve()}/lib/libonfi.so, in lib of its checkout", self.imported(top / "python", call).stdout)
            (top / "lib").mkdir()
            shutil.copy(os.environ["ONFI_LIBRARY"], top / "lib/libonfi.so")
            self.assertEqual(self.imported(top / "python", call).stdout, "1\n")

    def test_each_call_and_struct_of_the_header_is_there(self) -> None:
        """Those that take lengths after theirs; structs have the sizes that C gives them."""
        from onfi import library, structs

        header = (ROOT / "include/onfi.h").read_text()
        self.assertEqual(sorted(library.CALLS), sorted(re.findall(r"^uint32_t (onfi_\w+)\(", header, re.MULTILINE)))
        names = {"onfi_rest": "CRest", "onfi_planned": "CPlan", "onfi_log_broken": "CLogBroken"}
        told = {name: names.get(name, "C" + name.partition("_")[2].capitalize()) for name in re.findall(r"^typedef struct (onfi_\w+)", header, re.MULTILINE)}
        self.assertGreater(len(told), 20)
        with tempfile.TemporaryDirectory() as room:
            source = Path(room) / "sizes.c"
            lines = "".join(f'    printf("%zu\\n", sizeof({name}));\n' for name in told)
            source.write_text(f"#include <onfi.h>\n#include <stdio.h>\nint main(void)\n{{\n{lines}    return 0;\n}}\n")
            subprocess.run(["cc", f"-I{ROOT / 'include'}", str(source), "-o", f"{room}/sizes"], check=True)
            sizes = subprocess.run([f"{room}/sizes"], capture_output=True, text=True, check=True).stdout.split()
        self.assertEqual([*map(int, sizes)], [ctypes.sizeof(getattr(structs, name)) for name in told.values()])

    def test_a_library_that_is_older_than_the_package_is_told(self) -> None:
        with tempfile.TemporaryDirectory() as room:
            source, made = Path(room) / "older.c", f"{room}/older.so"
            source.write_text("int onfi_plan;\n")
            subprocess.run(["cc", "-shared", str(source), "-o", made], check=True)
            shutil.copytree(ROOT / "python/onfi", Path(room) / "onfi")
            told = self.imported(Path(room), "import onfi\ntry:\n    onfi.text('plan', b'end')\nexcept OSError as told:\n    print(told)", ONFI_LIBRARY=made)
            self.assertEqual((told.stdout, told.stderr), (f"the library {made} has no call onfi_version: it is older than this package\n", ""))

    def test_the_wheel_has_its_library_and_tells_its_platform(self) -> None:
        with tempfile.TemporaryDirectory() as room:
            made = subprocess.run([str(ROOT / "tools/make-wheel"), os.environ["ONFI_LIBRARY"], room], capture_output=True, text=True, check=True)
            path = Path(made.stdout.strip())
            version = (ROOT / "VERSION").read_text().strip()
            self.assertRegex(path.name, rf"^onfi-{re.escape(version)}-py3-none-manylinux_2_(1[7-9]|[2-9]\d)_(x86_64|aarch64)\.whl$")
            with zipfile.ZipFile(path) as wheel:
                wheel.extractall(f"{room}/site")
                for line in wheel.read(f"onfi-{version}.dist-info/RECORD").decode().splitlines():
                    name, digest, size = line.split(",")
                    held = wheel.read(name)
                    wanted = base64.urlsafe_b64encode(hashlib.sha256(held).digest()).rstrip(b"=").decode()
                    self.assertTrue(name.endswith("RECORD") or (digest, size) == (f"sha256={wanted}", str(len(held))), name)
                self.assertIn(f"Tag: {path.stem.split('-', 2)[2]}\n", wheel.read(f"onfi-{version}.dist-info/WHEEL").decode())
            told = self.imported(Path(room) / "site", "import onfi; print(onfi.__file__, onfi.__version__, onfi.text('plan', b'end').text)")
            self.assertEqual((told.stdout, told.stderr), (f"{room}/site/onfi/__init__.py {version} b'script refused 0 Missing\\n'\n", ""))

    def test_no_wheel_is_made_of_something_else(self) -> None:
        with tempfile.TemporaryDirectory() as room:
            for path in (str(ROOT / "README.md"), sys.executable, "/no/such.so"):
                told = subprocess.run([str(ROOT / "tools/make-wheel"), path, room], capture_output=True, text=True)
                self.assertEqual((told.returncode, told.stdout, told.stderr.count("\n")), (1, "", 1), path)
            self.assertEqual(list(Path(room).iterdir()), [])


class Texts(unittest.TestCase):
    def test_script(self) -> None:
        answer = onfi.text("plan", b"end\n")
        self.assertEqual((answer.text, answer.status), (b"script refused 0 Missing\n", 1))
        for words in ("", "plan --limit 0", "plan --limit 1048577", "plan  --trace", "run", "plan --remember", "check --by rule"):
            self.assertRaises(onfi.BadWords, onfi.text, words, b"end\n")
        self.assertEqual(onfi.text("check", b"").text, b"script refused 0 NoEnd\n")

    def test_options(self) -> None:
        script = (ROOT / "examples/batch.onfi").read_bytes()
        known = onfi.text("plan --by within", script)
        self.assertIn(b"\nONFICERT 3 remember\n", known.text)
        self.assertEqual(onfi.text("check --by within", script + known.text).text, b"accepted 58240\n")
        self.assertEqual(onfi.text("check", script + known.text).text, b"refused cert Header\n")
        self.assertEqual(onfi.text("check --legal", script + known.text.split(b"ONFICERT")[0]).text, b"legal 58240\n")
        traces = [onfi.text(f"plan --{what}", script).text.splitlines() for what in ("trace", "requests")]
        self.assertEqual([line.rsplit(b" ", 1)[0] for line in traces[1]], traces[0])
        self.assertEqual({line.rsplit(b" ", 1)[1] for line in traces[1]}, {b"0", b"1", b"2"})

    def test_texts_are_str_or_bytes(self) -> None:
        script = (ROOT / "examples/batch.onfi").read_text()
        texts: List[Any] = [script, script.encode(), bytearray(script.encode()), memoryview(script.encode())]
        for text in texts:
            plan = onfi.text("plan", text)
            self.assertEqual((plan.status, plan.text), (0, onfi.text("plan", script.encode()).text))
        both = script + plan.text.decode("ascii")
        self.assertEqual((onfi.text("check", both).text, onfi.text("check --legal", both.encode()).text), (b"accepted 58240\n", b"legal 58240\n"))
        self.assertEqual(onfi.text("plan", "want,read,0,0,\u0661\nend\n").text, b"script refused 1 NotANumber\n")

    def test_texts_of_other_types_are_told(self) -> None:
        others: List[Any] = [None, 7, ["end"], ROOT / "examples/batch.onfi"]
        for other in others:
            self.assertRaisesRegex(TypeError, f"^a script is str or bytes, not {type(other).__name__}$", onfi.text, "plan", other)
            self.assertRaisesRegex(TypeError, f"^words is str or bytes, not {type(other).__name__}$", onfi.text, other, "end\n")
        self.assertRaisesRegex(ValueError, "^a script has half a character", onfi.text, "plan", "\ud800")

    def test_certificates_are_str_or_bytes(self) -> None:
        plan = onfi.plan(CHANNEL, WANTS)
        given: List[Any] = [plan.certificate.decode("ascii"), None]
        self.assertEqual(onfi.check(CHANNEL, WANTS, dataclasses.replace(plan, certificate=given[0])), plan.finish)
        self.assertRaisesRegex(TypeError, "^a certificate is str or bytes, not NoneType$", onfi.check, CHANNEL, WANTS, dataclasses.replace(plan, certificate=given[1]))

    def test_the_version_of_the_library(self) -> None:
        self.assertEqual(onfi.library_version(), onfi.__version__)


if __name__ == "__main__":
    unittest.main()
