"""Traces at the prompt: our dispatcher and schedulers written in Python on one trace, tables, and pictures."""

from __future__ import annotations

import contextlib
import dataclasses
import io
import os
import random
import re
import sys
import tempfile
import textwrap
import types
import unittest
import xml.etree.ElementTree as ET
from pathlib import Path
from typing import Dict, List, Optional, Sequence, Tuple

ROOT = Path(__file__).resolve().parent.parent.parent
LIBRARY = Path(os.environ.get("ONFI_LIBRARIES", ROOT / "lib")).resolve()
os.environ.setdefault("ONFI_LIBRARY", str(LIBRARY / "libonfi.so"))
sys.dont_write_bytecode = True
sys.path[:0] = [str(ROOT / "python")]

import onfi  # noqa: E402
from onfi import BadPlace, BadStep, Kind, Phase, Scheduler, Step, Want, kind_by, play  # noqa: E402
from onfi.running import Decides  # noqa: E402

LUNS = 4
TIMING = onfi.Timing(onfi.Spans(175, 600, 75_100, 37_639), onfi.Spans(37_439, 600, 800_100, 305), onfi.Spans(125, 600, 10_000_100, 305))
GEOMETRY = onfi.Geometry(1_024, 11, 10, 2, 1_152, 16_384, 2_048, LUNS, 2, 2, 3, False, True, True)
LENGTHS = onfi.Lengths({1: 9_991, 2: 19_207})
CHANNEL = onfi.Channel(TIMING, onfi.Rules(True, True, False, 2), [onfi.Lun()] * LUNS, LENGTHS)


def dispatcher() -> onfi.Dispatcher:
    return onfi.Dispatcher(CHANNEL, GEOMETRY)


def audit() -> onfi.Audit:
    return onfi.Audit(CHANNEL)


def scheduler(by: "type[Scheduler]") -> Scheduler:
    return by(CHANNEL, GEOMETRY)


def trace_of(count: int, seed: int) -> List[Tuple[int, Want]]:
    """Reads of pages and sectors, programs in order, some erases; one each 20 microseconds in the mean."""
    draw, now, pages, found = random.Random(seed), 0, [0] * LUNS, []
    for number in range(count):
        now += draw.randrange(40_000)
        lun, what = draw.randrange(LUNS), draw.random()
        if what < 0.75:
            want = Want(number, kind_by(Kind.READ, draw.randrange(3)), lun, draw.randrange(64), draw.randrange(16))
        elif what < 0.98:
            want = Want(number, Kind.PROGRAM, lun, 200 + pages[lun] % 4, pages[lun] // 4)
            pages[lun] += 1
        else:
            want = Want(number, Kind.ERASE, lun, 400 + draw.randrange(64))
        found.append((now, want))
    return found


class Oldest(Scheduler):
    """First in, first out, with all that can join."""

    def choose(self, steps: Sequence[Step]) -> Step:
        return min(steps, key=lambda step: (step.wants[0].id, step.start))


class Soonest(Scheduler):
    """What may start soonest, one request at a time."""

    def choose(self, steps: Sequence[Step]) -> Step:
        step = min(steps, key=lambda step: (step.start, step.want.id))
        return dataclasses.replace(step, wants=step.wants[:1]) if step.number == 0 else step


class Hasty(Soonest):
    """Doesn't wait for arrays."""

    def choose(self, steps: Sequence[Step]) -> Step:
        step = super().choose(steps)
        return dataclasses.replace(step, start=self._bus) if step.is_post else step


class Twice(Oldest):
    """Begins its first request once more."""

    def next(self, now: int) -> Optional[Phase]:
        phase = super().next(now)
        return dataclasses.replace(phase, want=0) if phase is not None and phase.want == 3 else phase


class Traces(unittest.TestCase):
    def test_each_request_is_answered_by_each_scheduler(self) -> None:
        for seed in range(3):
            trace = trace_of(400, seed)
            deciding: List[Decides] = [dispatcher(), scheduler(Oldest), scheduler(Soonest)]
            for of in deciding:
                run = play(of, trace, audit())
                table = run.requests()
                self.assertEqual(table["request"], list(range(400)))
                self.assertEqual([table["arrived"], table["block"]], [[time for time, _ in trace], [want.block for _, want in trace]])
                ended = [int(it) for it in table["ended"]]
                self.assertEqual(max(ended), run.phases[-1].end)
                self.assertTrue(all(int(began) >= int(came) for began, came in zip(table["began"], table["arrived"])))
                self.assertEqual([end - int(came) for end, came in zip(ended, table["arrived"])], table["latency"])

    def test_the_dispatcher_runs_a_trace_at_the_prompt(self) -> None:
        trace = trace_of(100, 7)
        found = [*dispatcher().run(trace, audit())]
        self.assertEqual(found, play(dispatcher(), trace).phases)
        self.assertEqual(len(found), 200)

    def test_one_of_ones_own_beside_ours(self) -> None:
        """On a trace that keeps the channel busy reads are answered sooner by ours than first in first out."""
        trace, means = trace_of(600, 1), {}
        deciding: Dict[str, Decides] = {"ours": dispatcher(), "oldest": scheduler(Oldest)}
        for name, of in deciding.items():
            table = play(of, trace).latencies()
            self.assertEqual([*table], ["kind", "count", "mean", "50 %", "95 %", "99 %", "99.9 %", "most"])
            self.assertEqual(sum(int(it) for it in table["count"]), 600)
            means[name] = float(table["mean"][table["kind"].index("read")])
        self.assertLess(means["ours"], means["oldest"])

    def test_a_hundred_at_once_on_a_lun_wait_for_room(self) -> None:
        trace = [(0, Want(number, Kind.READ, 0, number, 0)) for number in range(100)]
        self.assertEqual(len(play(dispatcher(), trace, audit()).phases), 200)

    def test_latencies_by_hand(self) -> None:
        trace = [(1_000 + at * 1_000_000, Want(at, Kind.READ, 0, 0, 0)) for at in range(10)]
        alone = 175 + 75_100 + 37_639
        table = play(dispatcher(), trace).latencies()
        self.assertEqual({name: column[0] for name, column in table.items()},
                         {"kind": "read", "count": 10, "mean": alone, "50 %": alone, "95 %": alone, "99 %": alone, "99.9 %": alone, "most": alone})

    def test_a_planted_fault_is_refused(self) -> None:
        with self.assertRaisesRegex(BadStep, r"^at \d+ ns, LUN \d, request \d+: NotReady \(lun \d, start \d+, earliest \d+\)$"):
            play(scheduler(Hasty), trace_of(50, 1), audit())
        with self.assertRaisesRegex(BadStep, "request 0: it doesn't wait$") as refused:
            play(scheduler(Twice), [(0, Want(at, Kind.READ, 0, at, 0)) for at in range(5)])
        self.assertEqual(refused.exception.phase.want, 0)

    def test_what_a_trace_must_not_have(self) -> None:
        with self.assertRaisesRegex(ValueError, "^a trace whose times fall: 3 after 5$"):
            play(dispatcher(), [(5, Want(0, Kind.READ, 0, 0)), (3, Want(1, Kind.READ, 0, 0))])
        with self.assertRaises(BadPlace):
            play(dispatcher(), [(5, Want(0, Kind.READ, 0, 2_000))])
        self.assertEqual(play(dispatcher(), []).requests()["request"], [])


class Page(unittest.TestCase):
    def test_its_lines_run(self) -> None:
        """Those of a trace at the prompt, with a stand-in for pandas."""
        section = (ROOT / "examples/python/README.md").read_text().split("## A channel at the prompt")[1].split("\n## ")[0]
        blocks = [textwrap.dedent(it) for it in re.findall(r"^(?:    .*\n|\n(?=    ))+", section, re.MULTILINE)]
        tables: List[Dict[str, List[object]]] = []
        trace = [(0, Want(at, Kind.READ, at % 8, at)) for at in range(9)]
        geometry = dataclasses.replace(GEOMETRY, lun_bits=3, lun_count=8)
        names = {**vars(onfi), "timing": TIMING, "rules": CHANNEL.rules, "geometry": geometry, "trace": trace,
                 "pandas": types.SimpleNamespace(DataFrame=tables.append)}
        with tempfile.TemporaryDirectory() as room, contextlib.redirect_stdout(io.StringIO()) as told:
            code = "".join(blocks).replace("open(\"", f"open(\"{room}/")
            exec(code, names)
            pictures = sorted(it.name for it in Path(room).iterdir())
        self.assertEqual(pictures, ["run.svg", "wires.svg"])
        self.assertEqual(len(told.getvalue().splitlines()), 4)
        self.assertEqual(told.getvalue().splitlines()[0], "0 3 READ 0")
        self.assertEqual([*tables[0]][:2], ["request", "kind"])


class Pictures(unittest.TestCase):
    def rows_of(self, svg: str) -> Dict[str, int]:
        """How many boxes stand beside each name of a row."""
        root = ET.fromstring(svg)
        space = {"s": "http://www.w3.org/2000/svg"}
        tops = {int(it.attrib["y"]) - 15: it.text or "" for it in root.findall("s:text[@font-weight]", space)}
        found = {name: 0 for name in tops.values()}
        for box in root.findall("s:g/s:rect", space):
            found[tops[int(box.attrib["y"])]] += 1
        return found

    def test_a_chart_has_each_phase_and_each_array(self) -> None:
        run = play(dispatcher(), [(0, Want(0, Kind.READ, 1, 0)), (0, Want(1, Kind.READ, 1, 1)), (0, Want(2, Kind.PROGRAM, 3, 8))])
        self.assertEqual(self.rows_of(run.svg()), {"bus": 6, "LUN 1": 5, "LUN 3": 3})
        self.assertEqual(run._repr_html_(), run.svg())
        self.assertEqual(self.rows_of(run.svg(0, 800))["bus"], 2)

    def test_a_plan_is_a_chart_too(self) -> None:
        made = onfi.plan(CHANNEL, [Want(0, Kind.READ, 0, 0), Want(1, Kind.ERASE, 1, 0)])
        self.assertEqual(self.rows_of(made.svg()), {"bus": 4, "LUN 0": 3, "LUN 1": 3})
        self.assertEqual(made._repr_html_(), made.svg())

    def test_a_waveform_has_bytes_and_ready_lines(self) -> None:
        phases = [*dispatcher().run([(0, Want(0, Kind.READ, 2, 5, 7))])]
        svg = onfi.waveform(phases)
        self.assertIn("06h 402807 E0h", svg)
        root = ET.fromstring(svg)
        line, = root.findall("{http://www.w3.org/2000/svg}polyline")
        heights = [point.split(",")[1] for point in line.attrib["points"].split()]
        self.assertEqual(heights, ["60", "60", "82", "82", "60", "60"])


if __name__ == "__main__":
    unittest.main()
