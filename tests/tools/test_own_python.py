"""A scheduler of one's own in Python on a load of one's own, beside those in C: the page's commands, planted faults, the same loop."""

import os
import subprocess
import tempfile
import unittest
from pathlib import Path

import support
from onfi_tools.python_way import run_python
from onfi_tools.rolling_load import Load
from onfi_tools.rolling_use import SOURCES
from onfi_tools.script import first_form
from onfi_tools.workload import Operation, Place
from test_devices import commands_of
from test_rolling import DEVICE, SHAPE

ROOM = tempfile.TemporaryDirectory(prefix="own-python-")
OWN = "examples/simulator/rolling/own"
BENCH = "tools/bench rolling --trace examples/workload.csv --unit us --device mine.onfi --library lib/unproved"
LOAD = Load([], first_form(DEVICE), SHAPE, [Operation(at + 2, 0, "read", Place(0, at % 2, at, 3)) for at in range(4)], 64, False)
# The library's own dispatcher as a class of a file, and one that gives its phases 1 ns sooner.
DISPATCHER = """from onfi import Dispatcher


class Steady(Dispatcher):
    pass
"""
SOONER = """from dataclasses import replace

from onfi import Dispatcher


class Sooner(Dispatcher):
    def next(self, now=0):
        phase = super().next(now)
        return phase and replace(phase, start=max(phase.start - 1, 0))
"""


def setUpModule() -> None:
    """A folder as the pages have it: the project's, and libraries in lib/unproved."""
    unittest.addModuleCleanup(ROOM.cleanup)
    room = Path(ROOM.name)
    found = support.library(room)
    if found is None:
        raise unittest.SkipTest("no built library")
    libraries = room / "lib/unproved"
    libraries.mkdir(parents=True)
    (libraries / "libonfi.a").write_bytes((found / "libonfi.a").read_bytes())
    subprocess.run([str(support.ROOT / "tools/make-library"), "shared", str(libraries)], check=True)
    for name in ("examples", "include", "python", "tools"):
        (room / name).symlink_to(support.ROOT / name)
    device = (support.ROOT / "examples/devices/tlc.onfi").read_text()
    (room / "mine.onfi").write_text(device.replace("\nend\n", "\nsector,4608\nend\n"))


def run(command: str) -> "subprocess.CompletedProcess[str]":
    return subprocess.run(command, shell=True, capture_output=True, text=True, cwd=ROOM.name, env={**os.environ, "PYTHONDONTWRITEBYTECODE": "1"})


def latencies(folder: str, way: str) -> "list[str]":
    """A way's lines of latencies.csv, without its name."""
    rows = (Path(ROOM.name) / folder / "latencies.csv").read_text().splitlines()
    return [row.partition(",")[2] for row in rows if row.partition(",")[0] == way]


class OwnPython(unittest.TestCase):
    def file(self, name: str, text: str) -> str:
        (Path(ROOM.name) / name).write_text(text)
        return name

    def test_the_commands_of_the_page(self) -> None:
        found = [it for it in commands_of(SOURCES / "README.md", with_silent=True) if "soonest.py" in it[0] or "wrong.py" in it[0]]
        for command, written in found:
            ran = run(command)
            self.assertEqual((ran.stdout, ran.stderr), (written, ""), command)
        self.assertEqual(len(found), 3)

    def test_the_same_loop_as_in_c(self) -> None:
        """The library's dispatcher by Python answers each line when it does by C, at requests' times and with answers."""
        own = self.file("steady.py", DISPATCHER)
        for words in ("", "--closed --depth 5"):
            ran = run(f"{BENCH} --own {own} --ways steady --into out {words}")
            self.assertEqual((ran.returncode, ran.stderr), (0, ""))
            self.assertEqual(latencies("out", "Steady"), latencies("out", "steady"))
            self.assertEqual(len(latencies("out", "Steady")), 7)

    def test_faults_that_are_planted(self) -> None:
        """Each is refused with its time, LUN, request and line."""
        plain = (support.ROOT / OWN / "soonest.py").read_text()
        given = "return min(steps, key=lambda step: (step.start, step.want.id))"
        self.assertEqual(plain.count(given), 1)
        of = r"LUN \d+, request \d+ \(line \d+\): "
        faults = {
            SOONER: rf"Sooner: at 11 ns, {of}NotReady \(lun 0, start 11, earliest 12\)",
            plain.replace(given, "return Step(0, steps[-1].wants, 0)"): f"Soonest: at 0 ns, {of}",
            plain.replace(given, "return Step(steps[0].start, (*steps[0].wants, *steps[-1].wants), 0)"): f"Soonest: at 12 ns, {of}it doesn't wait",
            plain.replace("(Scheduler)", ""): r"\S*wrong.py has no class with accept, next, ran",
            plain + "\n    def next(self, now: int) -> None:\n        return None\n": "Soonest: at 0 ns: requests are left, and nothing is done",
        }
        for text, said in faults.items():
            with self.assertRaisesRegex(ValueError, f"^{said}"):
                run_python(Path(ROOM.name) / self.file("wrong.py", text), Path(ROOM.name) / "lib/unproved", LOAD)

    def test_files_that_are_not_taken(self) -> None:
        for words in (f"--own {OWN}/oldest.c --own {OWN}/oldest.c", "--quick"):
            ran = run(f"{BENCH if 'oldest' in words else 'tools/bench rolling'} --own {OWN}/soonest.py {words} --ways rfirst:all")
            self.assertEqual((ran.returncode, ran.stdout, ran.stderr), (1, "", "bench rolling: --own takes one file in C, and with --trace any in Python\n"))


if __name__ == "__main__":
    unittest.main()
