"""The stack that each call takes, on x86-64 and under qemu: the header says no less, and less by a tenth would be too little."""

from __future__ import annotations

import os
import signal
import sys
import tempfile
import unittest
from pathlib import Path
from typing import Dict

ROOT = Path(__file__).resolve().parent.parent.parent
sys.dont_write_bytecode = True
sys.path[:0] = [str(ROOT / "tools")]

from onfi_tools import stacks  # noqa: E402

LIBRARIES = Path(os.environ.get("ONFI_LIBRARIES", ROOT / "lib")).resolve()
HEADER = (ROOT / stacks.HEADER).read_text()
ROWS = stacks.rows_of(HEADER)


class Stacks(unittest.TestCase):
    room: "tempfile.TemporaryDirectory[str]"
    programs: Dict[str, Path]
    found: Dict[str, Dict[str, int]]

    @classmethod
    def setUpClass(cls) -> None:
        cls.room = tempfile.TemporaryDirectory(prefix="onfi-stacks-")
        cls.addClassCleanup(cls.room.cleanup)
        lacking = {name: stacks.lacks(machine, LIBRARIES) for name, machine in stacks.MACHINES.items()}
        print("".join(f"stacks on {name}: left out, since {why}\n" for name, why in lacking.items() if why), end="")
        machines = {name: machine for name, machine in stacks.MACHINES.items() if not lacking[name]}
        cls.programs = {name: stacks.build(machine, LIBRARIES, Path(cls.room.name)) for name, machine in machines.items()}
        cls.found = {name: stacks.measured(machines[name], program) for name, program in cls.programs.items()}

    def test_the_header_has_each_call_once(self) -> None:
        self.assertEqual(sorted(call for row in ROWS for call in row.calls), sorted(stacks.calls_of(HEADER)))
        for name, found in self.found.items():
            self.assertEqual(sorted(found), sorted(stacks.calls_of(HEADER)), name)

    def test_no_call_takes_more_than_the_header_says(self) -> None:
        """And no more than an eighth more on other processors."""
        self.assertEqual("x86-64" in self.found, not stacks.is_unproved(LIBRARIES))
        for name, found in self.found.items():
            for row in ROWS:
                for call in row.calls:
                    self.assertLessEqual(found[call], row.most * (1 if name in stacks.PROVED else stacks.OTHERS), (name, call))

    def test_less_by_a_tenth_would_be_too_little(self) -> None:
        """Of each row some call takes more than nine tenths, on one of the processors that the header speaks of."""
        if {*stacks.PROVED} <= {*self.found}:
            for row in ROWS:
                self.assertGreater(stacks.most_of(row.calls, [self.found[name] for name in stacks.PROVED]), row.most * 9 // 10, row.calls)

    def test_a_stack_as_the_header_says_plans_checks_and_drives(self) -> None:
        """All calls are made on it; on the deepest that a call took less a kilobyte they end at memory that isn't there."""
        most = max(row.most for row in ROWS)
        for name, program in self.programs.items():
            machine = stacks.MACHINES[name]
            self.assertEqual(stacks.run(machine, program, most).returncode, 0, name)
            deepest = max(self.found[name].values())
            self.assertIn(stacks.run(machine, program, deepest - 1024).returncode, (-signal.SIGSEGV, 128 + signal.SIGSEGV), name)


if __name__ == "__main__":
    unittest.main()
