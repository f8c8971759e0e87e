"""A channel that goes phase by phase, and plans by the rule: what the library answers in random programs is the plain model's."""

from __future__ import annotations

import os
import subprocess
import sys
import tempfile
import unittest
from pathlib import Path
from typing import Counter, List

ROOT = Path(__file__).resolve().parent.parent.parent
LIBRARY = Path(os.environ.get("ONFI_LIBRARIES", ROOT / "lib")).resolve()
STRICT = ["-std=c11", "-O1", "-g", "-Wall", "-Wextra", "-Werror", "-fsanitize=address,undefined", "-fno-sanitize-recover=all"]
sys.dont_write_bytecode = True
sys.path[:0] = [str(Path(__file__).resolve().parent)]

from dispatcher_model import Reader, answers_of  # noqa: E402

# Programs of which kind, how many, seed.
RUNS = ["loops 120 1", "one-lun 2 2", "plans 500 3"]
# What sets one phase before another beside its time and its kind: the runs meet each.
RULES = {"a program that is due", "an erase that is due", "held", "an erase meanwhile", "the bus is kept"}
# Statuses that each call answers in the runs.
ANSWERS = {"1": {0, 13, 20, 21, 23, 27, 28}, "2": {0, 13, 20, 21, 23, 27, 28}, "3": {0, 35}, "4": {0, 21, 33}, "5": {0, 22, 31, 34}, "6": {0, 31}}


def changed(line: str) -> str:
    """A call that answers otherwise: another status, or a last number that is greater by 1."""
    what, status, *rest = line.split()
    if what in "12345":
        return " ".join([what, str(int(status) ^ 1), *rest])
    head, _, last = line.rpartition(" ")
    return f"{head} {int(last) + 1}"


class Alike(unittest.TestCase):
    room: "tempfile.TemporaryDirectory[str]"
    runs: List[List[str]]

    @classmethod
    def setUpClass(cls) -> None:
        cls.room = tempfile.TemporaryDirectory(prefix="onfi-dispatcher-")
        cls.addClassCleanup(cls.room.cleanup)
        made = str(Path(cls.room.name) / "dispatcher_trials")
        source = str(ROOT / "tests/libraries/dispatcher_trials.c")
        subprocess.run(["cc", *STRICT, f"-I{ROOT / 'include'}", source, str(LIBRARY / "libonfi.a"), "-o", made], check=True)
        cls.runs = [subprocess.run([made, *words.split()], capture_output=True, text=True, check=True).stdout.splitlines() for words in RUNS]

    def test_each_answer_is_that_of_the_model(self) -> None:
        met: Counter[str] = Counter()
        for lines in self.runs:
            reader, others = answers_of(lines)
            self.assertEqual(others, [])
            met += reader.met
        self.assertEqual({name for name, count in met.items() if count}, RULES)

    def test_each_call_gives_each_of_its_answers(self) -> None:
        said: List[List[str]] = [line.split(" ", 2) for lines in self.runs for line in lines if line[0] in ANSWERS]
        self.assertEqual({what: {int(it[1]) for it in said if it[0] == what} for what in ANSWERS}, ANSWERS)
        self.assertGreater(len(said), 50_000)

    def test_another_answer_is_not(self) -> None:
        """Of each hundredth line: the model goes on as it answers itself."""
        for lines in self.runs:
            reader = Reader()
            for at, line in enumerate(lines):
                is_changed = at % 100 == 50 and line[0] != "0" and line.split()[:2] != ["6", "31"]
                self.assertEqual(reader.take(changed(line) if is_changed else line), not is_changed, line)


if __name__ == "__main__":
    unittest.main()
