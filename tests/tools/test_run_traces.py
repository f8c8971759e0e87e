"""What `run --trace` writes: the phases of each channel in files of their own, which `audit` takes; drawn scripts are in tools/soak."""

import tempfile
import unittest
from pathlib import Path
from typing import List, Tuple

import support
from onfi_tools.limits import run_within

SCRIPT = (support.ROOT / "examples" / "two-hosts.onfi").read_text(encoding="utf-8")
# The rows of its device.
DEVICE = "".join(f"{row}\n" for row in SCRIPT.splitlines() if row.startswith(("page,", "sheet,"))) + "end\n"
SECONDS = 20
# By a clock: command 7 cycles of 20 ns, array 25,000 and tWB 100, output 280 and 512 cycles' 10,720 more; the program's bytes 10,800.
BY_NEXT = """\
0 140 1 read cmd 0 63 00 30 0
25240 36240 1 read post 0 63 06 E0 0
36240 47040 0 program cmd 4 0 80 10 1
247140 247420 0 program post 4 0 78 - 1
247420 247560 0 read cmd 4 0 00 30 2
272660 283660 0 read post 4 0 06 E0 2
"""


def ran(words: List[str], given: str) -> Tuple[int, str, str]:
    """Status, answer and messages."""
    done = run_within(SECONDS, [str(support.program()), *words], given.encode())
    return done.returncode, done.stdout.decode(), done.stderr.decode()


@unittest.skipUnless(support.program(), "no built program")
class RunTraces(unittest.TestCase):
    def test_a_file_for_each_channel(self) -> None:
        with tempfile.TemporaryDirectory() as folder:
            log = Path(folder) / "log"
            words = ["run", "--clock", "simulated", "--by", "next"]
            plain = ran(words, SCRIPT)
            self.assertEqual(ran([*words, "--trace", str(log)], SCRIPT), plain)
            self.assertEqual(log.read_text(encoding="utf-8"), BY_NEXT)
            self.assertEqual(sorted(it.name for it in Path(folder).iterdir()), ["log", "log.1"])

    def test_audit_takes_each(self) -> None:
        with tempfile.TemporaryDirectory() as folder:
            log = Path(folder) / "log"
            for way in ("plain", "within", "rule", "next"):
                for clock in ("", "--clock=simulated"):
                    with self.subTest(way=way, clock=clock):
                        words = ["run", "--by", way, *filter(None, [clock]), "--trace", str(log)]
                        self.assertEqual(ran(words, SCRIPT)[0], 0)
                        for name in ("log", "log.1"):
                            self.assertEqual(ran(["audit", "-", f"{folder}/{name}"], DEVICE), (0, "legal 6\n", ""))

    def test_a_file_that_cannot_be_written(self) -> None:
        with tempfile.TemporaryDirectory() as folder:
            status, answer, said = ran(["run", "--trace", f"{folder}/none/log"], SCRIPT)
            self.assertEqual((status, answer), (5, ""))
            self.assertIn("none/log' can't be written", said)

    def test_a_refused_script_writes_none(self) -> None:
        with tempfile.TemporaryDirectory() as folder:
            log = Path(folder) / "log"
            status, answer, _ = ran(["run", "--trace", str(log)], "op,0\nend\n")
            self.assertEqual((status, answer), (1, "script refused 1 FieldCount\n"))
            self.assertFalse(log.exists())


if __name__ == "__main__":
    unittest.main()
