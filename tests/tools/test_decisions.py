"""Decisions that take time, in the simulator of channels in rolling use: worked runs, and the table of `tools/bench decisions`."""

import re
import tempfile
import unittest
from pathlib import Path

import support
from onfi_tools.rolling_use import TWELVE, Asked, Configuration, build, output_of

ASKED = Asked(requests=200, seed=3, limit=1, jobs=1)
# Of tlc at 2 ns a byte: the parts of a read.
READ, ARRAY, OUTPUT = 175, 75100, 37639
ROOM = tempfile.TemporaryDirectory(prefix="decisions-")
GREEDY = Path(ROOM.name) / "greedy"


def setUpModule() -> None:
    unittest.addModuleCleanup(ROOM.cleanup)
    build(GREEDY, None)


class Decisions(unittest.TestCase):
    def rate(self, of: Configuration, decide: int, ahead: str, way: str = "fifo") -> float:
        text = output_of(GREEDY, of, ASKED.requests, ASKED, "way", way, "decide", str(decide), "ahead", ahead)
        return float(re.findall(r"^rate (\S+) ", text, re.MULTILINE)[0])

    def test_reads_one_by_one_by_hand(self) -> None:
        """A decision before each command holds the bus up; that before the data output runs beside the array, as far as it is shorter."""
        of = Configuration("tlc", "reads", 2, luns=1, depth=1)
        for ahead in ("no", "yes"):
            self.assertAlmostEqual(self.rate(of, 0, ahead), 1e9 / (READ + ARRAY + OUTPUT), 2)
            self.assertAlmostEqual(self.rate(of, 5000, ahead), 1e9 / (5000 + READ + ARRAY + OUTPUT), 2)
            self.assertAlmostEqual(self.rate(of, 100_000, "no"), 1e9 / (100_000 + READ + 100_000 + OUTPUT), 2)

    def test_ahead_by_hand(self) -> None:
        """Of two reads of a LUN the second one's command is decided while the first one's data output has the bus."""
        of = Configuration("tlc", "reads", 2, luns=1, depth=2)
        self.assertAlmostEqual(self.rate(of, 5000, "no"), 1e9 / (5000 + READ + ARRAY + OUTPUT), 2)
        self.assertAlmostEqual(self.rate(of, 5000, "yes"), 1e9 / (READ + ARRAY + OUTPUT), 2)
        self.assertAlmostEqual(self.rate(of, OUTPUT + 1000, "yes"), 1e9 / (1000 + READ + ARRAY + OUTPUT), 2)

    def test_a_busy_bus_waits_for_each_phase(self) -> None:
        """So that a read takes two decisions more of it."""
        for decide in (2000, 24_000):
            busy = READ + OUTPUT + 2 * decide
            self.assertAlmostEqual(self.rate(TWELVE[4]._replace(byte=2), decide, "no", "rfirst:all") * busy / 1e9, 1, 2)

    def test_requests_that_come_meanwhile(self) -> None:
        """Arrivals while a decision is made end none: all are answered, at least as late as without."""
        for ahead in ("no", "yes"):
            of = TWELVE[1]._replace(load=0.3, array="0.4-0.7")
            text = output_of(GREEDY, of, ASKED.requests, ASKED, "way", "rfirst:all", "decide", "24000", "ahead", ahead)
            self.assertIn("answered 180 requests", text)

    def test_the_table(self) -> None:
        own = support.ROOT / "examples/simulator/rolling/own/oldest.c"
        ran = support.run_tool("bench", "decisions", "--ways", "rfirst:all", "--own", str(own), "--requests", "100", "--seeds", "1", "--us", "0,6")
        self.assertEqual((ran.returncode, ran.stderr), (0, ""))
        head, _, *rows = ran.stdout.splitlines()
        columns = [f"{way}, {how}" for way in ("reads first, all", "oldest") for how in ("idle", "ahead")]
        self.assertEqual(head, f"| % of throughput at 0 us; 0, 6 us a decision | {' | '.join(columns)} |")
        self.assertEqual(len(rows), len(TWELVE) + 3)
        self.assertTrue(all(re.match(r"\| [^|]+ \| 100, \d+ \|", row) for row in rows[:-2]), rows)
        ran = support.run_tool("bench", "decisions", "--us", "2e9")
        self.assertEqual((ran.returncode, ran.stdout), (2, ""))


if __name__ == "__main__":
    unittest.main()
