"""The programs of examples/rattle, as their pages have them, over the crates as they stand; nothing is proved here."""

import re
import shutil
import tempfile
import textwrap
import unittest
from pathlib import Path
from typing import Dict, List

from support import ROOT

from onfi_tools.probe import Probe

EXAMPLES = ROOT / "examples/rattle"


def uses_of(page: str, crate: str) -> List[str]:
    """What the page's line of crates.txt names for a crate."""
    found = re.search(rf"{crate}(?: may_wait=\d+)?: ([\w ]+)", page)
    assert found, crate
    return found[1].split()


@unittest.skipUnless(shutil.which("rt"), "no kit")
class Examples(unittest.TestCase):
    def printed(self, page: str, crate: str, files: Dict[str, str]) -> str:
        uses = uses_of(page, crate)
        own = [name for name in uses if name.startswith("onfi_")]
        with tempfile.TemporaryDirectory(prefix="rattle-example-") as folder:
            kit = [name for name in uses if name not in own]
            ran = Probe(Path(folder), crate, own, kit).run(files)
        self.assertEqual(ran.returncode, 0, ran.stdout + ran.stderr)
        return ran.stdout

    def test_a_plan(self) -> None:
        page = (EXAMPLES / "README.md").read_text()
        blocks = re.findall(r"(?:^(?:    .*)?\n)+", page, re.MULTILINE)
        text = textwrap.dedent(next(block for block in blocks if "fn main" in block)).lstrip()
        self.assertIn("47240", self.printed(page, "mine", {"main.rt": text}))

    def test_a_wall_clock(self) -> None:
        """It compiles, and runs without a read, so that nothing sleeps here."""
        page = (EXAMPLES / "wall-clock/README.md").read_text()
        blocks = re.findall(r"^`crates/wall_clock/src/(\w+\.rt)`:\n\n```rust\n(.*?)^```$", page, re.MULTILINE | re.DOTALL)
        files = dict(blocks)
        self.assertEqual(sorted(files), ["main.rt", "paced.rt", "wall.rt"])
        reads = "for percent in [100, 60]"
        self.assertEqual(files["main.rt"].count(reads), 1)
        files["main.rt"] = files["main.rt"].replace(reads, "for percent in [0u64; 0]")
        self.assertEqual(self.printed(page, "wall_clock", files), "")
