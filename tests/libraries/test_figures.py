"""The figures of pages that don't depend on a clock are those that `tools/bench pages` measures, each within its share."""

from __future__ import annotations

import os
import subprocess
import sys
import unittest
from pathlib import Path

ROOT = Path(__file__).resolve().parent.parent.parent
sys.dont_write_bytecode = True
sys.path[:0] = [str(ROOT / "tools")]

from onfi_tools.stacks import is_unproved  # noqa: E402

LIBRARIES = Path(os.environ.get("ONFI_LIBRARIES", ROOT / "lib")).resolve()
PROGRAM = os.environ.get("ONFI_SIM", str(ROOT / "bin/onfi_sim"))


class Figures(unittest.TestCase):
    def test_pages_say_what_is_measured(self) -> None:
        if is_unproved(LIBRARIES):
            print("figures of pages: left out, since the library is unproved and checks as it runs")
            return
        command = [sys.executable, "-B", str(ROOT / "tools/bench"), "pages", PROGRAM, str(LIBRARIES), "--check"]
        told = subprocess.run(command, capture_output=True, text=True)
        print("".join(f"{line}\n" for line in told.stdout.splitlines() if "not all is measured" in line), end="")
        self.assertEqual((told.returncode, told.stderr), (0, ""), told.stdout)


if __name__ == "__main__":
    unittest.main()
