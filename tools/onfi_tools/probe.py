"""A program of a few files over crates of this repository, run unproved in a folder apart."""

import shutil
import subprocess
from pathlib import Path
from typing import Dict, Sequence

from onfi_tools.crates import CRATES, lines_below

ROOT = Path(__file__).resolve().parent.parent.parent


class Probe:
    """An empty crate in a folder, beside the sources of those that it may use."""

    def __init__(self, folder: Path, name: str, libraries: Sequence[str], kit: Sequence[str] = ()) -> None:
        """`libraries` are crates of this repository, `kit` those of the kit that the program names."""
        self.crate = folder / "crates" / name
        lines = lines_below(CRATES.read_text(), *libraries)
        for below in lines:
            for part in ("src", "specs", "proofs"):
                if (ROOT / "crates" / below / part).is_dir():
                    shutil.copytree(ROOT / "crates" / below / part, folder / "crates" / below / part)
        for part in ("src", "specs", "proofs"):
            (self.crate / part).mkdir(parents=True)
        for part in ("specs", "proofs"):
            (self.crate / part / "Lib.antt").write_text("")
        shutil.copy(ROOT / "HANDLES", folder / "HANDLES")
        own = f"{name}: {' '.join([*lines, *kit])}"
        (folder / "crates.txt").write_text("\n".join([*lines.values(), own]) + "\n")

    def run(self, files: Dict[str, str], given: str = "") -> "subprocess.CompletedProcess[str]":
        """Runs the program with these files of its src, and that as its standard input; nothing is proved."""
        for name, text in files.items():
            (self.crate / "src" / name).write_text(text)
        return subprocess.run(["rt", "try"], cwd=self.crate, input=given, capture_output=True, text=True)
