"""Where the Rattle kit stands, above the folder in PATH that has its `rt`, and commands that it or its tools are asked."""

import os
import shutil
import subprocess
import sys
from pathlib import Path
from typing import Callable, List, Sequence, Tuple

# Where no kit is in PATH, a folder that has nothing of one.
KIT = Path(os.path.realpath(shutil.which("rt") or "rt")).parent.parent
NONE = "no Rattle kit in PATH, see README"


def ask_for_kit() -> None:
    """Ends the tool by a line where no kit is in PATH."""
    if shutil.which("rt") is None:
        sys.exit(NONE)


def goes_well(words: Sequence[object], folder: Path) -> bool:
    """Runs a command in a folder, and prints its last lines where it fails, but for those that count what a prover loaded."""
    ran = subprocess.run([*map(str, words)], cwd=folder, stdout=subprocess.PIPE, stderr=subprocess.STDOUT, text=True, errors="replace")
    if ran.returncode:
        print("\n".join([it for it in ran.stdout.splitlines() if not it.startswith("statements ")][-200:]))
    return not ran.returncode


def run_timed(words: Sequence[str], folder: Path, say: Callable[[str], object] = str) -> Tuple[int, str, float]:
    """Runs a command in a folder, and says each line at once; gives its status, what it printed, and its processor time in seconds."""
    lines: List[str] = []
    with subprocess.Popen(words, cwd=folder, stdin=subprocess.DEVNULL, stdout=subprocess.PIPE, stderr=subprocess.STDOUT, text=True, errors="replace") as ran:
        assert ran.stdout is not None
        for line in ran.stdout:
            say(line)
            lines.append(line)
        _, status, used = os.wait4(ran.pid, 0)
        ran.returncode = os.waitstatus_to_exitcode(status)
    return ran.returncode, "".join(lines), used.ru_utime + used.ru_stime
