"""Parts of a gate: commands that end in a line 'N passed, M failed', and the sum of what they say."""

import re
import time
from pathlib import Path
from typing import Callable, Dict, List, NamedTuple, Sequence

from onfi_tools.kit import run_timed

COUNT = re.compile(r"(\d+) passed, (\d+) failed\s*$")
FAILURE = re.compile(r"\bFAIL(ED)?\b|\bNOT PROVED\b|\b[1-9]\d* misses\b")
BEGUN = time.monotonic()
# How many lines of a part that failed are shown once more.
SHOWN = 20


class Ran(NamedTuple):
    """What came of a part: its two counts, what it said of failures, and its processor time in minutes."""

    passed: int
    failed: int
    said: List[str]
    minutes: float


def elapsed() -> str:
    """The minutes on the clock since the gate began."""
    return f"[{(time.monotonic() - BEGUN) / 60:.0f} min]"


def run_part(command: Sequence[str], folder: Path, say: Callable[[str], object] = str, whole: bool = False) -> Ran:
    """Runs a part; one that ends ill without saying so has one failure. A whole one passes or fails by its status alone."""
    status, text, seconds = run_timed(command, folder, say)
    counted = COUNT.search(text)
    passed, failed = (int(not status), 0) if whole else (int(counted[1]), int(counted[2])) if counted else (0, 1)
    failed = failed or int(status != 0)
    lines = [line.rstrip() for line in text.splitlines()]
    said = lines if whole else [line for line in lines if FAILURE.search(line)]
    return Ran(passed, failed, said[-SHOWN:] if failed else [], seconds / 60)


def line_of(title: str, ran: Ran) -> str:
    return f"{title}: {ran.passed} passed, {ran.failed} failed; {ran.minutes:.1f} minutes of processor time"


def sum_up(ran: Dict[str, Ran]) -> int:
    """Prints the counts of all parts, what those said that failed, and the sums; gives the status."""
    print("=== sums")
    print("\n".join(line_of(*one) for one in ran.items()))
    print("".join(f"{title}: {line}\n" for title, it in ran.items() for line in it.said), end="")
    passed, failed = sum(it.passed for it in ran.values()), sum(it.failed for it in ran.values())
    print(f"{sum(it.minutes for it in ran.values()):.1f} minutes of processor time in all {elapsed()}")
    print(f"{passed} passed, {failed} failed")
    return 1 if failed or not passed else 0
