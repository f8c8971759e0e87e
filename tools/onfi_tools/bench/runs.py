"""Runs of a built program, with what they took, also under callgrind; trials for some seconds; and tables of what was measured."""

import argparse
import bisect
import contextlib
import itertools
import os
import re
import resource
import subprocess
import tempfile
import time
from concurrent.futures import ThreadPoolExecutor
from pathlib import Path
from typing import Callable, Iterable, Iterator, List, NamedTuple, Optional, Sequence, TypeVar, Union

from onfi_tools.plans import below_of, finish_of

ROOT = Path(__file__).resolve().parent.parent.parent.parent
PROGRAM = str(ROOT / "bin" / "onfi_sim")
HARD = sorted((ROOT / "examples" / "hard").glob("*.onfi"))
# The greatest limit, and statuses.
MOST = 1 << 20
OVER, WITHIN = 6, 8
# The C library clears or copies 2,048 bytes and more by one instruction, of which callgrind counts each byte. Here it does so by
# vectors, as it does less.
BY_VECTORS = ":".join(f"glibc.cpu.x86_rep_{what}_threshold=1000000" for what in ("stosb", "movsb"))

Found = TypeVar("Found")


def add_words(parser: argparse.ArgumentParser, **numbers: int) -> None:
    """PROGRAM, and options that are numbers, each with what it is where it isn't named."""
    parser.add_argument("program", nargs="?", default=PROGRAM)
    add_numbers(parser, **numbers)


def add_numbers(parser: argparse.ArgumentParser, **numbers: int) -> None:
    for name, usual in numbers.items():
        parser.add_argument(f"--{name}", type=int, default=usual)


class Run(NamedTuple):
    """What a program printed, its status, its seconds of processor time and by the clock, and its greatest memory in bytes where asked."""

    output: str
    status: int
    processor: float
    clock: float
    peak: int = 0


def most_memory(process: int) -> int:
    """The most memory that a running process has had so far, in bytes; 0 where it is over."""
    with contextlib.suppress(OSError):
        found = re.search(r"^VmHWM:\s*(\d+)", Path(f"/proc/{process}/status").read_text(), re.MULTILINE)
        return 1024 * int(found[1]) if found else 0
    return 0


def run(words: Sequence[str], given: str = "", watched: bool = False) -> Run:
    """Runs a program on a text; where it is watched its memory is looked at again and again."""
    with tempfile.TemporaryFile() as text, tempfile.TemporaryFile() as taken:
        text.write(given.encode())
        text.seek(0)
        begun, peak, ended, status = time.perf_counter(), 0, 0, 0
        child = subprocess.Popen(words, stdin=text, stdout=taken, stderr=subprocess.DEVNULL)
        while not ended:
            if watched:
                peak = max(peak, most_memory(child.pid))
                time.sleep(0.001)
            ended, status, used = os.wait4(child.pid, os.WNOHANG if watched else 0)
        clock = time.perf_counter() - begun
        child.returncode = os.waitstatus_to_exitcode(status)
        taken.seek(0)
        return Run(taken.read().decode(), child.returncode, used.ru_utime + used.ru_stime, clock, peak)


def counted(counts: Path, words: Sequence[Union[str, Path]], given: Optional[str] = None, parts: bool = False) -> "subprocess.CompletedProcess[str]":
    """Runs a program, and leaves what callgrind counted in that file; by parts where the program asks for them."""
    tool = ["valgrind", "--tool=callgrind", f"--callgrind-out-file={counts}", *(["--combine-dumps=yes"] if parts else [])]
    environment = {**os.environ, "GLIBC_TUNABLES": BY_VECTORS}
    return subprocess.run([*tool, *words], input=given, capture_output=True, text=True, env=environment)


def tried(seconds: float, most: int, jobs: int, one: Callable[[int], Found]) -> Iterator[Found]:
    """What comes of trials 0, 1, 2, .. that begin within that many seconds, with the most of them, and how many at a time."""
    ended = time.monotonic() + seconds
    left = itertools.takewhile(lambda _: time.monotonic() < ended, range(most))
    with ThreadPoolExecutor(jobs) as pool:
        for some in iter(lambda: list(itertools.islice(left, 16 * jobs)), []):
            yield from pool.map(one, some)


def answered(program: str, words: Sequence[str], given: str, text: str, status: int = 0) -> Run:
    """A run that has to answer so; ValueError says what it answered."""
    ran = run([program, *words], given)
    if (ran.output, ran.status) != (text, status):
        raise ValueError(f"{' '.join(words)}: {ran.output[:200]} in place of {text}\n{given[:4000]}")
    return ran


class Planned(NamedTuple):
    """A plan's text, its finish, and what nothing ends before."""

    text: str
    finish: int
    below: int


def planned(program: str, script: str, *options: str) -> Planned:
    """A plan by these options, once `check --by within` has judged it as what it says of itself."""
    ran = run([program, "plan", *options], script)
    finish, below = finish_of(ran.output), below_of(ran.output)
    if ran.status or finish is None or below is None:
        raise ValueError(f"no plan {' '.join(options)}, status {ran.status}: {ran.output[:200]}\n{script}")
    text, status = (f"within {finish} {below}\n", WITHIN) if below < finish else (f"accepted {finish}\n", 0)
    answered(program, ["check", "--by", "within"], script + ran.output, text, status)
    return Planned(ran.output, finish, below)


def is_short(ran: Run) -> bool:
    """Whether a limit was too small for a plan that is proved optimal."""
    return ran.status == OVER or "\nbelow " in ran.output


def greatest_over(is_over: Callable[[int], bool]) -> int:
    """The largest limit with which a search is over, 0 where it is with none."""
    return bisect.bisect_left(range(1, MOST + 1), True, key=lambda limit: not is_over(limit))


def best_of(runs: Sequence[Run]) -> Run:
    return min(runs, key=lambda one: one.processor)


def processor_time() -> float:
    """Of all programs that have ended, in s."""
    used = resource.getrusage(resource.RUSAGE_CHILDREN)
    return used.ru_utime + used.ru_stime


def built(compiler: str, words: Sequence[object], made: Path) -> Path:
    """What a compiler makes."""
    subprocess.run([compiler, *map(str, words), "-o", str(made)], check=True)
    return made


def row(cells: Iterable[object]) -> str:
    return "| " + " | ".join(map(str, cells)) + " |"


def table(columns: Sequence[str], rows: Iterable[Iterable[object]], left: int = 1) -> List[str]:
    """Rows below their columns, of which that many first are texts."""
    return [row(columns), "|" + "---|" * left + "---:|" * (len(columns) - left), *map(row, rows)]


def cells_at(rising: Sequence[float], places: Iterable[int]) -> str:
    """The numbers at some places; where there are fewer `over`, as what is over counts as greater than all."""
    return " / ".join(said(rising[place]) if place < len(rising) else "over" for place in places)


def quantile(numbers: Sequence[float], share: float) -> float:
    """The number that so great a share of all doesn't pass."""
    return sorted(numbers)[min(int(share * len(numbers)), len(numbers) - 1)]


def said(number: float) -> str:
    return f"{number:,.1f}" if isinstance(number, float) else f"{number:,}"
