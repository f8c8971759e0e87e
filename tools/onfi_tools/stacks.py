"""How much stack each call of the library for C takes, on each processor that can be tried here, and what the header says of it."""

import re
import shutil
import subprocess
from pathlib import Path
from typing import Dict, List, NamedTuple, Sequence

ROOT = Path(__file__).resolve().parent.parent.parent
HEADER = "include/onfi.h"
SCRIPTS = [*sorted((ROOT / "examples").glob("*.onfi")), *sorted((ROOT / "examples/devices").glob("*.onfi"))]


class Machine(NamedTuple):
    """How a program for a processor is built and run, where its library stands below that for x86-64, and Debian's packages."""

    compiler: List[str]
    emulator: List[str]
    folder: str
    packages: str


MACHINES: Dict[str, Machine] = {
    "x86-64": Machine(["cc"], [], ".", ""),
    "64-bit Arm": Machine(["aarch64-linux-gnu-gcc"], ["qemu-aarch64-static", "-L", "/usr/aarch64-linux-gnu"], "aarch64", "gcc-aarch64-linux-gnu, qemu-user-static"),
    "armv7": Machine(["arm-linux-gnueabihf-gcc"], ["qemu-arm-static", "-L", "/usr/arm-linux-gnueabihf"], "armv7", "gcc-arm-linux-gnueabihf, qemu-user-static"),
}
# Those that the header speaks of, and what it says of others: a call takes at most an eighth more.
PROVED = ("x86-64", "64-bit Arm")
OTHERS = 9 / 8
# What the header may say more than the most that a call takes: what is measured is in its range, and what says less by a tenth is found.
MARGIN = 1.04


class Row(NamedTuple):
    """Of some calls of the header how many bytes of stack they take at most."""

    most: int
    calls: List[str]


def is_unproved(libraries: Path) -> bool:
    """Whether the library is one of `make try-library`, which checks as it runs and so takes more stack and code than the proved one."""
    return b"onfi_c: unproved" in (libraries / "libonfi.so").read_bytes()


def lacks(machine: Machine, libraries: Path) -> str:
    """What isn't here of what trying a processor takes; empty where all is."""
    if is_unproved(libraries):
        return "the library is unproved and checks as it runs"
    if not all(map(shutil.which, [machine.compiler[0], *machine.emulator[:1]])):
        return f"Debian's {machine.packages} are not installed"
    return "" if (libraries / machine.folder / "libonfi.a").is_file() else f"{libraries / machine.folder} has no libonfi.a"


def build(machine: Machine, libraries: Path, room: Path) -> Path:
    """The program that takes calls' stacks, over the library of a processor."""
    made = room / f"stacks-{machine.folder.strip('.')}"
    words = [*machine.compiler, "-std=c11", "-O2", "-Wall", "-Wextra", "-Werror", f"-I{ROOT / 'include'}", str(ROOT / "tests/libraries/stacks.c")]
    subprocess.run([*words, str(libraries / machine.folder / "libonfi.a"), "-o", str(made)], check=True)
    return made


def run(machine: Machine, program: Path, *words: object) -> "subprocess.CompletedProcess[str]":
    return subprocess.run([*machine.emulator, str(program), *map(str, [*words, *SCRIPTS])], capture_output=True, text=True)


def measured(machine: Machine, program: Path) -> Dict[str, int]:
    """The most that each call took, in bytes."""
    ran = run(machine, program)
    ran.check_returncode()
    return {name: int(count) for name, count in (line.split() for line in ran.stdout.splitlines())}


def rows_of(header: str) -> List[Row]:
    """What the header says: lines of a number of bytes and the calls that it is of."""
    rows = re.findall(r"^ \*     ([\d,]+) bytes: ((?:.*[^.])(?:\n \*         .*)*)$", header, re.MULTILINE)
    return [Row(int(most.replace(",", "")), re.findall(r"onfi_\w+", calls)) for most, calls in rows]


def calls_of(header: str) -> List[str]:
    return re.findall(r"^uint32_t (onfi_\w+)\(", header, re.MULTILINE)


def enough_for(most: int) -> int:
    """What the header says where calls take that much: with a margin, rounded up."""
    unit = 1000 if most > 20_000 else 100 if most > 1000 else 10
    return -(-int(most * MARGIN) // unit) * unit


def most_of(calls: Sequence[str], found: Sequence[Dict[str, int]]) -> int:
    return max(counts[call] for counts in found for call in calls)
