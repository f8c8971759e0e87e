"""What the tests of the tools share: where things stand, stored traces, and runs of the tools."""

import os
import re
import shlex
import subprocess
import sys
import tempfile
import unittest
from pathlib import Path
from typing import Dict, Iterator, List, Optional

ROOT = Path(__file__).resolve().parent.parent.parent
sys.path.insert(0, str(ROOT / "tools"))

from onfi_tools.environment import be_plain  # noqa: E402
from onfi_tools.kit import KIT  # noqa: E402
from onfi_tools.loading import load_tool  # noqa: E402
from onfi_tools.script import lengths_of  # noqa: E402
from onfi_tools.trace import Phase, read_trace  # noqa: E402
from onfi_tools.device import Spans  # noqa: E402

load = load_tool

be_plain()


def plain_environment() -> Dict[str, str]:
    """That of the tests, for one that adds to it."""
    return dict(os.environ)


def cells_of(text: str) -> Iterator[List[str]]:
    """The rows of a page's tables, with their heads and without the lines below these."""
    for line in text.splitlines():
        if line.startswith("|") and not re.match(r"\|[\s:|-]+\|$", line):
            yield [cell.strip() for cell in line.strip("| ").split(" | ")]


SCRIPTS = {
    "batch": "examples/batch.onfi",
    "diagram": "examples/diagram.onfi",
    "programs-on-one-plane": "examples/hard/programs-on-one-plane.onfi",
}


def trace_text(name: str) -> str:
    """What the program printed for that script with `plan --trace`."""
    return (ROOT / "tests/tools/traces" / f"{name}.trace").read_text()


def trace(name: str) -> List[Phase]:
    return read_trace(trace_text(name).splitlines())


def lengths(name: str) -> Dict[str, Spans]:
    return lengths_of((ROOT / SCRIPTS[name]).read_text())


def run_tool(name: str, *words: str, given: str = "") -> "subprocess.CompletedProcess[str]":
    command = [sys.executable, "-B", str(ROOT / "tools" / name), *words]
    return subprocess.run(command, input=given, capture_output=True, text=True, cwd=ROOT)


def program() -> Optional[str]:
    """The built program: that of the environment's ONFI_SIM, else bin/onfi_sim; None where there is none."""
    path = os.environ.get("ONFI_SIM", str(ROOT / "bin/onfi_sim"))
    return path if os.access(path, os.X_OK) else None


def trials() -> Optional[str]:
    """The built onfi_trials: that of the environment's ONFI_TRIALS, else the crate's; None where there is none."""
    path = os.environ.get("ONFI_TRIALS", str(ROOT / "crates/onfi_trials/out/onfi_trials"))
    return path if os.access(path, os.X_OK) else None


def run_program(*words: str, given: str) -> "subprocess.CompletedProcess[str]":
    return subprocess.run([str(program()), *words], input=given, capture_output=True, text=True)


def run_shell(command: str) -> str:
    """What a command of a page prints, with the built program for `bin/onfi_sim`."""
    line = command.replace("bin/onfi_sim", shlex.quote(str(program())))
    return subprocess.run(line, shell=True, capture_output=True, text=True, cwd=ROOT).stdout


def library(room: Path) -> Optional[Path]:
    """The folder of a built library: the environment's ONFI_LIBRARIES, lib, or made of the crate's archive; else None."""
    for folder in (os.environ.get("ONFI_LIBRARIES", ""), str(ROOT / "lib")):
        if (Path(folder) / "libonfi.a").is_file():
            return Path(folder)
    archive = ROOT / "crates/onfi_c/out/libonfi_c.a"
    if not archive.is_file() or not (KIT / "c/liblibc_c.a").is_file():
        return None
    made = subprocess.run([str(ROOT / "tools/make-library"), "archive", str(archive), str(KIT / "c/liblibc_c.a"), str(room)])
    return None if made.returncode else room


def make(*words: str) -> "subprocess.CompletedProcess[str]":
    return subprocess.run(["make", "--no-print-directory", *words], cwd=ROOT, env=plain_environment(), capture_output=True, text=True)


def room_of(test: unittest.TestCase, prefix: str = "onfi-") -> Path:
    """A folder for a test."""
    room = tempfile.TemporaryDirectory(prefix=prefix)
    test.addCleanup(room.cleanup)
    return Path(room.name)


def executable(folder: str, text: str) -> str:
    """A program of that text."""
    program = Path(folder) / "program"
    program.write_text(text)
    program.chmod(0o755)
    return str(program)


def compiled(folder: str, text: str, *options: str, name: str = "program") -> str:
    """A program of that text in C."""
    source, made = Path(folder) / "program.c", str(Path(folder) / name)
    source.write_text(text)
    subprocess.run(["cc", *options, "-o", made, str(source)], check=True)
    return made
