"""How tools end where nobody reads what they print any more, where it can't be written, and where they refuse what they are given."""

import os
import subprocess
import sys
import unittest
from typing import Dict, List, Tuple

import support
from onfi_tools.ending import CLOSED

TOOLS = support.ROOT / "tools"
PYTHON = sorted(it.name for it in TOOLS.iterdir() if it.is_file() and it.read_text().startswith("#!/usr/bin/env python3"))
# What prints more than a buffer and a pipe hold, without a built program, by what it is given.
MUCH: List[Tuple[List[str], str]] = [
    (["make-page", "--copies", "200", "luns=1"], ""),
    (["draw-trace", "100000"], support.trace_text("batch")),
    (["draw-trace", "9", "--as", "perfetto"], "".join(f"{at} {at + 1} 0 read cmd 0 0 00 30\n" for at in range(2000))),
    (["draw-crates"], ""),
]


# What tools refuse without an answer, the message, the status, and what they are given.
REFUSED: List[Tuple[str, str, int, str]] = [
    ("bench rolling --library /nowhere --quick", "bench rolling: no libonfi.a in /nowhere: `make library` builds it\n", 1, ""),
    ("bench rolling --ways plan,best", "no way best; there are fifo, ", 2, ""),
    ("coverage /no/such", "coverage: [Errno 2] No such file or directory: ", 1, ""),
    ("draw-crates /no/such", "/no/such", 1, ""),
    ("draw-trace", "draw-trace: line 1: not a line of a trace: over 7\n", 1, "over 7\n"),
    ("draw-trace --script README.md", "no line `end`", 1, support.trace_text("batch")),
    ("list-calls --below onfi_nothing", "invalid choice: 'onfi_nothing'", 2, ""),
    *((f"make-page {word}", told, 1, "") for word, told in (
        ("luns=256", "luns: 256 is not below 256"), ("plane_bits=16", "not below 16"), ("lun=2", "lun: no such field"), ("luns", "not NAME=VALUE"),
        ("luns=two", "make-page: luns=two: not a number\n"), (f"model={21 * 'x'}", "not 20 printable"), ("wide_bus=2", "not below 2"),
        ("luns=1 luns=1", "a second time"))),
    ("make-page", "NAME=VALUE", 2, ""),
    ("prove static onfi_c --target riscv64", "invalid choice: 'riscv64' (choose from 'x86_64', 'aarch64')", 2, ""),
    ("test-targets no-program sparc", "sparc isn't one of aarch64, ", 2, ""),
]

# With a buffer a tool meets the closed pipe as it ends; without one, where it prints.
BUFFERED = {name: value for name, value in os.environ.items() if name != "PYTHONUNBUFFERED"}
UNBUFFERED = {**BUFFERED, "PYTHONUNBUFFERED": "1"}


def command(words: List[str]) -> List[str]:
    return [sys.executable, "-B", str(TOOLS / words[0]), *words[1:]]


class Closed(unittest.TestCase):
    def ended(self, words: List[str], room: Dict[str, str], given: str = "") -> "subprocess.CompletedProcess[str]":
        """A run whose output goes to a pipe that nobody has open for reading, from before it begins."""
        reads, writes = os.pipe()
        os.close(reads)
        try:
            return subprocess.run(command(words), input=given, stdout=writes, stderr=subprocess.PIPE, text=True, cwd=support.ROOT, env=room)
        finally:
            os.close(writes)

    def test_each_tool_ends_quietly(self) -> None:
        self.assertGreater(len(PYTHON), 20)
        for name in PYTHON:
            ran = self.ended([name, "--help"], BUFFERED)
            self.assertEqual((ran.returncode, ran.stderr), (CLOSED, ""), name)

    def test_so_does_what_prints_much(self) -> None:
        for room in (BUFFERED, UNBUFFERED):
            for words, given in MUCH:
                ran = self.ended(words, room, given)
                self.assertEqual((ran.returncode, ran.stderr), (CLOSED, ""), words)

    def test_a_reader_that_leaves_early_is_no_fault(self) -> None:
        for words, given in MUCH:
            tool = subprocess.Popen(command(words), stdin=subprocess.PIPE, stdout=subprocess.PIPE, stderr=subprocess.PIPE, cwd=support.ROOT)
            assert tool.stdin and tool.stdout and tool.stderr
            with tool.stdin, tool.stdout, tool.stderr:
                tool.stdin.write(given.encode())
                tool.stdin.close()
                self.assertTrue(os.read(tool.stdout.fileno(), 1), words)
                tool.stdout.close()
                self.assertEqual(tool.stderr.read(), b"", words)
            self.assertIn(tool.wait(), (0, CLOSED), words)


class Unwritten(unittest.TestCase):
    def test_a_full_disk_is_told(self) -> None:
        for words, given in [(["make-page", "luns=1"], ""), (["draw-trace", "--as", "svg"], support.trace_text("batch")), *MUCH[3:], (["prove", "--help"], "")]:
            with open("/dev/full", "w") as full:
                ran = subprocess.run(command(words), input=given, stdout=full, stderr=subprocess.PIPE, text=True, cwd=support.ROOT, env=BUFFERED)
            self.assertEqual((ran.returncode, ran.stderr), (1, f"{words[0]}: [Errno 28] No space left on device\n"))

    def test_what_is_refused(self) -> None:
        for words, told, status, given in REFUSED:
            ran = support.run_tool(*words.split(), given=given)
            self.assertEqual((ran.returncode, ran.stdout), (status, ""), words)
            self.assertIn(told, ran.stderr)
        self.assertEqual(support.run_tool("make-page", "luns=1").returncode, 0)
