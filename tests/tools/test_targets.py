"""What is built for another processor: what make takes for TARGET, and libraries of an archive that stands for the proved one."""

import os
import shutil
import struct
import subprocess
import sys
import tempfile
import unittest
from pathlib import Path

import support
from onfi_tools.kit import KIT

VERSION = (support.ROOT / "VERSION").read_text().strip()
ARM = "aarch64"
COMPILER = f"{ARM}-linux-gnu-gcc"
# What stands for the library of the crate: a call, and what it asks of the three calls for memory.
CALL = """\
typedef struct { unsigned long is_given; void *block; } answer;
answer rattle_alloc(unsigned long bytes, unsigned long align);
answer rattle_realloc(void *block, unsigned long kept, unsigned long bytes, unsigned long align);
void rattle_dealloc(void *block);
unsigned onfi_plan(void) { rattle_dealloc(rattle_realloc(rattle_alloc(0, 8).block, 8, 16, 8).block); return 0; }
"""


def run(*words: str) -> "subprocess.CompletedProcess[str]":
    return subprocess.run([*words], cwd=support.ROOT, capture_output=True, text=True)


class Makefile(unittest.TestCase):
    def test_other_processors_are_refused_before_any_proof(self) -> None:
        for goal in ("library", "wheel", "install", "install-library", "install-program"):
            for target in ("riscv64", "x86_64", "aarch64 riscv64", "aarch64-unknown-linux-gnu"):
                told = support.make("-n", goal, f"TARGET={target}")
                self.assertEqual((told.returncode, told.stdout), (2, ""), (goal, target))
                self.assertIn(f"nothing is proved and built for TARGET={target}: it is aarch64, or left out for x86-64.", told.stderr)

    def test_what_is_made_stands_in_folders_of_the_processor_if_one_is_named(self) -> None:
        for target, asked in ((ARM, f"TARGET={ARM} PREFIX=/nowhere"), ("", "")):
            lines, below = support.make("-n", "-W", "crates.txt", "wheel", "install", *asked.split()).stdout, f"/{target}" if target else ""
            for line in (
                "tools/prove static onfi_c",
                f"tools/make-library shared lib{below} {target}\n",
                f"tools/make-wheel lib{below}/libonfi.so dist{below}\n",
                f"tools/install library lib{below}\n",
                f"cp crates/onfi_program/out{below}/onfi_program bin{below}/onfi_sim\n",
                f"tools/install program bin{below}/onfi_sim\n",
            ):
                self.assertIn(line, lines)
            archive = f"tools/make-library archive crates/onfi_c/out/{ARM}/libonfi_c.a targets/heap.c lib/{ARM} {ARM}\n"
            self.assertEqual((archive in lines, ARM in lines, "--target" in lines), 3 * (bool(target),))
            for line in lines.splitlines():
                if line.startswith(("tools/prove static", "tools/prove program")):
                    self.assertEqual(line.endswith(f"--target {ARM}"), bool(target), line)

    def test_where_it_is_put(self) -> None:
        """Beside what is installed for this machine, where no PREFIX is named."""
        with tempfile.TemporaryDirectory() as to:
            place = Path(to) / f"usr/local/{ARM}-linux-gnu/bin/onfi_sim"
            for folder in (place.parent, Path(to) / "usr/local/bin"):
                folder.mkdir(parents=True)
                (folder / "onfi_sim").write_text("")
            self.assertEqual(support.make("uninstall", f"TARGET={ARM}", f"DESTDIR={to}").returncode, 0)
            self.assertFalse(place.exists())
            self.assertTrue((Path(to) / "usr/local/bin/onfi_sim").exists())


class Prove(unittest.TestCase):
    def test_a_program_without_its_compiler(self) -> None:
        with tempfile.TemporaryDirectory() as room:
            kit = Path(room) / "rt"
            kit.write_text("")
            kit.chmod(0o755)
            words = ["prove", "program", "onfi_program", "--target", ARM]
            command = [sys.executable, "-B", str(support.ROOT / "tools" / words[0]), *words[1:]]
            told = subprocess.run(command, env={**os.environ, "PATH": room}, capture_output=True, text=True)
        self.assertEqual((told.returncode, told.stdout), (1, ""))
        self.assertEqual(told.stderr, "prove: a program for aarch64 is linked by Debian's gcc-aarch64-linux-gnu, which is not installed\n")


@unittest.skipUnless(shutil.which("rt"), "no kit")
class Library(unittest.TestCase):
    def setUp(self) -> None:
        self.room, self.kit = support.room_of(self, "onfi target "), KIT / "toolchain/bin"
        (self.room / "call.c").write_text(CALL)

    def tool(self, *words: str) -> str:
        told = run(str(support.ROOT / "tools/make-library"), *words)
        self.assertEqual((told.returncode, told.stderr), (0, ""), words)
        return told.stdout

    def archive(self) -> Path:
        """libonfi.a of the archive that stands for the proved one, by the kit alone."""
        made, proved, lib = self.room / "call.o", self.room / "proved.a", self.room / "lib"
        words = [str(self.kit / "clang"), f"--target={ARM}-unknown-linux-gnu", "-O2", "-fPIC", "-c", str(self.room / "call.c"), "-o", str(made)]
        for command in (words, [str(self.kit / "llvm-ar"), "rcs", str(proved), str(made)]):
            self.assertEqual(run(*command).returncode, 0)
        self.assertEqual(self.tool("archive", str(proved), "targets/heap.c", str(lib), ARM), "")
        return lib / "libonfi.a"

    def test_the_archive(self) -> None:
        """One object of the processor, in which the calls of the header alone can be linked to."""
        archive = str(self.archive())
        self.assertEqual(run(str(self.kit / "llvm-ar"), "t", archive).stdout, "onfi.o\n")
        elf = subprocess.run([str(self.kit / "llvm-ar"), "p", archive], capture_output=True).stdout
        self.assertEqual((elf[:6], struct.unpack_from("<H", elf, 18)[0]), (b"\x7fELF\x02\x01", 183))
        listed = subprocess.run(["llvm-nm", "-g", "-P", archive], executable=self.kit / "clang", capture_output=True, text=True).stdout
        names = [line.split()[:2] for line in listed.splitlines() if " " in line]
        self.assertEqual(sorted(names), [["free", "U"], ["malloc", "U"], ["onfi_plan", "T"], ["realloc", "U"]])

    def test_the_shared_library_is_left_out_where_it_cant_be_linked(self) -> None:
        lib = self.archive().parent
        (lib / "libonfi.so").symlink_to("libonfi.so.0.9.0")
        self.assertEqual(self.tool("shared", str(lib), "nowhere"), "libonfi.so for nowhere is left out: Debian's gcc-nowhere-linux-gnu is not installed\n")
        self.assertEqual(os.listdir(lib), ["libonfi.a"])
        told = support.run_tool("make-wheel", str(lib / "libonfi.so"), str(self.room / "dist"))
        self.assertEqual((told.returncode, told.stdout), (1, ""))
        self.assertIn("No such file", told.stderr)

    def test_the_shared_library_and_its_wheel(self) -> None:
        if shutil.which(COMPILER) is None:
            print(f"the shared library for {ARM}: left out, since Debian's gcc-{ARM}-linux-gnu is not installed")
            return
        lib = self.archive().parent
        self.assertEqual(self.tool("shared", str(lib), ARM), "")
        self.assertEqual(sorted(os.listdir(lib)), sorted(["libonfi.a", "libonfi.so", f"libonfi.so.{VERSION.split('.')[0]}", f"libonfi.so.{VERSION}"]))
        told = support.run_tool("make-wheel", str(lib / "libonfi.so"), str(self.room / "dist"))
        self.assertEqual((told.returncode, told.stderr), (0, ""))
        self.assertEqual(told.stdout, f"{self.room}/dist/onfi-{VERSION}-py3-none-manylinux_2_17_aarch64.whl\n")
