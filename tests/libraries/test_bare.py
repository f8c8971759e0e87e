"""The examples of examples/c for 64-bit Arm without an operating system, in qemu: they print what they print here."""

from __future__ import annotations

import os
import shutil
import subprocess
import tempfile
import unittest
from pathlib import Path
from typing import Sequence

ROOT = Path(__file__).resolve().parent.parent.parent
LIBRARY = Path(os.environ.get("ONFI_LIBRARIES", ROOT / "lib")).resolve()
EXAMPLES = ROOT / "examples/c"
BARE = EXAMPLES / "bare"
STRICT = ["-Wall", "-Wextra", "-Werror"]
CROSS, QEMU = "aarch64-linux-gnu-gcc", "qemu-system-aarch64"
FLAGS = ["-std=c99", "-O2", "-ffreestanding", "-static", "-nostdlib", "-Wl,--build-id=none"]
MACHINE = [QEMU, "-M", "virt", "-cpu", "cortex-a53", "-nic", "none", "-display", "none", "-serial", "stdio", "-semihosting"]
# Words of the driver: each way, both searches, each kind of request, reads of sectors, arrivals by themselves, a word that can't be read.
RUNS = [
    "requests 200 way all",
    "requests 300 way both plan within workload erases byte 0.833",
    "requests 200 way both device slc load 0.7 array 0.4-0.7 ends yes",
    "requests 2000 workload erases depth 256 ends yes",
    "requests 200 workload mixed-4k way all",
    "way greedy requests 1000 device qlc late 700 slow 90 ends yes",
    "luns 9",
    "help",
]
NUMBERS = """\
#include <stdio.h>
#include <stdlib.h>
int main(void)
{
    unsigned long state = 88172645463325252;
    char *end = "";
    for (int at = 0; at < 2000; at++) {
        state ^= state << 13, state ^= state >> 7, state ^= state << 17;
        double number = (double)(state >> 11) / 9007199254740992.0 * (double)(1ul << state % 50);
        printf("%.3f %.2f %.0f\\n", number, number, number);
    }
    printf("%.3f %.0f %.0f %.0f %.1f %.3f\\n", 0.0, 0.5, 1.5, 2.5, 0.25, 1e-9);
    printf("%.3f ", strtod("0.833", &end));
    printf("%.3f ", strtod("12.5-7", &end));
    printf("%s %.2s %u %zu %%\\n", end, "abc", 7u, sizeof(double));
    return 3;
}
"""


def lacks() -> str:
    """What isn't here of what this takes; empty where all is."""
    tools = {CROSS: "gcc-aarch64-linux-gnu", QEMU: "qemu-system-arm"}
    missing = [f"Debian's {package} is not installed" for tool, package in tools.items() if shutil.which(tool) is None]
    if not (LIBRARY / "aarch64/libonfi.a").is_file():
        missing.append(f"{LIBRARY / 'aarch64'} has no libonfi.a")
    return ", ".join(missing)


class Bare(unittest.TestCase):
    def setUp(self) -> None:
        room = tempfile.TemporaryDirectory(prefix="onfi-bare-")
        self.addCleanup(room.cleanup)
        self.room = Path(room.name)

    def compiled(self, line: Sequence[str], sources: Sequence[Path], libraries: Sequence[str]) -> str:
        made = str(self.room / f"program{len(list(self.room.iterdir()))}")
        told = subprocess.run([*line, *STRICT, f"-I{ROOT / 'include'}", *map(str, sources), *libraries, "-o", made], capture_output=True, text=True)
        self.assertEqual((told.returncode, told.stderr), (0, ""))
        return made

    def here(self, names: Sequence[str]) -> str:
        return self.compiled(["cc", "-std=c99", "-O2"], [EXAMPLES / name for name in names], [str(LIBRARY / "libonfi.a"), "-lm"])

    def on_arm(self, names: Sequence[str], *options: str) -> str:
        sources = [*(BARE / name for name in ("start.S", "board.c", "libc.c")), *(EXAMPLES / name for name in names)]
        line = [CROSS, *FLAGS, "-T", str(BARE / "virt.ld"), *options]
        return self.compiled(line, sources, [str(LIBRARY / "aarch64/libonfi.a"), "-lgcc"])

    def run_on_arm(self, program: str, words: str) -> "subprocess.CompletedProcess[str]":
        command = [*MACHINE, "-kernel", program, "-append", words]
        return subprocess.run(command, stdin=subprocess.DEVNULL, capture_output=True, text=True, timeout=3600)

    def test_its_page_says_how(self) -> None:
        page = (BARE / "README.md").read_text()
        for words in ([CROSS, *FLAGS], MACHINE):
            self.assertIn(" ".join(words), page)

    def test_all_print_the_same(self) -> None:
        missing = lacks()
        if missing:
            print(f"examples without an operating system: left out, since {missing}")
            return
        (self.room / "numbers.c").write_text(NUMBERS)
        numbers = [str(self.room / "numbers.c")]
        for names, runs in ((["batch.c"], [""]), (sorted(it.name for it in EXAMPLES.glob("firmware*.c")), RUNS), (numbers, [""])):
            here, on_arm = self.here(names), self.on_arm([*names, "pool.c"])
            for words in runs:
                wanted = subprocess.run([here, *words.split()], stdout=subprocess.PIPE, stderr=subprocess.STDOUT, text=True)
                found = self.run_on_arm(on_arm, words)
                self.assertEqual((found.stdout, found.returncode, found.stderr), (wanted.stdout, wanted.returncode, ""), (names, words))

    def test_too_small_a_pool_is_refused_memory(self) -> None:
        if lacks():
            return
        found = self.run_on_arm(self.on_arm(["batch.c", "pool.c"], "-DPOOL_BYTES=512"), "")
        self.assertEqual((found.stdout, found.returncode), ("plan: memory was refused (4)\n", 1))

    def test_a_fault_ends_the_program(self) -> None:
        if lacks():
            return
        (self.room / "fault.c").write_text("int main(void)\n{\n    return *(volatile int *)0x100000000;\n}\n")
        found = self.run_on_arm(self.on_arm([str(self.room / "fault.c")]), "")
        self.assertEqual(found.returncode, 255)
        self.assertRegex(found.stdout, r"^exception: syndrome \d+ at \d+, address 4294967296\n$")


if __name__ == "__main__":
    unittest.main()
