"""tools/coverage, on a program of which is known what its cases run."""

import shutil
import tempfile
import unittest
from pathlib import Path
from typing import Any, Dict, List, Tuple
from unittest import mock

import support
from onfi_tools.cases import Case

COVERAGE: Any = support.load("coverage")
PROGRAM = r"""
#include <stdio.h>
#include <string.h>

#define ALONE __attribute__((noinline))
static volatile int sum;

ALONE int onfi_whole(int x) { sum += x; return sum; }
ALONE int onfi_partly(const char *word)
{
    if (strcmp(word, "plan") == 0)
        return onfi_whole(1);
    sum *= 3; sum -= 7; sum ^= 12; sum *= 5;
    return onfi_whole(2);
}
ALONE int onfi_never(int x) { sum -= 4 * x; return sum ^ x; }
ALONE int other_never(int x) { sum -= 5 * x; return sum ^ x; }

int main(int count, char **words)
{
    if (count > 3)
        return onfi_never(count) + other_never(count);
    printf("%d\n", onfi_partly(words[1]));
    return 0;
}
"""
SHOWN = """
0000000000001139 <onfi_a::first>:
    1139:\tpush   %rbp
    113a:\tnopw   0x0(%rax,%rax,1)
    1140:\tcs nopw 0x0(%rax,%rax,1)
    114a:\tret
    114b:\tud2

0000000000001150 <core::fmt::write>:
    1150:\tret

0000000000001160 <<onfi_b::Lun as core::fmt::Debug>::fmt>:
    1160:\tjmp    1139 <onfi_a::first>
"""
COUNTS = """version: 1
positions: instr
events: Ir
ob=/bin/other
fn=main
0x1139 3
ob=/bin/program
fn=onfi_a::first
0x114a 1
cob=/bin/other
cfn=puts
calls=1 0x9
0x1160 12
totals: 16
"""


def case(*words: bytes) -> Case:
    return Case("page:1", "a case", list(words), b"", 0, b"1\n" if words[0] == b"plan" else b"2\n", [])


class Texts(unittest.TestCase):
    def test_padding_traps_and_the_kit_are_left_out(self) -> None:
        found = COVERAGE.instructions_of(SHOWN)
        self.assertEqual(found, {"onfi_a::first": {0x1139, 0x114A}, "<onfi_b::Lun as core::fmt::Debug>::fmt": {0x1160}})

    def test_what_ran_elsewhere_does_not_count(self) -> None:
        self.assertEqual(COVERAGE.addresses_of(COUNTS, "/bin/program"), {0x114A, 0x1160})

    def test_what_is_told(self) -> None:
        functions = [COVERAGE.Function(*it) for it in (("onfi_a", 9, 0), ("onfi_b", 10, 4), ("onfi_c", 5, 3), ("onfi_d", 6, 6))]
        with mock.patch.object(COVERAGE, "SHOWN", 1):
            self.assertEqual(COVERAGE.told(functions), ["no case runs onfi_a (9 instructions)", "cases run 4 of 10 instructions of onfi_b",
                                                        "3 of 4 functions, 13 of 30 instructions (43.3 %)"])


@unittest.skipUnless(all(map(shutil.which, ("valgrind", "objdump", "cc"))), "Debian's valgrind, binutils or gcc is not installed")
class Programs(unittest.TestCase):
    def measured(self, *cases: Case) -> Tuple[Dict[str, Tuple[int, int]], List[str]]:
        with tempfile.TemporaryDirectory() as folder:
            program = Path(support.compiled(folder, PROGRAM, "-O1")).resolve()
            functions, differences = COVERAGE.measured(str(program), cases)
        return {it.name: (it.ran, it.whole) for it in functions}, differences

    def test_each_function_is_told_by_what_ran(self) -> None:
        found, differences = self.measured(case(b"plan"))
        self.assertEqual((set(found), differences), ({"onfi_whole", "onfi_partly", "onfi_never"}, []))
        self.assertEqual(found["onfi_never"][0], 0)
        self.assertEqual(found["onfi_whole"][0], found["onfi_whole"][1])
        ran, whole = found["onfi_partly"]
        self.assertTrue(0 < ran < whole)

    def test_cases_add_up(self) -> None:
        found, differences = self.measured(case(b"plan"), case(b"check"))
        self.assertEqual(len(differences), 1)
        self.assertEqual(found["onfi_partly"][0], found["onfi_partly"][1])
        self.assertEqual(found["onfi_never"][0], 0)

    def test_a_program_of_others_is_refused(self) -> None:
        ran = support.run_tool("coverage", "/bin/true", "no case has this name")
        self.assertEqual(ran.returncode, 1)
        self.assertIn("has no function of this repository", ran.stderr)
