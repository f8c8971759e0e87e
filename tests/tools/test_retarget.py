"""How modules are carried over to other processors: where it stops, and what stands in place of pointers of 64 bits; what is left out."""

import os
import subprocess
import sys
import unittest
from typing import Dict, List

import support

from onfi_tools.modules import Module, Unknown
from onfi_tools.narrow import calls_of, narrow_calls, types_of
from onfi_tools.processors import PROCESSORS, words_for

retarget = support.load("retarget")

BEGINNING = """\
target datalayout = "e-m:e-p270:32:32-p271:32:32-p272:64:64-i64:64-i128:128-f80:128-n8:16:32:64-S128"
target triple = "x86_64-unknown-linux-gnu"

@text = private unnamed_addr constant [2 x i8] c"ab", align 1

"""
DEFINED = """\
; Function Attrs: nounwind
define {own}{result} {name}(ptr noundef %a0, i64 noundef %a1) #0 {{
start:
{lines}
  ret i32 7
}}
"""
END = """
declare void @llvm.memset.p0.i64(ptr writeonly captures(none), i8, i64, i1 immarg) #1
declare {{ i64, i64 }} @rattle_alloc(i64 noundef, i64 noundef) #1
{more}
attributes #0 = {{ nounwind "probe-stack"="inline-asm" "stack-probe-size"="3072" "target-cpu"="x86-64-v2" }}
attributes #1 = {{ nobuiltin nounwind }}
"""
HEADER = """\
#include <stdbool.h>
#include <stddef.h>
#include <stdint.h>
uint32_t onfi_tried(const uint8_t *text, size_t text_size);
"""
# A function for each unit that a core of 32-bit Arm may lack.
UNITS = """\
void of_vectors(unsigned *a, const unsigned *b) { for (int at = 0; at < 64; at++) a[at] += b[at]; }
int of_floats(int a) { return (int)((float)a * 1.5f); }
int of_signals(short a, short b, int c) { return a * b + c; }
"""
KIT_WORDS = ["--target=x86_64-unknown-linux-gnu", "--sysroot=/none", "-march=x86-64", "-mllvm", "-no-x86-call-frame-opt", "-mllvm", "-trap-unreachable",
             "-ffunction-sections", "--no-default-config", "-Werror", "-c", "-x", "ir", "module.bc", "-o", "module.o", "-fPIC", "-O3"]


def module(*lines: str, more: str = "", own: str = "", result: str = "noundef i32", name: str = "@onfi_tried") -> str:
    """A module of one function."""
    inside = "\n".join(f"  {it}" for it in lines)
    return BEGINNING + DEFINED.format(own=own, result=result, name=name, lines=inside) + END.format(more=more)


def carried(text: str, processor: str) -> List[str]:
    return [*Module("module.ll", PROCESSORS[processor]).carried(text.splitlines())]


def between(text: List[str]) -> List[str]:
    """The lines of the function between its first label and its end, without blanks before them."""
    return [it.strip() for it in text[text.index("start:") + 1 : text.index("}") - 1]]


class Stops(unittest.TestCase):
    """What isn't known ends the work, with its place."""

    def stops(self, text: str, told: str, processor: str = "riscv64") -> None:
        with self.assertRaises(Unknown) as stopped:
            carried(text, processor)
        self.assertIn(told, str(stopped.exception))

    def test_in_a_function(self) -> None:
        rows = {
            "%r0 = inttoptr i64 %a1 to ptr": "module.ll:9, in @onfi_tried: a pointer made of a number: %r0 = inttoptr i64 %a1 to ptr",
            "store ptr inttoptr (i64 8 to ptr), ptr %a0, align 8": "a pointer made of a number",
            "%r0 = call i64 @llvm.x86.bmi.pext.64(i64 %a1, i64 1)": "an intrinsic of one processor, or one that isn't known here",
            "%r0 = call double @llvm.sqrt.f64(double 1.0)": "an intrinsic",
            'call void asm sideeffect "pause", ""()': "assembler",
            "%r0 = load [2 x ptr], ptr %a0, align 8": "a typed access that can't be carried over",
            "%r0 = load { i8, { ptr, i64 } }, ptr %a0, align 8": "a typed access",
            "%r0 = getelementptr { ptr, i8 }, ptr %a0, i64 0, i32 1": "a typed access",
            "%r0 = alloca { ptr, i8 }, align 8": "a typed access",
            "%r0 = alloca i8, i64 %a1, align 1": "a typed access",
            "store volatile i8 0, ptr %a0, align 1": "a typed access",
            "%r0 = load <4 x i32>, ptr %a0, align 4": "a vector",
            "%r0 = fadd double 1.0, 2.0": "a float",
            "%r0 = load atomic i64, ptr %a0 seq_cst, align 8": "an atomic access",
            "call void @other(ptr byval({ i64 }) %a0)": "an argument that the compiler lays out",
            "%r0 = ptrtoint ptr %a0 to i64": "a form that isn't known here",
            "%r0 = call i32 @onfi_tried(ptr %a0, i64 1)": "a call of what is handed out",
        }
        for line, told in rows.items():
            for processor in ("riscv64", "armv7"):
                self.stops(module(line), told, processor)

    def test_outside_of_functions(self) -> None:
        self.stops(module(more="@p = private constant { ptr, i64 } { ptr @text, i64 2 }, align 8"), "a constant that isn't of bytes, or a variable")
        self.stops(module(more="@count = internal global i64 0, align 8"), "a constant that isn't of bytes, or a variable")
        self.stops(module(more='module asm "nop"'), "assembler")
        self.stops(module(more="declare i32 @getpid()"), "a call that the module asks for, and that isn't known here: declare i32 @getpid()")
        self.stops(module(more='attributes #2 = { "denormal-fp-math"="ieee,ieee" }'), "an attribute that isn't known here")
        self.stops(module(result="noundef i64"), "a result or an argument that isn't known here")

    def test_an_alignment(self) -> None:
        text = module("call void @other(ptr align 16 %a0)", more="declare void @llvm.trap()")
        self.stops(text, "an alignment that malloc may not give", "riscv32")
        self.assertIn("  call void @other(ptr align 16 %a0)", carried(text, "riscv64"))

    def test_what_the_kit_tells_its_compiler(self) -> None:
        with self.assertRaisesRegex(ValueError, "told -ffast-math, which isn't known here"):
            words_for(PROCESSORS["riscv64"], [*KIT_WORDS, "-ffast-math"])
        with self.assertRaisesRegex(ValueError, "told -x86-other"):
            words_for(PROCESSORS["riscv64"], [*KIT_WORDS, "-mllvm", "-x86-other"])

    def test_calls_of_the_header(self) -> None:
        for given in ("size_t *places", "float weight", "const char **texts", "onfi_lun lun"):
            with self.assertRaisesRegex(ValueError, "onfi_tried: a parameter that isn't known here"):
                calls_of(f"uint32_t onfi_tried({given});\n")


class Carried(unittest.TestCase):
    def test_64_bits_stay_as_they_are(self) -> None:
        lines = ["%r0 = alloca ptr, align 8", "store ptr %a0, ptr %r0, align 8", "%r1 = load { i8, ptr }, ptr %a0, align 8",
                 "call void @llvm.memset.p0.i64(ptr %a0, i8 0, i64 16, i1 false)", "%r2 = call { i64, i64 } @rattle_alloc(i64 %a1, i64 8)"]
        made = carried(module(*lines), "riscv64")
        self.assertEqual(between(made), lines)
        self.assertIn("define signext noundef i32 @onfi_tried(ptr noundef %a0, i64 noundef %a1) #0 {", made)
        self.assertIn('attributes #0 = { nounwind "probe-stack"="inline-asm" "stack-probe-size"="3072" }', made)
        self.assertIn('target triple = "riscv64-unknown-linux-gnu"', made)

    def test_pointers_of_32_bits_keep_their_places(self) -> None:
        rows: Dict[str, List[str]] = {
            "%r0 = alloca ptr, align 8": ["%r0 = alloca [8 x i8], align 8"],
            "%r0 = load ptr, ptr %a0, align 8": ["%r0 = load ptr, ptr %a0, align 8"],
            "store ptr null, ptr %a0, align 8": [
                "store ptr null, ptr %a0, align 8", "%.carried.1 = getelementptr i8, ptr %a0, i64 4", "store i32 0, ptr %.carried.1, align 4"],
            "%r0 = load { i8, ptr }, ptr %a0, align 8": [
                "%.carried.1 = load i8, ptr %a0, align 8", "%.carried.2 = insertvalue { i8, ptr } poison, i8 %.carried.1, 0",
                "%.carried.3 = getelementptr i8, ptr %a0, i64 8", "%.carried.4 = load ptr, ptr %.carried.3, align 8",
                "%r0 = insertvalue { i8, ptr } %.carried.2, ptr %.carried.4, 1"],
            "store { i16, i64 } %r9, ptr %a0, align 8": [
                "%.carried.1 = extractvalue { i16, i64 } %r9, 0", "store i16 %.carried.1, ptr %a0, align 8",
                "%.carried.2 = getelementptr i8, ptr %a0, i64 8", "%.carried.3 = extractvalue { i16, i64 } %r9, 1",
                "store i64 %.carried.3, ptr %.carried.2, align 8"],
            "%r0 = load i128, ptr %a0, align 16, !noundef !1": ["%r0 = load i128, ptr %a0, align 8, !noundef !1"],
            "store i128 0, ptr %a0, align 16": ["store i128 0, ptr %a0, align 8"],
            "store <16 x i8> %r9, ptr %a0, align 1": ["store <16 x i8> %r9, ptr %a0, align 1"],
            "%r0 = ptrtoaddr ptr %a0 to i64": ["%r0 = ptrtoint ptr %a0 to i64"],
            "call void @llvm.memset.p0.i64(ptr %a0, i8 0, i64 %a1, i1 false)": [
                "%.carried.1 = trunc i64 %a1 to i32", "call void @llvm.memset.p0.i32(ptr %a0, i8 0, i32 %.carried.1, i1 false)"],
        }
        for line, wanted in rows.items():
            self.assertEqual(between(carried(module(line), "thumbv7em")), wanted)

    def test_calls_for_32_bits_have_another_name(self) -> None:
        made = carried(module(), "riscv32")
        self.assertIn("define noundef i32 @wide_onfi_tried(ptr noundef %a0, i64 noundef %a1) #0 {", made)
        self.assertIn("attributes #0 = { nounwind }", made)
        self.assertFalse([it for it in made if "@rattle_alloc" in it])

    def test_calls_of_the_header_stand_over_them(self) -> None:
        header = (support.ROOT / "include/onfi.h").read_text()
        calls = calls_of(header)
        self.assertEqual(len(calls), header.count("\nuint32_t onfi_"))
        given = {it.name: types_of(it) for it in calls}
        self.assertEqual(given["onfi_plan"], ["ptr", "ptr", "i64", "ptr", "ptr", "ptr", "i64", "ptr"])
        text = narrow_calls(calls)
        self.assertIn("uint32_t wide_onfi_version(void);\nuint32_t onfi_version(void)\n{\n    return wide_onfi_version();\n}\n", text)
        self.assertIn("        wide_want_count[at] = want_count[at];\n", text)
        self.assertIn("        wide_answer_bytes[at] = NOTHING;\n", text)


class Tool(unittest.TestCase):
    """The tool on a module of one function, which the kit's own compiler compiles."""

    def setUp(self) -> None:
        self.room = support.room_of(self)
        (self.room / "onfi.h").write_text(HEADER)
        self.keep(module("%r0 = call { i64, i64 } @rattle_alloc(i64 %a1, i64 8)", "%r1 = extractvalue { i64, i64 } %r0, 1", "store i64 %r1, ptr %a0, align 8"))

    def keep(self, text: str) -> None:
        (self.room / "module.txt").write_text(text)
        assembled = ["-x", "ir", "module.txt", "-c", "-emit-llvm", "-O0", "-Xclang", "-disable-llvm-passes", "-o", "module.bc"]
        retarget.run("clang", "--target=x86_64-unknown-linux-gnu", *assembled, room=self.room)
        (self.room / "words").write_text("".join(f"{it}\0" for it in KIT_WORDS))
        retarget.run("clang", *KIT_WORDS, room=self.room)
        (self.room / "proved.a").unlink(missing_ok=True)
        retarget.run("llvm-ar", "rcs", "proved.a", "module.o", room=self.room)

    def tool(self, *words: str) -> "subprocess.CompletedProcess[str]":
        return support.run_tool("retarget", str(self.room / "module.bc"), *words, "--archive", str(self.room / "proved.a"), "--header", str(self.room / "onfi.h"))

    def test_each_processor(self) -> None:
        for processor in PROCESSORS:
            told = self.tool(processor, str(self.room / processor))
            self.assertEqual((told.returncode, told.stderr), (0, ""), processor)
            self.assertRegex(told.stdout, f"for {processor}, tried and not proved for; it asks for (free, )?malloc")
            names = retarget.run("llvm-nm", "--defined-only", "-g", "libonfi.a", room=self.room / processor).decode()
            self.assertEqual([line.split()[1:] for line in names.splitlines() if " " in line], [["T", "onfi_tried"]])

    def test_another_library(self) -> None:
        kept = (self.room / "proved.a").read_bytes()
        self.keep(module("store i8 1, ptr %a0, align 1"))
        (self.room / "proved.a").write_bytes(kept)
        told = self.tool("riscv64", str(self.room / "lib"))
        self.assertEqual((told.returncode, told.stdout, (self.room / "lib").exists()), (1, "", False))
        self.assertIn("it is the module of another library", told.stderr)

    def test_another_header(self) -> None:
        (self.room / "onfi.h").write_text(HEADER.replace("size_t", "uint32_t"))
        told = self.tool("riscv64", str(self.room / "lib"))
        self.assertEqual((told.returncode, told.stdout), (1, ""))
        self.assertIn("the header and the module differ in onfi_tried", told.stderr)

    def test_what_cannot_be_carried_over(self) -> None:
        self.keep(module("%r0 = inttoptr i64 %a1 to ptr", "store i8 0, ptr %r0, align 1"))
        told = self.tool("armv7", str(self.room / "lib"))
        self.assertEqual((told.returncode, told.stdout, (self.room / "lib").exists()), (1, "", False))
        self.assertRegex(told.stderr, r"^retarget: module.ll:\d+, in @onfi_tried: a pointer made of a number: ")

    def test_no_module(self) -> None:
        (self.room / "words").unlink()
        self.assertIn("one of them isn't there", self.tool("armv7", str(self.room / "lib")).stderr)
        self.assertIn("invalid choice: 'sparc'", self.tool("sparc", str(self.room / "lib")).stderr)


class Units(unittest.TestCase):
    """No instruction needs a unit that a core may lack."""

    def setUp(self) -> None:
        self.room = support.room_of(self)
        (self.room / "units.c").write_text(UNITS)

    def check(self, processor: str, words: List[str]) -> None:
        target = f"--target={PROCESSORS[processor].triple}"
        retarget.run("clang", target, *words, "-O3", "-ffreestanding", "-c", "units.c", "-o", "units.o", room=self.room)
        retarget.check_units("units.o", PROCESSORS[processor], self.room)

    def test_of_what_a_processor_is_made_by(self) -> None:
        found = [name for name, it in PROCESSORS.items() if it.lacks]
        self.assertEqual(found, ["thumbv7em", "cortex-m33", "cortex-r5", "cortex-r8"])
        for name in found:
            self.check(name, PROCESSORS[name].words)

    def test_one_that_needs_it(self) -> None:
        rows = {
            ("thumbv7em", "-mcpu=cortex-m7 -mfloat-abi=softfp"): "<of_floats>: an instruction needs a unit that such a core may lack (fpregs)",
            ("cortex-m33", "-mcpu=cortex-m33 -mfloat-abi=softfp"): "<of_floats>: an instruction needs a unit that such a core may lack (fpregs, dsp)",
            ("cortex-m33", "-mcpu=cortex-m33 -mfloat-abi=soft"): "<of_signals>: ",
            ("cortex-r5", "-mcpu=cortex-r5 -mfloat-abi=hard"): "<of_floats>: ",
            ("cortex-r8", "-march=armv7-a -mfpu=neon -mfloat-abi=hard"): "<of_vectors>: ",
        }
        for (name, words), stopped in rows.items():
            with self.assertRaises(retarget.Stop) as found:
                self.check(name, words.split())
            self.assertTrue(str(found.exception).startswith(stopped), (name, str(found.exception)))


class LeftOut(unittest.TestCase):
    def test_what_is_not_installed(self) -> None:
        tool = [sys.executable, "-B", str(support.ROOT / "tools/test-targets"), "no-program"]
        told = subprocess.run(tool, env={**os.environ, "PATH": "/nowhere"}, capture_output=True, text=True)
        self.assertEqual((told.returncode, told.stderr), (0, ""))
        lines = told.stdout.splitlines()
        self.assertEqual([line.split(",")[0] for line in lines], ["aarch64: left out", "riscv64: left out", "cortex-r5: left out", "0 passed"])
        self.assertIn("gcc-riscv64-linux-gnu", lines[1])
        self.assertIn("picolibc-arm-none-eabi", lines[2])
