"""Processors for which the library is made of the kit's LLVM module for x86-64 (tools/retarget)."""

from typing import Dict, List, NamedTuple, Sequence, Tuple

ARM = "e-m:e-p:32:32-Fi8-i64:64-v128:64:128-a:0:32-n32-S64"
# Divisions of 128 bits, for which the compiler's library has no call there, are made in place.
DIVIDED = ["-mllvm", "-expand-div-rem-bits=64"]


class Processor(NamedTuple):
    """How a processor is named, how its memory is laid out, and what its compiler is given; pointers have that many bits."""

    triple: str
    layout: str
    words: List[str]
    bits: int = 32
    # Whether C has results of 32 bits extended by their sign, and whether the compiler can touch each page of the stack in turn.
    extends: bool = False
    probes: bool = False
    # Whether code may lie at any address (-fPIC), as a shared library of Linux asks.
    moves: bool = False
    # What the assembler is given for each object, and the compiler of C.
    attribute: str = ""
    of_c: Tuple[str, ...] = ()
    # Units that such a core may lack, as LLVM names them: no instruction of the library may need one.
    lacks: Tuple[str, ...] = ()


def without_floats(triple: str, cpu: str, *lacks: str) -> Processor:
    """A processor for firmware, whose core may come without registers for floats and vectors: the code is for one that lacks them.

    No call has floats: it is linked with either way of passing them (ABI_VFP_args 3).
    """
    words = ["-mthumb", f"-mcpu={cpu}", "-mfloat-abi=soft", *DIVIDED]
    return Processor(triple, ARM, words, attribute=".eabi_attribute 28, 3", of_c=("-fshort-enums",), lacks=("fpregs", *lacks))


PROCESSORS: Dict[str, Processor] = {
    "riscv64": Processor(
        "riscv64-unknown-linux-gnu",
        "e-m:e-p:64:64-i64:64-i128:128-n32:64-S128",
        ["-march=rv64gc", "-mabi=lp64d", "-mcmodel=medany"],
        bits=64, extends=True, probes=True, moves=True,
    ),
    "riscv32": Processor("riscv32-unknown-unknown-elf", "e-m:e-p:32:32-i64:64-n32-S128", ["-march=rv32imac", "-mabi=ilp32", *DIVIDED]),
    "armv7": Processor("armv7-unknown-linux-gnueabihf", ARM, ["-march=armv7-a", "-mfpu=neon", *DIVIDED], moves=True),
    "thumbv7em": without_floats("thumbv7em-unknown-none-eabi", "cortex-m7"),
    # (it may lack those of digital signals too)
    "cortex-m33": without_floats("thumbv8m.main-unknown-none-eabi", "cortex-m33+nodsp", "dsp"),
    "cortex-r5": without_floats("thumbv7r-unknown-none-eabi", "cortex-r5"),
    "cortex-r8": without_floats("thumbv7r-unknown-none-eabi", "cortex-r8"),
}

# What the kit gives its compiler that is of x86-64 alone, or names files.
X86 = ("--target=", "--sysroot=", "-march=")
X86_PASS = "-no-x86-call-frame-opt"
PLAIN = {"-no-trap-after-noreturn", "-ffunction-sections", "-fdata-sections", "-trap-unreachable", "-disable-machine-licm", "-disable-postra-machine-licm",
         "-sink-common-insts=false", "--no-default-config", "-no-canonical-prefixes", "-fintegrated-cc1", "-fno-crash-diagnostics", "-Werror", "-c", "-O3"}


def words_for(processor: Processor, kit: Sequence[str]) -> List[str]:
    """What the compiler is given for a processor: as the kit gives it for x86-64, but for what is of x86-64 alone.

    ValueError: the kit gives it something that isn't known here.
    """
    words = [f"--target={processor.triple}", *processor.words]
    given = iter(kit)
    for word in given:
        if word == "-mllvm":
            passed = next(given)
            if passed not in PLAIN and passed != X86_PASS:
                raise ValueError(f"the kit's compiler is told {passed}, which isn't known here")
            words += [] if passed == X86_PASS else ["-mllvm", passed]
        elif word in ("-x", "-o"):
            next(given)
        elif word in PLAIN:
            words.append(word)
        elif word == "-fPIC":
            words += [word] if processor.moves else []
        elif not word.startswith(X86) and not word.endswith(".bc"):
            raise ValueError(f"the kit's compiler is told {word}, which isn't known here")
    return words
