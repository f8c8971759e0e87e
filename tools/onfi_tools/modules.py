"""LLVM modules as the kit writes them for x86-64, carried over to other processors.

The kit's modules use few forms of instructions. Each line must have one of these; where one has another, nothing is made. So
what depends on the processor can't slip through: its own intrinsics, assembler, values that are laid out by the compiler.

For pointers of 32 bits memory keeps the layout of x86-64: a pointer has a place of eight bytes, the upper four are 0. So each
place holds what it holds on a machine of 64 bits whose addresses are below 2^32, whatever is read there. No access counts on more
than the eight bytes by which malloc aligns there.
"""

import math
import re
from typing import Callable, Dict, Iterable, Iterator, List, Match, NamedTuple, Optional, Pattern, Tuple

from onfi_tools.processors import Processor

# How malloc aligns at least where pointers have 32 bits.
ALIGNED = 8
BYTES = {"i1": 1, "i8": 1, "i16": 2, "i32": 4, "i64": 8, "i128": 16, "ptr": 8}
SCALAR = r"(?:i1|i8|i16|i32|i64|i128|ptr)"
NUMBER = r"(?:i1|i8|i16|i32|i64|i128)"
GROUP = rf"\{{ {SCALAR}(?:, {SCALAR})* \}}"
TYPE = rf"(?:{SCALAR}|{GROUP})"
# What a table's sixteen tags are compared by: bytes in a row, on each processor whose lower byte comes first.
TAGS, HITS = "<16 x i8>", "<16 x i1>"
LOCAL = r'%(?:"[^"]*"|[-\w.$]+)'
GLOBAL = r'@(?:"[^"]*"|[-\w.$]+)'
VALUE = rf"(?:{LOCAL}|{GLOBAL}|-?\d+|true|false|null|undef|poison|zeroinitializer)"
NOTES = r"(?:, !\w+ !\d+)*"
WORDS = "noundef zeroext signext nonnull noalias nocapture readonly readnone writeonly immarg".split() + [
    r"captures\(none\)", r"align \d+", r"dereferenceable\(\d+\)", r"range\(\w+ -?\d+, -?\d+\)"]
OF_VALUE = rf"(?: (?:{'|'.join(WORDS)}))*"
OF_FUNCTION = r"(?: (?:internal|private|fastcc|unnamed_addr|local_unnamed_addr))*"
ARGUMENT = rf"{TYPE}{OF_VALUE}(?: {VALUE})?"
ARGUMENTS = rf"(?:{ARGUMENT}(?:, {ARGUMENT})*)?"

# Each form of a line inside of a function, without blanks before it.
FORMS: Dict[str, Pattern[str]] = {name: re.compile(form) for name, form in {
    "alloca": rf"(?P<to>{LOCAL}) = alloca (?P<type>{SCALAR}|\[\d+ x i8\]), align (?P<align>\d+)",
    "load": rf"(?P<to>{LOCAL}) = load (?P<type>{TYPE}|{TAGS}), ptr (?P<at>{VALUE}), align (?P<align>\d+)(?P<notes>{NOTES})",
    "store": rf"store (?P<type>{TYPE}|{TAGS}) (?P<value>{VALUE}), ptr (?P<at>{VALUE}), align (?P<align>\d+)",
    "place": rf"{LOCAL} = getelementptr (?:(?:inbounds|nusw|nuw) )*i8, ptr {VALUE}, i64 {VALUE}",
    "sum": rf"{LOCAL} = (?:add|sub|mul|shl|udiv|sdiv|lshr|ashr|urem|srem|and|or|xor)(?: (?:nuw|nsw|exact|disjoint))* {NUMBER} {VALUE}, {VALUE}",
    "compared": rf"{LOCAL} = icmp (?:samesign )?(?:eq|ne|[us][gl][te]) (?:{SCALAR}|{TAGS}) {VALUE}, {VALUE}",
    "converted": rf"{LOCAL} = (?:zext|sext|trunc)(?: (?:nneg|nuw|nsw))* {NUMBER} {VALUE} to {NUMBER}",
    "tag": rf"{LOCAL} = insertelement {TAGS} {VALUE}, i8 {VALUE}, i32 \d+",
    "tags alike": rf"{LOCAL} = shufflevector {TAGS} {VALUE}, {TAGS} {VALUE}, <16 x i32> zeroinitializer",
    "hits": rf"{LOCAL} = sext {HITS} {VALUE} to {TAGS}",
    "hits as bits": rf"{LOCAL} = bitcast {HITS} {VALUE} to i16",
    "address": rf"(?P<to>{LOCAL}) = ptrtoaddr ptr (?P<value>{VALUE}) to i64",
    "taken": rf"{LOCAL} = extractvalue {GROUP} {VALUE}, \d+",
    "branch": rf"br (?:i1 {VALUE}, label {LOCAL}, )?label {LOCAL}{NOTES}",
    "switch": rf"switch {NUMBER} {VALUE}, label {LOCAL} \[",
    "case": rf"{NUMBER} -?\d+, label {LOCAL}",
    "cases end": r"\]" + NOTES,
    "return": rf"ret (?:void|{TYPE} {VALUE})",
    "unreachable": r"unreachable",
    "filled": rf"call void @llvm\.memset\.p0\.i64\((?P<before>ptr{OF_VALUE} {VALUE}, i8 {VALUE}, )i64 (?P<bytes>{VALUE})(?P<behind>, i1 false)\)",
    "moved": r"call void @llvm\.mem(?P<what>cpy|move)\.p0\.p0\.i64"
             rf"\((?P<before>ptr{OF_VALUE} {VALUE}, ptr{OF_VALUE} {VALUE}, )i64 (?P<bytes>{VALUE})(?P<behind>, i1 false)\)",
    "call": rf"(?:{LOCAL} = )?(?:tail )?call{OF_VALUE} (?:void|{TYPE}) (?P<callee>{LOCAL}|{GLOBAL})\({ARGUMENTS}\)(?: #\d+)?{NOTES}",
    "label": r'(?:"[^"]*"|[-\w.$]+):(?: *; .*)?',
}.items()}
# Each form of a line outside of functions.
TOP: Dict[str, Pattern[str]] = {name: re.compile(form) for name, form in {
    "layout": r'target datalayout = "(?P<text>[^"]*)"',
    "triple": r'target triple = "(?P<text>[^"]*)"',
    "source": r'source_filename = "[^"]*"',
    "constant": rf'{GLOBAL} = private unnamed_addr constant \[\d+ x i8\] (?:c"[^"]*"|zeroinitializer), align \d+',
    "defined": rf"define(?P<own> internal| private)?{OF_FUNCTION}{OF_VALUE} (?P<type>void|{TYPE}) (?P<name>{GLOBAL})"
               rf"\((?P<given>{ARGUMENTS})\){OF_FUNCTION}(?: #\d+)? \{{",
    "declared": rf"declare{OF_VALUE} (?P<type>void|{TYPE}) (?P<name>{GLOBAL})\({ARGUMENTS}\)(?: #\d+)?",
    "attributes": r"attributes #\d+ = \{.*\}",
    "note": r"!.*",
}.items()}
# Intrinsics that mean the same everywhere.
INTRINSIC = re.compile(r"@llvm\.(?:mem(?:set\.p0|cpy\.p0\.p0|move\.p0\.p0)\.i64|trap|(?:ctlz|cttz|ctpop|bswap)\.i\d+)$")
HEAP = {"@rattle_alloc", "@rattle_realloc", "@rattle_dealloc"}
PROBES = ("probe-stack", "stack-probe-size")
OF_PROCESSOR = ("target-cpu", "target-features", "tune-cpu")
# The message about a line that has no form of these, by the first that it holds.
TELLING = [
    (r"\binttoptr\b", "a pointer made of a number"),
    (r"\basm\b", "assembler"),
    (r"@llvm\.", "an intrinsic of one processor, or one that isn't known here"),
    (r"<(?:vscale x )?\d+ x ", "a vector"),
    (r"\b(?:half|bfloat|float|double|fp128|x86_fp80)\b", "a float"),
    (r"\b(?:fence|cmpxchg|atomicrmw|atomic)\b", "an atomic access"),
    (r"\b(?:sret|byval|byref|inalloca)\b", "an argument that the compiler lays out"),
    (r"\b(?:load|store|alloca|getelementptr)\b", "a typed access that can't be carried over"),
    (r"\b(?:constant|global)\b", "a constant that isn't of bytes, or a variable"),
]
ALIGNMENT = re.compile(r"\balign (\d+)")
QUOTED = re.compile(r'"[^"]*"')


class Unknown(Exception):
    """What of a module can't be carried over, and where it stands."""


class Export(NamedTuple):
    """A call that the library exports: its name, and the types of what it is given."""

    name: str
    given: List[str]


def told_of(line: str) -> str:
    """What a line has that isn't known here."""
    bare = QUOTED.sub('""', line)
    return next((told for pattern, told in TELLING if re.search(pattern, bare)), "a form that isn't known here")


def form_of(line: str, forms: Dict[str, Pattern[str]]) -> Optional[Tuple[str, Match[str]]]:
    """The form of a line, the first of these; None where it has none."""
    matches = ((name, form.fullmatch(line)) for name, form in forms.items())
    return next(((name, found) for name, found in matches if found), None)


def parts_of(group: str) -> List[Tuple[str, int]]:
    """The types of a group's parts, and where x86-64 lays them."""
    found, at = [], 0
    for part in group.strip("{} ").split(", "):
        at = -(-at // BYTES[part]) * BYTES[part]
        found.append((part, at))
        at += BYTES[part]
    return found


class Module:
    """A module that is carried over to a processor, line by line."""

    def __init__(self, name: str, processor: Processor) -> None:
        self.name, self.to, self.narrow = name, processor, processor.bits == 32
        self.line, self.function, self.fresh = 0, "", 0
        self.exports: List[Export] = []
        self.rewritten: Dict[str, Callable[[Match[str]], Iterator[str]]] = {
            "alloca": self.room, "load": self.loaded, "store": self.stored, "address": self.address, "filled": self.filled, "moved": self.moved,
        } if self.narrow else {}

    def unknown(self, what: str, line: str) -> Unknown:
        inside = f", in {self.function}" if self.function else ""
        return Unknown(f"{self.name}:{self.line}{inside}: {what}: {line.strip()[:200]}")

    def carried(self, lines: Iterable[str]) -> Iterator[str]:
        """The lines of the module for the processor. Unknown: one of them can't be carried over."""
        for line in lines:
            self.line += 1
            yield from self.inside(line) if self.function else self.outside(line)

    def inside(self, line: str) -> Iterator[str]:
        if line == "}":
            self.function = ""
            yield line
            return
        if not line:
            return
        form = form_of(line.strip(), FORMS)
        if form is None:
            raise self.unknown(told_of(line), line)
        name, found = form
        if name == "call":
            self.check_callee(found["callee"], line)
        if self.narrow and "align" not in found.groupdict() and any(int(it) > ALIGNED for it in ALIGNMENT.findall(line)):
            raise self.unknown("an alignment that malloc may not give", line)
        if name in self.rewritten:
            yield from self.rewritten[name](found)
        else:
            yield line

    def check_callee(self, callee: str, line: str) -> None:
        if callee.startswith("@llvm.mem") or callee.startswith("@llvm.") and not INTRINSIC.match(callee):
            raise self.unknown(told_of(line), line)
        if any(callee == f"@{it.name}" for it in self.exports):
            raise self.unknown("a call of what is handed out", line)

    def outside(self, line: str) -> Iterator[str]:
        if not line or line.startswith(";"):
            return
        form = form_of(line, TOP)
        if form is None:
            raise self.unknown(told_of(line), line)
        name, found = form
        if name == "layout":
            yield f'target datalayout = "{self.to.layout}"'
        elif name == "triple":
            yield f'target triple = "{self.to.triple}"'
        elif name == "attributes":
            yield self.attributes(line)
        elif name == "defined":
            self.function = found["name"]
            yield line if found["own"] else self.exported(found, line)
        elif name == "declared":
            yield from self.declaration(found["name"], line)
        else:
            yield line

    def attributes(self, line: str) -> str:
        """Attributes of functions without those of the processor; the stack is probed where the compiler can."""
        strangers = {*re.findall(r'"([^"]*)"=', line)} - {*PROBES, *OF_PROCESSOR}
        if strangers:
            raise self.unknown("an attribute that isn't known here", line)
        return re.sub(r' "([^"]*)"="[^"]*"', lambda it: it[0] if self.to.probes and it[1] in PROBES else "", line)

    def declaration(self, name: str, line: str) -> Iterator[str]:
        if name in HEAP:
            yield from [] if self.narrow else [line]
        elif not INTRINSIC.match(name):
            raise self.unknown(told_of(line) if name.startswith("@llvm.") else "a call that the module asks for, and that isn't known here", line)
        else:
            narrower = re.match(r"@llvm\.mem", name) and self.narrow
            yield line.replace(".i64(", ".i32(").replace("i64", "i32") if narrower else line

    def exported(self, found: Match[str], line: str) -> str:
        """The first line of a call that is handed out. For 32 bits the header's calls stand over these, which have another name."""
        given = [it.split()[0] for it in found["given"].split(", ")] if found["given"] else []
        if found["type"] != "i32" or any(it not in BYTES or it == "i128" for it in given):
            raise self.unknown("a call that is handed out with a result or an argument that isn't known here", line)
        self.exports.append(Export(found["name"][1:], given))
        if self.narrow:
            line = line.replace(found["name"] + "(", f"@wide_{found['name'][1:]}(", 1)
        return line.replace("define ", "define signext ", 1) if self.to.extends else line

    # What is written otherwise where pointers have 32 bits.

    def name_anew(self) -> str:
        self.fresh += 1
        return f"%.carried.{self.fresh}"

    def room(self, found: Match[str]) -> Iterator[str]:
        yield f"  {found['to']} = alloca {'[8 x i8]' if found['type'] == 'ptr' else found['type']}, align {found['align']}"

    def at(self, place: str, behind: int) -> Tuple[str, List[str]]:
        """A place that many bytes after another, and the line that makes it."""
        if not behind:
            return place, []
        name = self.name_anew()
        return name, [f"  {name} = getelementptr i8, ptr {place}, i64 {behind}"]

    def loaded(self, found: Match[str]) -> Iterator[str]:
        align = min(int(found["align"]), ALIGNED)
        if not found["type"].startswith("{"):
            yield f"  {found['to']} = load {found['type']}, ptr {found['at']}, align {align}{found['notes']}"
            return
        whole, parts = "poison", parts_of(found["type"])
        for number, (part, behind) in enumerate(parts):
            place, lines = self.at(found["at"], behind)
            value = self.name_anew()
            yield from [*lines, f"  {value} = load {part}, ptr {place}, align {math.gcd(align, behind)}"]
            to = found["to"] if number + 1 == len(parts) else self.name_anew()
            yield f"  {to} = insertvalue {found['type']} {whole}, {part} {value}, {number}"
            whole = to

    def stored(self, found: Match[str]) -> Iterator[str]:
        align = min(int(found["align"]), ALIGNED)
        if not found["type"].startswith("{"):
            yield from self.stored_part(found["type"], found["value"], found["at"], align)
            return
        for number, (part, behind) in enumerate(parts_of(found["type"])):
            place, lines = self.at(found["at"], behind)
            value = self.name_anew()
            yield from [*lines, f"  {value} = extractvalue {found['type']} {found['value']}, {number}"]
            yield from self.stored_part(part, value, place, math.gcd(align, behind))

    def stored_part(self, part: str, value: str, place: str, align: int) -> Iterator[str]:
        yield f"  store {part} {value}, ptr {place}, align {align}"
        if part == "ptr":
            upper, lines = self.at(place, 4)
            yield from [*lines, f"  store i32 0, ptr {upper}, align {min(align, 4)}"]

    def address(self, found: Match[str]) -> Iterator[str]:
        yield f"  {found['to']} = ptrtoint ptr {found['value']} to i64"

    def counted(self, bytes: str) -> Tuple[str, List[str]]:
        """A count of bytes in 32 bits."""
        if not bytes.startswith("%"):
            return bytes, []
        name = self.name_anew()
        return name, [f"  {name} = trunc i64 {bytes} to i32"]

    def filled(self, found: Match[str]) -> Iterator[str]:
        bytes, lines = self.counted(found["bytes"])
        yield from [*lines, f"  call void @llvm.memset.p0.i32({found['before']}i32 {bytes}{found['behind']})"]

    def moved(self, found: Match[str]) -> Iterator[str]:
        bytes, lines = self.counted(found["bytes"])
        yield from [*lines, f"  call void @llvm.mem{found['what']}.p0.p0.i32({found['before']}i32 {bytes}{found['behind']})"]
