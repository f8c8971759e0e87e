"""The calls of onfi.h for processors of 32 bits, as C over the same calls with counts of 64 bits, which tools/retarget makes."""

import re
from typing import Dict, List, NamedTuple, Tuple

CALL = re.compile(r"^(uint32_t|void) (onfi_\w+)\(([^)]*)\);", re.MULTILINE)
PARAMETER = re.compile(r"(?P<kind>(?:const )?\w+ \*?)(?P<name>\w+)(?:\[(?P<size>\w+)\])?")
# Counts that a call is given and changes, and those that it only gives.
CHANGED = {"want_count"}
TOLD = {"certificate_bytes", "answer_bytes", "text_bytes", "chosen_count"}
OF_C = {"uint64_t": "i64", "size_t": "i64", "uint32_t": "i32", "uint16_t": "i16", "uint8_t": "i8", "bool": "i1"}

BEGINNING = """\
/* Written by tools/retarget of include/onfi.h. The library's own calls, wide_onfi_.., count in 64 bits on every processor. */
#include <onfi.h>

_Static_assert(sizeof(size_t) == 4 && sizeof(void *) == 4, "size_t and pointers have 32 bits");
_Static_assert(_Alignof(uint64_t) == 8 && sizeof(bool) == 1, "structs lie as on x86-64");

/* What no count is: a place that the library doesn't write keeps it, and the caller's place stays as it was. */
#define NOTHING UINT64_MAX
"""


class Parameter(NamedTuple):
    """A parameter of a call: its kind as C has it, its name, and of an array what it has places for."""

    kind: str
    name: str
    size: str = ""

    @property
    def is_pointer(self) -> bool:
        return self.kind.endswith("*") or bool(self.size)

    def __str__(self) -> str:
        return f"{self.kind}{'' if self.kind.endswith('*') else ' '}{self.name}{f'[{self.size}]' if self.size else ''}"


class Call(NamedTuple):
    result: str
    name: str
    given: List[Parameter]


def calls_of(header: str) -> List[Call]:
    """The calls of a header. ValueError: one has a parameter that isn't known here."""
    text = re.sub(r"/\*.*?\*/", "", header, flags=re.DOTALL)
    found = []
    for result, name, given in CALL.findall(text):
        words = [" ".join(it.split()) for it in given.split(",")]
        found.append(Call(result, name, [parameter_of(name, it) for it in words if it != "void"]))
    return found


def parameter_of(call: str, text: str) -> Parameter:
    found = PARAMETER.fullmatch(text)
    if found is None:
        raise ValueError(f"{call}: a parameter that isn't known here: {text}")
    made = Parameter(found["kind"].strip(), found["name"], found["size"] or "")
    if made.kind == "size_t *" and made.name not in CHANGED | TOLD or not made.is_pointer and made.kind not in OF_C:
        raise ValueError(f"{call}: a parameter that isn't known here: {text}")
    return made


def types_of(call: Call) -> List[str]:
    """What a call is given, as LLVM has it."""
    return ["ptr" if it.is_pointer else OF_C[it.kind] for it in call.given]


def copies_of(it: Parameter) -> Tuple[List[str], List[str]]:
    """What stands before and after the call for a parameter that points to counts: copies of them in 64 bits."""
    size, begun = it.size or "1", f"{it.name}[at]" if it.name in CHANGED else "NOTHING"
    each = f"    for (int at = 0; at < {size}; at++)"
    given = [f"    uint64_t wide_{it.name}[{size}];", each, f"        wide_{it.name}[at] = {begun};"]
    return given, [each, f"        if (wide_{it.name}[at] != NOTHING)", f"            {it.name}[at] = (size_t)wide_{it.name}[at];"]


def narrow_call(call: Call) -> str:
    counts = {it.name: copies_of(it) for it in call.given if it.is_pointer and it.kind.startswith("size_t")}
    given = ", ".join(map(str, call.given)) or "void"
    made = f"wide_{call.name}({', '.join(f'wide_{it.name}' if it.name in counts else it.name for it in call.given)});"
    body = [line for before, _ in counts.values() for line in before]
    body += [f"    {call.result} told = {made}" if counts else f"    return {made}"]
    body += [line for _, after in counts.values() for line in after] + (["    return told;"] if counts else [])
    return "\n".join([f"{call.result} wide_{call.name}({given.replace('size_t', 'uint64_t')});", f"{call.result} {call.name}({given})", "{", *body, "}", ""])


def narrow_calls(calls: List[Call]) -> str:
    """The file in C."""
    return "\n".join([BEGINNING, *map(narrow_call, calls)])


# What onfi.h includes, for a compiler that comes without a C library.
HEADERS: Dict[str, str] = {
    "stdint.h": "".join(f"typedef __UINT{bits}_TYPE__ uint{bits}_t;\n" for bits in (8, 16, 32, 64)) + "#define UINT64_MAX __UINT64_MAX__\n",
    "stddef.h": "typedef __SIZE_TYPE__ size_t;\n",
    "stdbool.h": "#define bool _Bool\n",
}
