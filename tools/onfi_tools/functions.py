"""The functions of a source file, as rt fmt lays them out, by the names that the prover gives them."""

import re
from dataclasses import dataclass
from pathlib import PurePosixPath
from typing import Dict, List, Tuple

FUNCTION = re.compile(r"^( *)(?:pub(?:\([a-z]+\))? )?(?:const )?(?:unsafe )?(?:extern \"C\" )?fn (\w+)")
OWNER = re.compile(r"^(?:pub(?:\([a-z]+\))? )?(impl|trait)\b(.*)")
PARTLY = re.compile(r"^(?:pub(?:\([a-z]+\))? )?(?:struct|enum) (\w+)<(.*=.*)> \{", re.M)

Key = Tuple[str, str, str]


@dataclass(frozen=True)
class Function:
    """A function of a source file, by the name that the prover's lines give it below the crate."""

    path: str
    owner: str
    name: str
    first: int
    last: int

    @property
    def key(self) -> Key:
        return (self.path, self.owner, self.name)

    def module(self) -> List[str]:
        parts = PurePosixPath(self.path).with_suffix("").parts[1:]
        return [it for it in parts if it not in ("lib", "main")]

    def names(self, crate: str) -> Tuple[str, str]:
        """Its name in the prover's lines, and what the names of its closures begin with."""
        inner = [self.owner, self.name] if self.owner else [self.name]
        return "::".join([crate, *self.module(), *inner]), "::".join([crate, *self.module(), "fn", *inner, ""])


def owner_of(kind: str, rest: str, counts: Dict[str, int]) -> str:
    """The name that an impl's functions stand under: `impl fmt::Display for Fault` gives FaultDisplay, `impl Lun<Idle>` Lun+Idle.

    Of a type with that many parameters, the last with a default, `impl<C: Chip> Core<C>` gives Core+C. A lifetime that is left out
    has no part in it, `impl Parsed<'_>` gives Parsed; what a trait is for has, `impl From<Under> for Over` gives OverFromUnder."""
    short = re.match(r"<[^<>]*> (\w+)<([^<>]*)> \{", rest)
    if short and short[2].count(",") + 1 < counts.get(short[1], 0):
        return f"{short[1]}+{short[2]}"
    is_generic = rest.startswith("<")
    while is_generic and re.search(r"<[^<>]*>", rest):
        rest = re.sub(r"<[^<>]*>", "", rest)
    rest = rest.split("{")[0].split(" where ")[0].replace("<'_>", "").replace("<'_, ", "<")
    rest = re.sub(r"<([^<>]*)>", r"+\1", rest)
    bare = [it.strip().lstrip("&").split("::")[-1].split(":")[0].strip() for it in rest.split(" for ")]
    return bare[0] if kind == "trait" or len(bare) == 1 else bare[1] + bare[0].replace("+", "")


def end_of(lines: List[str], first: int, indent: str) -> int:
    """The last line of an item that begins at a line."""
    for at in range(first, len(lines)):
        if lines[at].startswith(indent + "}") or lines[at].rstrip().endswith(";") and at == first:
            return at
    return len(lines) - 1


def functions_of(path: str, text: str) -> List[Function]:
    lines, found, owner, owner_ends = text.split("\n"), [], "", -1
    counts = {it[1]: it[2].count(",") + 1 for it in PARTLY.finditer(text)}
    for at, line in enumerate(lines):
        head = OWNER.match(line)
        if head:
            owner, owner_ends = owner_of(head[1], head[2], counts), end_of(lines, at, "")
        function = FUNCTION.match(line)
        if function:
            inside = owner if at <= owner_ends else ""
            found.append(Function(path, inside, function[2], at, end_of(lines, at, function[1])))
    return found


def head_of(lines: List[str], it: Function) -> List[str]:
    """The lines of a function up to the one that opens its body: its signature and its contract."""
    indent = len(lines[it.first]) - len(lines[it.first].lstrip())
    opened = re.compile(rf" {{{indent}}}(?:\S.* )?\{{\}}?")
    until = next((at for at in range(it.first, it.last) if opened.fullmatch(lines[at])), it.last)
    return lines[it.first : until + 1]


def is_unstated(lines: List[str], it: Function) -> bool:
    """Whether a function gives or changes something, and no clause says what."""
    head = head_of(lines, it)
    return any("-> " in line or "&mut " in line for line in head) and not any(re.match(r" *ensures\b", line) for line in head)


def users_of(texts: Dict[str, str], word: str) -> List[Function]:
    """The functions that name a constant or a type."""
    named = re.compile(rf"\b{word}\b")
    users: List[Function] = []
    for path, text in texts.items():
        lines = text.split("\n")
        users += [it for it in functions_of(path, text) if any(named.search(lines[at]) for at in range(it.first, it.last + 1))]
    return users
