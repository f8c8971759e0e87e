"""The definitions of crates/*/specs and the contracts of crates/*/src, as far as the tests of pages look at them."""

import re
from functools import lru_cache
from typing import Callable, Dict, Iterable, Iterator, List, NamedTuple, Set, Tuple, TypeVar

import support

from onfi_tools.imports import imports_in

WORD = re.compile(r"[A-Za-z_][A-Za-z0-9_]*")
START = re.compile(r"(?:(?:abbrev |unfoldable )?pub (?!use |mod )|(?:abbrev )?mutual\b)")
NAME = re.compile(r"\s*(?:abbrev |unfoldable )?pub (?:record |data )?(\w+)\b")
INNER = re.compile(r"  pub (?:record |data )?(\w+)\b")
SPECS = re.compile(r"Rattle\.(onfi_\w+)\.specs\.(\w+)(?:\.(\w+))?")


class Definition(NamedTuple):
    crate: str
    module: str
    name: str
    lines: Tuple[str, ...]


Key = Tuple[str, str, str]
Thing = TypeVar("Thing")


def reached_from(begin: Iterable[Thing], onward: Callable[[Thing], Iterable[Thing]]) -> Set[Thing]:
    """All that these lead to, by what each leads to, and they themselves."""
    seen: Set[Thing] = set()
    left = list(begin)
    while left:
        it = left.pop()
        if it not in seen:
            seen.add(it)
            left.extend(onward(it))
    return seen


def is_code(line: str) -> bool:
    return bool(line.strip()) and not line.lstrip().startswith("--") and not re.match(r"(pub )?(use|mod) ", line)


def blocks_of(text: str) -> Iterator[List[str]]:
    """The lines of each definition, a mutual block as one; comments and imports belong to none."""
    block: List[str] = []
    for line in filter(is_code, text.splitlines()):
        if START.match(line) and block:
            yield block
            block = []
        block.append(line)
    if block:
        yield block


def names_in(block: List[str]) -> List[str]:
    pattern = INNER if "mutual" in block[0] else NAME
    found = [pattern.match(line) for line in (block if pattern is INNER else block[:1])]
    return [name.group(1) for name in found if name]


class Definitions:
    """All definitions by crate, module and name, and what each file takes from others."""

    def __init__(self) -> None:
        self.found: Dict[Key, Definition] = {}
        self.taken: Dict[Tuple[str, str], Dict[str, Key]] = {}
        self.whole: Dict[Tuple[str, str], Dict[str, Tuple[str, str]]] = {}
        for path in sorted((support.ROOT / "crates").glob("*/specs/*.antt")):
            crate, module, text = path.parent.parent.name, path.stem, path.read_text()
            for block in blocks_of(text):
                for name in names_in(block):
                    self.found[crate, module, name] = Definition(crate, module, name, tuple(block))
            self.taken[crate, module], self.whole[crate, module] = uses_of(text)

    def resolve(self, key: Key) -> List[Key]:
        """Where the definition stands that the key names, through files that hand it on."""
        if key in self.found:
            return [key]
        handed = self.taken.get(key[:2], {}).get(key[2])
        return self.resolve(handed) if handed and handed != key else []

    @lru_cache(maxsize=None)
    def cited(self, definition: Definition) -> Set[Key]:
        place = (definition.crate, definition.module)
        cited: Set[Key] = set()
        for word in set(WORD.findall("\n".join(definition.lines))):
            cited.update(self.resolve((*place, word)))
        for alias, module in self.whole.get(place, {}).items():
            for word in re.findall(rf"\b{alias}\.(\w+)", "\n".join(definition.lines)):
                cited.update(self.resolve((*module, word)))
        return cited

    def below(self, keys: Set[Key]) -> Set[Key]:
        """The definitions that these rest on, and they themselves."""
        return reached_from(keys, lambda key: self.cited(self.found[key]))

    def lines(self, keys: Set[Key]) -> int:
        """How many lines of definitions, a mutual block counted once."""
        return sum(len(lines) for _, lines in {(key[:2], self.found[key].lines) for key in keys})

    def named(self, name: str) -> Set[Key]:
        return {key for key in self.found if key[2] == name}


def uses_of(text: str) -> Tuple[Dict[str, Key], Dict[str, Tuple[str, str]]]:
    """The definitions that a file names in a word, and the files of definitions."""
    taken: Dict[str, Key] = {}
    whole: Dict[str, Tuple[str, str]] = {}
    for name, _, path in imports_in(text):
        found = SPECS.match(path)
        if found and found[3]:
            taken[name] = (found[1], found[2], found[3])
        elif found:
            whole[name] = (found[1], found[2])
    return taken, whole
