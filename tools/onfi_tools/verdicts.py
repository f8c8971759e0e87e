"""What a check says of functions that have a wrong body or a twin's."""

from __future__ import annotations

import re
from typing import Dict, Iterator, List, NamedTuple, Tuple

from onfi_tools.functions import Function, Key, functions_of

# What a proof file says that names what an edit took away, and what rests on such a file. Where names are near to the one that is
# gone, the prover names them after the record, and 'has no field' in a line of its own.
NAMES_ALONE = re.compile(r"has no field|is not in scope|has no `|was not admitted|that can be named from here|: record `[^`]+` \(nearest: ")
CALLS_ALONE = re.compile(r"(?:; )?(?:in `[^`]+`, of this cycle of calls: )?it calls (.*), which (?:is|are) not proved")
# The name of a cycle of functions that call each other; of a function that calls itself alone it is the function's own.
CYCLE = re.compile(r"^ *#\[cycle\((\w+)\)\]", re.M)
# A function that has all its goals; those that it calls are taken by their contracts, which is a hole to the prover.
PROVED = re.compile(r"proved\b|no holes\b|depends on a hole in ")
# The place of a fault in a text that can't be read.
FAULT = re.compile(r"(?:\./)?((?:src|specs)/\S+?):(\d+):\d+: error(?:\[[\w-]+\])?: (?!`)")


class Failure(NamedTuple):
    """Why functions aren't proved: their own goals, proof files that only name what is gone, and what else is said."""

    own: List[str]
    names: List[str]
    others: List[str]


class Told:
    """What one check said of a crate with these sources."""

    def __init__(self, crate: str, status: int, text: str, sources: Dict[str, str]) -> None:
        self.crate, self.status, self.lines = crate, status, text.rstrip("\n").split("\n")
        self.functions = {said[1]: said[2] for said in (re.match(r"fn (\S+): (.*)", line) for line in self.lines) if said}
        self.inside = {it.key: it for path, text in sources.items() for it in functions_of(path, text)}
        self.cycles = {it for text in sources.values() for it in CYCLE.findall(text)}

    @property
    def is_read(self) -> bool:
        """Whether the check came to the prover's verdict on the functions that it was asked for."""
        return self.status in (0, 1) and self.lines[-1].startswith("only=") and not self.faults()

    def faults(self) -> List[Tuple[str, int, str]]:
        """The errors of texts that can't be read: file, line and words."""
        return [(it[1], int(it[2]), line) for line in self.lines for it in [FAULT.match(line)] if it]

    def key_at(self, path: str, line: int) -> List[Key]:
        """The functions that a line stands in."""
        return [it.key for it in self.inside.values() if it.path == path and it.first < line <= it.last + 1]

    def known_as(self, key: Key) -> List[str]:
        """The prover's names of a function and its closures; an impl's functions stand in the module of its type."""
        function = Function(*key, 0, 0)
        name, closures = function.names(self.crate)
        found = [it for it in self.functions if it == name or it.startswith(closures)]
        if name not in found and function.owner:
            inner = f"::{function.owner}::{function.name}"
            found += [it for it in self.functions if it.endswith(inner) and "::fn::" not in it]
        return found

    def notes_in(self, key: Key) -> Iterator[str]:
        span = self.inside[key]
        for line in self.lines:
            at = re.match(r"(?:note: |warning: )?(?:\./)?(src/\S+?):(\d+):\d+: (.*)", line)
            if at and at[1] == span.path and span.first < int(at[2]) <= span.last + 1 and "not proved" in at[3]:
                yield line

    def errors_of(self, name: str) -> List[str]:
        """What is wrong in a function's proof files; those of a cycle of several functions name the function in front of each goal."""
        *modules, last = name.split("::")[1:]
        module = r"(?:\./)?proofs/" + "".join(re.escape(it) + "/" for it in modules)
        folder = re.escape(last) if last in self.cycles else r"\+?" + re.escape(last)
        own = re.compile(module + folder + r"/[^/]+:\d+:\d+: error: ")
        shared = re.compile(module + r"\+\w+/[^/]+:\d+:\d+: error: `" + re.escape(last) + "-")
        return [it for it in self.lines if own.match(it) or shared.match(it)]

    def failure_of(self, key: Key) -> Failure:
        """Why a function and its closures aren't proved; nothing where they are."""
        names = self.known_as(key)
        failed = {name: self.functions[name] for name in names if not PROVED.match(self.functions[name])}
        found = Failure([*self.notes_in(key)] if failed else [], [], [] if names else ["the prover names no such function"])
        for name, said in failed.items():
            for error in self.errors_of(name):
                (found.names if NAMES_ALONE.search(error) else found.own).append(error)
            rest = CALLS_ALONE.sub("", said).strip()
            if rest.startswith("no proof") and rest.rstrip(": ") != "no proof" or rest.startswith("could not"):
                found.own.extend([rest] if self.is_own(rest, name) else [])
            found.others.append(said)
        return found

    def is_own(self, said: str, name: str) -> bool:
        """Whether goals that failed are a function's own: of a cycle of several functions each is given the goals of all."""
        if "borrow checker's part in its proof is not made yet" in said:
            return False
        last = name.split("::")[-1]
        shared = set(re.findall(r"/\+(\w+)/", said)) - ({last} - self.cycles)
        if not shared and "of this cycle of calls" not in said:
            return True
        return any(it.startswith(last + "-") for it in re.findall(r"`([^`]+)`", said))


def judge_edit(failures: List[Failure]) -> Tuple[bool, str]:
    """A wrong body is refused where a goal of its own isn't proved."""
    own = [text for it in failures for text in it.own]
    names = [text for it in failures for text in it.names]
    others = [text for it in failures for text in it.others]
    if own:
        return True, f"refused, as it must be: {own[0][:200]}"
    if names:
        return False, f"WEAK: refused only because a proof file names what the edit took away: {names[0][:200]}"
    return False, f"NOT REFUSED by a goal of its own: {others[0][:200]}" if others else "NOT REFUSED: it is still proved"


def judge_twin(failures: List[Failure]) -> Tuple[bool, str]:
    """A twin is proved where no goal of its own fails."""
    why = [text for it in failures for text in [*it.own, *it.names, *it.others]]
    return not why, f"NOT PROVED, though it changes nothing: {why[0][:300]}" if why else "proved, as it must be"
