"""Wrong bodies and their twins: how crates/NAME/wrong-bodies.txt is read, and which entry needs a twin.

An entry is some lines, after an empty one:

    edit: WHAT_IT_DOES
    mistake: WORDS, where the papers or the pages promise that this one is refused
    clause: NAME of the `ensures` that refuses it; "no ensures" where the function's loops do, or what it asks of others
    in: src/FILE.rt FUNCTION, OWNER::FUNCTION, or the name of a constant or a type
    old: TEXT, which stands once in the body of the function, or else once in its head
    new: TEXT
    twin:
    old: TEXT
    new: TEXT
    alone: REASON, in place of a twin

Further pairs apply to what the earlier ones made, and a further `in:` leads to another function. A line that begins with # is a comment.
"""

from __future__ import annotations

import re
from dataclasses import dataclass, field
from typing import Callable, Dict, List, NamedTuple

TOKEN = re.compile(r"""b?"(?:\\.|[^"\\])*"|b?'(?:\\.|[^'\\])'|[A-Za-z_]\w*!?|\d\w*|<<=?|>>=?|&&|\|\||[-+*/%&|^<>=!]=|->|=>|::|\.\.=?|\S""")
STATEMENT = frozenset("if else match return let for while loop break continue fn => ?".split())
OPERATOR = frozenset("+ - * / % & | ^ < > ! == != <= >= && || << >> += -= *= /= %= &= |= ^= .. ..= as".split())
LINE = re.compile(r"(edit|mistake|clause|in|old|new|twin|alone):(?: (.*))?")


class BadEdit(Exception):
    """Why an edit can't be tried."""


class Pair(NamedTuple):
    """A text of a function, constant or type of a file, and what stands in its place."""

    path: str
    item: str
    old: str
    new: str


@dataclass
class Entry:
    """A wrong body with its twin, or the reason why it has none; and what it does, where it is a promised mistake."""

    name: str
    mistake: str = ""
    reason: str = ""
    clause: str = ""
    wrong: List[Pair] = field(default_factory=list)
    twin: List[Pair] = field(default_factory=list)

    def needs_twin(self) -> bool:
        """Whether it adds or removes a statement, has no twin, and doesn't say why."""
        return not self.twin and not self.reason and change_of(self.wrong) == STATEMENTS

    def about_twin(self) -> str:
        return "it has a twin" if self.twin else f"no twin: {self.reason or 'it ' + change_of(self.wrong)}"


def read_entries(text: str) -> List[Entry]:
    """The entries of a file of wrong bodies."""
    entries: List[Entry] = []
    said = {"in": "", "old": "", "part": "wrong"}
    for number, line in enumerate(text.split("\n"), 1):
        if not line or line.startswith("#"):
            continue
        found = LINE.fullmatch(line)
        if not found or not entries and found[1] != "edit":
            raise BadEdit(f"line {number} is none of an entry: {line[:80]}")
        read_line(entries, said, found[1], found[2] or "")
    names = [it.name for it in entries]
    if len(set(names)) < len(names):
        raise BadEdit(f"two entries have one name: {next(it for it in names if names.count(it) > 1)}")
    return entries


def read_line(entries: List[Entry], said: Dict[str, str], word: str, rest: str) -> None:
    """Adds a line to the last entry, or begins one; notes where the next pair stands."""
    if word == "edit":
        entries.append(Entry(rest))
        said.update(part="wrong", **{"in": ""})
    elif word in ("mistake", "clause", "alone"):
        setattr(entries[-1], "reason" if word == "alone" else word, rest)
    elif word == "twin":
        said["part"] = "twin"
    elif word == "new":
        path, _, item = said["in"].partition(" ")
        pairs = entries[-1].wrong if said["part"] == "wrong" else entries[-1].twin
        pairs.append(Pair(path, item, said["old"], rest))
    else:
        said[word] = rest


def tokens_of(text: str) -> List[str]:
    """The tokens of a text of one line, without its comment."""
    tokens = TOKEN.findall(text)
    slashes = next((at for at in range(len(tokens)) if tokens[at : at + 2] == ["/", "/"]), len(tokens))
    return tokens[:slashes]


def statements_in(tokens: List[str]) -> List[str]:
    """The tokens that make statements: the words of them, and each `;` but that of an array's length."""
    found, depth = [], 0
    for token in tokens:
        depth += (token == "[") - (token == "]")
        if token in STATEMENT or token == ";" and depth == 0:
            found.append(token)
    return found


def calls_in(tokens: List[str]) -> List[str]:
    return [word for word, after in zip(tokens, tokens[1:]) if after == "(" and word[0].isalpha() and word not in STATEMENT]


def operators_in(tokens: List[str]) -> List[str]:
    return [token for token in tokens if token in OPERATOR]


# What an edit may change, the coarsest first, with the tokens by which it is known; else it changes a value.
STATEMENTS = "adds or removes a statement"
CHANGES: Dict[str, Callable[[List[str]], List[str]]] = {STATEMENTS: statements_in, "changes a call": calls_in, "changes an operator": operators_in}


def change_of(pairs: List[Pair]) -> str:
    tokens = [(tokens_of(it.old), tokens_of(it.new)) for it in pairs]
    for change, chosen in CHANGES.items():
        if any(chosen(was) != chosen(made) for was, made in tokens):
            return change
    return "changes a value"
