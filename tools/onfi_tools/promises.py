"""What stays of an edited function's contract and proofs where one clause refuses it, and nothing else is looked at.

The other `ensures` go, so that none of their goals is looked at; of functions that call each other they stay, since each counts on those
of the others. Answers to goals that aren't of the clause are holes, which count as proved.
"""

import re
from typing import Iterator, List

# In place of a clause's name, where what a function asks of others refuses it, or its loops.
NONE = "no ensures"
TRUE = "Unit {0}"
CLAUSE = re.compile(r" *(ensures|requires|ghost)\b(?: (\w+) \{)?")
DECLARED = re.compile(r"(?:pub )?([^\s:]+) :(?: |$)")


def names_of(head: str) -> List[str]:
    """The names of a head's `ensures`."""
    found = [CLAUSE.match(line) for line in head.split("\n")]
    return [it[2] for it in found if it and it[1] == "ensures" and it[2]]


def with_one(head: str, clause: str) -> str:
    """A head without the named `ensures` but one, and one more that holds, so that the goals keep their names and forms."""
    kept, is_kept, indent = [], True, ""
    for line in head.rstrip().split("\n"):
        found = CLAUSE.match(line)
        if found:
            is_kept = found[1] != "ensures" or found[2] in (None, clause)
            indent = line[: -len(line.lstrip())]
        if is_kept:
            kept.append(line)
    return "\n".join([*kept, f"{indent}ensures and_so {{ {TRUE} }}", ""])


def blocks_of(text: str) -> Iterator[List[str]]:
    """The declarations of a proof file, line by line; what stands before the first comes first."""
    block: List[str] = []
    for line in text.split("\n"):
        if DECLARED.match(line):
            yield block
            block = []
        block.append(line)
    yield block


def answers_for(text: str, clause: str, functions: str, gone: List[str]) -> str:
    """A proof file for one clause of functions: answers to goals of clauses that are gone go, to others holes stand."""
    own = re.compile(rf"(?:(?:{functions})-)?returns(?:-.*)?-clause-{clause}")
    lost = re.compile(rf"returns(?:-.*)?-clause-(?:{'|'.join(gone)})" if gone else r"(?!)")
    made: List[str] = []
    for block in blocks_of(text):
        named = re.match(r"pub (\S+) : goal\.\1$", block[0] if block else "")
        if named and lost.fullmatch(named[1]):
            continue
        if named and clause != NONE and not own.fullmatch(named[1]):
            block = [block[0], f"{named[1]} = ?", ""]
        made += block
    return "\n".join(made)
