"""What crates.txt says: the crates, each after those that it stands on."""

import re
from pathlib import Path
from typing import Dict, List

CRATES = Path(__file__).resolve().parent.parent.parent / "crates.txt"


def crates_below(text: str) -> Dict[str, List[str]]:
    """The crates of crates.txt with what each stands on, the kit's too."""
    return {name: uses.split() for name, uses in re.findall(r"^(\w+)[^:#\n]*:([^#\n]*)", text, re.M)}


def lines_below(text: str, *tops: str) -> Dict[str, str]:
    """Some crates and all that they stand on, in their order, each with its line of crates.txt."""
    needed = set(tops)
    for crate, uses in reversed(crates_below(text).items()):
        needed |= set(uses) if crate in needed else set()
    return {name: line for line, name in re.findall(r"^((\w+).*)", text, re.M) if name in needed}
