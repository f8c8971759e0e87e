"""What a file of sources, definitions or proofs brings in from others."""

import re
from typing import Iterator, List, Match, Tuple

# An import: what it brings, which may be a tree of paths in brackets and stand in several lines.
TREE = r"(?:[^;{}\n]|\{(?:[^{}]|\{(?:[^{}]|\{[^{}]*\})*\})*\})+"
# What stands before a bracket that has none inside, and the paths in it.
INNERMOST = re.compile(r"([^{},]*)\{([^{}]*)\}")
USE = re.compile(rf"^ *(?:unfoldable )?(?:pub(?:\([a-z]+\))? )?(?:ghost )?use ({TREE})(?:;|$)", re.M)


def spread(bracket: Match[str]) -> str:
    """The paths of a bracket, each with what stands before it."""
    return ",".join(bracket[1].strip() + path.strip() for path in bracket[2].split(",") if path.strip())


def leaves_of(tree: str) -> List[str]:
    """The whole paths of a tree of imports, whichever brackets they stand in."""
    while INNERMOST.search(tree):
        tree = INNERMOST.sub(spread, tree)
    return [leaf.strip() for leaf in tree.split(",")]


def imports_in(text: str) -> Iterator[Tuple[str, str, str]]:
    """Each name that a file brings in, what it is called where it comes from, and the path to it."""
    for tree in USE.findall(text):
        for leaf in leaves_of(tree):
            path, _, other = leaf.partition(" as ")
            last = re.split(r"[.:]", path)[-1]
            yield other or last, last, path
