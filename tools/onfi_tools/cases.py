"""The pages of tests/cases: arguments, input, status and output of the built program, and what it says beside that.

Their README has the format.
"""

import pathlib
import re
import shlex
from typing import Dict, Iterator, List, Match, NamedTuple, Optional, Sequence

CASES = pathlib.Path(__file__).resolve().parent.parent.parent / "tests" / "cases"
MARK = r"(?:===|\+\+\+|---|!!!)[ ]"
BODY = rf"(?:(?!{MARK}).*\n)*"
# A named text, or a case with its answer.
PART = re.compile(rf"""
    (?:\+\+\+|(?P<is_case>===))[ ](?P<name>.+)\n
    (?(is_case)\$(?P<words>.*)\n)
    (?P<body>{BODY})
    (?(is_case)---[ ](?P<status>\d+)\n(?P<output>{BODY})(?:!!![ ]said\n(?P<said>{BODY}))?)
""", re.VERBOSE)
ESCAPE = re.compile(rb"\\(x.{0,2}|[^x])")
ESCAPED = {b"\n": b"", b"n": b"\n", b"r": b"\r", b"t": b"\t", b"0": b"\0", b"\\": b"\\"}
ESCAPED.update((b"x%02X" % byte, bytes([byte])) for byte in range(256))

# Whole messages: why an answer is a refusal, and what was expected.
MESSAGES = re.compile(rb"(onfi_sim: [ -~]+\n(  (expected|did you mean)\b[ -~]+\n)?)*")
# What of a page a plan doesn't look at.
CAUTIONS = re.compile(rb"(onfi_sim: [ -~]+ ('strict,1', or 'strict,0' where they aren't|it is planned all the same)\n)*")


class Case(NamedTuple):
    """What a program answers; where there is a second run, what that answers to the input and the first output.

    `said` is the text of standard error; None where the page doesn't say it.
    """

    place: str
    name: str
    arguments: List[bytes]
    input: bytes
    status: int
    output: bytes
    second: List[bytes]
    said: Optional[bytes] = None


def unescaped(text: str) -> bytes:
    return ESCAPE.sub(lambda found: ESCAPED[found[1]], text.encode())


def text_of(body: str, texts: Dict[str, bytes]) -> bytes:
    """The bytes that a body stands for, with named texts put in."""
    lines = body.split("\n")[:-1]
    return b"".join(texts[line[1:-1]] if re.fullmatch("<.+>", line) else unescaped(line + "\n") for line in lines)


def without_end(body: str) -> str:
    """The body without the empty lines at its end."""
    return re.sub(r"(^|\n)\n*\Z", r"\1", body)


def case_of(place: str, part: Match[str], texts: Dict[str, bytes]) -> Case:
    first, _, second = part["words"].partition(" | ")
    arguments, behind = ([unescaped(word) for word in shlex.split(words)] for words in (first, second))
    output = text_of(without_end(part["output"]), texts)
    said = None if part["said"] is None else text_of(without_end(part["said"]), texts)
    return Case(place, part["name"], arguments, text_of(part["body"], texts), int(part["status"]), output, behind, said)


def place_of(path: pathlib.Path, page: str, at: int) -> str:
    return f"{path.name}:{page.count(chr(10), 0, at) + 1}"


def read_page(path: pathlib.Path, texts: Dict[str, bytes]) -> Iterator[Case]:
    """The cases of a page, in order; its named texts are added to the given ones. What stands before the first mark is for readers alone."""
    page = path.read_bytes().decode() + "\n"
    blank, first = (re.search(form, page, re.MULTILINE) for form in (r"[^\S\n]$", f"^{MARK}"))
    if blank:
        raise ValueError(f"{place_of(path, page, blank.start())}: white space ends the line (write \\x20, \\t or \\r)")
    names, at = set(texts), first.start() if first else len(page)
    while at < len(page):
        part = PART.match(page, at)
        try:
            if part is None:
                raise ValueError("neither a named text nor a case with its answer")
            if part["name"] in names:
                raise ValueError("this name stands twice")
            names.add(part["name"])
            if part["is_case"]:
                yield case_of(place_of(path, page, at), part, texts)
            else:
                texts[part["name"]] = text_of(without_end(part["body"]), texts)
        except (ValueError, KeyError) as fault:
            raise ValueError(f"{place_of(path, page, at)}: {fault!r}") from fault
        at = part.end()


def single_cases(words: List[str], folder: pathlib.Path = CASES) -> List[Case]:
    """Those without a second run."""
    return [case for case in read_cases(words, folder) if not case.second]


# The options that onfi_text of the library takes of each command, and how many words follow each.
OF_TEXT = {
    b"plan": {b"--by": 1, b"--early": 0, b"--limit": 1, b"--trace": 0, b"--requests": 0},
    b"check": {b"--by": 1, b"--legal": 0},
    b"audit": {b"--all": 0, b"--ready-by-status": 0},
}


def words_of_text(words: Sequence[bytes]) -> str:
    """What onfi_text of the library is asked where the program is asked this; nothing where it can't be: that answers scripts, not words."""
    options = OF_TEXT.get(words[0], {}) if words else {}
    left, seen = [*words[1:]], set()
    while left:
        word = left.pop(0)
        if word in seen or len(left) < options.get(word, len(left) + 1):
            return ""
        seen.add(word)
        del left[: options[word]]
    return b" ".join(words).decode("ascii", "replace") if options else ""


def read_cases(words: List[str], folder: pathlib.Path = CASES) -> List[Case]:
    """The cases of a folder's pages, or those whose place ('worked.cases:17') or name has one of the words.

    ValueError and OSError: a page can't be read.
    """
    shared: Dict[str, bytes] = {}
    cases = [case for path in sorted(folder.glob("*.texts")) for case in read_page(path, shared)]
    cases += [case for path in sorted(folder.glob("*.cases")) for case in read_page(path, dict(shared))]
    return [case for case in cases if not words or any(word in case.place or word in case.name for word in words)]


def may_be_said(status: int, errors: bytes) -> bool:
    """Whether this may stand beside an answer with that status: cautions beside each, other messages only beside a refusal."""
    return (MESSAGES if status else CAUTIONS).fullmatch(errors) is not None
