"""PROOFS: each file, call, clause, definition and lemma that the page names is there, and rests on what the page says."""

import functools
import re
import unittest
from pathlib import Path
from typing import Dict, List, NamedTuple, Set, Tuple

import support
from definitions import WORD, Definitions, Key, reached_from, uses_of

PAGE = support.ROOT / "docs/PROOFS.md"
LINK = re.compile(r"\]\(\.\./(crates/[^)#]+)\)")
NAME = re.compile(r"`(\w+)`")
IMPORT = re.compile(r"^use Rattle\.(onfi_\w+)\.proofs\.([\w.]+)", re.MULTILINE)
NAMED = re.compile(r"`([A-Za-z_]\w*(?:::\w+)*)`(?! of (?:std|the kit))")
# An abbreviation of what the clause says.
STANDS_FOR = {"IsAnswer": "IsAnswerBy"}
# Where a clause begins or ends: at a function, a type, a clause, and a brace that stands alone.
MARK = re.compile(r"""^(?:impl\b.*?(?P<within>\w+)(?:<[^{\n]*)?\ \{
    |\s*(?:pub(?:\(\w+\))?\ )?(?:(?:unsafe\ )?(?:extern\ "C"\ )?fn\ (?P<call>\w+)|(?:struct|enum|trait)\ (?P<type>\w+))
    |\s*(?P<clause>ensures|requires\*?|(?:pub\ )?ghost(?!\ use))\b(?:\ (?P<name>\w+))?
    |[ ]*[{}][ ]*$)""", re.M | re.X)


class Clause(NamedTuple):
    within: str
    owner: str
    name: str
    cites: Set[Key]


class Further(NamedTuple):
    """A row of the second table of promises."""

    crate: str
    path: Path
    promise: str
    clause: str
    definition: str


DEFINITIONS = Definitions()


class Sources:
    """The contracts of a crate's functions, and the ghost parts of its types."""

    def __init__(self, crate: str) -> None:
        self.clauses: List[Clause] = []
        self.names: Set[str] = set()
        self.calls: Set[str] = set()
        for path in sorted((support.ROOT / "crates" / crate / "src").glob("**/*.rt")):
            self.read(path.read_text())

    def read(self, text: str) -> None:
        taken, whole = uses_of(text)
        within, owner = "", ""
        marks = [*MARK.finditer(text)]
        for mark, end in zip(marks, [*(it.start() for it in marks[1:]), len(text)]):
            within, owner = mark["within"] or within, mark["call"] or mark["type"] or owner
            self.names |= {owner, mark["name"] or ""}
            self.calls |= {mark["call"] or ""}
            if mark["clause"]:
                self.clauses.append(Clause(within, owner, mark["name"] or "", cited(text[mark.start() : end], taken, whole)))

    def under(self, named: List[str]) -> Set[Key]:
        """What the named clauses cite; of a call without a named clause, and of a type alone, all that they promise."""
        owners = {part for name in named for part in name.split("::")}
        by_name = {clause.owner for clause in self.clauses if clause.name in named}
        types = set() if owners & self.calls else owners
        chosen = [clause for clause in self.clauses
                  if clause.name in named or clause.owner in owners - by_name or clause.within in types - by_name]
        return {key for clause in chosen for key in clause.cites}


@functools.cache
def sources_of(crate: str) -> Sources:
    return Sources(crate)


def cited(body: str, taken: Dict[str, Key], whole: Dict[str, Tuple[str, str]]) -> Set[Key]:
    keys = [taken[word] for word in set(WORD.findall(body)) if word in taken]
    keys += [(*module, word) for alias, module in whole.items() for word in re.findall(rf"\b{alias}\.(\w+)", body)]
    return {found for key in keys for found in DEFINITIONS.resolve(key)}


def rows_of_further(text: str) -> List[Further]:
    """The second table of promises: crate and file, promise, clauses, definitions."""
    rows: List[Further] = []
    for cells in support.cells_of(text.split("### Further promises\n")[1].split("\n## ")[0]):
        link = re.fullmatch(r"\[(onfi_\w+)\]\(\.\./(crates/\1/src/[\w/]+\.rt)\): (.*)", cells[0])
        if link and len(cells) == 3:
            rows.append(Further(link[1], support.ROOT / link[2], link[3], *cells[1:]))
    return rows


class Row(NamedTuple):
    promise: str
    clause: str
    definition: str
    lemmas: str


def rows_of(text: str) -> List[Row]:
    section = text.split("## From promise to proof")[1].split("\n### ")[0]
    return [Row(*row) for row in list(support.cells_of(section))[1:]]


def parts_of(cell: str) -> List[Tuple[List[str], Path]]:
    """The names of a cell with the file that the link after them leads to."""
    ends = list(LINK.finditer(cell))
    begins = [0, *(end.end() for end in ends)]
    return [(NAME.findall(cell[begin:end.start()]), support.ROOT / end[1]) for begin, end in zip(begins, ends)]


def crate_of(path: Path) -> str:
    return path.relative_to(support.ROOT / "crates").parts[0]


@functools.cache
def lemmas_taken(path: Path) -> Set[Path]:
    """The lemma modules that a file of proofs imports."""
    named = IMPORT.findall(path.read_text())
    found = (support.ROOT / "crates" / crate / "proofs" / f"{module.split('.')[0]}.antt" for crate, module in named)
    return {file for file in found if file.exists()}


def lemmas_below(crate: str) -> Set[Path]:
    """The files that the proofs of a crate's functions rest on."""
    return reached_from((support.ROOT / "crates" / crate / "proofs").glob("*/**/*.antt"), lemmas_taken)


class Proofs(unittest.TestCase):
    text = PAGE.read_text()
    rows = rows_of(text)

    def test_the_readme_leads_here(self) -> None:
        section = (support.ROOT / "README.md").read_text().split("## What is promised")[1].split("\n## ")[0]
        self.assertIn("](docs/PROOFS.md#from-promise-to-proof)", section)
        self.assertNotIn("\n|", section, "promises stand in one table")
        claimed = self.text.split("\n## My proof fails")[0]
        for name in NAME.findall(section):
            self.assertIn(f"`{name}`", claimed)

    def test_each_clause_stands_with_its_crate(self) -> None:
        for row in self.rows:
            for crate, path in re.findall(r"\[([^\]]*)\]\(\.\./crates/(\w+)/", row.clause):
                self.assertEqual(crate, path, row.promise)

    def test_each_call_and_clause_stands_in_its_file(self) -> None:
        self.assertGreater(len(self.rows), 20)
        for row in self.rows:
            parts = parts_of(row.clause)
            self.assertTrue(parts, row.promise)
            for names, path in parts:
                source = path.read_text()
                calls = [name for name in names if re.search(rf"\bfn {name}\b", source)]
                self.assertTrue(calls, f"{row.promise}: {path.name}")
                for name in set(names) - set(calls):
                    self.assertRegex(source, rf"ensures {name} \{{", row.promise)

    def test_each_definition_is_behind_its_clause(self) -> None:
        for row in self.rows:
            behind = set()
            for names, path in parts_of(row.clause):
                behind |= DEFINITIONS.below(sources_of(crate_of(path)).under(names))
            parts = parts_of(row.definition)
            self.assertTrue(parts, row.promise)
            for names, path in parts:
                self.assertTrue(names, row.promise)
                for name in names:
                    named = {(crate_of(path), path.stem, word) for word in (name, STANDS_FOR.get(name, name))}
                    self.assertTrue(named & set(DEFINITIONS.found), f"{row.promise}: {name}")
                    self.assertTrue(named & behind, f"{row.promise}: {name}")

    def test_each_lemma_module_is_one_that_the_proofs_rest_on(self) -> None:
        for row in self.rows:
            below = set().union(*(lemmas_below(crate_of(path)) for _, path in parts_of(row.clause)))
            modules = parts_of(row.lemmas)
            self.assertTrue(modules, row.promise)
            for _, path in modules:
                self.assertEqual(path.parent.name, "proofs", row.promise)
                self.assertTrue(path in below, f"{row.promise}: {path.name}")

    def test_the_worked_example_is_in_its_files(self) -> None:
        example = self.text.split("### A worked example")[1].split("\n## ")[0]
        shown = [line.strip() for line in example.splitlines() if line.startswith("    ")]
        self.assertGreater(len(shown), 10)
        files = [support.ROOT / link for link in LINK.findall(example)]
        self.assertGreaterEqual(len(files), 3)
        lines = {line.strip() for file in files for line in file.read_text().splitlines()}
        for line in shown:
            self.assertTrue(line in lines, line)
        answer = next(file for file in files if file.name == "Answers.antt").read_text()
        lemmas = [line.strip() for line in answer.splitlines() if line.startswith((" ", "pub ", "returns"))]
        self.assertEqual([line for line in shown if line in lemmas], lemmas)
        words = set(re.findall(r"\w+", " ".join(file.read_text() for file in files)))
        told = re.sub(r"(?m)^ {4}.*$", "", example)
        for name in NAME.findall(told):
            if "_" in name:
                self.assertIn(name, words)

    def test_names_that_are_praised_are_lemmas(self) -> None:
        row = next(line for line in self.text.splitlines() if line.startswith("- names by law"))
        good, _, bad = row.partition(";")
        statements = [path.read_text() for path in (support.ROOT / "crates").glob("*/proofs/*.antt")]
        for name in NAME.findall(good):
            self.assertTrue(any(re.search(rf"(?m)^(?:pub )?{name} : ", text) for text in statements), name)
        for name in ("lemma_2", "helper", "aux"):
            self.assertIn(f"`{name}`", bad)
            self.assertFalse(any(re.search(rf"(?m)^(?:pub )?{name} : ", text) for text in statements), name)


class FurtherPromises(unittest.TestCase):
    rows = rows_of_further(PAGE.read_text())

    def test_each_row_is_read(self) -> None:
        section = PAGE.read_text().split("### Further promises\n")[1].split("\n## ")[0]
        self.assertEqual(len(self.rows), sum(line.startswith("| [") for line in section.splitlines()))

    def test_each_call_and_clause_is_there(self) -> None:
        self.assertGreater(len(self.rows), 50)
        for row in self.rows:
            parts = re.findall(r"\w+", " ".join(NAMED.findall(row.clause)))
            self.assertTrue(parts, row.promise)
            for part in parts:
                self.assertIn(part, sources_of(row.crate).names, f"{row.crate}: {row.promise}")
            text = row.path.read_text()
            self.assertTrue(any(re.search(rf"\b{part}\b", text) for part in parts), f"{row.path.name}: {row.promise}")

    def test_each_definition_is_one_that_its_clause_rests_on(self) -> None:
        for row in self.rows:
            self.assertTrue(NAMED.search(row.definition), row.promise)
            cites = DEFINITIONS.below(sources_of(row.crate).under(NAMED.findall(row.clause)))
            for name in NAMED.findall(row.definition):
                found = DEFINITIONS.named(name) | DEFINITIONS.named(STANDS_FOR.get(name, name))
                self.assertTrue(found & cites, f"{row.crate}: {row.promise}: {name}")
