"""The pages: links, files that they name, lengths, what READ-FIRST counts, their words; the manual page, refusals, and what tests show."""

import re
import subprocess
import tempfile
import unittest
from pathlib import Path
from typing import Dict, List, Set, Tuple

import support
from definitions import Definitions, Key, is_code, reached_from

ROOT = support.ROOT
README = (ROOT / "README.md").read_text()
PAGES = [ROOT / "README.md", ROOT / "CONTRIBUTING.md", *(path for folder in ("docs", "examples", "tests") for path in sorted((ROOT / folder).glob("**/*.md")))]
LINK = re.compile(r"\]\(([^)\s]+)\)")
# Files of the repository as pages name them; those with capital words or dots are forms of names.
FILE = re.compile(r"(?<![\w/.-])(?:tools|examples|docs|tests|python|include)/[\w./-]*\w")

MANUAL = ROOT / "docs/onfi_sim.1"
TESTING = (ROOT / "docs/TESTING.md").read_text()
CLAIMS = (ROOT / "docs/CLAIMS.md").read_text()


def anchors_of(page: Path) -> Set[str]:
    """The anchors of a page's headings, as those who show it make them."""
    headings = re.findall(r"^#+ (.+)$", page.read_text(), re.MULTILINE)
    return {re.sub(r"[^\w\- ]", "", heading.lower()).replace(" ", "-") for heading in headings}


def is_there(target: Path, anchor: str) -> bool:
    lines = re.fullmatch(r"L(\d+)(?:-L(\d+))?", anchor)
    if lines:
        count = len(target.read_text().splitlines())
        return 1 <= int(lines[1]) <= int(lines[2] or lines[1]) <= count
    return not anchor or anchor in anchors_of(target)


class Links(unittest.TestCase):
    def test_each_leads_somewhere(self) -> None:
        found = 0
        for page in PAGES:
            for link in LINK.findall(page.read_text()):
                if not re.match(r"https?:", link):
                    path, _, anchor = link.partition("#")
                    target = (page.parent / path).resolve() if path else page
                    self.assertTrue(target.exists() and is_there(target, anchor), f"{page.name}: {link}")
                    found += 1
        self.assertGreater(found, 150)

    def test_the_files_that_pages_name_are_there(self) -> None:
        for page in [*PAGES, MANUAL]:
            for name in FILE.findall(page.read_text().replace("\\-", "-")):
                self.assertTrue((ROOT / name).exists() or (ROOT / (name + ".py")).exists(), f"{page.name}: {name}")

    def test_each_page_can_be_reached_from_the_readme(self) -> None:
        def linked(page: Path) -> List[Path]:
            links = LINK.findall(page.read_text()) if page.suffix == ".md" else []
            return [(page.parent / link.partition("#")[0]).resolve() for link in links if not link.startswith(("http", "#"))]
        self.assertLessEqual({*PAGES}, reached_from([ROOT / "README.md"], linked))


class Cells(unittest.TestCase):
    def test_cells_are_short(self) -> None:
        for page in (ROOT / "README.md", ROOT / "docs/READ-FIRST.md"):
            for cells in support.cells_of(page.read_text()):
                for cell in cells:
                    words = re.sub(r"\]\([^)]*\)", "]", cell).split()
                    self.assertLessEqual(len(words), 30, f"{page.name}: {cell}")


class Crates(unittest.TestCase):
    def test_each_stands_below_those_on_it(self) -> None:
        """In ARCHITECTURE a crate's row is below those of the crates that it stands on; CLAIMS names no other crates."""
        rows = re.findall(r"^- `(onfi_\w+)`:", (ROOT / "docs/ARCHITECTURE.md").read_text(), re.MULTILINE)
        lines = re.findall(r"^(onfi_\w+)[^:\n]*:(.*)$", (ROOT / "crates.txt").read_text(), re.MULTILINE)
        self.assertEqual(sorted(rows), sorted(name for name, _ in lines))
        for name, below in lines:
            for other in re.findall(r"onfi_\w+", below):
                self.assertLess(rows.index(other), rows.index(name), name)
        for name in re.findall(r"`(onfi_[a-z_]*[a-z])`", (ROOT / "docs/CLAIMS.md").read_text()):
            self.assertTrue(name in rows or (ROOT / "crates/onfi_program" / name).exists() or name == "onfi_sim", name)


class Examples(unittest.TestCase):
    def test_code_of_contributing_is_in_its_files(self) -> None:
        shown = [(ROOT / "CONTRIBUTING.md", "pub fn unrow", ROOT / "crates/onfi_addr/src/geometry.rt"),
                 (ROOT / "CONTRIBUTING.md", "opened: limit", ROOT / "crates/onfi_planner/wrong-bodies.txt"),
                 (ROOT / "docs/LIBRARIES.md", "Problem::new", ROOT / "examples/rattle/README.md")]
        for page, word, source in shown:
            blocks = [block for block in re.findall(r"(?:^    .*\n)+", page.read_text(), re.MULTILINE) if word in block]
            lines = [line.strip() for line in source.read_text().splitlines()]
            self.assertTrue(blocks, word)
            for line in blocks[0].splitlines():
                self.assertIn(line.strip(), lines, page.name)


class Counts(unittest.TestCase):
    """READ-FIRST: 'optimal' exactly, all else within a twentieth."""

    page = (ROOT / "docs/READ-FIRST.md").read_text()
    definitions = Definitions()

    def below(self, crate: str, module: str, name: str) -> Set[Key]:
        return self.definitions.below({(crate, module, name)})

    def test_the_lines_of_optimal(self) -> None:
        read = 0
        for row in re.findall(r"^\| *\d+ \|.*$", self.page.split("## A channel")[0], re.MULTILINE):
            ranges = re.findall(r"\]\(\.\./([^)#]+)#L(\d+)-L(\d+)\)", row)
            lines = [line for path, first, last in ranges
                     for line in (ROOT / path).read_text().splitlines()[int(first) - 1 : int(last)]]
            count = len(list(filter(is_code, lines)))
            said = row.split("|")[4].strip()
            self.assertEqual(str(count) if count else "", said, row)
            read += count
        optimal = self.definitions.lines(self.below("onfi_schedule", "Schedule", "Optimal"))
        self.assertEqual(read, optimal)
        for page in (self.page, README):
            self.assertIn(f"{optimal} lines", page)

    def test_the_lines_of_further_claims(self) -> None:
        row = r"^\| [^|]+ \| `(\w+)` \(\[\w+\]\(\.\./crates/(\w+)/specs/(\w+)\.antt\)\) \| ([\d,]+) \|$"
        rows = re.findall(row, self.page, re.MULTILINE)
        self.assertGreaterEqual(len(rows), 5)
        for name, crate, module, said in rows:
            self.is_about(self.definitions.lines(self.below(crate, module, name)), said, name)

    def test_the_lines_of_the_headline(self) -> None:
        other = self.below("onfi_schedule", "Schedule", "Optimal") | self.below("onfi_plan", "Certificate", "ShowsBelow")
        said = re.search(r"that is about ([\d,]+) lines", self.page)
        assert said
        keys = self.below("onfi_core", "Kept", "KeepsPromise") - other
        self.is_about(self.definitions.lines(keys), said[1], "headline")

    def is_about(self, count: int, said: str, name: str) -> None:
        number = int(said.replace(",", ""))
        self.assertLessEqual(abs(count - number), number / 20, f"{name}: {count}")


def shown(page: str) -> List[str]:
    """The lines of a manual page's examples, as a reader sees them."""
    blocks = re.findall(r"^\.EX\n(.*?)^\.EE\n", page, re.MULTILINE | re.DOTALL)
    return [re.sub(r"\\f[BR]", "", line).replace("\\-", "-") for block in blocks for line in block.splitlines()]


@unittest.skipUnless(support.program(), "no built program")
class Manual(unittest.TestCase):
    def test_its_examples_print_what_is_written(self) -> None:
        lines = shown(MANUAL.read_text())
        commands = [line[2:] for line in lines if line.startswith("$ ")]
        self.assertGreaterEqual(len(commands), 6)
        with tempfile.TemporaryDirectory() as folder:
            (Path(folder) / "examples").symlink_to(ROOT / "examples")
            (Path(folder) / "onfi_sim").symlink_to(Path(str(support.program())).resolve())
            script = "PATH=.:$PATH\n" + "\n".join(f"echo '$ {line}'\n{line}" for line in commands)
            ran = subprocess.run(script, shell=True, capture_output=True, text=True, cwd=folder)
        self.assertEqual((ran.stdout.splitlines(), ran.stderr), (lines, ""))

    def test_it_names_what_help_names(self) -> None:
        page = MANUAL.read_text().replace("\\-", "-")
        commands = ["plan", "check", "run"]
        asked: List[List[str]] = [[], *([word] for word in commands)]
        texts = [support.run_program(*words, "--help", given="").stderr for words in asked]
        options = set(re.findall(r"--\w+", "".join(texts)))
        self.assertGreater(len(options), 8)
        for word in [*commands, *options]:
            self.assertIn(word, page)

    def test_any_number_of_workers_gives_the_same_plan(self) -> None:
        for user in ("firmware", "simulator", "test-bench"):
            script = (ROOT / "examples" / user / "batch.onfi").read_text()
            plans = {support.run_program("plan", "--workers", workers, given=script).stdout for workers in "1248"}
            self.assertEqual(len(plans), 1, user)
            self.assertIn("ONFICERT", plans.pop())


class Refusals(unittest.TestCase):
    def test_each_has_something_to_do(self) -> None:
        text = re.sub(r"^```.*?^```$", "", (ROOT / "docs/FORMATS.md").read_text(), flags=re.MULTILINE | re.DOTALL)
        list_of_them = text.split("### Refusals")[1].split("### What to do")[0] + text.split("## Checks")[1]
        to_do = text.split("### What to do")[1].split("## Plans")[0]
        names = set(re.findall(r"\b[A-Z][a-z]+(?:[A-Z][a-z]+)*\b", " ".join(re.findall(r"`([^`]+)`", list_of_them))))
        self.assertGreater(len(names), 30)
        told_as_a_range = {"Trailing", "Width", "BoundLow", "YieldNoFit", "YieldLoop"}
        for name in names - told_as_a_range - {"Page", "Geometry", "Sheet", "Problem", "LUN"}:
            self.assertRegex(to_do, rf"`[^`]*\b{name}\b[^`]*`")


def rows_of(page: str, heading: str) -> List[List[str]]:
    return list(support.cells_of(re.split(r"\n##+ ", page.split(f"## {heading}\n")[1])[0]))[1:]


class Testing(unittest.TestCase):
    def test_each_part_of_the_gate_has_a_row(self) -> None:
        rows = rows_of(TESTING, "What finds what")
        self.assertGreater(len(rows), 12)
        run_by = " ".join(row[-1] for row in rows)
        for name, words in support.load("gate").PARTS:
            tool = " ".join(words[:2]) if words[0] == "rt" or "--streams" in words else words[0]
            self.assertIn(f"`{tool}", run_by, name)

    def test_each_measure_has_a_row(self) -> None:
        names = [path.stem for path in (ROOT / "tools/onfi_tools/bench").glob("*.py") if "def words(" in path.read_text()]
        self.assertGreater(len(names), 7)
        for name in [*(f"bench {name}" for name in names), "fuzz", "soak"]:
            self.assertIn(f"`tools/{name}", TESTING)

    def test_what_only_tests_show_is_by_what_is_there(self) -> None:
        rows = rows_of(CLAIMS, "What is only tested")
        self.assertGreater(len(rows), 10)
        pages = {path.name for path in (ROOT / "tests").glob("*/*.cases")}
        for row in rows:
            self.assertTrue(row[1], row[0])
            for name in re.findall(r"`(onfi_\w+)`", row[1]):
                self.assertTrue((ROOT / "crates" / name).is_dir(), name)
            for name in re.findall(r"`([\w-]+\.cases)`", row[1]):
                self.assertIn(name, pages)

    def test_hostile_names_what_is_there(self) -> None:
        names = re.findall(r"`([\w-]+\.(?:cases|py))`", (ROOT / "docs/HOSTILE.md").read_text())
        self.assertGreater(len(names), 8)
        there = {path.name for path in (ROOT / "tests").glob("*/*")}
        for name in names:
            self.assertIn(name, there)


GLOSSARY = (ROOT / "docs/GLOSSARY.md").read_text()
DEFINITIONS = (ROOT / "docs/DEFINITIONS.md").read_text()
# Words of README and of answers that no reader should have to guess.
WANTED = """LUN, plane, block, page, parameter page, timing sheet, row address, R/B, opener, closer, phase, post, group, want, batch, bound, node, over,
limit, certificate, token, finish, legal, optimal, schedule, plan, script, strict, die model, rightful, host, core, sequencer, turn, gate, channel, clause,
definition, law, lemma, kit, case, trial, wrong body, twin, trace, remember, yield, gap, array time, move, demand, window, part"""


def prose_of(text: str) -> str:
    """The text of a page without code, names of files of crates, and targets of links."""
    text = re.sub(r"^```.*?^```$", "", text, flags=re.MULTILINE | re.DOTALL)
    return re.sub(r"^ {4}.*$|`[^`\n]*`|\[[\w.]+\]\([^)]*crates/[^)]*\)|\]\([^)]*\)", "", text, flags=re.MULTILINE)


def comments_of(text: str) -> str:
    """The comments of a source in Rattle or C without code, each in one line."""
    found = re.findall(r"/\*(?:.|\n)*?\*/|(?:^[ \t]*//[^\n]*\n)+", text, flags=re.MULTILINE)
    plain = [re.sub(r"^[ \t]*(?://[/!]?|/?\*+/?)|\*/", " ", comment, flags=re.MULTILINE) for comment in found]
    return "\n".join(" ".join(re.sub(r"`[^`]*`", "", comment).split()) for comment in plain)


def words_that_go() -> List[str]:
    """The left column of the list of CONTRIBUTING."""
    section = (ROOT / "CONTRIBUTING.md").read_text().split("### Words\n")[1]
    return [word for line in section.splitlines() if line.startswith("| `") for word in re.findall(r"`([^`]+)`", line.split(" | ")[0])]


class Glossary(unittest.TestCase):
    """The words of each section, each with its meaning."""

    tables: List[List[Tuple[str, str]]] = [re.findall(r"^- \*\*(.+?)\*\*: (.+)$", it, re.MULTILINE) for it in GLOSSARY.split("\n## ")[1:]]

    def test_each_word_stands_once_in_order_with_a_short_line(self) -> None:
        seen: List[str] = []
        for table in self.tables:
            self.assertGreater(len(table), 5)
            words = [word.lower() for word, _ in table]
            plain = [word.replace("/", "") for word in words]
            self.assertEqual(plain, sorted(plain))
            seen += words
            for word, meaning in table:
                self.assertLessEqual(len(meaning.split()), 30, word)
        self.assertEqual(len(seen), len(set(seen)))

    def test_words_that_readers_meet_are_there(self) -> None:
        known = {word for table in self.tables for word, _ in table}
        for word in re.split(r",\s*", WANTED):
            self.assertIn(word, known)

    def test_its_words_are_used(self) -> None:
        pages = [ROOT / "README.md", ROOT / "CONTRIBUTING.md", *(ROOT / "docs").glob("*.md")]
        text = "\n".join(page.read_text() for page in pages if page.name != "GLOSSARY.md").lower()
        for table in self.tables:
            for word, _ in table:
                if word != "R/B":
                    stem = re.escape(word.lower().rstrip("y"))
                    self.assertTrue(re.search(rf"\b{stem}", text), word)


class Words(unittest.TestCase):
    def test_pages_have_none_of_those_that_go(self) -> None:
        words = words_that_go()
        self.assertGreater(len(words), 12)
        self.assertGreater(len(PAGES), 25)
        manual = re.sub(r"^\.EX\n.*?^\.EE\n", "", (ROOT / "docs/onfi_sim.1").read_text(), flags=re.MULTILINE | re.DOTALL)
        self.assertNotRegex(manual, re.compile("|".join(rf"\b{re.escape(word)}\b" for word in words), re.IGNORECASE))
        for page in [*PAGES, *(ROOT / "bench").glob("*.md")]:
            for line in prose_of(page.read_text()).splitlines():
                for word in words:
                    self.assertNotRegex(line, re.compile(rf"\b{re.escape(word)}\b", re.IGNORECASE), str(page))

    def test_comments_have_none_of_those_that_go(self) -> None:
        """Those of the Rattle sources and of the header for C."""
        going = re.compile("|".join(rf"\b{re.escape(word)}\b" for word in words_that_go()), re.IGNORECASE)
        sources = sorted((ROOT / "crates").glob("*/src/**/*.rt"))
        self.assertGreater(len(sources), 300)
        sources.append(ROOT / "include/onfi.h")
        for source in sources:
            for comment in comments_of(source.read_text()).splitlines():
                self.assertNotRegex(comment, going, str(source))

    def test_only_comments_are_read(self) -> None:
        source = "//! One\n\n/// two `told`, for\n/// want of it\nlet told = 2; // three\n    // four\n/* five */\n/*\n * six\n */\n"
        self.assertEqual(comments_of(source), "One\ntwo , for want of it\nfour\nfive\nsix")

    def test_they_are_short(self) -> None:
        """README and docs have at most 30,000 words together, as `wc -w` counts them."""
        pages = [ROOT / "README.md", *(ROOT / "docs").glob("*.md")]
        self.assertLessEqual(sum(len(page.read_text().split()) for page in pages), 30_000)

    def test_code_is_left_out(self) -> None:
        text = "`a told` [it](behind.md) [Told](../crates/onfi_run/specs/Told.antt)\n\n    told by code\n\n```sh\necho told\n```\nno word\n"
        self.assertNotRegex(prose_of(text), "[Tt]old|behind|echo")
        self.assertIn("no word", prose_of(text))
        self.assertIn("told", prose_of("he told `it`"))


class Readme(unittest.TestCase):
    def test_it_takes_two_screens(self) -> None:
        self.assertLessEqual(len(README.splitlines()), 80)
        self.assertLessEqual(len(README.split()), 900)

    def test_the_glossary_is_named_before_the_first_heading(self) -> None:
        self.assertIn("](docs/GLOSSARY.md)", README.split("\n## ")[0])


class Sections(unittest.TestCase):
    section = DEFINITIONS.split("## Which section each rule comes from")[1]

    def cited(self) -> Dict[str, str]:
        """The titles of sections that doc comments cite, with the file of each."""
        found: Dict[str, str] = {}
        for path in sorted((ROOT / "crates").glob("*/src/**/*.rt")):
            text = re.sub(r"\n\s*//[/!]?\s*", " ", path.read_text())
            for titles in re.findall(r"\(ONFI 4\.2, ([^)]*)\)", text):
                for title in re.split(r"; | and |, ", titles):
                    if not title.startswith("bit "):
                        found[re.sub(r" bit \d+$", "", title)] = path.name
        return found

    def test_each_section_that_the_code_cites_has_a_row(self) -> None:
        titles = self.cited()
        self.assertGreater(len(titles), 8)
        first = "\n".join(line.split(" | ")[0] for line in self.section.splitlines() if line.startswith("| "))
        for title, path in titles.items():
            self.assertIn(title, first, path)

    def test_no_number_of_a_section_is_told(self) -> None:
        for text in (self.section, *self.cited()):
            self.assertNotRegex(text, r"§|[Ss]ection \d|\b\d+\.\d+\.\d+")

    def test_its_definitions_are_where_they_are_said_to_be(self) -> None:
        known = Definitions().found
        rows = [line for line in self.section.splitlines() if line.startswith("| ")][1:]
        self.assertGreater(len(rows), 10)
        for row in rows:
            cell = row.rsplit(" | ", 1)[1]
            parts = re.findall(r"([^(]*)\(\[\w+\]\(\.\./crates/(\w+)/specs/(\w+)\.antt\)\)", cell)
            self.assertTrue(parts, row)
            for names, crate, module in parts:
                for name in re.findall(r"`(\w+)`", names):
                    self.assertIn((crate, module, name), known)
