"""The tool of wrong bodies: how it reads them, what stands in the copy that is checked, and what it makes of the answer. Nothing is proved here."""

import contextlib
import io
import sys
import unittest
import unittest.mock
from pathlib import Path
from typing import Any, Dict, List, Tuple

import support
from onfi_tools.edits import BadEdit, Pair, change_of, read_entries
from onfi_tools.functions import functions_of

TOOL: Any = support.load("wrong-bodies")
GATE: Any = support.load("gate")

HALF = """\
pub struct Half {
    at: u8,
}

impl Half {
    /// Half of it.
    #[tactic(auto)]
    pub fn of(n: u8) -> u8
        ensures { result ≡ n / 2 }
    {
        n / 2
    }

    pub fn next(&self) -> u8 {
        self.at
    }
}

impl fmt::Display for Half {
    fn fmt(&self) -> u8 {
        LEAST
    }
}

impl Gate for Half {
    ghost use Rattle.demo.specs.Halves.{
        is_half,
    };

    fn close(&self) -> u8
        ensures { is_half result }
    {
        4
    }
}
"""
ODD = """\
const LEAST: u8 = 3;

#[cycle(odd)]
fn even(n: u8) -> u8 {
    odd(n - 1)
}

#[cycle(odd)]
fn odd(n: u8) -> u8 {
    even(n - 1)
}

impl Half {
    fn last(&self) -> u8 {
        even(9) + LEAST
    }
}
"""
STEPS = """\
use Rattle.demo.proofs.odd.+odd.Goals.{even-odd-requires}
even-odd-requires t c = (odd (c.odd.result) c.oddly Rattle.demo.proofs.odd.x)
"""
ANSWERS = "use Rattle.demo.proofs.half.Half.of.Goals as goal\nuse Rattle.demo.proofs.half.Half.offset\n"


def entry(name: str, item: str, old: str, new: str, more: str = "", path: str = "src/half.rt") -> str:
    return f"edit: {name}\nin: {path} {item}\nold: {old}\nnew: {new}\n{more}\n"


# An edit of each kind; that of a constant disturbs that of a method which names it, and which is made in place too.
FOURTH = entry("fourth", "Half::of", "n / 2", "n / 4", "twin:\nold: n / 2\nnew: n / 2 + 0\n")
WHOLE = FOURTH + "".join([
    entry("at_0", "Half::next", "self.at", "0"),
    entry("least_2", "LEAST", "3", "2", path="src/odd.rt"),
    entry("odd_0", "odd", "even(n - 1)", "0", path="src/odd.rt"),
    entry("even_0", "even", "odd(n - 1)", "0", path="src/odd.rt"),
    entry("fmt_0", "HalfDisplay::fmt", "LEAST", "0"),
    entry("last_0", "Half::last", "even(9)", "0", path="src/odd.rt"),
])
# Two of one method of a trait that has clauses of its own, and one of two functions.
CLOSED = "".join([
    entry("close_5", "HalfGate::close", "4", "5"),
    entry("close_6", "HalfGate::close", "4", "6"),
    entry("both_1", "Half::of", "n / 2", "1", "in: src/odd.rt Half::last\nold: even(9)\nnew: 1\n"),
])
# A function of two clauses, and one that calls itself; edits of them that one clause refuses, none, and all.
PAIR = """\
fn pair(n: u8) -> (u8, u8)
    requires some { 1 ≤ n }
    ensures low { result.0 ≡ n
        / 2 }
    ensures high { result.1 ≡ n - n / 2 }
{
    (half(n), n - half(n))
}

fn down(n: u8) -> u8
    ensures first { result ≤ n }
    ensures last { 0 ≤ result }
{
    down(n - 1)
}
"""
PAIR_ANSWERS = """\
use Rattle.demo.proofs.pair.pair.Goals as goal

pub returns-clause-low : goal.returns-clause-low
returns-clause-low c =
    low c

pub half-requires : goal.half-requires
half-requires c = refl
"""
DOWN_ANSWERS = """\
pub down-returns-clause-first : goal.down-returns-clause-first
down-returns-clause-first c = refl

pub down-returns-clause-last : goal.down-returns-clause-last
down-returns-clause-last c = refl
"""


def promised(clause: str, item: str, old: str, new: str) -> str:
    return entry(f"{item}_{clause}", item, old, new, path="src/pair.rt").replace("in: ", f"clause: {clause}\nin: " if clause else "in: ")


PAIRS = "".join(promised(clause, "pair", "(half(n), ", "(0, ") for clause in ("low", "high", "no ensures", "")) + promised("first", "down", "down(n - 1)", "1")
GATE_ANSWERS = "use Rattle.demo.proofs.half.HalfGate.close.Goals as goal\n"


def put(file: Path, text: str) -> None:
    file.parent.mkdir(parents=True, exist_ok=True)
    file.write_text(text, encoding="utf-8")


def crate_of(test: unittest.TestCase, edits: str, **how: Any) -> Any:
    """A crate 'demo' with these wrong bodies."""
    room = support.room_of(test)
    files = {"src/half.rt": HALF, "src/odd.rt": ODD, "proofs/half/Half/of/Answers.antt": ANSWERS, "proofs/odd/+odd/Answers.antt": STEPS,
             "proofs/half/HalfGate/close/Answers.antt": GATE_ANSWERS, "wrong-bodies.txt": edits, "src/pair.rt": PAIR,
             "proofs/pair/pair/Answers.antt": PAIR_ANSWERS, "proofs/pair/+down/Answers.antt": DOWN_ANSWERS}
    for path, text in files.items():
        put(room / "crates" / "demo" / path, text)
    with unittest.mock.patch.object(TOOL, "ROOT", room):
        return TOOL.Crate("demo", **how)


class Entries(unittest.TestCase):
    def test_an_entry_is_read(self) -> None:
        one, two = read_entries("# demo\n\n" + FOURTH + entry("b", "f", "x", "", "old: y\nnew:  z\nmistake: b is bad\nalone: it says why\n"))
        self.assertEqual((one.wrong, one.twin), ([Pair("src/half.rt", "Half::of", "n / 2", "n / 4")], [Pair("src/half.rt", "Half::of", "n / 2", "n / 2 + 0")]))
        self.assertEqual([(it.old, it.new) for it in two.wrong], [("x", ""), ("y", " z")])
        self.assertEqual((two.mistake, two.reason), ("b is bad", "it says why"))

    def test_a_file_that_is_none_is_refused(self) -> None:
        for text in ("old: x\n", "edit: a\nwhat: b\n", FOURTH + FOURTH):
            with self.assertRaises(BadEdit):
                read_entries(text)

    def test_what_is_wrong(self) -> None:
        step = ("Half::next", "self.at", "{ let at = self.at; at + 1 }")
        said = {
            entry("a", "Half::of", "n / 3", "n"): ["BAD EDIT: an old text stands 0 times in Half::of: n / 3"],
            entry("a", "Half::gone", "n", "m"): ["BAD EDIT: src/half.rt has 0 functions, constants and types Half::gone"],
            entry("a", *step): [TOOL.NEEDS_TWIN],
            entry("a", *step, "alone: no step changes nothing\n"): [],
            entry("a", *step, "twin:\nold: self.at\nnew: { let at = self.at; at }\n"): [],
            "edit: a\n": ["BAD EDIT: it has no pair"],
        }
        for text, words in said.items():
            self.assertEqual([it.text for it in crate_of(self, text).tried], words, text)

    def test_each_edit_of_the_tree_applies(self) -> None:
        """And each crate that has functions of its own has some, but those of tests."""
        for name in TOOL.PROVE.CRATES:
            crate = TOOL.Crate(name)
            self.assertEqual([(name, it) for it in crate.tried], [])
            self.assertTrue(crate.trials or name.endswith("_tests") or name == "onfi_trials", name)

    def test_a_mistake_has_its_words(self) -> None:
        mistakes = [it.mistake for name in TOOL.PROVE.CRATES for it in TOOL.Crate(name).entries if it.mistake]
        self.assertGreaterEqual(len(mistakes), 42)
        self.assertTrue(all(" " in it for it in mistakes))

    CHANGES: Dict[str, List[List[Tuple[str, str]]]] = {
        "changes a value": [
            [("lun: said.lun,", "lun: 0,")], [("Err(Fault::Bus)", "Err(Fault::Memory)"), ("true", "false")], [("self.place", "Place { lun: 0, place }")],
            # (a comment is no statement)
            [("at // if so;", "other")],
        ],
        "changes an operator": [[("if a < b {", "if a <= b {")], [("at", "at + 1")], [("true", "false"), ("&& b", "|| b")]],
        # (nor is the length of an array)
        "changes a call": [[("posts.pop_front()", "posts.pop_back()")], [("Some(cause)", "None")], [("*waiting()", "[true; 8]")]],
        "adds or removes a statement": [
            [("next();", "next(); next();")], [("at", "{ let at = 0; at }")], [("step(at)?;", "step(at);")], [("step(at)", "if at > 0 { step(at) }")],
            [("None => 0,", "None => 0, Some(1) => 1,")], [("Ok(at)", "return Ok(at)")], [("true", "false"), ("next();", "last(); next();")],
        ],
    }

    def test_what_is_changed(self) -> None:
        for change, edits in self.CHANGES.items():
            for pairs in edits:
                self.assertEqual(change_of([Pair("", "", old, new) for old, new in pairs]), change, pairs)


class Copies(unittest.TestCase):
    def write(self, crate: Any, number: int) -> Tuple[Dict[str, str], Path]:
        copy = support.room_of(self) / "copy"
        return crate.sources.write(copy, crate.sources.in_rounds(crate.trials)[number]), copy

    def test_what_shares_a_check(self) -> None:
        crate = crate_of(self, WHOLE)
        rounds = [[it.name for it in trials] for trials in crate.sources.in_rounds(crate.trials)]
        self.assertEqual(rounds, [["fourth", "fourth, its twin", "at_0", "odd_0", "even_0", "last_0", "fmt_0"], ["least_2"]])

    def test_an_edited_body_stands_after_its_own_with_the_contract_and_the_proofs(self) -> None:
        texts, copy = self.write(crate_of(self, WHOLE), 0)
        head = "    #[tactic(auto)]\n    pub fn of_edit_1(n: u8) -> u8\n        ensures { result ≡ n / 2 }\n    {\n        n / 4\n    }\n"
        self.assertIn(head, texts["src/half.rt"])
        self.assertLess(texts["src/half.rt"].index("pub fn of(n"), texts["src/half.rt"].index(head))
        self.assertIn("    fn last(&self) -> u8 { loop {}\n    }\n\n    fn last_edit_8(&self) -> u8 {\n        0 + LEAST\n", texts["src/odd.rt"])
        self.assertEqual((copy / "proofs/half/Half/of_edit_1/Answers.antt").read_text(), ANSWERS.replace("of.Goals", "of_edit_1.Goals"))
        self.assertEqual((copy / "src/half.rt").read_text(), texts["src/half.rt"])

    def test_a_method_of_a_trait_with_clauses_has_siblings_among_its_types_own(self) -> None:
        crate = crate_of(self, CLOSED)
        self.assertEqual([len(trials) for trials in crate.sources.in_rounds(crate.trials)], [3])
        texts, copy = self.write(crate, 0)
        uses = "impl Half {\n    ghost use Rattle.demo.specs.Halves.{\n        is_half,\n    };\n"
        for number, value in ((1, 5), (2, 6)):
            sibling = f"    fn close_edit_{number}(&self) -> u8\n        ensures {{ is_half result }}\n    {{\n        {value}\n    }}\n}}\n"
            self.assertIn(uses + sibling, texts["src/half.rt"])
        self.assertEqual((copy / "proofs/half/Half/close_edit_2/Answers.antt").read_text(), "use Rattle.demo.proofs.half.Half.close_edit_2.Goals as goal\n")
        self.assertIn("of_edit_3", texts["src/half.rt"])
        self.assertIn("last_edit_3", texts["src/odd.rt"])

    def test_of_one_clause_the_others_and_their_answers_go(self) -> None:
        texts, copy = self.write(crate_of(self, PAIRS), 0)
        head = "fn pair_edit_{}(n: u8) -> (u8, u8)\n    requires some {{ 1 ≤ n }}\n    ensures {}\n    ensures and_so {{ Unit {{0}} }}\n{{\n"
        self.assertIn(head.format(1, "low { result.0 ≡ n\n        / 2 }"), texts["src/pair.rt"])
        self.assertIn(head.format(2, "high { result.1 ≡ n - n / 2 }"), texts["src/pair.rt"])
        self.assertIn("fn pair_edit_3(n: u8) -> (u8, u8)\n    requires some { 1 ≤ n }\n    ensures and_so { Unit {0} }\n{\n", texts["src/pair.rt"])
        low, high, calls, whole = [(copy / f"proofs/pair/pair_edit_{number}/Answers.antt").read_text() for number in (1, 2, 3, 4)]
        use, returned, asked = PAIR_ANSWERS.split("\n\n")
        hole = "pub half-requires : goal.half-requires\nhalf-requires = ?\n"
        self.assertEqual(low, "\n\n".join([use.replace("pair.Goals", "pair_edit_1.Goals"), returned, hole]))
        self.assertEqual(high, "\n\n".join([use.replace("pair.Goals", "pair_edit_2.Goals"), hole]))
        self.assertEqual(calls, "\n\n".join([use.replace("pair.Goals", "pair_edit_3.Goals"), asked]))
        self.assertEqual(whole, PAIR_ANSWERS.replace("pair.Goals", "pair_edit_4.Goals"))

    def test_in_a_cycle_of_calls_the_clauses_stay(self) -> None:
        texts, copy = self.write(crate_of(self, PAIRS), 0)
        self.assertIn("    ensures first { result ≤ n }\n    ensures last { 0 ≤ result }\n{\n    1\n", texts["src/pair.rt"])
        answers = (copy / "proofs/pair/+down_edit_5/Answers.antt").read_text()
        self.assertEqual(answers, """\
pub down_edit_5-returns-clause-first : goal.down_edit_5-returns-clause-first
down_edit_5-returns-clause-first c = refl

pub down_edit_5-returns-clause-last : goal.down_edit_5-returns-clause-last
down_edit_5-returns-clause-last = ?
""")

    def test_a_clause_that_is_not_there_is_told(self) -> None:
        edits = entry("fourth", "Half::of", "n / 2", "n / 4").replace("in: ", "clause: half\nin: ")
        self.assertEqual([it.text for it in crate_of(self, edits).tried], ["BAD EDIT: no function that it changes has a clause half"])

    def test_a_cycle_of_calls_has_siblings_that_call_each_other(self) -> None:
        texts, copy = self.write(crate_of(self, WHOLE), 0)
        for head in ("#[cycle(odd_edit_5)]\nfn even_edit_5(n: u8) -> u8 {\n    odd_edit_5(n - 1)\n", "#[cycle(odd_edit_5)]\nfn odd_edit_5(n: u8) -> u8 {\n    0\n"):
            self.assertIn(head, texts["src/odd.rt"])
        self.assertEqual((copy / "proofs/odd/+odd_edit_5/Answers.antt").read_text(), """\
use Rattle.demo.proofs.odd.+odd_edit_5.Goals.{even_edit_5-odd_edit_5-requires}
even_edit_5-odd_edit_5-requires t c = (odd (c.odd_edit_5.result) c.oddly Rattle.demo.proofs.odd.x)
""")

    def test_the_others_are_taken_by_their_contracts(self) -> None:
        _, copy = self.write(crate_of(self, WHOLE), 1)
        self.assertIn("use Rattle.demo.proofs.half.Half.next.Statement as stated\n\npub next_spec : ", (copy / "proofs/half/Half/next/Proof.antt").read_text())
        # (one of a cycle of calls that does nothing is of none)
        self.assertIn("use Rattle.demo.proofs.odd.odd.Statement as stated\n\npub odd_spec : ", (copy / "proofs/odd/odd/Proof.antt").read_text())
        self.assertFalse((copy / "proofs/odd/+odd").exists())
        self.assertEqual([it.name for it in (copy / "proofs/half/Half/of").iterdir()], ["Proof.antt"])
        # (what is asked for by nothing else does nothing)
        self.assertIn("ensures { result ≡ n / 2 }\n{ loop {}\n    }\n", (copy / "src/half.rt").read_text())
        self.assertIn("\nfn even(n: u8) -> u8 { loop {}\n}\n\nfn odd(n: u8) -> u8 { loop {}\n}\n", (copy / "src/odd.rt").read_text())
        # (what is edited in place keeps its proofs)
        self.assertFalse((copy / "proofs/odd/Half/last").exists())

    def test_the_prover_is_asked_for_what_is_edited(self) -> None:
        crate = crate_of(self, WHOLE)
        asked = [crate.paths_of(trials) for trials in crate.sources.in_rounds(crate.trials)]
        self.assertEqual(asked[0], ["even_edit_6", "half::HalfDisplay::fmt", "last_edit_8", "next_edit_3", "odd_edit_5", "of_edit_1", "of_edit_2"])
        self.assertEqual(asked[1], ["half::Half::last", "half::HalfDisplay::fmt"])

    def test_unedited_functions_are_tried_once_as_twins(self) -> None:
        crate = crate_of(self, FOURTH + entry("eighth", "Half::of", "n / 2", "n / 8"), is_unedited=True)
        self.assertEqual([(it.name, it.is_twin, it.pairs[0].new) for it in crate.trials], [("Half::of", True, "n / 2")])

    def test_an_impl_is_named_as_the_prover_does(self) -> None:
        heads = {
            "impl Half<'_>": "Half",
            "impl Half<'_, Whole>": "Half+Whole",
            "impl<'a> Half<'a>": "Half",
            "impl From<Third> for Half": "HalfFromThird",
            "impl Gate for Half<'_>": "HalfGate",
            "impl Half<Whole>": "Half+Whole",
        }
        for head, owner in heads.items():
            found = functions_of("src/half.rt", f"{head} {{\n    fn next(&self) -> u8 {{\n        1\n    }}\n}}\n")
            self.assertEqual([it.owner for it in found], [owner])


FN, FILE = "fn demo::half::Half::of: ", "./proofs/half/Half/of/Answers.antt:4:2: error: "
OF = ("src/half.rt", "Half", "of")
NOTE = "note: src/half.rt:9:5: it is not proved that what the function ensures holds when it returns (`returns`)"
CALLS = "no proof: it calls `demo::half::third`, which is not proved"
UNMADE = "no proof: the borrow checker's part in its proof is not made yet: a call of `demo::half::third`, which has no proof: help: prove it first"
# What a check says of a function, whether an edit of it is refused and in which words, and whether a twin is proved.
SAID: Dict[str, Tuple[List[str], bool, str, bool]] = {
    "a goal of its own": ([NOTE, FN + "no proof: `search` did not prove `returns`"], True, f"refused, as it must be: {NOTE}", False),
    "still proved": ([FN + "no holes"], False, "NOT REFUSED: it is still proved", True),
    "still proved, by a callee's contract": (
        [FN + "depends on a hole in `Rattle.demo.proofs.half.third.Proof.third_spec`"], False, "NOT REFUSED: it is still proved", True),
    "a callee that isn't proved": ([FN + CALLS], False, "NOT REFUSED by a goal of its own: no proof: it calls ", False),
    "nothing that was looked at": ([FN + UNMADE], False, "NOT REFUSED by a goal of its own: ", False),
    "a proof file that names what is gone": (
        [FILE + "module `Goals` has no `then-a` that can be named from here", FN + "not proved"], False, "WEAK: ", False),
    "a proof file that names a step that is gone, where others are near": (
        [FILE + "`returns`: record `demo.half.Half.of.Lts.Past-then` (nearest: .len, .then-b)", "  has no field `then-a`", FN + "not proved"],
        False, "WEAK: ", False),
    "no such function": ([], False, "NOT REFUSED by a goal of its own: the prover names no such function", False),
}
EVEN, IS_ODD = ("src/odd.rt", "", "even"), ("src/odd.rt", "", "odd")
ODD_FILE = "./proofs/odd/+odd/Answers.antt:5:26: error: "
ODD_SAID = "no proof: expected answers in ./proofs/odd/+odd/Answers.antt; `search` did not prove `even-returns`"
# The same of functions that call each other, where a goal is that of the function before it.
IN_CYCLES: List[Tuple[List[str], Dict[Tuple[str, str, str], bool]]] = [
    ([ODD_FILE + "`even-returns`: type mismatch", "fn demo::odd::even: not proved", "fn demo::odd::odd: not proved"], {EVEN: True, IS_ODD: False}),
    ([f"fn demo::odd::{name}: {ODD_SAID}" for name in ("even", "odd")], {EVEN: True, IS_ODD: False}),
]


def told(lines: List[str], status: int = 1) -> Any:
    return TOOL.Told("demo", status, "\n".join(lines), {"src/half.rt": HALF, "src/odd.rt": ODD})


class Verdicts(unittest.TestCase):
    def test_edits_and_twins(self) -> None:
        for name, (lines, is_refused, words, is_proved) in SAID.items():
            with self.subTest(name):
                failures = [told([*lines, "only=1 holes=0"]).failure_of(OF)]
                found, text = TOOL.judge_edit(failures)
                self.assertEqual((found, text[: len(words)]), (is_refused, words))
                self.assertEqual(TOOL.judge_twin(failures)[0], is_proved)

    def test_in_a_cycle_a_goal_is_of_one_function(self) -> None:
        for lines, refused in IN_CYCLES:
            for key, is_refused in refused.items():
                self.assertEqual(TOOL.judge_edit([told([*lines, "only=1 holes=0"]).failure_of(key)])[0], is_refused, (key, lines))

    def test_a_text_that_is_not_read_is_no_verdict(self) -> None:
        self.assertTrue(told([FN + "no holes", "only=1 holes=0"], 0).is_read)
        self.assertFalse(told(["src/half.rt:9:9: error: expected `;`", "only=1 holes=0"]).is_read)
        self.assertFalse(told(["rattle: no verdict: memory"], 3).is_read)


class Runs(unittest.TestCase):
    """A crate of which the prover's answers are given."""

    def run_crate(self, answers: List[Tuple[int, str, float]], edits: str) -> Tuple[List[str], List[List[str]]]:
        crate, asked = crate_of(self, edits), []

        def answer(words: List[str], _: Path) -> Tuple[int, str, float]:
            asked.append([word for before, word in zip(words, words[1:]) if before == "--only"])
            return answers[len(asked) - 1]

        with unittest.mock.patch.object(TOOL, "run_timed", answer), unittest.mock.patch.dict(TOOL.PROVE.CRATES, demo=["std"]), contextlib.redirect_stdout(io.StringIO()):
            return [f"{it.name}: {it.text}"[:40] for it in crate.run()], asked

    EDITS = FOURTH + entry("at_0", "Half::next", "self.at", "0")
    PROVED = "fn demo::half::Half::of_edit_2: no holes\nfn demo::half::Half::next_edit_3: no proof: `search` did not prove `returns`\nonly=3 holes=0\n"

    def test_one_check_tries_all(self) -> None:
        refused = "fn demo::half::Half::of_edit_1: no proof: `search` did not prove `returns`\n"
        said, asked = self.run_crate([(1, refused + self.PROVED, 1.0)], self.EDITS)
        self.assertEqual([it.split(",")[0] for it in said], ["fourth: refused", "fourth", "at_0: refused"])
        self.assertEqual(asked, [["next_edit_3", "of_edit_1", "of_edit_2"]])

    def test_what_its_clause_does_not_judge_the_whole_contract_does(self) -> None:
        low, proved = "fn demo::pair::pair_edit_1: no proof: `search` did not prove `returns-clause-low`\n", "fn demo::pair::pair_edit_{}: no holes\n"
        answers = [(1, low + proved.format(2) + "only=2 holes=0\n", 1.0), (1, low.replace("1", "2") + "only=1 holes=0\n", 1.0)]
        said, asked = self.run_crate(answers, "".join(promised(clause, "pair", "(half(n), ", "(0, ") for clause in ("low", "high")))
        self.assertEqual([it.split(",")[0] for it in said], ["pair_low: refused", "pair_high: refused"])
        self.assertEqual(asked, [["pair_edit_1", "pair_edit_2"], ["pair_edit_2"]])

    def test_what_can_not_be_read_is_left_out(self) -> None:
        fault = "src/half.rt:17:9: error[unknown-name]: no `m` is in scope\n"
        said, asked = self.run_crate([(1, fault, 1.0), (1, self.PROVED, 1.0)], self.EDITS)
        self.assertEqual(said[0], "fourth: BAD EDIT: the prover can't read "[:40])
        self.assertEqual(asked[1], ["next_edit_3", "of_edit_2"])

    def test_halves_are_tried_where_nothing_is_known_of_a_check(self) -> None:
        unknown = (3, "rattle: no verdict: memory\n", 1.0)
        said, asked = self.run_crate([unknown, unknown, (1, self.PROVED, 1.0)], self.EDITS)
        self.assertEqual([len(it) for it in asked], [3, 1, 2])
        self.assertEqual(said[0][:20], "fourth: BAD EDIT: th")


def ran(*command: str) -> Tuple[int, int, List[str]]:
    with contextlib.redirect_stdout(io.StringIO()):
        passed, failed, said, _ = GATE.run([*command])
        return passed, failed, said


class Gate(unittest.TestCase):
    def test_a_part_tells_its_counts_and_what_failed(self) -> None:
        text = "a: ok\\nFAILED: b: NOT REFUSED\\n3 passed, 1 failed"
        self.assertEqual(ran("printf", text), (3, 1, ["FAILED: b: NOT REFUSED"]))
        self.assertEqual(ran("printf", text.replace("1 failed", "0 failed")), (3, 0, []))

    def test_a_part_that_ends_ill_has_failed(self) -> None:
        self.assertEqual(ran("false"), (0, 1, []))
        self.assertEqual(ran("sh", "-c", "echo 3 passed, 0 failed; exit 1"), (3, 1, []))

    def test_the_last_parts_are_added_to_those_that_run_alone(self) -> None:
        said = io.StringIO()
        parts = [[("a", ["echo", "1 passed, 0 failed"])], [("b", ["sh", "-c", "echo FAILED: x; echo 2 passed, 1 failed"]), ("c", ["echo", "rt: y proved"])]]
        replaced: Dict[str, Any] = {"PARTS": parts[0], "SIDE_BY_SIDE": parts[1], "remove_what_is_built": list, "ask_for_kit": list, "elapsed": lambda: "[7 min]"}
        with unittest.mock.patch.multiple(GATE, **replaced), unittest.mock.patch.object(sys, "argv", ["gate"]), contextlib.redirect_stdout(said):
            self.assertEqual(GATE.main(), 1)
        lines = said.getvalue().splitlines()
        self.assertEqual((lines[-1], lines[-3]), ("3 passed, 2 failed", "b: FAILED: x"))
        self.assertIn("[7 min] rt: y proved", lines)

    def test_libraries_are_built_before_wrong_bodies_take_them(self) -> None:
        titles = [title for title, _ in [*GATE.PARTS, *GATE.SIDE_BY_SIDE]]
        order = ["proofs, tests and the stored run", "libraries for C and Python", "wrong bodies"]
        self.assertEqual(sorted(order, key=titles.index), order)
