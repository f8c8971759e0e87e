"""A copy of a crate in which many wrong bodies are tried by one check.

An edited body stands in a further function after its own, its sibling, with the same signature, attributes and contract and a copy of its
proofs: so all edits of a function stand side by side. Of a cycle of calls each function has one. A method of a trait that has clauses
of its own has it among its type's own methods. What can't have a sibling, as a method with the trait's clauses alone or a constant, is
edited in place. The other functions are taken by their contracts: their proofs, which the crate's own check looks at, are holes here,
and their bodies do nothing, so that the prover doesn't look at what they call.
"""

from __future__ import annotations

import re
import shutil
from pathlib import Path, PurePosixPath
from typing import Dict, FrozenSet, Iterable, List, NamedTuple, Optional, Sequence, Tuple

from onfi_tools.edits import BadEdit, Pair
from onfi_tools.functions import OWNER, Function, Key, end_of, functions_of, users_of
from onfi_tools.promises import NONE, answers_for, names_of, with_one

PARTS = ("src", "specs", "proofs")
TRAIT = re.compile(r"(?:pub(?:\([a-z]+\))? )?(?:trait\b|impl\b.* for )")
OF_A_TYPE = re.compile(r"impl \w+ for (\w+) \{$")
OF_A_TRAIT = re.compile(r"impl\b.* for (\w+)")
CYCLE = re.compile(r"#\[cycle\((\w+)\)\]")
HOLE = """\
use Rattle.{path} as stated

pub {name}_spec : {{M : Type 1}} → stated.statement M
{name}_spec = ?
"""


class Trial(NamedTuple):
    """A wrong body or a twin that is tried: its functions as the copy names them; the number of its sibling, 0 where it is made in place."""

    name: str
    is_twin: bool
    pairs: Tuple[Pair, ...]
    keys: FrozenSet[Key]
    number: int
    # The clause that refuses it, where no other is looked at.
    clause: str = ""

    @property
    def edited(self) -> FrozenSet[Tuple[str, str]]:
        return frozenset((it.path, it.item) for it in self.pairs)


NO_TRIAL = Trial("", False, (), frozenset(), 0)


def edited(text: str, body: int, pairs: Iterable[Pair]) -> Tuple[str, str]:
    """A text's head and its body, which begins at `body`, with the pairs made in them: in the body, or else in the head."""
    head, rest = text[:body], text[body:]
    for pair in pairs:
        if rest.count(pair.old) == 1:
            rest = rest.replace(pair.old, pair.new)
        elif rest.count(pair.old) == 0 and head.count(pair.old) == 1:
            head = head.replace(pair.old, pair.new)
        else:
            raise BadEdit(f"an old text stands {rest.count(pair.old)} times in {pair.item}: {pair.old}")
    return head, rest


def by_item(pairs: Iterable[Pair]) -> Dict[Tuple[str, str], List[Pair]]:
    found: Dict[Tuple[str, str], List[Pair]] = {}
    for pair in pairs:
        found.setdefault((pair.path, pair.item), []).append(pair)
    return found


class Sources:
    """A crate's sources, its functions, and where their proofs stand."""

    def __init__(self, folder: Path) -> None:
        self.folder, self.crate = folder, folder.name
        self.texts = {str(it.relative_to(folder)): it.read_text(encoding="utf-8") for it in sorted(folder.glob("src/**/*.rt"))}
        self.lines = {path: text.split("\n") for path, text in self.texts.items()}
        self.functions = [it for path, text in self.texts.items() for it in functions_of(path, text)]

    def named(self, path: str, item: str) -> Function:
        """The function of a file that is named so, or the constant or type."""
        found = [it for it in self.functions if it.path == path and item == "::".join(filter(None, (it.owner, it.name)))]
        other = re.compile(rf"(?:pub(?:\([a-z]+\))? )?(?:const|static|struct|enum|type) {re.escape(item)}\b")
        lines = self.lines.get(path, [])
        found += [Function(path, "", item, at, end_of(lines, at, "")) for at, line in enumerate(lines) if other.match(line)]
        if len(found) != 1:
            raise BadEdit(f"{path} has {len(found)} functions, constants and types {item}")
        return found[0]

    def first_of(self, function: Function) -> int:
        """The line on which its attributes begin."""
        lines, first = self.lines[function.path], function.first
        while first and lines[first - 1].lstrip().startswith("#["):
            first -= 1
        return first

    def text_of(self, function: Function) -> str:
        return "\n".join(self.lines[function.path][self.first_of(function) : function.last + 1])

    def body_in(self, function: Function) -> int:
        """Where in its text its body begins; a constant and a type are body from their first line on."""
        text = self.text_of(function)
        indent = len(self.lines[function.path][function.first]) - len(self.lines[function.path][function.first].lstrip())
        alone = re.search(rf"^ {{{indent}}}\{{$", text, re.M) or re.search(r"\{$", text, re.M)
        return alone.start() if alone and function in self.functions else 0

    def head_in(self, function: Function) -> str:
        """Its text before its body."""
        return self.text_of(function)[: self.body_in(function)]

    def head_of(self, function: Function) -> str:
        """The head of the impl or trait that a function stands in."""
        lines = self.lines[function.path][: function.first]
        return next((it for it in reversed(lines) if function.owner and OWNER.match(it)), "")

    def cycle_of(self, function: Function) -> str:
        """The name of the cycle of calls that a function stands in, which is its own where it calls itself alone; empty for none."""
        named, place = CYCLE.search(self.text_of(function)), self.below(function, f"+{function.name}")
        return named[1] if named else function.name if place and (self.folder / "proofs" / place).is_dir() else ""

    def unit_of(self, function: Function) -> List[Function]:
        """The functions that are proved in one with it, as those of its cycle of calls."""
        named = CYCLE.search(self.text_of(function))
        return [it for it in self.functions if named and named[0] in self.text_of(it)] or [function]

    def module_of(self, function: Function) -> Optional[List[str]]:
        """The module that its proofs stand in: of a type's own method, that of the type, where the crate has one of its name."""
        if not function.owner or TRAIT.match(self.head_of(function)) or "+" in function.owner:
            return function.module()
        return self.home_of(function.owner)

    def home_of(self, kind: str) -> Optional[List[str]]:
        """The module that has a type, where the crate has one of its name."""
        declared = re.compile(rf"^(?:pub(?:\([a-z]+\))? )?(?:struct|enum) {kind}\b", re.M)
        homes = [path for path, text in self.texts.items() if declared.search(text)]
        return Function(homes[0], "", "", 0, 0).module() if len(homes) == 1 else None

    def below(self, function: Function, name: str) -> Optional[PurePosixPath]:
        module = self.module_of(function)
        return None if module is None else PurePosixPath(*module, *filter(None, [function.owner]), name)

    def place_of(self, function: Function) -> Optional[PurePosixPath]:
        """Where below proofs/ the proofs of a function stand, or would stand; None where that isn't known."""
        cycle = self.cycle_of(function)
        return self.below(function, f"+{cycle}" if cycle else function.name)

    def owner_beside(self, function: Function) -> Optional[str]:
        """Among whose methods a function's sibling stands; None where it has no clauses but a trait's."""
        head, text = self.head_of(function), self.text_of(function)
        if not TRAIT.match(head):
            return function.owner
        of_type = OF_A_TYPE.match(head)
        return of_type[1] if of_type and "ensures" in text[: self.body_in(function)] else None

    def place_beside(self, function: Function, number: int) -> Optional[PurePosixPath]:
        """Where the proofs of a function's sibling of that number stand; None where it can have no sibling."""
        owner, place = self.owner_beside(function), self.place_of(function)
        if function not in self.functions or owner is None or place is None:
            return None
        if owner == function.owner:
            return place.with_name(f"{place.name}_edit_{number}")
        home = self.home_of(owner)
        return None if home is None else PurePosixPath(*home, owner, f"{place.name}_edit_{number}")

    def trial(self, name: str, pairs: Sequence[Pair], number: int, is_twin: bool, clause: str = "") -> Trial:
        """What is tried for these pairs, which have to apply; of a constant or a type, at the functions that name it."""
        items = {item: self.named(*item) for item in by_item(pairs)}
        for item, own in by_item(pairs).items():
            edited(self.text_of(items[item]), self.body_in(items[item]), own)
        if not items:
            raise BadEdit("it has no pair")
        if clause and clause != NONE and not any(clause in names_of(self.head_in(it)) for it in items.values()):
            raise BadEdit(f"no function that it changes has a clause {clause}")
        if all(self.place_beside(it, number) for it in items.values()):
            keys = frozenset((it.path, self.owner_beside(it) or "", f"{it.name}_edit_{number}") for it in items.values())
            return Trial(name, is_twin, tuple(pairs), keys, number, clause)
        inside = [it for it in items.values() if it in self.functions]
        users = [user for it in items.values() if it not in self.functions for user in users_of(self.texts, it.name)]
        if not inside and not users:
            raise BadEdit("it changes no function, and nothing that a function names")
        return Trial(name, is_twin, tuple(pairs), frozenset(it.key for it in [*inside, *users]), 0)

    def units(self, trial: Trial) -> FrozenSet[Key]:
        """The functions that a trial changes in place, with those that are proved in one with them."""
        return frozenset() if trial.number else frozenset(mate.key for it in self.functions if it.key in trial.keys for mate in self.unit_of(it))

    def names_any(self, trial: Trial, keys: FrozenSet[Key]) -> bool:
        """Whether what a trial changes names one of these functions: it isn't looked at while their proofs fail."""
        text = "\n".join([self.text_of(self.named(*item)) for item in by_item(trial.pairs)] + [it.new for it in trial.pairs])
        named = [it for it in self.functions if it.key in keys and re.search(rf"\b{it.name}\b", text)]
        # (a method of a trait by its type's name too: others have methods of that name)
        heads = [OF_A_TRAIT.match(self.head_of(it)) for it in named]
        return any(not head or re.search(rf"\b{head[1]}\b", text) for head in heads)

    def in_rounds(self, trials: Sequence[Trial]) -> List[List[Trial]]:
        """What one check tries: all siblings, and of those in place what has no function in common and names none that another changes."""
        rounds: List[List[Trial]] = [[it for it in trials if it.number]]
        for trial in (it for it in trials if not it.number):
            free = next((it for it in rounds if not any(self.disturb(trial, other) for other in it)), None)
            if free is None:
                rounds.append([trial])
            else:
                free.append(trial)
        return [it for it in rounds if it]

    def disturb(self, one: Trial, other: Trial) -> bool:
        """Whether two trials need checks of their own."""
        own, theirs = self.units(one), self.units(other)
        return bool(own & theirs) or self.names_any(other, own) or self.names_any(one, theirs)

    def write(self, copy: Path, trials: Sequence[Trial]) -> Dict[str, str]:
        """Writes the copy for these trials, and gives its sources."""
        shutil.rmtree(copy, ignore_errors=True)
        for part in PARTS:
            if (self.folder / part).is_dir():
                shutil.copytree(self.folder / part, copy / part)
        in_place = frozenset(key for it in trials for key in self.units(it))
        made = [(*it, trial) for trial in trials for it in self.made_by(trial)]
        made += [(it, self.stub_of(it), NO_TRIAL) for it in self.write_holes(copy / "proofs", in_place) if self.can_be_stub(it)]
        texts = {path: list(lines) for path, lines in self.lines.items()}
        for function, text, trial in sorted(made, key=lambda it: (-it[0].first, -it[2].number)):
            lines = texts[function.path]
            if trial.number:
                self.add_sibling(lines, function, text)
                self.write_proofs(copy / "proofs", function, trial)
            else:
                lines[self.first_of(function) : function.last + 1] = text.split("\n")
        for path, lines in texts.items():
            (copy / path).write_text("\n".join(lines), encoding="utf-8")
        return {path: "\n".join(lines) for path, lines in texts.items()}

    def add_sibling(self, lines: List[str], function: Function, text: str) -> None:
        """Puts a sibling after its function; that of a trait's method in a block of its type's own, with what the trait's block uses."""
        owner = self.owner_beside(function)
        if owner == function.owner:
            lines[function.last + 1 : function.last + 1] = ["", *text.split("\n")]
            return
        block = "\n".join(self.lines[function.path]).split(f"\n{self.head_of(function)}\n")[1].split("\n}")[0]
        uses = re.findall(r"^    ghost use [^;]*;", block, re.M)
        lines += [f"impl {owner} {{", *"\n".join(uses).split("\n"), *text.split("\n"), "}", ""]

    def made_by(self, trial: Trial) -> List[Tuple[Function, str]]:
        """The texts that a trial gives functions; of a cycle of calls each function has a sibling."""
        texts = {function: self.edited_text(function, pairs, trial) for item, pairs in by_item(trial.pairs).items() for function in [self.named(*item)]}
        mates = {mate: self.text_of(mate) for function in texts if trial.number for mate in self.unit_of(function)}
        return [(it, self.renamed(text, it, trial.number)) for it, text in {**mates, **texts}.items()]

    def edited_text(self, function: Function, pairs: Sequence[Pair], trial: Trial) -> str:
        head, body = edited(self.text_of(function), self.body_in(function), pairs)
        return (with_one(head, trial.clause) if self.clauses_gone(function, trial) else head) + body

    def clauses_gone(self, function: Function, trial: Trial) -> List[str]:
        """The clauses that an edited function's sibling does without, since another one refuses it."""
        names = names_of(self.head_in(function))
        is_alone = trial.number and trial.clause in [*names, NONE] and not self.cycle_of(function)
        return [it for it in names if it != trial.clause] if is_alone else []

    def renamed(self, text: str, function: Function, number: int) -> str:
        """A function's text under its sibling's name; in a cycle of calls it calls siblings."""
        if not number:
            return text
        cycle, names = self.cycle_of(function), "|".join(it.name for it in self.unit_of(function))
        called = rf"|(?:(?<![\w.])|(?<=self\.))(?:{names})(?=\()|(?<=#\[cycle\(){cycle}(?=\))" if cycle else ""
        return re.sub(rf"(?<=\bfn )(?:{names})\b{called}", rf"\g<0>_edit_{number}", text)

    def write_proofs(self, proofs: Path, function: Function, trial: Trial) -> None:
        """Gives a sibling its function's proofs, in which its own names are the sibling's."""
        number = trial.number
        place, beside = self.place_of(function), self.place_beside(function, number)
        assert place is not None and beside is not None
        sibling = proofs / beside
        parts = ".".join(beside.parts)
        own = re.compile(rf"(?<=Rattle\.{self.crate}\.)((?:proofs|specs\.contracts)\.){re.escape('.'.join(place.parts))}(?![\w'+-])|\b{function.name}(?=_spec\b)")
        # In a cycle of calls goals and steps are named after its functions; a bare word may be a tactic's.
        names = "|".join(it.name for it in self.unit_of(function))
        step = re.compile(rf"(?<![^\s({{,])(?!Rattle\.)(?!(?:{names})(?![\w'+.-]))[^\s(){{}},;]+" if self.cycle_of(function) else r"(?!)")
        part = re.compile(rf"(?<![\w'])(?:{names})(?![\w'])")
        for file in (self.folder / "proofs" / place).glob("*.antt"):
            sibling.mkdir(parents=True, exist_ok=True)
            text = self.answers(file.read_text(encoding="utf-8"), function, trial)
            text = step.sub(lambda it: part.sub(rf"\g<0>_edit_{number}", it[0]), text)
            text = own.sub(lambda it: it[1] + parts if it[1] else f"{function.name}_edit_{number}", text)
            (sibling / file.name).write_text(text, encoding="utf-8")

    def answers(self, text: str, function: Function, trial: Trial) -> str:
        """A proof file of a function, as far as the clause that refuses a trial asks for it."""
        changed = [it.name for it in self.unit_of(function) if (it.path, "::".join(filter(None, (it.owner, it.name)))) in trial.edited]
        if trial.clause not in [name for it in self.unit_of(function) if it.name in changed for name in [*names_of(self.head_in(it)), NONE]]:
            return text
        return answers_for(text, trial.clause, "|".join(changed), self.clauses_gone(function, trial))

    def can_be_stub(self, function: Function) -> bool:
        """Whether nothing asks for a function's body: neither a constant that calls it, nor its type."""
        return not re.search(r"\bconst fn\b|-> .*\bimpl\b", self.head_in(function))

    def stub_of(self, function: Function) -> str:
        """A function's text with a body that calls nothing and does nothing; its proof is a hole, so nothing is said of it."""
        end = self.lines[function.path][function.last].partition("}")[0] + "}"
        return re.sub(rf" *{CYCLE.pattern}\n", "", self.head_in(function)) + "{ loop {}\n" + end

    def write_holes(self, proofs: Path, kept: FrozenSet[Key]) -> List[Function]:
        """Puts a hole in place of the proofs of functions but these, and gives those functions."""
        given: List[Function] = []
        for function in self.functions:
            place = self.place_of(function)
            if place is None or function.key in kept or not self.body_in(function) or "#[test]" in self.text_of(function):
                continue
            # (a method of a trait needs none where it has no proof of its own, and may have no body)
            if TRAIT.match(self.head_of(function)) and not (self.folder / "proofs" / place).is_dir():
                continue
            shutil.rmtree(proofs / place, ignore_errors=True)
            self.write_hole(proofs, place.with_name(function.name) if self.can_be_stub(function) else place, function)
            given.append(function)
        return given

    def write_hole(self, proofs: Path, place: PurePosixPath, function: Function) -> None:
        """Puts a hole in place of a function's proofs; of one of a cycle of calls that does nothing they stand where those of any other do."""
        dotted = ".".join([self.crate, "proofs", *place.parts, *(["Statement"] if place.name == function.name else [])])
        (proofs / place).mkdir(parents=True, exist_ok=True)
        (proofs / place / "Proof.antt").write_text(HOLE.format(path=dotted, name=place.name), encoding="utf-8")
