"""The public calls and types of a crate, with the file that each stands in."""

import re
from pathlib import Path
from typing import Dict, List, NamedTuple

from onfi_tools.functions import functions_of, is_unstated
from onfi_tools.imports import leaves_of

USE = re.compile(r"^pub use ([^;]+);", re.MULTILINE)
ITEM = r"^pub (?:const )?(?P<what>fn|struct|enum|trait|const|type) {name}\b"
IMPL = re.compile(r"^impl(?:<[^{]*?>)? (\w+)[^{]*?\{\n(.*?)^\}", re.MULTILINE | re.DOTALL)
METHOD = re.compile(r"^    (pub )?(?:const )?fn (\w+)", re.MULTILINE)
TRAIT = re.compile(r"^pub trait (\w+)", re.MULTILINE)
LAW = re.compile(r"^\{\s*\}", re.MULTILINE)


class Item(NamedTuple):
    """A public name of a crate: what it is, the calls of a type, and the source that it stands in."""

    name: str
    what: str
    calls: List[str]
    source: Path
    is_law: bool


def exported(text: str) -> List[str]:
    """The names that a lib.rt exports, each with its path there."""
    return ["".join(leaf.split()) for tree in USE.findall(text) for leaf in leaves_of(tree)]


def calls_of(name: str, texts: List[str]) -> List[str]:
    """The public calls of a type, in the order of its source."""
    found = [call for text in texts for owner, body in IMPL.findall(text) if owner == name for is_public, call in METHOD.findall(body) if is_public]
    return list(dict.fromkeys(found))


def item_of(name: str, texts: Dict[Path, str]) -> Item:
    for path, text in texts.items():
        defined = re.search(ITEM.format(name=name), text, re.MULTILINE)
        if defined:
            body = text[defined.start() :]
            until = re.search(r"^\}" if defined["what"] in ("fn", "trait") else r"^\}|;$", body, re.MULTILINE)
            own = body[: until.end()] if until else body
            calls = [call for _, call in METHOD.findall(own)] if defined["what"] == "trait" else calls_of(name, list(texts.values()))
            return Item(name, defined["what"], calls, path, bool(LAW.search(own)))
    raise ValueError(f"{name}: its definition isn't found")


def items_of(crates: Path, crate: str) -> List[Item]:
    """What a crate gives out, functions before types; of another crate's item the name alone."""
    texts = {path: path.read_text() for path in sorted((crates / crate / "src").glob("**/*.rt"))}
    found: List[Item] = []
    for path in exported((crates / crate / "src/lib.rt").read_text()):
        head, name = path.split("::")[0], path.split("::")[-1]
        if (crates / head).is_dir():
            found.append(Item(name, "of", [], crates / head / "src/lib.rt", False))
        else:
            found.append(item_of(name, texts))
    return sorted(found, key=lambda it: (it.what not in ("fn", "of"), it.name[0].isupper()))


def page_of_crate(crates: Path, crate: str) -> List[str]:
    """The section of a crate: calls and types, each with a link to its source, then types with their calls, then laws."""
    items = [it for it in items_of(crates, crate) if not it.is_law]
    links = {it.name: f"[`{it.name}`](../{it.source.relative_to(crates.parent)})" for it in items}
    alone = [links[it.name] for it in items if not it.calls]
    rows = [f"- {links[it.name]}: {named(it.calls)}" for it in items if it.calls]
    laws = [it.name for it in items_of(crates, crate) if it.is_law]
    parts = [[", ".join(alone)] if alone else [], rows, [f"Laws: {named(laws)}."] if laws else []]
    return [f"## `{crate}`", *(line for part in parts if part for line in ("", *part)), ""]


def unstated(crates: Path, crate: str) -> List[str]:
    """The public functions of a crate of whose results no clause speaks, those of a type after its name; a public trait's are public."""
    found: List[str] = []
    for path in sorted((crates / crate / "src").glob("**/*.rt")):
        text = path.read_text()
        lines, traits = text.split("\n"), {*TRAIT.findall(text)}
        public = (it for it in functions_of(path.name, text) if re.match(r" *pub ", lines[it.first]) or it.owner in traits)
        found += [f"{it.owner}::{it.name}" if it.owner else it.name for it in public if is_unstated(lines, it)]
    return sorted(found)


def named(names: List[str]) -> str:
    return ", ".join(f"`{name}`" for name in names)
