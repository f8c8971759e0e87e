"""What is made of the crates: their picture, held against crates.txt, and the page of calls, which has each name that a crate exports."""

import itertools
import re
import tempfile
import unittest
import xml.etree.ElementTree as ET
from collections import Counter
from pathlib import Path
from typing import Dict, List, NamedTuple, Set, Tuple

import support
from onfi_tools import layers
from onfi_tools.calls import exported, unstated
from onfi_tools.crates import crates_below, lines_below

SVG = "{http://www.w3.org/2000/svg}"
CRATES = (support.ROOT / "crates.txt").read_text()
PICTURE = support.ROOT / "docs/pictures/crates.svg"
LINE = re.compile(r"(\w+) stands on (\w+)")


# What each crate of the repository stands on there.
BELOW = {name: frozenset(it for it in uses if it.startswith("onfi_")) for name, uses in crates_below(CRATES).items()}


class Box(NamedTuple):
    left: float
    top: float
    right: float
    bottom: float
    # How it is filled, and whether its edge is dashed.
    look: Tuple[str, bool]

    def meets(self, x: float, y: float) -> bool:
        return self.left <= x <= self.right and self.top <= y <= self.bottom


def boxes_of(root: ET.Element) -> Dict[str, Box]:
    found: Dict[str, Box] = {}
    for group in root.iter(SVG + "g"):
        rect = group.find(SVG + "rect")
        assert rect is not None
        left, top, width, height = (float(rect.attrib[name]) for name in ("x", "y", "width", "height"))
        found[group.findtext(SVG + "text") or ""] = Box(left, top, left + width, top + height, (rect.attrib["fill"], "stroke-dasharray" in rect.attrib))
    return found


def lines_of(root: ET.Element) -> Dict[Tuple[str, str], List[Tuple[float, float]]]:
    found: Dict[Tuple[str, str], List[Tuple[float, float]]] = {}
    for line in root.iter(SVG + "polyline"):
        title = LINE.fullmatch(line.findtext(SVG + "title") or "")
        assert title
        points = [point.split(",") for point in line.attrib["points"].split()]
        found[title[1], title[2]] = [(float(x), float(y)) for x, y in points]
    return found


class Lines(unittest.TestCase):
    def test_a_crate_stands_on_what_its_files_name(self) -> None:
        # (the kit makes its sums of a crate by each way down from it, so a name that isn't needed costs minutes of every gate)
        for name, others in BELOW.items():
            files = [it for part in ("src", "specs", "proofs") for it in (support.ROOT / "crates" / name / part).rglob("*.[ra][tn]*")]
            named = set(re.findall(r"\bonfi_\w+", "\n".join(re.sub(r"//.*", "", it.read_text()) for it in files)))
            self.assertLessEqual(others, named, name)


class Picture(unittest.TestCase):
    drawn = support.run_tool("draw-crates")
    root = ET.fromstring(drawn.stdout)

    def test_the_picture_of_the_pages_is_what_the_tool_draws(self) -> None:
        self.assertEqual((self.drawn.returncode, self.drawn.stderr), (0, ""))
        self.assertTrue(self.drawn.stdout == PICTURE.read_text(), "tools/draw-crates > docs/pictures/crates.svg")
        self.assertIn("](pictures/crates.svg)", (support.ROOT / "docs/ARCHITECTURE.md").read_text())

    def test_each_crate_has_a_box_and_stands_above_others(self) -> None:
        boxes = boxes_of(self.root)
        self.assertGreater(len(BELOW), 30)
        self.assertLessEqual(set(BELOW), set(boxes))
        for name, others in BELOW.items():
            for other in others:
                self.assertLess(boxes[name].bottom, boxes[other].top, f"{name} {other}")

    def test_its_lines_say_what_each_crate_stands_on(self) -> None:
        drawn: Dict[str, Set[str]] = {name: set() for name in BELOW}
        for upper, lower in lines_of(self.root):
            self.assertIn(lower, BELOW[upper])
            drawn[upper].add(lower)
        self.assertEqual(layers.all_below({name: frozenset(it) for name, it in drawn.items()}), layers.all_below(BELOW))

    def test_nothing_hides_anything(self) -> None:
        boxes = boxes_of(self.root)
        for a, b in itertools.combinations(boxes.values(), 2):
            self.assertTrue(a.right <= b.left or b.right <= a.left or a.bottom <= b.top or b.bottom <= a.top)
        for (upper, lower), points in lines_of(self.root).items():
            self.assertTrue(boxes[upper].meets(*points[0]) and boxes[lower].meets(*points[-1]), f"{upper} {lower}")
            others = [box for name, box in boxes.items() if name not in (upper, lower)]
            for (x, y), (u, v) in zip(points, points[1:]):
                for part in range(101):
                    at = (x + (u - x) * part / 100, y + (v - y) * part / 100)
                    self.assertFalse(any(box.meets(*at) for box in others), f"{upper} {lower}")
        width, height = float(self.root.attrib["width"]), float(self.root.attrib["height"])
        for box in boxes.values():
            self.assertTrue(0 <= box.left and box.right <= width and 0 <= box.top and box.bottom <= height)

    def test_tests_and_crates_that_wait_look_so(self) -> None:
        looks = {name: box.look for name, box in boxes_of(self.root).items()}
        for name in BELOW:
            like = "may wait" if re.search(rf"^{name}\b[^:]* may_wait=", CRATES, re.MULTILINE) else "a library"
            self.assertEqual(looks[name], (looks[like][0], name.endswith("_tests")), name)


class Files(unittest.TestCase):
    def drawn(self, text: str) -> Tuple[int, str, str]:
        with tempfile.TemporaryDirectory() as folder:
            path = Path(folder) / "crates.txt"
            path.write_text(text)
            ran = support.run_tool("draw-crates", str(path))
        return ran.returncode, ran.stdout, ran.stderr

    def test_the_kit_and_comments_are_left_out(self) -> None:
        status, drawing, _ = self.drawn("# low: none\nlow: csv\nhigh staticlib: low csv  # beside\n")
        self.assertEqual(status, 0)
        self.assertEqual(list(lines_of(ET.fromstring(drawing))), [("high", "low")])
        self.assertNotIn("csv", drawing)

    def test_a_line_that_another_way_says_is_left_out(self) -> None:
        _, drawing, _ = self.drawn("a:\nb: a\nc: a b\n")
        self.assertEqual(set(lines_of(ET.fromstring(drawing))), {("b", "a"), ("c", "b")})

    def test_a_wrong_order_is_told(self) -> None:
        self.assertEqual(self.drawn("high: low\nlow:\n"), (1, "", "draw-crates: high stands on low, which stands behind it\n"))


PAGE = (support.ROOT / "docs/CALLS.md").read_text()
LEFT_OUT = ("onfi_samples", "onfi_calls", "onfi_c")


def sections() -> Dict[str, str]:
    parts = re.split(r"^## `(\w+)`$", PAGE, flags=re.MULTILINE)
    return dict(zip(parts[1::2], parts[2::2]))


class Page(unittest.TestCase):
    def test_it_is_as_the_tool_makes_it(self) -> None:
        self.assertEqual(support.run_tool("list-calls").stdout, PAGE, "make it anew: tools/list-calls > docs/CALLS.md")

    def test_each_name_stands_in_its_crate(self) -> None:
        found = 0
        for crate in crates_below(CRATES):
            lib = support.ROOT / "crates" / crate / "src/lib.rt"
            if lib.is_file() and not crate.endswith("_tests") and crate not in LEFT_OUT:
                names = [path.split("::")[-1] for path in exported(lib.read_text())]
                for name in names:
                    self.assertIn(f"`{name}`", sections()[crate], crate)
                found += len(names)
        self.assertGreater(found, 300)

    def test_each_leads_to_the_source_that_defines_it(self) -> None:
        found = re.findall(r"\[`(\w+)`\]\(\.\./(crates/[\w/]+\.rt)\)", PAGE)
        self.assertGreater(len(found), 200)
        for name, path in found:
            self.assertRegex((support.ROOT / path).read_text(), rf"\b{name}\b")

    def test_worked_rows(self) -> None:
        self.assertRegex(sections()["onfi_addr"], r"\[`Place`\]\(../crates/onfi_addr/src/place.rt\)\n")
        self.assertRegex(sections()["onfi_chip"], r"- \[`Chip`\]\(.*\): `command`, `data_out`, `sectors_out`, `status`, `poll`")
        self.assertRegex(sections()["onfi_core"], r"- \[`Core`\]\(.*\): `open`, `last`, `open_with`, `step`, `run`")
        self.assertRegex(sections()["onfi_core"], r"Laws: .*`headline`")
        self.assertIn("[`plan`](../crates/onfi_planner/src/", sections()["onfi_planner"])


SOURCE = """\
pub trait Read {
    fn read(&self) -> u8
        ensures { result ≡ 1 };

    fn skip(&mut self);

    fn look(&self);
}

impl Read for One {
    fn read(&self) -> u8 {
        1
    }
}

impl<'a> One<'a> {
    pub fn new(
        of: &'a mut u8,
    ) -> One<'a> {
        One { of }
    }

    pub fn set(&mut self, to: u8)
        requires { to < 8 }
        ensures { self.new ≡ to }
    {
        self.to = to;
    }
}

pub fn half(of: u8) -> u8
    requires { of < 8 }
{
    // what a line of it says has no part in this: ensures
    of / 2
}

fn own(of: u8) -> u8 {
    of
}
"""


class Unstated(unittest.TestCase):
    def test_a_source(self) -> None:
        """Public functions that give or change something and have no clause that says what."""
        room = support.room_of(self)
        (room / "low/src").mkdir(parents=True)
        (room / "low/src/one.rt").write_text(SOURCE)
        self.assertEqual(unstated(room, "low"), ["One::new", "Read::skip", "half"])

    def test_the_page_says_why_of_each(self) -> None:
        page = dict(re.findall(r"^- `(\w+)`: ([^;\n]+); \w", (support.ROOT / "docs/CLAIMS.md").read_text().split("## Public functions")[1], re.MULTILINE))
        found = {}
        for line in support.run_tool("list-calls", "--unstated").stdout.splitlines():
            crate, names = line.split(": ")
            owners = Counter(it.partition("::")[0] for it in names.split(", ") if "::" in it)
            alone = [f"`{it}`" for it in names.split(", ") if "::" not in it]
            found[crate] = ", ".join([*(f"`{name}` {count}" for name, count in owners.items()), *alone])
        self.assertEqual(found, page)


class Below(unittest.TestCase):
    def test_lines_of_a_crate_and_those_below(self) -> None:
        below = lines_below(CRATES, "onfi_timing")
        lines = list(below.values())
        self.assertEqual(list(below), ["onfi_param", "onfi_addr", "onfi_timing"])
        self.assertTrue(all(line in CRATES.splitlines() for line in lines))
        self.assertEqual(support.run_tool("list-calls", "--below", "onfi_timing").stdout.splitlines(), lines)

    def test_all_is_below_the_program(self) -> None:
        names = lines_below(CRATES, "onfi_program")
        for name in names:
            self.assertLessEqual(BELOW[name], names.keys(), name)
