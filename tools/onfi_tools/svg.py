"""A trace as a drawing: one row for the bus, one for each LUN, over an axis in ns."""

import itertools
import xml.etree.ElementTree as ET
from typing import Dict, Iterator, List, Mapping, NamedTuple, Optional, Tuple

from onfi_tools.device import Spans
from onfi_tools.trace import Overlap, Part, Phase, Stretch, Window, by_lun, finish_of, on_the_bus, overlaps, stretches

LEAST_WIDTH = 320
LEFT, RIGHT, TOP, BAR, ROW, TIER = 58, 24, 30, 24, 40, 15
LETTER, LEAST_BAR = 6.7, 1.5
INK, FAINT, RED = "#222222", "#d0d0d0", "#d0021b"
# Rising lightness, so that the parts differ in grey too; gap and wait are patterns.
FILLS: Dict[Part, str] = {
    Part.COMMAND: "#22395b",
    Part.STATUS: "#8b5fa8",
    Part.OUTPUT: "#e3a04d",
    Part.ARRAY: "#d3e4f3",
    Part.EARLY: "url(#early)",
    Part.GAP: "url(#gap)",
    Part.WAIT: "url(#wait)",
    Part.BEFORE: "url(#before)",
}
ON_DARK = (Part.COMMAND, Part.STATUS)
# Of each pattern: the side of its square, and what is drawn there.
PATTERNS: Dict[str, Tuple[int, str, Dict[str, str]]] = {
    "gap": (5, "path", {"d": "M-1,1 l2,-2 M0,5 l5,-5 M4,6 l2,-2", "stroke": INK, "stroke-width": "1"}),
    "early": (6, "path", {"d": "M0,0 l6,6 M0,6 l6,-6", "stroke": RED, "stroke-width": "0.7"}),
    "wait": (5, "circle", {"cx": "2.5", "cy": "2.5", "r": "0.8", "fill": "#777777"}),
    "before": (6, "path", {"d": "M0,3 h6", "stroke": "#999999", "stroke-width": "1"}),
}


class Scale(NamedTuple):
    """From times in ns to places on the drawing."""

    begin: int
    end: int
    width: int

    def x(self, time: int) -> float:
        return LEFT + (time - self.begin) * (self.width - LEFT - RIGHT) / max(self.end - self.begin, 1)


class Label(NamedTuple):
    """A name over a bar: where its middle is, the bar's middle, how many tiers above the bar it stands."""

    x: float
    foot: float
    tier: int
    text: str


def picture(phases: List[Phase], lengths: Optional[Mapping[str, Spans]], width: int, labels: bool, window: Optional[Window] = None) -> str:
    """The SVG text. Its axis runs from the first phase's start to the finish, or over a window."""
    begin, finish = phases[0].start if phases else 0, finish_of(phases)
    window = window or Window(begin, finish)
    scale = Scale(window.begin, window.end, width)
    rows = {lun: window.of(stretches(own, begin, lengths)) for lun, own in by_lun(phases).items()}
    root = ET.Element("svg", {"xmlns": "http://www.w3.org/2000/svg", "font-family": "sans-serif", "font-size": "11"})
    ET.SubElement(root, "title").text = f"Bus schedule, {scale.begin:,} to {scale.end:,} ns"
    add_patterns(root)
    ET.SubElement(root, "rect", {"width": "100%", "height": "100%", "fill": "white"})
    axis = ET.SubElement(root, "g")
    faults = window.of(overlaps(phases))
    height = add_rows(root, scale, [on_the_bus(phase) for phase in window.of(phases)], rows, labels)
    add_faults(root, scale, faults)
    add_axis(axis, scale, height, "finish " if scale.end == finish else "")
    height = add_legend(root, parts_of(rows), lengths is not None, width, height + 44)
    if faults:
        height = add_fault_legend(root, height + 20)
    root.attrib.update({"width": str(width), "height": str(height), "viewBox": f"0 0 {width} {height}"})
    break_lines(root)
    return ET.tostring(root, encoding="unicode") + "\n"


def add_patterns(root: ET.Element) -> None:
    defs = ET.SubElement(root, "defs")
    for name, (side, shape, drawn) in PATTERNS.items():
        size = {"width": str(side), "height": str(side), "patternUnits": "userSpaceOnUse"}
        pattern = ET.SubElement(defs, "pattern", {"id": name, **size})
        ET.SubElement(pattern, "rect", {"width": str(side), "height": str(side), "fill": "white"})
        ET.SubElement(pattern, shape, drawn)


def add_rows(root: ET.Element, scale: Scale, bus: List[Stretch], rows: Mapping[int, List[Stretch]], labels: bool) -> int:
    """Draws the bus and each LUN; gives the height so far."""
    top = TOP
    add_row(root, scale, "bus", top, bus, owners(scale, bus))
    top += ROW
    for lun, own in rows.items():
        names = labels_of(scale, own) if labels else []
        top += TIER * max((label.tier for label in names), default=0)
        add_labels(root, names, top)
        add_row(root, scale, f"LUN {lun}", top, own, kinds(scale, own))
        top += ROW
    return top


def add_row(root: ET.Element, scale: Scale, name: str, top: int, bars: List[Stretch], texts: List[str]) -> None:
    """A row's name, its bars, and the text in each bar; short bars last, since each is drawn wide enough to be seen."""
    group = ET.SubElement(root, "g")
    add_text(group, LEFT - 8, top + 16, name, "end").set("font-weight", "bold")
    for bar, text in sorted(zip(bars, texts), key=lambda it: it[0].start - it[0].end):
        add_bar(group, scale, top, bar)
        if text:
            colour = "white" if bar.part in ON_DARK else INK
            add_text(group, middle(scale, bar), top + 16, text, "middle", fill=colour)


def add_bar(group: ET.Element, scale: Scale, top: int, bar: Stretch) -> None:
    """One bar, wide enough to be seen; a viewer shows what it is where the pointer rests on it."""
    left = scale.x(bar.start)
    width = max(scale.x(bar.end) - left, LEAST_BAR)
    size = {"x": f"{left:.2f}", "y": str(top), "width": f"{width:.2f}", "height": str(BAR)}
    edge = {"stroke": INK, "stroke-width": "0.5"} if width >= 3 else {}
    rect = ET.SubElement(group, "rect", {**size, "fill": FILLS[bar.part], **edge})
    place = "" if bar.block is None else f", block {bar.block}, page {bar.page}"
    ET.SubElement(rect, "title").text = f"LUN {bar.lun}, {bar.kind}, {bar.part.value}{place}: {bar.start:,} to {bar.end:,} ns"


def add_faults(root: ET.Element, scale: Scale, faults: List[Overlap]) -> None:
    """A red bar over the bus's row for each overlap, with the number of the line that came into it."""
    if not faults:
        return
    group = ET.SubElement(root, "g")
    for fault in faults:
        left = scale.x(fault.start)
        width = max(scale.x(fault.end) - left, LEAST_BAR)
        rect = ET.SubElement(group, "rect", {"x": f"{left:.2f}", "y": str(TOP), "width": f"{width:.2f}", "height": str(BAR), "fill": RED})
        ET.SubElement(rect, "title").text = f"line {fault.line} overlaps line {fault.earlier}: {fault.start:,} to {fault.end:,} ns"
        add_text(group, left + width / 2, TOP - 2, str(fault.line), "middle", fill=RED)


def add_fault_legend(root: ET.Element, top: int) -> int:
    ET.SubElement(root, "rect", {"x": str(LEFT), "y": str(top - 11), "width": "18", "height": "14", "fill": RED})
    add_text(root, LEFT + 24, top, "a line that overlaps one before it, with its number", "start")
    return top + 14


def middle(scale: Scale, bar: Stretch) -> float:
    return (scale.x(bar.start) + max(scale.x(bar.end), scale.x(bar.start) + 1)) / 2


def fits(scale: Scale, bar: Stretch, text: str) -> bool:
    return scale.x(bar.end) - scale.x(bar.start) >= LETTER * len(text) + 4


def owners(scale: Scale, bus: List[Stretch]) -> List[str]:
    """The LUN in each bar of the bus, the longest form that fits."""
    return [next((text for text in (f"LUN {bar.lun}", f"{bar.lun}") if fits(scale, bar, text)), "") for bar in bus]


def kinds(scale: Scale, own: List[Stretch]) -> List[str]:
    """The kind in each array time, the block in each phase on the bus, where they fit."""
    texts = []
    for bar in own:
        text = f"block {bar.block}" if bar.block is not None else bar.kind if bar.part is Part.ARRAY else ""
        texts.append(text if fits(scale, bar, text) else "")
    return texts


def labels_of(scale: Scale, own: List[Stretch]) -> List[Label]:
    """A name for each stretch of a row, from the left, each in the lowest tier where it is clear of those before."""
    found: List[Label] = []
    ends: Dict[int, float] = {}
    for bar in own:
        half = LETTER * len(bar.part.value) / 2
        foot = middle(scale, bar)
        x = min(max(foot, half + 2), scale.x(scale.end) - half - 2)
        tier = next(tier for tier in range(1, len(own) + 1) if ends.get(tier, 0) <= x - half)
        ends[tier] = x + half + LETTER
        found.append(Label(x, foot, tier, bar.part.value))
    return found


def add_labels(root: ET.Element, labels: List[Label], top: int) -> None:
    """The lines first, so that no line runs through a name."""
    placed = [(label, top - TIER * (label.tier - 1) - 5) for label in labels]
    for label, base in placed:
        foot = f"{label.foot:.2f}"
        line = {"x1": foot, "x2": foot, "y1": str(base + 2), "y2": str(top)}
        ET.SubElement(root, "line", {**line, "stroke": INK, "stroke-width": "0.6"})
    for label, base in placed:
        text = add_text(root, label.x, base, label.text, "middle")
        text.attrib.update({"stroke": "white", "stroke-width": "3", "paint-order": "stroke"})


def add_text(group: ET.Element, x: float, y: int, text: str, anchor: str, fill: str = INK) -> ET.Element:
    element = ET.SubElement(group, "text", {"x": f"{x:.2f}", "y": str(y), "text-anchor": anchor, "fill": fill})
    element.text = text
    return element


def step_of(span: int, most: int) -> int:
    """The least of 1, 2, 5, 10, 20, .. ns that divides a span of time into at most that many steps."""
    steps: Iterator[int] = (factor * 10**power for power in itertools.count() for factor in (1, 2, 5))
    return next(step for step in steps if span <= step * most)


def ticks(scale: Scale) -> range:
    room = max(90, int(LETTER * len(f"{scale.end:,}")) + 20)
    most = max((scale.width - LEFT - RIGHT) // room, 1)
    step = step_of(scale.end - scale.begin, most)
    return range(-(-scale.begin // step) * step, scale.end + 1, step)


def add_axis(group: ET.Element, scale: Scale, height: int, what: str) -> None:
    """A faint line and a number for each step, a dashed one and its time for the end."""
    for time in ticks(scale):
        add_mark(group, scale.x(time), height, {"stroke": FAINT})
        text = f"{time:,}"
        half = LETTER * len(text) / 2
        add_text(group, min(max(scale.x(time), 24 + half), scale.width - half), height + 14, text, "middle")
    end = scale.x(scale.end)
    add_mark(group, end, height, {"stroke": INK, "stroke-dasharray": "3 3"})
    add_text(group, end, TOP - 12, f"{what}{scale.end:,} ns", "end")
    add_text(group, 6, height + 14, "ns", "start")


def add_mark(group: ET.Element, x: float, height: int, stroke: Mapping[str, str]) -> None:
    line = {"x1": f"{x:.2f}", "x2": f"{x:.2f}", "y1": str(TOP - 6), "y2": str(height)}
    ET.SubElement(group, "line", {**line, **stroke})


def parts_of(rows: Mapping[int, List[Stretch]]) -> List[Part]:
    """The parts that are drawn, in the order of the legend."""
    drawn = {bar.part for own in rows.values() for bar in own}
    return [part for part in Part if part in drawn]


def add_legend(root: ET.Element, parts: List[Part], waits_apart: bool, width: int, top: int) -> int:
    """A box and a name for each part, on as many lines as that takes; gives the height of the drawing."""
    x: float = LEFT
    for part in parts:
        name = part.value
        if part in (Part.GAP, Part.ARRAY) and not waits_apart:
            name += ", and the wait behind it"
        room = 24 + LETTER * len(name) + 18
        if x + room > width and x > LEFT:
            x, top = LEFT, top + 20
        size = {"x": f"{x:.2f}", "y": str(top - 11), "width": "18", "height": "14"}
        ET.SubElement(root, "rect", {**size, "fill": FILLS[part], "stroke": INK, "stroke-width": "0.5"})
        add_text(root, x + 24, top, name, "start")
        x += room
    return top + 14


def break_lines(root: ET.Element) -> None:
    """A line for each element, but for those within a bar."""
    for element in root.iter():
        if element.tag in ("svg", "g", "defs"):
            element.text = "\n"
            for child in element:
                child.tail = "\n"
