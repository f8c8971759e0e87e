"""Rates over time as a drawing: a panel for each rate, a line for each name, over an axis in ms."""

import xml.etree.ElementTree as ET
from typing import Dict, List, NamedTuple, Sequence, Tuple

from onfi_tools.svg import FAINT, INK, add_text, break_lines, step_of

WIDTH, PANEL, LEFT, RIGHT, TOP, BETWEEN = 960, 220, 70, 24, 40, 60
# Of each line its colour, and dashes, so that lines differ in grey too.
LINES = [("#22395b", ""), ("#c2571a", "7 3"), ("#3c7d3c", "2 2"), ("#8b5fa8", "9 3 2 3"), ("#7a7a00", "4 4"), ("#a33a5a", "12 4")]


class Panel(NamedTuple):
    """A rate with its unit: of each name its points, a time in ns and a value."""

    title: str
    lines: Dict[str, List[Tuple[int, float]]]


class Scale(NamedTuple):
    """From times in ns and values to places on the drawing, of which `foot` is the panel's lowest."""

    begin: int
    end: int
    most: float
    foot: int

    def x(self, time: float) -> float:
        return LEFT + (time - self.begin) * (WIDTH - LEFT - RIGHT) / max(self.end - self.begin, 1)

    def y(self, value: float) -> float:
        return self.foot - value * PANEL / self.most


def picture(panels: Sequence[Panel]) -> str:
    """The SVG text; all panels have the times of the first."""
    height = TOP + len(panels) * (PANEL + BETWEEN)
    size = {"width": str(WIDTH), "height": str(height), "viewBox": f"0 0 {WIDTH} {height}"}
    root = ET.Element("svg", {"xmlns": "http://www.w3.org/2000/svg", "font-family": "sans-serif", "font-size": "11", **size})
    ET.SubElement(root, "rect", {"width": "100%", "height": "100%", "fill": "white"})
    times = [time for points in panels[0].lines.values() for time, _ in points]
    for at, panel in enumerate(panels):
        most = max((value for points in panel.lines.values() for _, value in points), default=0) or 1
        add_panel(root, panel, Scale(min(times), max(times), most, TOP + PANEL + at * (PANEL + BETWEEN)))
    add_legend(root, list(panels[0].lines))
    break_lines(root)
    return ET.tostring(root, encoding="unicode") + "\n"


def add_panel(root: ET.Element, panel: Panel, scale: Scale) -> None:
    group = ET.SubElement(root, "g")
    add_text(group, LEFT, scale.foot - PANEL - 8, panel.title, "start").set("font-weight", "bold")
    add_axes(group, scale)
    for at, points in enumerate(panel.lines.values()):
        colour, dashes = LINES[at % len(LINES)]
        places = " ".join(f"{scale.x(time):.1f},{scale.y(value):.1f}" for time, value in points)
        ET.SubElement(group, "polyline", {"points": places, "fill": "none", "stroke": colour, "stroke-width": "1.5", "stroke-dasharray": dashes or "none"})


def add_axes(group: ET.Element, scale: Scale) -> None:
    """A faint line and a number for each step of values and of times."""
    step = step_of(max(int(scale.most), 1), 5)
    for value in range(0, int(scale.most) + 1, step):
        add_line(group, LEFT, scale.y(value), WIDTH - RIGHT, scale.y(value))
        add_text(group, LEFT - 6, round(scale.y(value)) + 4, f"{value:,}", "end")
    step = step_of(max(scale.end - scale.begin, 1), 8)
    for time in range(-(-scale.begin // step) * step, scale.end + 1, step):
        add_line(group, scale.x(time), scale.foot - PANEL, scale.x(time), scale.foot)
        add_text(group, scale.x(time), scale.foot + 16, f"{time / 1e6:,g}", "middle")
    add_text(group, WIDTH - RIGHT, scale.foot + 30, "ms", "end")


def add_line(group: ET.Element, left: float, top: float, right: float, foot: float) -> None:
    ET.SubElement(group, "line", {"x1": f"{left:.1f}", "y1": f"{top:.1f}", "x2": f"{right:.1f}", "y2": f"{foot:.1f}", "stroke": FAINT})


def add_legend(root: ET.Element, names: Sequence[str]) -> None:
    """The name of each line, beside a piece of it."""
    group, left = ET.SubElement(root, "g"), float(LEFT)
    for at, name in enumerate(names):
        colour, dashes = LINES[at % len(LINES)]
        line = {"x1": f"{left:.1f}", "x2": f"{left + 24:.1f}", "y1": "14", "y2": "14", "stroke": colour, "stroke-width": "2"}
        ET.SubElement(group, "line", {**line, "stroke-dasharray": dashes or "none"})
        add_text(group, left + 30, 18, name, "start", fill=INK)
        left += 60 + 6.7 * len(name)
