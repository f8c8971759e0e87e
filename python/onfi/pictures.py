"""Phases as pictures: a Gantt chart of the bus and of each LUN, and a waveform of what goes over the wires, as SVG."""

from __future__ import annotations

from typing import Dict, Iterable, Iterator, List, NamedTuple, Optional, Sequence, Tuple, Union
from xml.sax.saxutils import escape

from onfi.model import BusPhase, Kind, Phase

Entry = Union[Phase, BusPhase]
WIDTH, LEFT, ROW, BAR, TOP = 960, 64, 34, 22, 26
LETTER = 6.5
INK, FAINT, ARRAY = "#222222", "#d0d0d0", "#d3e4f3"
COMMAND = {Kind.READ: "#22395b", Kind.PROGRAM: "#2f6b4f", Kind.ERASE: "#7a2e2e"}
POST = {Kind.READ: "#e3a04d", Kind.PROGRAM: "#8b5fa8", Kind.ERASE: "#b07cc6"}
# The most marks on an axis.
MARKS = 8


class Box(NamedTuple):
    """A stretch of time in a row, in ns, its colour, what stands in it, and what a viewer shows where the pointer rests."""

    start: int
    end: int
    fill: str
    text: str
    title: str


class Scale(NamedTuple):
    begin: int
    end: int

    def x(self, time: int) -> float:
        return LEFT + (min(max(time, self.begin), self.end) - self.begin) * (WIDTH - LEFT - 12) / max(self.end - self.begin, 1)


def gantt(phases: Iterable[Entry], begin: int = 0, end: Optional[int] = None) -> str:
    """The bus and each LUN, from one time to another, in ns; to the end of the last phase where none is named. Light blue: the array works."""
    own = sorted(phases, key=lambda it: it.start)
    rows = {"bus": [box_of(it, f"{it.lun}") for it in own]}
    for lun in sorted({it.lun for it in own}):
        rows[f"LUN {lun}"] = [*boxes_of([it for it in own if it.lun == lun])]
    return drawn(rows, Scale(begin, last_of(own) if end is None else end))


def waveform(phases: Iterable[Phase], begin: int = 0, end: Optional[int] = None) -> str:
    """What goes over the wires: on DQ the command bytes and the row of each phase, and R/B# of each LUN, low while its array works."""
    own = sorted(phases, key=lambda it: it.start)
    rows = {"DQ": [Box(it.start, it.end, "white", wire_of(it), f"{wire_of(it)}, {title_of(it)}") for it in own]}
    lines = {f"R/B# {lun}": arrays_of([it for it in own if it.lun == lun]) for lun in sorted({it.lun for it in own})}
    return drawn(rows, Scale(begin, last_of(own) if end is None else end), lines)


def last_of(phases: Sequence[Entry]) -> int:
    return max((it.end for it in phases), default=1)


def word_of(phase: Entry) -> str:
    return phase.kind.operation.name.lower()


def title_of(phase: Entry) -> str:
    return f"LUN {phase.lun}, {word_of(phase)} {phase.want}, {'post' if phase.is_post else 'command'}: {phase.start:,} to {phase.end:,} ns"


def box_of(phase: Entry, text: str) -> Box:
    fill = (POST if phase.is_post else COMMAND)[phase.kind.operation]
    return Box(phase.start, phase.end, fill, text, title_of(phase))


def arrays_of(phases: Sequence[Entry]) -> List[Tuple[int, int, Entry]]:
    """From when to when each array works at most: from the last command of a group to its first post."""
    return [(one.end, other.start, one) for one, other in zip(phases, phases[1:]) if not one.is_post and other.is_post]


def boxes_of(phases: Sequence[Entry]) -> Iterator[Box]:
    for start, end, of in arrays_of(phases):
        yield Box(start, end, ARRAY, word_of(of), f"LUN {of.lun}, {word_of(of)}, array and wait: {start:,} to {end:,} ns")
    yield from (box_of(it, f"{it.want}") for it in phases)


def wire_of(phase: Phase) -> str:
    """Opener, row and closer, in hexadecimal."""
    closer = f" {phase.closer:02X}h" if phase.closer else ""
    return f"{phase.opener:02X}h {phase.row:0{2 * phase.row_cycles}X}{closer}"


def drawn(rows: Dict[str, List[Box]], scale: Scale, lines: Optional[Dict[str, List[Tuple[int, int, Entry]]]] = None) -> str:
    """The SVG text."""
    tops = {name: TOP + ROW * at for at, name in enumerate([*rows, *(lines or {})])}
    height = TOP + ROW * len(tops) + 20
    parts = [f'<svg xmlns="http://www.w3.org/2000/svg" width="{WIDTH}" height="{height}" viewBox="0 0 {WIDTH} {height}" '
             'font-family="sans-serif" font-size="11"><rect width="100%" height="100%" fill="white"/>']
    parts += [f'<text x="{LEFT - 6}" y="{top + 15}" text-anchor="end" font-weight="bold" fill="{INK}">{escape(name)}</text>' for name, top in tops.items()]
    parts += marks_of(scale, height - 20)
    parts += [svg_of(box, scale, tops[name]) for name, boxes in rows.items() for box in boxes if box.end > scale.begin and box.start < scale.end]
    parts += [line_of(low, scale, tops[name]) for name, low in (lines or {}).items()]
    return "".join([*parts, "</svg>"])


def svg_of(box: Box, scale: Scale, top: int) -> str:
    left, right = scale.x(box.start), scale.x(box.end)
    width = max(right - left, 0.8)
    colour = INK if box.fill in ("white", ARRAY) else "white"
    fits = box.text and width >= LETTER * len(box.text) + 4
    text = f'<text x="{(left + right) / 2:.2f}" y="{top + 15}" text-anchor="middle" fill="{colour}">{escape(box.text)}</text>' if fits else ""
    return (f'<g><rect x="{left:.2f}" y="{top}" width="{width:.2f}" height="{BAR}" fill="{box.fill}" stroke="{INK}" stroke-width="0.4"/>{text}'
            f"<title>{escape(box.title)}</title></g>")


def line_of(low: Sequence[Tuple[int, int, Entry]], scale: Scale, top: int) -> str:
    """A line that is high but for these stretches of time."""
    points = [(scale.x(scale.begin), top)]
    for start, end, _ in low:
        left, right = scale.x(start), scale.x(end)
        points += [(left, top), (left, top + BAR), (right, top + BAR), (right, top)]
    points.append((scale.x(scale.end), top))
    return f'<polyline fill="none" stroke="{INK}" points="{" ".join(f"{x:.2f},{y}" for x, y in points)}"/>'


def marks_of(scale: Scale, height: int) -> List[str]:
    """A faint line and a time in ns at round places."""
    step = next(factor * 10**power for power in range(19) for factor in (1, 2, 5) if (scale.end - scale.begin) <= MARKS * factor * 10**power)
    places = range(-(-scale.begin // step) * step, scale.end + 1, step)
    return [f'<line x1="{scale.x(at):.2f}" x2="{scale.x(at):.2f}" y1="{TOP - 6}" y2="{height}" stroke="{FAINT}"/>'
            f'<text x="{scale.x(at):.2f}" y="{height + 14}" text-anchor="middle" fill="{INK}">{at:,}</text>' for at in places]
