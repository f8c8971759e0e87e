"""A trace as text: one row for the bus, one for each LUN."""

from typing import List, NamedTuple, Optional

from onfi_tools.trace import Phase, Window, by_lun, overlaps, whole


class Columns(NamedTuple):
    """A window of time on a row of characters."""

    window: Window
    width: int

    def of(self, start: int, end: int) -> range:
        """The columns that a span of time takes: at least one, but none outside the window."""
        start, end = max(start, self.window.begin), min(end, self.window.end)
        if start >= end:
            return range(0)
        scale = (self.window.end - self.window.begin) / self.width
        first = min(int((start - self.window.begin) / scale), self.width - 1)
        last = min(max(first + 1, round((end - self.window.begin) / scale)), self.width)
        return range(first, last)


def row_of(own: List[Phase], columns: Columns) -> List[str]:
    """A LUN's row: `-` between the phases of a group, and the phases over it."""
    row = [" "] * columns.width
    for before, behind in zip(own, own[1:]):
        if behind.is_post or not before.is_post:
            for at in columns.of(before.end, behind.start):
                row[at] = "-"
    for phase in own:
        for at in columns.of(phase.start, phase.end):
            row[at] = "p" if phase.is_post else "c"
    return row


def bus_row(phases: List[Phase], columns: Columns) -> List[str]:
    row = [" "] * columns.width
    for phase in phases:
        for at in columns.of(phase.start, phase.end):
            row[at] = str(phase.lun) if row[at] in (" ", str(phase.lun)) else "*"
    for overlap in overlaps(phases):
        for at in columns.of(overlap.start, overlap.end):
            row[at] = "!"
    return row


def picture(phases: List[Phase], columns: int, window: Optional[Window] = None) -> str:
    """The lines of the picture, from 0 to the finish or of a window; nothing where there is no phase."""
    if not phases:
        return ""
    window = window or whole(phases)
    within, begin = Columns(window, columns), str(window.begin)
    rows = {"bus": bus_row(phases, within), **{f"LUN {lun}": row_of(own, within) for lun, own in by_lun(phases).items()}}
    lines = [f"{name:7}{''.join(row)}" for name, row in rows.items()]
    lines.append(f"       {begin}" + f" {window.end} ns".rjust(columns - len(begin)))
    return "\n".join(line.rstrip() for line in lines) + "\n"
