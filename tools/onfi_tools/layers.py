"""A drawing of what stands on what: each thing in a layer above all that it stands on, lines that run round other things."""

import itertools
import statistics
from typing import Dict, FrozenSet, List, Mapping, NamedTuple, Sequence, Tuple

Below = Mapping[str, FrozenSet[str]]
Line = Tuple[str, str]

ORDERINGS, SPREADINGS = 24, 600
BOX, BEND, BESIDE = 122, 10, 14
# How much of the way to the middle of the drawing each thing is drawn besides.
PULL = 0.06


class Place(NamedTuple):
    """Where the middle of a thing is: x in pixels, and its layer from the lowest, 0."""

    x: int
    layer: int


class Drawing(NamedTuple):
    """The place of each thing, and the places that each line runs through, from the upper thing to the lower."""

    places: Dict[str, Place]
    lines: Dict[Line, List[Place]]


def all_below(below: Below) -> Dict[str, FrozenSet[str]]:
    """What each thing stands on, directly or not; what stands on others comes after them."""
    found: Dict[str, FrozenSet[str]] = {}
    for name, others in below.items():
        found[name] = others.union(*(found[other] for other in others))
    return found


def least_lines(below: Below) -> List[Line]:
    """The lines that say all the rest: none where another way leads down."""
    whole = all_below(below)
    return [(name, other) for name, others in below.items()
            for other in sorted(others) if not any(other in whole[it] for it in others)]


def layers_of(below: Below) -> Dict[str, int]:
    """As low as can be, but for what stands on nothing: right below the first that stands on it."""
    found: Dict[str, int] = {}
    for name, others in below.items():
        found[name] = max((found[other] + 1 for other in others), default=0)
    for name in [it for it, others in below.items() if not others]:
        above = [found[it] for it, others in below.items() if name in others]
        found[name] = min(above, default=1) - 1
    return found


class Layout:
    """Things and bends of lines, layer by layer, in an order with few crossings."""

    def __init__(self, below: Below) -> None:
        self.lines = least_lines(below)
        self.layer = layers_of(below)
        self.ways: Dict[Line, List[str]] = {}
        for upper, lower in self.lines:
            between = range(self.layer[upper] - 1, self.layer[lower], -1)
            bends = [f"{upper} {lower} {layer}" for layer in between]
            self.layer.update(zip(bends, between))
            self.ways[upper, lower] = [upper, *bends, lower]
        self.up: Dict[str, List[str]] = {name: [] for name in self.layer}
        self.down: Dict[str, List[str]] = {name: [] for name in self.layer}
        for way in self.ways.values():
            for upper, lower in zip(way, way[1:]):
                self.down[upper].append(lower)
                self.up[lower].append(upper)
        count = max(self.layer.values(), default=0) + 1
        self.rows = [[name for name in self.layer if self.layer[name] == at] for at in range(count)]
        self.boxes = frozenset(below)

    def order(self) -> None:
        """Some sweeps, each of which puts a thing at the middle of those that it is tied to."""
        for sweep in range(ORDERINGS):
            upward = sweep % 2 == 0
            for row in self.rows if upward else reversed(self.rows):
                self.put(row, self.down if upward else self.up)
            self.swap()

    def put(self, row: List[str], tied: Mapping[str, List[str]]) -> None:
        at = self.numbers()
        middles = {name: statistics.fmean(at[it] for it in tied[name]) if tied[name] else at[name] for name in row}
        row.sort(key=lambda name: middles[name])

    def numbers(self) -> Dict[str, int]:
        return {name: at for row in self.rows for at, name in enumerate(row)}

    def swap(self) -> None:
        """Neighbours change places while lines cross less for it."""
        for row in self.rows:
            for at in range(len(row) - 1):
                before = self.crossings()
                row[at], row[at + 1] = row[at + 1], row[at]
                if self.crossings() >= before:
                    row[at], row[at + 1] = row[at + 1], row[at]

    def crossings(self) -> int:
        at = self.numbers()
        count = 0
        for row in self.rows:
            ends = [(at[upper], at[lower]) for lower in row for upper in self.up[lower]]
            count += sum((a - c) * (b - d) < 0 for (a, b), (c, d) in itertools.combinations(ends, 2))
        return count

    def width(self, name: str) -> int:
        return BOX if name in self.boxes else BEND

    def spread(self, wanted: Sequence[float], row: Sequence[str]) -> List[float]:
        """Places near those that are wanted, in the row's order, with room for each."""
        rooms = [(self.width(a) + self.width(b)) / 2 + BESIDE for a, b in zip(row, row[1:])]
        right, left = list(wanted), list(wanted)
        for at, room in enumerate(rooms):
            right[at + 1] = max(right[at + 1], right[at] + room)
        for at in range(len(rooms) - 1, -1, -1):
            left[at] = min(left[at], left[at + 1] - rooms[at])
        return [(a + b) / 2 for a, b in zip(left, right)]

    def drawing(self) -> Drawing:
        self.order()
        x = {name: float(at * (BOX + BESIDE)) for row in self.rows for at, name in enumerate(row)}
        for sweep in range(SPREADINGS):
            middle = statistics.fmean(x.values()) if x else 0.0
            for row in self.rows if sweep % 2 else reversed(self.rows):
                ties = [statistics.fmean(x[it] for it in self.tied(name)) if self.tied(name) else x[name] for name in row]
                x.update(zip(row, self.spread([PULL * middle + (1 - PULL) * it for it in ties], row)))
        least = min((x[name] - self.width(name) / 2 for name in x), default=0)
        places = {name: Place(round(x[name] - least), self.layer[name]) for name in x}
        boxes = {name: places[name] for row in self.rows for name in row if name in self.boxes}
        return Drawing(boxes, {line: [places[it] for it in way] for line, way in self.ways.items()})

    def tied(self, name: str) -> List[str]:
        """Those that draw it; a bend is drawn by its own line alone, so that lines stay straight."""
        return [*self.up[name], *self.down[name]]
