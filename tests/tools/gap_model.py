"""How far a legal log is from the best, apart from all else: its pieces, and what no schedule of its requests passes."""

from __future__ import annotations

import collections
import dataclasses
from typing import Counter, Dict, Iterator, List, NamedTuple, Optional, Sequence, Tuple

from log_model import Judge, Line, Lun, Want

# How many requests a piece has at most.
MOST = 8


class Piece(NamedTuple):
    line: int
    requests: int
    begin: int
    end: int


class Bound(NamedTuple):
    begin: int
    end: int
    bus: int
    die: int

    @property
    def share(self) -> int:
        """In thousandths of the log's time."""
        if self.end <= self.begin:
            return 1000
        return (max(self.bus, self.die) - self.begin) * 1000 // (self.end - self.begin)


@dataclasses.dataclass
class Group:
    """What a LUN runs from one line on; 0 where it ran before the log."""

    line: int
    begin: int
    members: Tuple[Want, ...] = ()
    end: Optional[int] = None


def groups_of(judge: Judge, lines: Sequence[Line]) -> List[Group]:
    """Those of a legal log by their first lines, after those that LUNs run as it begins, one for each LUN."""
    on = [Group(0, 0, lun.members) for lun in judge.luns]
    groups = list(on)
    for number, line in enumerate(lines, 1):
        lun = judge.luns[line.lun]
        if not lun.members:
            on[line.lun] = Group(number, judge.bus)
            groups.append(on[line.lun])
        assert judge.judge(line) is None
        if lun.members:
            on[line.lun].members = lun.members
        else:
            on[line.lun].end = judge.bus
    return groups


def chunks_of(groups: Sequence[Group]) -> Iterator[List[Group]]:
    chunk: List[Group] = []
    for group in groups:
        if chunk and sum(len(it.members) for it in [*chunk, group]) > MOST:
            yield chunk
            chunk = []
        chunk.append(group)
    if chunk:
        yield chunk


def ended(groups: Sequence[Group]) -> List[Tuple[Group, int]]:
    return [(group, group.end) for group in groups if group.end is not None]


def pieces_of(judge: Judge, lines: Sequence[Line]) -> List[Piece]:
    luns = len(judge.luns)
    found = []
    for chunk in chunks_of(groups_of(judge, lines)[luns:]):
        over = ended(chunk)
        if over:
            found.append(Piece(chunk[0].line, sum(len(group.members) for group, _ in over), chunk[0].begin, max(end for _, end in over)))
    return found


def rest_of(judge: Judge, lun: Lun) -> Tuple[int, int]:
    """Of what a LUN runs the phases that are left, and the waits."""
    cmd, gap, array, _ = judge.spans[lun.members[0].kind]
    count = len(lun.members)
    commands = max(0, count - lun.over)
    posts = sum(judge.post_of(it) for it in lun.members[max(0, lun.over - count) :])
    return commands * cmd + posts, (commands - 1) * gap + array if commands else 0


def work_of(judge: Judge, wants: Sequence[Want]) -> int:
    """What a LUN takes for them: each class of them in as many groups as its deepest plane asks for."""
    time = sum(judge.spans[it.kind][0] + judge.post_of(it) for it in wants)
    classes: Dict[Tuple[str, int, int], Counter[int]] = {}
    for it in wants:
        page, above = 0 if it.kind == "erase" else it.page, it.block >> judge.plane_bits if judge.strict else 0
        classes.setdefault((it.kind, page, above), collections.Counter())[it.block % 2**judge.plane_bits] += 1
    for (kind, _, _), planes in classes.items():
        _, gap, array, _ = judge.spans[kind]
        most, count = max(planes.values()), sum(planes.values())
        time += most * array + (count - most) * min(gap, array)
    return time


def bound_of(judge: Judge, lines: Sequence[Line]) -> Optional[Bound]:
    """None where the log ends no request."""
    before = judge.copied()
    groups = groups_of(judge, lines)
    running, own = groups[: len(before.luns)], ended(groups[len(before.luns) :])
    if not own:
        return None
    end = max(ends for _, ends in own)
    wants = [it for group, _ in own for it in group.members]
    bus = before.bus + sum(before.spans[it.kind][0] + before.post_of(it) for it in wants)
    dies = []
    for at, lun in enumerate(before.luns):
        here = [it for it in wants if it.lun == at]
        ran = running[at].end
        if not lun.members or ran is None or ran > end:
            since = end if lun.members else lun.ready
            dies += [max(before.bus, since) + work_of(before, here)] if here else [before.bus]
            continue
        phases, waits = rest_of(before, lun)
        bus += phases
        dies.append(max(before.bus, lun.ready) + phases + waits + work_of(before, here))
    return Bound(before.bus, end, bus, max(dies))
