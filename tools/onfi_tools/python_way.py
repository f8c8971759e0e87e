"""A scheduler of one's own in Python on a load: a class with `accept`, `next` and `ran`, as the package onfi has them."""

import importlib
import importlib.util
import os
import sys
from pathlib import Path
from types import ModuleType
from typing import Any, List, Optional

from onfi_tools.rolling_load import Answer, Load, Outcome

ROOT = Path(__file__).resolve().parent.parent.parent
CALLS = ("accept", "next", "ran")


def package(library: Path) -> ModuleType:
    """The package onfi of this checkout, with the library of a folder."""
    os.environ.setdefault("ONFI_LIBRARY", str(library.resolve() / "libonfi.so"))
    sys.path.insert(0, str(ROOT / "python"))
    return importlib.import_module("onfi")


def class_of(path: Path) -> Any:
    """The first class of the file that is a scheduler. ValueError where it has none."""
    spec = importlib.util.spec_from_file_location(path.stem, path)
    if spec is None or spec.loader is None:
        raise ValueError(f"{path} is no file of Python")
    module = importlib.util.module_from_spec(spec)
    spec.loader.exec_module(module)
    for it in vars(module).values():
        if isinstance(it, type) and it.__module__ == path.stem and all(hasattr(it, name) for name in CALLS):
            return it
    raise ValueError(f"{path} has no class with {', '.join(CALLS)}")


def channel_of(onfi: Any, load: Load) -> Any:
    """The device as the package takes it."""
    spans = load.spans()
    rows = {row.split(",")[0]: list(map(int, row.split(",")[1:])) for row in load.device if row.split(",")[0] in ("shape", "strict")}
    luns, plane_bits, read, write = rows["shape"]
    timing = onfi.Timing(*(onfi.Spans(*spans[kind]) for kind in ("read", "program", "erase")))
    rules = onfi.Rules(read=bool(read), write=bool(write), strict=bool(rows.get("strict", [0])[0]), plane_bits=plane_bits)
    posts = {int(kind.split()[1]): its.post for kind, its in spans.items() if " " in kind}
    return onfi.Channel(timing, rules, [onfi.Lun()] * luns, onfi.Lengths(posts) if posts else None)


def geometry_of(onfi: Any, load: Load) -> Any:
    """Its addressing, with no bits that aren't needed; of a page's bytes nothing rests on it."""
    shape = load.shape
    luns, blocks, pages = ((count - 1).bit_length() for count in (shape.luns, shape.blocks, shape.pages))
    return onfi.Geometry(blocks_per_lun=shape.blocks, page_bits=pages, block_bits=blocks, lun_bits=luns, pages_per_block=shape.pages, data_bytes=1,
                         spare_bytes=0, lun_count=shape.luns, plane_address_bits=(shape.planes - 1).bit_length(), column_address_cycles=2,
                         row_address_cycles=max(1, -(-(luns + blocks + pages) // 8)), any_page_order=True, multi_plane_writes=True, multi_plane_reads=True)


class Loop:
    """A load on a channel by one scheduler: what has come, and what is answered."""

    def __init__(self, onfi: Any, load: Load, scheduler: Any, audit: Any) -> None:
        self.load, self.scheduler = load, scheduler
        self.judge = importlib.import_module("onfi.running").Judge(audit)
        kinds = [onfi.kind_by(onfi.Kind[it.kind.upper()], it.sectors) for it in load.operations]
        self.wants = [onfi.Want(at, kind, *it.place[1:]) for at, (it, kind) in enumerate(zip(load.operations, kinds))]
        self.ends: List[int] = [0] * len(self.wants)
        self.arrived: List[int] = []
        self.answered = self.now = 0

    def coming(self) -> Optional[int]:
        """When the next request comes; None where none does before an answer."""
        if len(self.arrived) == len(self.wants) or len(self.arrived) - self.answered == self.load.depth:
            return None
        return 0 if self.load.closed else self.load.operations[len(self.arrived)].time

    def accept(self) -> None:
        """Gives the scheduler what has come by now."""
        coming = self.coming()
        while coming is not None and coming <= self.now:
            want = self.wants[len(self.arrived)]
            self.judge.waiting[want.id] = want
            self.scheduler.accept(want)
            self.arrived.append(self.now if self.load.closed else coming)
            coming = self.coming()

    def turn(self) -> None:
        """Runs the phase that is next, or waits for the request that comes before it."""
        self.accept()
        phase, coming = self.scheduler.next(self.now), self.coming()
        if phase is not None and (coming is None or phase.start <= coming):
            self.judge.take(phase)
            self.scheduler.ran(phase.start)
            self.now = phase.end
            if phase.is_post:
                self.answered, self.ends[phase.want] = self.answered + 1, phase.end
        elif coming is None:
            raise ValueError("requests are left, and nothing is done")
        else:
            self.now = coming

    def answers(self) -> List[Answer]:
        return [Answer(it.line, it.kind, arrived, end) for it, arrived, end in zip(self.load.operations, self.arrived, self.ends)]


def run_python(path: Path, library: Path, load: Load) -> Outcome:
    """What the class makes of a load, each phase judged by an audit. ValueError says what it did wrong, when, and of which line."""
    onfi, made = package(library), class_of(path)
    channel = channel_of(onfi, load)
    loop = Loop(onfi, load, made(channel, geometry_of(onfi, load)), onfi.Audit(channel))
    try:
        while loop.answered < len(loop.wants):
            loop.turn()
    except onfi.BadStep as wrong:
        of = wrong.phase.want
        line = f" (line {load.operations[of].line})" if 0 <= of < len(load.operations) else ""
        raise ValueError(f"{made.__name__}: {str(wrong).replace(':', line + ':', 1)}") from wrong
    except (onfi.Refused, ValueError) as wrong:
        raise ValueError(f"{made.__name__}: at {loop.now} ns: {wrong}") from wrong
    return Outcome(made.__name__, loop.answers())
