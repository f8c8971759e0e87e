"""Scripts for `plan`, drawn by a seeded generator: one seed gives the same scripts whenever it is asked.

Measures name the seed and the set that their figures are of, so the order in which numbers are drawn here is never changed for the
sets of SETS and for `long_search`.
"""

import random
from typing import Callable, Dict, List, Sequence, Tuple

from onfi_tools.channel import Device, Group, Lun, Want, script_of
from onfi_tools.device import KINDS, Spans, spans_of

REQUESTS = 8
SHEET = {"tADL": 400, "tWHR": 80, "tRHW": 100, "tWB": 100, "tPLRBSY": 500, "tPLPBSY": 500, "tPLEBSY": 500}
PAGE = {"column_cycles": 2, "row_cycles": 3, "tCCS_ns": 500}
SMALL = {**PAGE, "data_bytes": 512, "spare_bytes": 16, "tR_us": 25, "tPROG_us": 200, "tBERS_us": 1500}
LARGE = {**PAGE, "data_bytes": 16384, "spare_bytes": 2048, "tR_us": 60, "tPROG_us": 1200, "tBERS_us": 6000}
# Plane address bits, fields of a page, ns a byte and cycle.
DEVICES: List[Tuple[int, Dict[str, int], int]] = [(1, SMALL, 20), (0, LARGE, 20), (1, LARGE, 20), (2, LARGE, 20), (2, LARGE, 2)]
USUAL = {"read": Spans(140, 600, 25100, 11000), "program": Spans(10800, 600, 200100, 280), "erase": Spans(100, 600, 1500100, 280)}
SLOW = {"read": Spans(140, 600, 50100, 176000), "program": Spans(175000, 600, 600100, 280), "erase": Spans(100, 600, 3000100, 280)}
# How often a read, a program and an erase are drawn.
MIX = (5, 4, 1)


def any_lengths(rng: random.Random) -> Dict[str, Spans]:
    """Phases of 0 to 60 ns, of which each comes near to every other."""
    return {kind: Spans(*(rng.randint(low, 60) for low in (1, 0, 0, 1))) for kind in KINDS}


def drawn_device(rng: random.Random, luns: int) -> Device:
    bits, group_reads, group_writes = rng.randint(0, 2), rng.random() < 0.5, rng.random() < 0.5
    return Device(luns, bits, group_reads, group_writes, rng.choice((USUAL, SLOW)) if rng.random() < 2 / 3 else any_lengths(rng))


def device_of(bits: int, page: Dict[str, int], cycle: int, luns: int) -> Device:
    """A device of these plane address bits, fields of a page, and ns a byte and cycle."""
    return Device(luns, bits, True, True, spans_of(page, {**SHEET, "tWC": cycle, "tRC": cycle}))


def drawn_wants(rng: random.Random, luns: int, weights: Sequence[int], count: int = REQUESTS, blocks: int = 16) -> List[Want]:
    wants = []
    for number in range(count):
        kind = rng.choices(KINDS, weights)[0]
        page = 0 if kind == "erase" else rng.randrange(2)
        wants.append(Want(number, kind, rng.randrange(luns), rng.randrange(blocks), page))
    return wants


def running_row(rng: random.Random, device: Device, lun: int, most: int) -> str:
    """A LUN that runs a group of at most that many members."""
    kind = rng.choices(KINDS, MIX)[0]
    planes = 1 << device.plane_bits
    size = rng.randint(1, min(most, planes)) if device.may_group(kind) else 1
    blocks = [rng.randrange(4) * planes + plane for plane in sorted(rng.sample(range(planes), size))]
    ready = rng.randint(0, device.lengths[kind].array)
    page = 0 if kind == "erase" else rng.randrange(2)
    return Lun(ready, Group(kind, page, tuple(blocks), rng.randint(1, 2 * size - 1))).row(lun)


def with_running(rng: random.Random, device: Device, wants: List[Want], part: float, most: int) -> str:
    """A script in which that part of the LUNs runs a group."""
    rows = [running_row(rng, device, lun, most) for lun in range(device.luns) if rng.random() < part]
    return "\n".join(rows + [script_of(device, wants)])


def mixed(rng: random.Random, luns: int, weights: Sequence[int]) -> str:
    device = drawn_device(rng, luns)
    return with_running(rng, device, drawn_wants(rng, luns, weights), 0.2, 1)


def built_device(rng: random.Random) -> str:
    """A batch on one of five devices as they are built."""
    device = device_of(*rng.choice(DEVICES), rng.choice((4, 8)))
    return with_running(rng, device, drawn_wants(rng, device.luns, MIX), 0.5, 4)


SETS: Dict[str, Callable[[random.Random], str]] = {
    "mixed": lambda rng: mixed(rng, rng.randint(1, 8), MIX),
    "mixed, 8 LUNs": lambda rng: mixed(rng, 8, MIX),
    "reads, 8 LUNs": lambda rng: mixed(rng, 8, (1, 0, 0)),
    "devices": built_device,
}


def long_search(rng: random.Random) -> str:
    """Up to eight wants, half of them programs, in one of three speeds of devices: many of these take many nodes."""
    luns, bits = rng.randint(1, 8), rng.randint(0, 2)
    # (all three are drawn, whichever is taken)
    lengths = rng.choice([USUAL, SLOW, any_lengths(rng)])
    device = Device(luns, bits, rng.randint(0, 1) == 1, rng.randint(0, 1) == 1, lengths)
    rows = device.rows()
    for lun in range(luns):
        what = rng.random()
        if what < 0.2:
            rows.append(f"running,{lun},1,{rng.randint(0, 400000)},{rng.choice(['program', 'read'])},0,0")
        elif what < 0.4:
            rows.append(f"free,{lun},{rng.randint(0, 400000)}")
    for _ in range(rng.randint(1, REQUESTS)):
        kind = rng.choice(["read", "program", "program", "erase"])
        page = 0 if kind == "erase" else rng.randint(0, 1)
        rows.append(f"want,{kind},{rng.randrange(luns)},{rng.randint(0, 5)},{page}")
    return "\n".join(rows + ["end", ""])


def any_script(rng: random.Random) -> str:
    """A script with rows of every name of its form, and none to eight wants."""
    device = drawn_device(rng, rng.randint(1, 8))
    rows = [f"bus,{rng.randrange(100000)}"] if rng.random() < 1 / 3 else []
    is_strict = rng.random() < 1 / 4
    rows += ["strict,1"] if is_strict else []
    # (where groups are strict, blocks that are drawn apart form none)
    most = 1 if is_strict else 4
    for lun in range(device.luns):
        what = rng.random()
        rows += [running_row(rng, device, lun, most)] if what < 1 / 4 else [f"free,{lun},{rng.randrange(100000)}"] if what < 1 / 2 else []
    wants = drawn_wants(rng, device.luns, MIX, rng.choice((0, 1, 4, 6, 8, 8)))
    return "\n".join(rows + [script_of(device, wants)])
