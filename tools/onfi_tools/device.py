"""Parameter pages from named fields and back, and the phase lengths that a page and a timing sheet give, with strobes or without."""

from typing import Dict, List, Mapping, NamedTuple, Tuple

KINDS = ("read", "program", "erase")
COPY = 256
SIGNATURE = b"ONFI"
FIRST_REMAINDER = 0x4F4E
POLYNOMIAL = 0x8005
SHEET = ("tWC", "tRC", "tADL", "tWHR", "tRHW", "tWB", "tPLRBSY", "tPLPBSY", "tPLEBSY")
SHORT_BUSY = {"read": "tPLRBSY", "program": "tPLPBSY", "erase": "tPLEBSY"}
ARRAY_MICROSECONDS = {"read": "tR_us", "program": "tPROG_us", "erase": "tBERS_us"}


class Field(NamedTuple):
    """Where a number stands in a copy: its first byte, its lowest bit there, how many bits."""

    byte: int
    low: int
    bits: int

    @property
    def place(self) -> int:
        """Its lowest bit in the copy as one number, whose first byte is the least."""
        return 8 * self.byte + self.low


NUMBERS: Dict[str, Field] = {
    "wide_bus": Field(6, 0, 1),
    "multi_lun": Field(6, 1, 1),
    "any_page_order": Field(6, 2, 1),
    "multi_plane_writes": Field(6, 3, 1),
    "multi_plane_reads": Field(6, 6, 1),
    "status_enhanced": Field(8, 3, 1),
    "column_enhanced": Field(8, 6, 1),
    "data_bytes": Field(80, 0, 32),
    "spare_bytes": Field(84, 0, 16),
    "pages_per_block": Field(92, 0, 32),
    "blocks_per_lun": Field(96, 0, 32),
    "luns": Field(100, 0, 8),
    "column_cycles": Field(101, 4, 4),
    "row_cycles": Field(101, 0, 4),
    "plane_bits": Field(113, 0, 4),
    "no_block_restrictions": Field(114, 1, 1),
    "tPROG_us": Field(133, 0, 16),
    "tBERS_us": Field(135, 0, 16),
    "tR_us": Field(137, 0, 16),
    "tCCS_ns": Field(139, 0, 16),
}
TEXTS: Dict[str, Tuple[int, int]] = {"manufacturer": (32, 12), "model": (44, 20)}


class Spans(NamedTuple):
    """The lengths of a kind in ns, in the order of a `spans` row."""

    cmd: int
    gap: int
    array: int
    post: int

    def length(self, size: int, phase: int) -> int:
        """How long a phase of a group of that many members takes; phases count from 0."""
        return self.cmd if phase < size else self.post

    def wait_after(self, size: int, phase: int) -> int:
        """The wait between a phase and the next one."""
        return self.gap if phase + 1 < size else self.array if phase + 1 == size else 0


def crc16(data: bytes) -> int:
    """The check value of a copy's first 254 bytes: high bit first, no reflection, no final exclusive or."""
    remainder = FIRST_REMAINDER
    for byte in data:
        remainder = crc_behind(remainder, byte)
    return remainder


def crc_behind(remainder: int, byte: int) -> int:
    remainder ^= byte << 8
    for _ in range(8):
        remainder = (remainder << 1) ^ (POLYNOMIAL if remainder & 0x8000 else 0)
        remainder &= 0xFFFF
    return remainder


def page_of(numbers: Mapping[str, int], texts: Mapping[str, str]) -> bytes:
    """One copy of the parameter page with these fields, all others 0. ValueError says what doesn't fit."""
    page = int.from_bytes(SIGNATURE, "little")
    for name, value in numbers.items():
        page |= placed_number(name, value)
    for name, text in texts.items():
        page |= placed_text(name, text)
    front = page.to_bytes(COPY - 2, "little")
    return front + crc16(front).to_bytes(2, "little")


def placed_number(name: str, value: int) -> int:
    if name not in NUMBERS:
        raise ValueError(f"{name}: no such field")
    field = NUMBERS[name]
    if not 0 <= value < 1 << field.bits:
        raise ValueError(f"{name}: {value} is not below {1 << field.bits}")
    return value << field.place


def placed_text(name: str, text: str) -> int:
    first, size = TEXTS[name]
    if not text.isascii() or not text.isprintable() or len(text) > size:
        raise ValueError(f"{name}: not {size} printable ASCII characters or fewer")
    return int.from_bytes(text.ljust(size).encode("ascii"), "little") << 8 * first


def numbers_of(page: bytes) -> Dict[str, int]:
    """The numbers of one copy, by name."""
    whole = int.from_bytes(page, "little")
    return {name: whole >> field.place & (1 << field.bits) - 1 for name, field in NUMBERS.items()}


def first_copy(data: bytes) -> bytes:
    """The first copy with two right signature bytes and the right CRC; ValueError where there is none."""
    for at in range(0, len(data) - COPY + 1, COPY):
        copy = data[at : at + COPY]
        right = sum(one == other for one, other in zip(copy, SIGNATURE))
        if right >= 2 and crc16(copy[:254]) == int.from_bytes(copy[254:], "little"):
            return copy
    raise ValueError("no copy of the parameter page has its signature and its CRC")


def restricts_blocks(page: Mapping[str, int]) -> bool:
    """Whether a page takes groups of several planes, and of restricted blocks alone."""
    groups = page["plane_bits"] > 0 and (page["multi_plane_reads"] or page["multi_plane_writes"])
    return bool(groups) and not page["no_block_restrictions"]


def hex_rows(data: bytes) -> List[str]:
    """`page` rows of a script, 32 bytes each."""
    return ["page," + data[at : at + 32].hex().upper() for at in range(0, len(data), 32)]


def spans_of(page: Mapping[str, int], sheet: Mapping[str, int]) -> Dict[str, Spans]:
    """The phase lengths of each kind, in ns; the waits of a phase are laid end to end."""
    cycles = 2 + page["column_cycles"] + page["row_cycles"]
    size = page["data_bytes"] + page["spare_bytes"]
    output = cycles * sheet["tWC"] + page["tCCS_ns"] + size * sheet["tRC"] + sheet["tRHW"]
    status = (1 + page["row_cycles"]) * sheet["tWC"] + sheet["tWHR"] + sheet["tRC"] + sheet["tRHW"]
    commands = {
        "read": cycles * sheet["tWC"],
        "program": cycles * sheet["tWC"] + sheet["tADL"] + size * sheet["tWC"],
        "erase": (2 + page["row_cycles"]) * sheet["tWC"],
    }
    gaps = {kind: sheet["tWB"] + sheet[SHORT_BUSY[kind]] for kind in KINDS}
    arrays = {kind: sheet["tWB"] + 1000 * page[ARRAY_MICROSECONDS[kind]] for kind in KINDS}
    return {kind: Spans(commands[kind], gaps[kind], arrays[kind], output if kind == "read" else status) for kind in KINDS}


def by_strobes(plain: int, before: int, cycle: int, behind: int, size: int) -> int:
    """A phase of that many ns, and that many bytes by strobes, all in ps: two in a cycle, and whole ns after the end."""
    picoseconds = 1000 * plain + before + -(-size // 2) * cycle + behind
    return -(-picoseconds // 1000)


def strobed_spans_of(page: Mapping[str, int], sheet: Mapping[str, int], strobes: Mapping[str, int]) -> Dict[str, Spans]:
    """The same where data and status bytes go by strobes; tRC of the sheet isn't looked at."""
    cycles = 2 + page["column_cycles"] + page["row_cycles"]
    size = page["data_bytes"] + page["spare_bytes"]
    out = (strobes["tRPRE"], strobes["tRC"], strobes["tRPST"] + strobes["tRPSTH"])
    into = (strobes["tWPRE"], strobes["tDSC"], strobes["tWPST"] + strobes["tWPSTH"])
    status = by_strobes((1 + page["row_cycles"]) * sheet["tWC"] + sheet["tWHR"] + sheet["tRHW"], *out, 1)
    found = spans_of(page, {**sheet, "tRC": 0})
    return {
        "read": found["read"]._replace(post=by_strobes(cycles * sheet["tWC"] + page["tCCS_ns"] + sheet["tRHW"], *out, size)),
        "program": found["program"]._replace(cmd=by_strobes(cycles * sheet["tWC"] + sheet["tADL"], *into, size), post=status),
        "erase": found["erase"]._replace(post=status),
    }
