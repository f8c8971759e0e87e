"""A trace of a drive's requests as operations on pages: which page of which chip each byte stands on, and what a write does."""

import argparse
import csv
from decimal import Decimal, InvalidOperation
from typing import Dict, Iterable, Iterator, List, NamedTuple, Optional, Tuple, Union

from onfi_tools.device import first_copy, numbers_of
from onfi_tools.script import sectors_of

READ, WRITE, TRIM = "read", "write", "trim"
KINDS = {word: kind for kind in (READ, WRITE, TRIM) for word in (kind, kind[0])}
UNITS = {"ns": 1, "us": 1000}
# An operation on a page, as an FTL gives it: the heading of such a trace, and what its second field may be.
PAGED = ("time", "op", "lun", "block", "page", "first sector", "sectors")
OPERATIONS = {word: kind for kind in ("read", "program", "erase") for word in (kind, kind[0])}
# What a script may have at most: `op` rows, and a moment.
MOST_OPERATIONS = 10_000
MOST_TIME = 1 << 62
# Of each plane's blocks the lower three quarters hold what stands on the drive as the trace begins; the others take writes.
HOME_SHARE = (3, 4)
MOST_SECTORS = 7
DEVICE_ROWS = ("page", "sheet", "strobe", "strict", "sector", "geometry", "shape", "spans")


class Request(NamedTuple):
    """A row of the trace: its line, when it comes in ns, and its bytes."""

    line: int
    time: int
    kind: str
    address: int
    size: int


class Shape(NamedTuple):
    """The drive: so many channels, each with a chip of so many LUNs."""

    channels: int
    luns: int
    planes: int
    blocks: int
    pages: int
    page_bytes: int
    sectors: int = 1  # of a page; 1: reads are of whole pages

    def home_blocks(self) -> int:
        """How many blocks of a plane hold what stands on the drive as it begins."""
        return self.blocks // self.planes * HOME_SHARE[0] // HOME_SHARE[1]

    def logical_pages(self) -> int:
        return self.channels * self.luns * self.planes * self.home_blocks() * self.pages


class Place(NamedTuple):
    channel: int
    lun: int
    block: int
    page: int


class Operation(NamedTuple):
    """What is asked of a page, by which line of the trace and when. A read of so many sectors from `first` on; 0: of the page."""

    line: int
    time: int
    kind: str
    place: Place
    first: int = 0
    sectors: int = 0

    def row(self) -> str:
        """The row of a script of `run`: each channel has a host of its own, and a program writes the line modulo 256."""
        channel, lun, block, page = self.place
        if self.sectors:
            return f"opread,{channel},{channel},{lun},{block},{page},{self.first},{self.sectors}"
        return f"op,{channel},{channel},{self.kind},{lun},{block},{page}" + (f",*{self.line % 256:02X}" if self.kind == "program" else "")


# A line of a trace.
Line = Union[Request, Operation]


class Lane(NamedTuple):
    """A plane of a LUN of a channel."""

    channel: int
    lun: int
    plane: int

    def place(self, shape: Shape, number: int) -> Place:
        """The page of that number, counted through the blocks of the plane from its lowest."""
        block, page = divmod(number, shape.pages)
        return Place(self.channel, self.lun, block * shape.planes + self.plane, page)


def lane_of(shape: Shape, logical: int) -> Tuple[Lane, int]:
    """Where a logical page is striped to, and its number in that plane: channels first, then planes, then LUNs."""
    rest, channel = divmod(logical, shape.channels)
    rest, plane = divmod(rest, shape.planes)
    number, lun = divmod(rest, shape.luns)
    return Lane(channel, lun, plane), number


def shape_of(rows: List[List[str]], channels: int, page_bytes: Optional[int]) -> Shape:
    """The drive that the rows of a script describe; ValueError where they don't."""
    told = {row[0]: list(map(int, row[1:])) for row in rows if row[0] in ("geometry", "shape")}
    page = bytes.fromhex("".join(row[1] for row in rows if row[0] == "page" and len(row) == 2))
    if "geometry" in told and "shape" in told:
        blocks, pages, size, _ = told["geometry"]
        luns, plane_bits = told["shape"][:2]
    elif page:
        numbers = numbers_of(first_copy(page))
        blocks, pages, size = numbers["blocks_per_lun"], numbers["pages_per_block"], numbers["data_bytes"]
        luns, plane_bits = numbers["luns"], numbers["plane_bits"]
    else:
        raise ValueError("the device has neither rows `page` nor `geometry` and `shape`")
    shape = Shape(channels, luns, 1 << plane_bits, blocks, pages, page_bytes or size, sectors_of(rows))
    if not shape.logical_pages() or not shape.page_bytes:
        raise ValueError("the device is too small: three quarters of a plane's blocks are no block")
    return shape


def positive(word: str) -> int:
    """A number of the command line, at least 1; argparse says where it is none."""
    if not word.isascii() or not word.isdigit() or not int(word):
        raise ValueError
    return int(word)


def add_trace_words(parser: argparse.ArgumentParser) -> None:
    """How a trace is read."""
    parser.add_argument("--unit", choices=sorted(UNITS), default="ns")
    parser.add_argument("--page-bytes", type=positive, metavar="N")
    parser.add_argument("--from-zero", action="store_true")
    parser.add_argument("--wrap", action="store_true")
    parser.add_argument("--fresh", action="store_true")


def read_rows(lines: Iterable[str]) -> Iterator[Tuple[int, List[str]]]:
    """The fields of each line that has some, with its number."""
    for number, row in enumerate(csv.reader(lines), 1):
        fields = [field.strip() for field in row]
        if any(fields):
            yield number, fields


def read_requests(lines: Iterable[str], unit: str) -> Iterator[Line]:
    """The lines of a trace: requests of bytes, or under a heading whose second field is `op` operations on pages.

    A first line whose time is no number is a heading. ValueError names the first line that is none.
    """
    before, read = 0, request_of
    for number, fields in read_rows(lines):
        if number == 1 and not is_time(fields[0]):
            read = operation_of if fields[1:2] == ["op"] else request_of
            continue
        line = read(number, fields, unit)
        if line.time < before:
            raise ValueError(f"line {number}: comes before the line above it")
        before = line.time
        yield line


def is_time(field: str) -> bool:
    try:
        return Decimal(field).is_finite() and Decimal(field) >= 0
    except InvalidOperation:
        return False


def time_of(number: int, field: str, unit: str) -> int:
    time = int(Decimal(field) * UNITS[unit])
    if time >= MOST_TIME:
        raise ValueError(f"line {number}: a time of 2^62 ns or more")
    return time


def are_numbers(fields: List[str]) -> bool:
    return all(it.isascii() and it.isdigit() for it in fields)


def request_of(number: int, fields: List[str], unit: str) -> Line:
    if len(fields) < 4 or not is_time(fields[0]) or fields[1].lower() not in KINDS or not are_numbers(fields[2:4]):
        raise ValueError(f"line {number}: not time,kind,address,size: {','.join(fields)[:80]}")
    return Request(number, time_of(number, fields[0], unit), KINDS[fields[1].lower()], int(fields[2]), int(fields[3]))


def operation_of(number: int, fields: List[str], unit: str) -> Line:
    """Without the last two fields it is of a whole page."""
    if len(fields) < 5 or not is_time(fields[0]) or fields[1].lower() not in OPERATIONS or not are_numbers(fields[2:7]):
        raise ValueError(f"line {number}: not {','.join(PAGED)}: {','.join(fields)[:80]}")
    lun, block, page, first, sectors = map(int, [*fields[2:7], "0", "0"][:5])
    return Operation(number, time_of(number, fields[0], unit), OPERATIONS[fields[1].lower()], Place(0, lun, block, page), first, sectors)


class Mapping:
    """Which page holds what a logical page holds, and where each plane writes next."""

    def __init__(self, shape: Shape, wraps: bool, erases: bool) -> None:
        self.shape = shape
        self.wraps = wraps
        self.erases = erases
        self.moved: Dict[int, Optional[Place]] = {}
        self.written: Dict[Lane, int] = {}

    def operations(self, line: Line) -> List[Operation]:
        """Those of a line of a trace. ValueError where the drive can't take it."""
        if isinstance(line, Operation):
            return [self.fitting(line)]
        made: List[Operation] = []
        for page in self.pages_of(line):
            if line.kind == READ:
                made += self.read(page, line)
            elif line.kind == WRITE:
                made += self.write(page, line)
            else:
                self.moved[page % self.shape.logical_pages()] = None
        return made

    def fitting(self, operation: Operation) -> Operation:
        """An operation that the device has the page and the sectors for."""
        (_, lun, block, page), shape = operation.place, self.shape
        if lun >= shape.luns or block >= shape.blocks or page >= (1 if operation.kind == "erase" else shape.pages):
            raise ValueError(f"line {operation.line}: a page that the device doesn't have, or an erase of another page than 0")
        is_read = operation.kind == "read" and operation.sectors <= MOST_SECTORS and operation.first + operation.sectors <= shape.sectors
        if operation.sectors and not is_read:
            raise ValueError(f"line {operation.line}: sectors that a page of the device doesn't have, more than {MOST_SECTORS}, or not of a read")
        return operation

    def pages_of(self, request: Request) -> range:
        """The pages that a byte of the request stands on, as its addresses count; a trim only those that it covers."""
        size, most = self.shape.page_bytes, self.shape.logical_pages()
        first, last = request.address // size, -(-(request.address + request.size) // size)
        if request.kind == TRIM or not request.size:
            first, last = -(-request.address // size), (request.address + request.size) // size
        if last > most and not self.wraps:
            raise ValueError(f"line {request.line}: beyond the {most * size} bytes of the drive; --wrap takes addresses modulo these")
        return range(first, last)

    def read(self, page: int, request: Request) -> List[Operation]:
        logical = page % self.shape.logical_pages()
        lane, number = lane_of(self.shape, logical)
        place = self.moved.get(logical, lane.place(self.shape, number))
        return [Operation(request.line, request.time, "read", place, *self.sectors(page, request))] if place else []

    def sectors(self, page: int, request: Request) -> Tuple[int, int]:
        """The first of the page's sectors that a byte of the request stands on, and how many; 0 and 0 where a read takes the whole page."""
        size, all_of = self.shape.page_bytes, self.shape.sectors
        begin, end = max(0, request.address - page * size), min(size, request.address + request.size - page * size)
        first, last = begin * all_of // size, -(-end * all_of // size)
        return (first, last - first) if last - first < min(all_of, MOST_SECTORS + 1) and first < 256 else (0, 0)

    def write(self, page: int, request: Request) -> List[Operation]:
        """The next page of the block that the plane writes to; after its last one the next block is erased first."""
        logical = page % self.shape.logical_pages()
        lane, _ = lane_of(self.shape, logical)
        number = self.written.get(lane, 0)
        place = lane.place(self.shape, self.shape.home_blocks() * self.shape.pages + number)
        if place.block >= self.shape.blocks:
            raise ValueError(f"line {request.line}: a plane has no block left to write to, and no garbage is collected")
        self.written[lane], self.moved[logical] = number + 1, place
        program = Operation(request.line, request.time, "program", place)
        return [program._replace(kind="erase"), program] if self.erases and not place.page else [program]


def operations_of(lines: Iterable[Line], mapping: Mapping, from_zero: bool) -> Iterator[Operation]:
    """The operations of all lines, in their order."""
    start = None
    for line in lines:
        start = line.time if start is None else start
        yield from (it._replace(time=line.time - (start if from_zero else 0)) for it in mapping.operations(line))


def paged_rows(operations: Iterable[Operation]) -> Iterator[str]:
    """A trace of pages, with the line of each operation after its fields."""
    yield ",".join((*PAGED, "line"))
    for line, time, kind, (_, lun, block, page), first, sectors in operations:
        yield f"{time},{kind},{lun},{block},{page},{first},{sectors},{line}"


class Workload(NamedTuple):
    """The rows of the operations, how many requests they are of all, and the operations."""

    rows: List[str]
    taken: int
    left: int
    operations: List[Operation]


def workload_of(lines: Iterable[Line], mapping: Mapping, from_zero: bool) -> Workload:
    """The `at` and `op` rows of the first requests whose operations fit into one script."""
    rows: List[str] = []
    operations: List[Operation] = []
    taken = left = 0
    at = start = None
    for line in lines:
        start = line.time if start is None else start
        made = [] if left else mapping.operations(line)
        if left or len(operations) + len(made) > MOST_OPERATIONS:
            left += 1
            continue
        time = line.time - (start if from_zero else 0)
        rows += ([f"at,{time}"] if made and time != at else []) + [operation.row() for operation in made]
        at = time if made else at
        taken += 1
        operations += [operation._replace(time=time) for operation in made]
    return Workload(rows, taken, left, operations)


class Latency(NamedTuple):
    """How long a line of the trace took, in ns, from its arrival to the last reply of its operations."""

    line: int
    time: int
    kind: str
    operations: int
    ns: int


def latencies_of(operations: Iterable[Operation], report: Iterable[str]) -> Iterator[Latency]:
    """The latency of each line whose operations all have their replies in a report of a run by a clock."""
    replies = (row.split(",") for row in report if row.startswith("reply,"))
    moments = {(int(channel), int(serial)): int(moment) for _, _, channel, serial, moment, *_ in replies}
    serials: Dict[int, int] = {}
    lines: Dict[int, List[Tuple[Operation, Optional[int]]]] = {}
    for operation in operations:
        channel = operation.place.channel
        serial = serials.setdefault(channel, 0)
        serials[channel] += 1
        lines.setdefault(operation.line, []).append((operation, moments.get((channel, serial))))
    for line, made in lines.items():
        ends = [moment for _, moment in made if moment is not None]
        if len(ends) == len(made):
            last = made[-1][0]
            yield Latency(line, last.time, last.kind, len(made), max(ends) - last.time)


# Of so many of a thousand lines the greatest latency.
SHARES = {"50 %": 500, "95 %": 950, "99 %": 990, "99.9 %": 999, "most": 1000}


def summary_of(latencies: List[Latency]) -> Iterator[str]:
    """By kind how many lines there are, their mean latency, rounded down, and the least that such a share doesn't pass, in ns."""
    yield ",".join(["kind", "lines", "mean", *SHARES])
    for kind in OPERATIONS:
        ns = sorted(it.ns for it in latencies if it.kind == kind)
        if ns:
            yield ",".join(map(str, [kind, len(ns), sum(ns) // len(ns), *(ns[-(-share * len(ns) // 1000) - 1] for share in SHARES.values())]))
