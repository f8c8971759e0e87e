"""The phase lengths of a script, of either form; the program says what is wrong with a script, this reader doesn't."""

import csv
from typing import Dict, List, Mapping

from onfi_tools.device import KINDS, Spans, first_copy, numbers_of, spans_of, strobed_spans_of


def rows_of(text: str) -> List[List[str]]:
    """The rows before the first line `end`."""
    lines = text.splitlines()
    if "end" not in lines:
        raise ValueError("no line `end` closes the script")
    return list(csv.reader(lines[: lines.index("end")]))


def page_numbers(text: str) -> Dict[str, int]:
    """The numbers of the parameter page in a script, by name."""
    return numbers_of(first_copy(bytes.fromhex("".join(row[1] for row in rows_of(text) if row[:1] == ["page"] and len(row) == 2))))


def paged_spans(text: str, numbers: Mapping[str, int]) -> Dict[str, Spans]:
    """The phase lengths of a page of these numbers, by the sheet and the strobes of a script."""
    rows = rows_of(text)
    sheet = {row[1]: int(row[2]) for row in rows if row[:1] == ["sheet"] and len(row) == 3}
    strobes = {row[1]: int(row[2]) for row in rows if row[:1] == ["strobe"] and len(row) == 3}
    try:
        return strobed_spans_of(numbers, sheet, strobes) if strobes else spans_of(numbers, sheet)
    except KeyError as missing:
        raise ValueError(f"the script has no row for {missing}") from None


def lengths_of(text: str) -> Dict[str, Spans]:
    """The phase lengths of each kind in ns; ValueError where the script doesn't give them."""
    told = {row[1]: Spans(*map(int, row[2:6])) for row in rows_of(text) if row[:1] == ["spans"] and len(row) == 6}
    return told if all(kind in told for kind in KINDS) else paged_spans(text, page_numbers(text))


def sectors_of(rows: List[List[str]]) -> int:
    """How many sectors a page has: by a row `sector`, or the most of a row `sectorpost`; else 1."""
    size = next((int(row[1]) for row in rows if row[:1] == ["sector"] and len(row) == 2), 0)
    if not size:
        return max((int(row[1]) for row in rows if row[:1] == ["sectorpost"] and len(row) == 3), default=1)
    numbers = numbers_of(first_copy(bytes.fromhex("".join(row[1] for row in rows if row[:1] == ["page"]))))
    return max(1, (numbers["data_bytes"] + numbers["spare_bytes"]) // size)


def first_form(text: str) -> List[str]:
    """The device of a script, of either form, in rows of the first form: `shape`, `spans`, `sectorpost` and `strict`."""
    rows, lengths = rows_of(text), lengths_of(text)
    shapes = [",".join(row) for row in rows if row[:1] == ["shape"]]
    if not shapes:
        numbers = page_numbers(text)
        shapes = [",".join(map(str, ("shape", *(numbers[name] for name in ("luns", "plane_bits", "multi_plane_reads", "multi_plane_writes")))))]
    spans = [",".join(map(str, ("spans", kind, *lengths[kind]))) for kind in KINDS]
    strict = [",".join(row) for row in rows if row[:1] == ["strict"]]
    return [*shapes, *spans, *(f"sectorpost,{count},{post}" for count, post in sorted(posts_of(text).items())), *strict]


def posts_of(text: str) -> Dict[int, int]:
    """How long an output of so many sectors holds the bus in ns, by their count."""
    return {int(row[1]): int(row[2]) for row in rows_of(text) if row[:1] == ["sectorpost"]} or dict(enumerate(outputs_of(text), 1))


def outputs_of(text: str) -> List[int]:
    """How long outputs of some sectors hold the bus in ns, by the rows of a script."""
    rows = rows_of(text)
    sizes = [count * int(row[1]) for row in rows if row[:1] == ["sector"] and len(row) == 2 for count in range(1, 8)]
    if not sizes:
        return [int(row[2]) for row in rows if row[:1] == ["sectorpost"] and len(row) == 3]
    numbers = page_numbers(text)
    page = numbers["data_bytes"] + numbers["spare_bytes"]
    pages = [{**numbers, "data_bytes": size, "spare_bytes": 0} for size in sizes if size <= page]
    return [paged_spans(text, small)["read"].post for small in pages]
