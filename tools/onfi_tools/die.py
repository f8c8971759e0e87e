"""What a die answers: the contents of blocks, as the definitions of the simulated chip give them."""

import dataclasses
from typing import Dict, FrozenSet, NamedTuple

ERASED = "erased"
TORN = "torn"


class Device(NamedTuple):
    """What of a device its answers depend on; sectors of 0 bytes are none."""

    pages: int
    page_bytes: int
    any_page_order: bool
    sector_bytes: int = 0


class Operation(NamedTuple):
    """A request at a page; an erase names page 0, a program brings a page of bytes.

    A read gives that many sectors from that one on; of none, the page.
    """

    kind: str
    page: int
    content: bytes = b""
    first: int = 0
    sectors: int = 0


@dataclasses.dataclass
class Block:
    """A block that opens erased. `faults` are the numbers, from 0, of its programs and erases that fail and tear it."""

    device: Device
    faults: FrozenSet[int] = frozenset()
    done: int = 0
    others: str = ERASED
    pages: Dict[int, object] = dataclasses.field(default_factory=dict)

    def copy(self) -> "Block":
        return dataclasses.replace(self, pages=dict(self.pages))

    def page(self, number: int) -> object:
        """Erased, torn or its bytes."""
        return self.pages.get(number, self.others)

    def apply(self, asked: Operation) -> str:
        """Does the operation; its answer as a report spells it."""
        if asked.kind == "read":
            return "read," + spelled(self.output_of(asked))
        fails = self.done in self.faults
        self.done += 1
        if asked.kind == "erase":
            self.pages, self.others = {}, TORN if fails else ERASED
        elif fails:
            self.pages[asked.page] = TORN
        elif self.takes_program(asked.page):
            self.pages[asked.page] = asked.content
        else:
            return "failed"
        return "failed" if fails else "done"

    def output_of(self, asked: Operation) -> bytes:
        """What a read gives."""
        held, size = self.page(asked.page), self.device.sector_bytes
        if not isinstance(held, bytes):
            held = (b"\xff" if held == ERASED else b"\0") * self.device.page_bytes
        return held[asked.first * size : (asked.first + asked.sectors) * size] if asked.sectors else held

    def takes_program(self, number: int) -> bool:
        """Whether the page is erased and, where pages go in order, each higher one is."""
        higher = [] if self.device.any_page_order else range(number + 1, self.device.pages)
        return self.page(number) == ERASED and all(self.page(other) == ERASED for other in higher)


def spelled(content: bytes) -> str:
    """Bytes as a report has them: `*HH` where all are equal."""
    return f"*{content[0]:02X}" if len(set(content)) == 1 else content.hex().upper()
