"""The plain structs of onfi.h, from and to the dataclasses."""

from __future__ import annotations

import ctypes
from typing import Any, Callable, Dict, Iterable, Iterator, Sequence, TypeVar, Union

from onfi.breach import Breach, Condition, Difference, NamedPhase, Part, told_by
from onfi.model import Channel, Device, Geometry, Group, Kind, Lengths, Lun, Output, Phase, Rules, Schedule, Spans, Timing, Want

LUNS, WANTS, MEMBERS, STARTS, SECTORS = 8, 8, 4, 8, 7
DISPATCHER = 2048
Given = TypeVar("Given")
Made = TypeVar("Made")


def number(value: int, below: int, what: str) -> int:
    """The number, where it fits its place."""
    if not 0 <= value < below:
        raise ValueError(f"{what} is not from 0 to {below - 1}: {value}")
    return value


def octets(value: Union[bytes, bytearray, memoryview], what: str) -> bytes:
    """The bytes, where they are bytes."""
    if not isinstance(value, (bytes, bytearray, memoryview)):
        raise TypeError(f"{what} is bytes, not {type(value).__name__}")
    return bytes(value)


def characters(value: Union[str, bytes, bytearray, memoryview], what: str) -> bytes:
    """The bytes of a text, which is str or bytes."""
    if not isinstance(value, (str, bytes, bytearray, memoryview)):
        raise TypeError(f"{what} is str or bytes, not {type(value).__name__}")
    if not isinstance(value, str):
        return bytes(value)
    try:
        return value.encode("utf-8")
    except UnicodeEncodeError:
        raise ValueError(f"{what} has half a character, which no text in UTF-8 has") from None


def each_of(name: str, make: Callable[[Given], Made], given: Sequence[Given]) -> Iterator[Made]:
    """What is made of each of these; `ValueError` names the place of one that it can't be made of."""
    for at, one in enumerate(given):
        try:
            yield make(one)
        except ValueError as wrong:
            raise ValueError(f"{name}[{at}]: {wrong}") from None


class CSpans(ctypes.Structure):
    _fields_ = [(name, ctypes.c_uint64) for name in ("cmd", "gap", "array", "post")]

    @classmethod
    def of(cls, spans: Spans) -> CSpans:
        return cls(*(number(value, 1 << 64, "a length") for value in (spans.cmd, spans.gap, spans.array, spans.post)))

    def told(self) -> Spans:
        return Spans(self.cmd, self.gap, self.array, self.post)


class CTiming(ctypes.Structure):
    _fields_ = [("read", CSpans), ("program", CSpans), ("erase", CSpans)]

    def told(self) -> Timing:
        return Timing(self.read.told(), self.program.told(), self.erase.told())


class CLengths(ctypes.Structure):
    _fields_ = [("sectors", ctypes.c_uint64 * SECTORS)]

    @classmethod
    def of(cls, lengths: Lengths) -> CLengths:
        made = cls()
        for count, post in lengths.sectors.items():
            if not 1 <= count <= SECTORS:
                raise ValueError(f"lengths of sectors are those of 1 to {SECTORS}, not of {count}")
            made.sectors[count - 1] = number(post, 1 << 64, "a length")
        return made

    def told(self) -> Lengths:
        return Lengths({at + 1: post for at, post in enumerate(self.sectors) if post})


class CRules(ctypes.Structure):
    _fields_ = [("read", ctypes.c_bool), ("write", ctypes.c_bool), ("strict", ctypes.c_bool), ("plane_bits", ctypes.c_uint8)]

    def told(self) -> Rules:
        return Rules(self.read, self.write, self.strict, self.plane_bits)


class CWant(ctypes.Structure):
    _fields_ = [
        ("id", ctypes.c_uint64),
        ("kind", ctypes.c_uint8),
        ("lun", ctypes.c_uint8),
        ("block", ctypes.c_uint16),
        ("page", ctypes.c_uint16),
    ]

    @classmethod
    def of(cls, want: Want) -> CWant:
        return cls(
            number(want.id, 1 << 64, "the id of a want"),
            number(want.kind, 256, "the kind of a want"),
            number(want.lun, 256, "the LUN of a want"),
            number(want.block, 65536, "the block of a want"),
            number(want.page, 65536, "the page of a want"),
        )

    def told(self) -> Want:
        return Want(self.id, Kind(self.kind), self.lun, self.block, self.page)


class CLun(ctypes.Structure):
    _fields_ = [("since", ctypes.c_uint64), ("members", ctypes.c_uint8), ("next", ctypes.c_uint8), ("member", CWant * MEMBERS)]

    @classmethod
    def of(cls, lun: Lun) -> CLun:
        made = cls(number(lun.since, 1 << 64, "a time"), number(len(lun.members), 256, "the count of members"), number(lun.next, 256, "a phase"))
        for at, want in enumerate(each_of("members", CWant.of, lun.members[:MEMBERS])):
            made.member[at] = want
        return made

    def told(self) -> Lun:
        return Lun(self.since, tuple(it.told() for it in self.member[: self.members]), self.next)


class CChannel(ctypes.Structure):
    _fields_ = [
        ("timing", CTiming),
        ("lengths", CLengths),
        ("rules", CRules),
        ("bus_free", ctypes.c_uint64),
        ("lun_count", ctypes.c_uint8),
        ("lun", CLun * LUNS),
    ]

    @classmethod
    def of(cls, channel: Channel) -> CChannel:
        timing, rules = channel.timing, channel.rules
        made = cls(
            CTiming(CSpans.of(timing.read), CSpans.of(timing.program), CSpans.of(timing.erase)),
            CLengths() if channel.lengths is None else CLengths.of(channel.lengths),
            CRules(rules.read, rules.write, rules.strict, number(rules.plane_bits, 256, "the count of plane bits")),
            number(channel.bus_free, 1 << 64, "a time"),
            number(len(channel.luns), 256, "the count of LUNs"),
        )
        for at, lun in enumerate([*each_of("luns", CLun.of, channel.luns)][:LUNS]):
            made.lun[at] = lun
        return made

    def told(self) -> Channel:
        luns, lengths = (it.told() for it in self.lun[: self.lun_count]), self.lengths.told()
        return Channel(self.timing.told(), self.rules.told(), tuple(luns), lengths if lengths.sectors else None, self.bus_free)


class CRest(ctypes.Structure):
    _fields_ = [("starts", ctypes.c_uint8), ("start", ctypes.c_uint64 * STARTS)]

    @classmethod
    def of(cls, starts: Sequence[int]) -> CRest:
        made = cls(min(len(starts), 255))
        for at, start in enumerate(starts[:STARTS]):
            made.start[at] = number(start, 1 << 64, "a start")
        return made


class CGroup(ctypes.Structure):
    _fields_ = [("members", ctypes.c_uint8), ("want", ctypes.c_uint64 * MEMBERS), ("start", ctypes.c_uint64 * STARTS)]

    @classmethod
    def of(cls, group: Group) -> CGroup:
        if len(group.starts) != 2 * len(group.wants):
            raise ValueError("a group has two starts for each member")
        made = cls(min(len(group.wants), 255))
        for at, want in enumerate(group.wants[:MEMBERS]):
            made.want[at] = number(want, 1 << 64, "the id of a want")
        for at, start in enumerate(group.starts[:STARTS]):
            made.start[at] = number(start, 1 << 64, "a start")
        return made

    def told(self) -> Group:
        return Group(tuple(self.want[: self.members]), tuple(self.start[: 2 * self.members]))


class CSchedule(ctypes.Structure):
    _fields_ = [("luns", ctypes.c_uint8), ("groups", ctypes.c_uint8), ("rest", CRest * LUNS), ("group", CGroup * WANTS)]

    @classmethod
    def of(cls, schedule: Schedule) -> CSchedule:
        made = cls(min(len(schedule.rest), 255), min(len(schedule.groups), 255))
        for at, starts in enumerate(schedule.rest[:LUNS]):
            made.rest[at] = CRest.of(starts)
        for at, group in enumerate(schedule.groups[:WANTS]):
            made.group[at] = CGroup.of(group)
        return made

    def told(self) -> Schedule:
        rest = tuple(tuple(it.start[: it.starts]) for it in self.rest[: self.luns])
        return Schedule(rest, tuple(it.told() for it in self.group[: self.groups]))


class CPlan(ctypes.Structure):
    _fields_ = [("schedule", CSchedule), ("finish", ctypes.c_uint64), ("below", ctypes.c_uint64), ("opened", ctypes.c_uint32)]


class CWeights(ctypes.Structure):
    _fields_ = [("want", ctypes.c_uint16 * WANTS), ("running", (ctypes.c_uint16 * MEMBERS) * LUNS)]

    @classmethod
    def of(cls, weights: Iterable[int], running: Iterable[Iterable[int]]) -> CWeights:
        """The weights of wants and of running groups by their places; 1 where none is given."""
        made = cls((1,) * WANTS, ((1,) * MEMBERS,) * LUNS)
        for told, places in zip((weights, *running), (made.want, *made.running)):
            for at, weight in zip(range(len(places)), told):
                places[at] = number(weight, 1 << 16, "a weight")
        return made


class COptions(ctypes.Structure):
    _fields_ = [("limit", ctypes.c_uint32), ("by", ctypes.c_uint8), ("early", ctypes.c_bool), ("weights", CWeights)]


class CPhase(ctypes.Structure):
    _fields_ = [
        *((name, ctypes.c_uint64) for name in ("start", "end", "want")),
        ("row", ctypes.c_uint32),
        *((name, ctypes.c_uint16) for name in ("block", "page")),
        *((name, ctypes.c_uint8) for name in ("lun", "kind", "number", "members", "opener", "closer", "row_cycles")),
        ("is_post", ctypes.c_bool),
    ]

    @classmethod
    def of(cls, phase: Phase) -> CPhase:
        """What of a phase its output rests on."""
        return cls(kind=number(phase.kind, 256, "the kind of a phase"), is_post=phase.is_post)

    def told(self) -> Phase:
        made: Dict[str, Any] = {name: getattr(self, name) for name, *_ in self._fields_}
        made["kind"] = Kind(self.kind)
        return Phase(**made)


class CDispatcher(ctypes.Structure):
    """What the library alone reads and writes."""

    _fields_ = [("kept", ctypes.c_uint64 * DISPATCHER)]


class CStage(ctypes.Structure):
    _fields_ = [("more", ctypes.c_uint64), ("is_open", ctypes.c_uint8)]


class CAudit(ctypes.Structure):
    _fields_ = [
        ("channel", CChannel),
        ("accepted", ctypes.c_uint64),
        ("stage", CStage * LUNS),
    ]


class CLogBroken(ctypes.Structure):
    _fields_ = [
        *((name, ctypes.c_uint64) for name in ("want", "other_want", "start", "earliest")),
        *((name, ctypes.c_uint16) for name in ("block", "page")),
        *((name, ctypes.c_uint8) for name in ("condition", "lun")),
        ("is_post", ctypes.c_bool),
    ]


class COutput(ctypes.Structure):
    _fields_ = [("column", ctypes.c_uint16), ("bytes", ctypes.c_uint16)]

    def told(self) -> Output:
        return Output(self.column, self.bytes)


class CNamed(ctypes.Structure):
    _fields_ = [
        ("want", ctypes.c_uint64),
        ("block", ctypes.c_uint16),
        ("lun", ctypes.c_uint8),
        ("part", ctypes.c_uint8),
        ("is_running", ctypes.c_bool),
    ]

    def told(self) -> NamedPhase:
        part = Part(self.part)
        return NamedPhase(part, lun=self.lun, block=self.block) if self.is_running else NamedPhase(part, want=self.want)


class CBroken(ctypes.Structure):
    _fields_ = [
        *((name, CNamed) for name in ("phase", "other")),
        *((name, ctypes.c_uint64) for name in ("want", "other_want", "start", "earliest", "held", "count", "right")),
        *((name, ctypes.c_uint8) for name in ("condition", "lun", "difference")),
    ]

    def told(self) -> Breach:
        condition = Condition(self.condition)
        made: Dict[str, Any] = {name: getattr(self, name) for name in told_by(condition)}
        for name in {"phase", "other"} & made.keys():
            made[name] = made[name].told()
        if "difference" in made:
            made["difference"] = Difference(made["difference"])
        return Breach(condition, **made)


class CVerdict(ctypes.Structure):
    _fields_ = [("finish", ctypes.c_uint64), ("place", ctypes.c_uint64)]


class CGeometry(ctypes.Structure):
    _fields_ = [
        *((name, ctypes.c_uint32) for name in ("blocks_per_lun", "page_bits", "block_bits", "lun_bits")),
        *((name, ctypes.c_uint16) for name in ("pages_per_block", "data_bytes", "spare_bytes")),
        *((name, ctypes.c_uint8) for name in ("lun_count", "plane_address_bits", "column_address_cycles", "row_address_cycles")),
        *((name, ctypes.c_bool) for name in ("any_page_order", "multi_plane_writes", "multi_plane_reads")),
    ]

    @classmethod
    def of(cls, geometry: Geometry) -> CGeometry:
        """The numbers of a geometry; a count is of as many bits as its place."""
        made = cls()
        for name, *_ in cls._fields_:
            value, most = getattr(geometry, name), 1 << 8 * getattr(cls, name).size
            setattr(made, name, bool(value) if isinstance(getattr(made, name), bool) else number(value, most, name))
        return made

    def told(self) -> Geometry:
        return Geometry(*(getattr(self, name) for name, *_ in self._fields_))


class CDevice(ctypes.Structure):
    _fields_ = [("timing", CTiming), ("lengths", CLengths), ("rules", CRules), ("geometry", CGeometry)]

    def told(self) -> Device:
        return Device(self.timing.told(), self.rules.told(), self.geometry.told(), self.lengths.told())
