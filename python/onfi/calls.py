"""The calls of the library, on dataclasses."""

from __future__ import annotations

import ctypes
from typing import Callable, Dict, Iterable, Optional, Tuple, Union

from onfi.breach import Breach
from onfi.library import library
from onfi.model import Answer, Channel, Device, Geometry, Output, Phase, Plan, Problem, Schedule, Stand, Want
from onfi.refused import REFUSALS, BadBy, BadKind, BadLimit, BadLun, BadMembers, BadOrder, BadPlace, BadWords, Clock, Illegal, NoLengths, Refused
from onfi.structs import WANTS, CBroken, CChannel, CDevice, CGeometry, COptions, COutput, CPhase, CPlan, CSchedule, CVerdict, CWant, CWeights
from onfi.structs import characters, each_of, number, octets

DONE, NO_ROOM, MEMORY = 0, 3, 4
# How a plan is found, by the words of the command line.
WAYS: Dict[str, int] = {"plain": 0, "within": 1, "rule": 2}
MOST_NODES = 1_048_576
FIRST_ROOM = 4096
Octets = Union[bytes, bytearray, memoryview]
Text = Union[str, Octets]
# What is asked of a channel with so many of its wants, and answered by a number.
Ask = Callable[[CChannel, int], int]
# Refusals that are of a LUN or of a want.
OF_ONE = {it.status for it in (BadKind, BadMembers, BadLun, Clock, BadPlace, BadOrder, NoLengths)}


def status_text(status: int) -> str:
    """The text of a number that a call answers; empty where nothing has it."""
    room = ctypes.create_string_buffer(256)
    size = ctypes.c_size_t()
    library().onfi_status_text(status, room, len(room), ctypes.byref(size))
    return room.raw[: size.value].decode("ascii")


def refusal(status: int, place: int = 0, breach: Optional[Breach] = None, lun: Optional[int] = None, want: Optional[int] = None) -> Refused:
    """The exception of a number that a call answers."""
    return REFUSALS.get(status, Refused)(status_text(status), place, breach, lun, want)


def with_room(call: Callable[..., int]) -> Tuple[int, bytes]:
    """A status and a text, by a call that is given room, and once more where that was too small."""
    size = ctypes.c_size_t()
    room = ctypes.create_string_buffer(FIRST_ROOM)
    status = call(room, len(room), ctypes.byref(size))
    while status == NO_ROOM:
        room = ctypes.create_string_buffer(size.value)
        status = call(room, len(room), ctypes.byref(size))
    return status, room.raw[: size.value]


class CProblem:
    """A channel and wants as the library takes them; a call may change them in place."""

    def __init__(self, channel: Channel, wants: Iterable[Want]) -> None:
        self.problem = Problem(channel, tuple(wants))
        given = self.problem.wants
        self.channel = CChannel.of(channel)
        self.wants = (CWant * max(len(given), WANTS))(*each_of("wants", CWant.of, given))
        self.count = ctypes.c_size_t(len(given))
        self.words = (ctypes.byref(self.channel), self.wants, self.count)

    def refused(self, status: int, place: int = 0, breach: Optional[Breach] = None, ask: Optional[Ask] = None) -> Refused:
        """The exception of a number that a call of it answers, which names the LUN or the want that it is of."""
        lun, want = self.faulty(status, ask or self.judged) if status in OF_ONE else (None, None)
        return refusal(status, place, breach, lun, want)

    def judged(self, channel: CChannel, wants: int) -> int:
        """What is answered of that channel with so many wants, and of a schedule without a start."""
        none, broken = CSchedule(channel.lun_count), CBroken()
        status: int = library().onfi_breach(ctypes.byref(channel), self.wants, wants, ctypes.byref(none), ctypes.byref(broken))
        return status

    def placed_on(self, geometry: CGeometry) -> Ask:
        """Asks whether the device has the pages of all that runs and waits."""

        def ask(channel: CChannel, wants: int) -> int:
            running = [(at, want) for at, lun in enumerate(channel.lun) for want in lun.member[: lun.members]]
            pages = [*running, *((want.lun, want) for want in self.wants[:wants])]
            rows = (library().onfi_row(ctypes.byref(geometry), lun, it.block, it.page, ctypes.byref(ctypes.c_uint32())) for lun, it in pages)
            return next(filter(None, rows), DONE)

        return ask

    def faulty(self, status: int, ask: Ask) -> Tuple[Optional[int], Optional[int]]:
        """The place of the LUN or of the want that this is refused for: without it, and without those after it, it isn't."""
        channel = CChannel.from_buffer_copy(self.channel)
        channel.lun = type(channel.lun)()
        if ask(channel, 0) == status:
            return None, None
        for at, lun in enumerate(self.channel.lun):
            channel.lun[at] = lun
            if ask(channel, 0) == status:
                return at, None
        return None, next((at for at in range(self.count.value) if ask(channel, at + 1) == status), None)

    def told(self, schedule: CSchedule) -> Stand:
        """What stands, with that schedule."""
        return Stand(self.channel.told(), tuple(it.told() for it in self.wants[: self.count.value]), schedule.told())


def options_of(by: str, limit: int, early: bool, weights: Iterable[int], running: Iterable[Iterable[int]]) -> COptions:
    """How a plan is found; `BadBy` and `BadLimit` where a word or a number has no place there."""
    if by not in WAYS:
        raise refusal(BadBy.status)
    if not 0 <= limit < 1 << 32:
        raise refusal(BadLimit.status)
    return COptions(limit, WAYS[by], early, CWeights.of(weights, running))


def plan(
    channel: Channel,
    wants: Iterable[Want],
    by: str = "plain",
    limit: int = MOST_NODES,
    early: bool = False,
    weights: Iterable[int] = (),
    running: Iterable[Iterable[int]] = (),
) -> Plan:
    """A schedule of up to eight wants, with a certificate that nothing ends before its `below`.

    By "plain" the schedule that no legal schedule beats, found by a search of at most `limit` nodes, 1 to 1,048,576, or `Over`. By "within" the
    same by a search that remembers states, which always gives a plan: after `limit` nodes the best that it found, no later than that by
    the rule, and as `below` the greatest time that is shown. By "rule" in one pass, without a search: again and again each LUN gives its
    next phase, or a group that may start, its oldest read, else program, else erase, with all that can join it, and the one of these goes
    that may start soonest.

    With `early` requests end early, each by its weight: `weights` gives those of wants by their places, `running` those of each LUN's
    running group by the places of its members; 1 counts where none is given. The plan ends as soon as without, and the sum of weight
    times end over all requests is no greater; that none has less isn't promised.

    Raises `BadBy`; `BadLimit`; `TooMany` of more than eight LUNs; `ZeroSpan`, `LongSpan`; `BadPlaneBits`; `BadMembers`; `BadKind`; `TooMany`;
    `BadLun`; `NoLengths`, where a read puts out so many sectors that the channel states no length of them, or a program or an erase has
    sectors; `Clock`; `Over`; `Memory`; the first of these. `ValueError` where a number doesn't fit its place in onfi.h.
    """
    options, said, made = options_of(by, limit, early, weights, running), CProblem(channel, wants), CPlan()
    call, words = library().onfi_plan, (ctypes.byref(options), ctypes.byref(made))
    status, certificate = with_room(lambda *room: call(*said.words, *words, *room))
    if status != DONE:
        raise said.refused(status)
    return Plan(made.schedule.told(), made.finish, made.below, certificate, made.opened, said.problem)


def check(channel: Channel, wants: Iterable[Want], plan: Plan) -> int:
    """When the plan's schedule ends, in ns, where it is legal and the certificate shows that no legal schedule of the wants ends before `below`.

    The schedule is optimal where that is its end; with 0 as `below` the certificate has to show its end. Whoever made the plan need not be
    trusted, nor what it says of its finish. The header of the certificate says whether it is a plain one or one that remembers states.

    Raises what `plan` raises of the channel; `BadSchedule`; `BadHeader`, `BadToken`, `TooManyTokens`, `OtherOption`; `Illegal`, whose `breach` is
    what `find_breach` gives; `EndsBefore`, where the schedule ends before `below`; `Short`, `Trailing`, `Width`, `BoundLow`, `YieldNoFit`,
    `YieldLoop`, `NotEnd`, `UnknownNode`, `OtherLeft`, `Sooner`, `TooManyNodes`; `Memory`; those of a token have its place.
    """
    said, verdict, shown = CProblem(channel, wants), CVerdict(), characters(plan.certificate, "a certificate")
    words = (ctypes.byref(CSchedule.of(plan.schedule)), number(plan.below, 1 << 64, "a time"), shown, len(shown))
    status = library().onfi_check(*said.words, *words, ctypes.byref(verdict))
    if status != DONE:
        raise said.refused(status, verdict.place, breach_of(said, plan.schedule) if status == Illegal.status else None)
    finish: int = verdict.finish
    return finish


def find_breach(channel: Channel, wants: Iterable[Want], schedule: Schedule) -> Optional[Breach]:
    """The first condition of a legal schedule that this one breaks, with whose phases or requests, when, and from when on it could; else None.

    No certificate is looked at. That the condition is broken and that what is told of it is so is proved, that none is that is looked
    at before it is shown by tests. Raises what `plan` raises of the channel; `BadSchedule`; `Memory`. `ValueError` where a group has not two
    starts for each member.
    """
    return breach_of(CProblem(channel, wants), schedule)


def breach_of(said: CProblem, schedule: Schedule) -> Optional[Breach]:
    broken = CBroken()
    status = library().onfi_breach(*said.words, ctypes.byref(CSchedule.of(schedule)), ctypes.byref(broken))
    if status not in (DONE, Illegal.status):
        raise said.refused(status)
    return broken.told() if status == Illegal.status else None


def due(channel: Channel, wants: Iterable[Want], geometry: Geometry, schedule: Schedule) -> Phase:
    """The phase that is due: the undone one of least start, with its address and its command bytes.

    Only this phase is looked at: of a schedule that isn't legal one may be given that may run.

    Raises what `plan` raises of the channel, but for `Memory`; `BadSchedule`; `Illegal` where the phase of least start may not
    run, or none has a start and something waits or runs; `BadGeometry`, `NothingDue`, `BadPlace`.
    """
    said, phase, device = CProblem(channel, wants), CPhase(), CGeometry.of(geometry)
    status = library().onfi_due(*said.words, ctypes.byref(device), ctypes.byref(CSchedule.of(schedule)), ctypes.byref(phase))
    if status != DONE:
        raise said.refused(status, ask=said.placed_on(device) if status == BadPlace.status else None)
    return phase.told()


def ran(channel: Channel, wants: Iterable[Want], schedule: Schedule, lun: int, phase: int, started: int) -> Stand:
    """What stands after the phase that is due, once it ran from `started` on, in ns, at or after its start by the schedule.

    The bus is free from its end, its LUN goes on or is free, a group that began has left the wants, and the starts that are
    left are later by as much as this one was. `lun` and `phase` are the LUN of the phase and its number in its group.

    Raises `TooMany` where more than eight wants wait; what `plan` raises of the channel, but for `Memory`; `BadSchedule`,
    `Illegal` as by `due`, `NothingDue`, `NotDue`, `TooSoon`; `Clock` where a phase would start at 2^62 ns or later, or what is
    left could last until then, so that no later call raises it of what this one made.
    """
    said, left = CProblem(channel, wants), CSchedule.of(schedule)
    words = (number(lun, 256, "a LUN"), number(phase, 256, "a phase"), number(started, 1 << 64, "a time"))
    status = library().onfi_ran(ctypes.byref(said.channel), said.wants, ctypes.byref(said.count), ctypes.byref(left), *words)
    if status != DONE:
        raise said.refused(status)
    return said.told(left)


def output_of(geometry: Geometry, sector_bytes: int, phase: Phase, first: int = 0) -> Output:
    """The column and the count of bytes of what a phase of `due` puts out of its page.

    The post of a read puts out all of its page, data bytes and spare bytes; where its kind names 1 to 7 sectors, those from sector
    `first` on, counted from 0, with `sector_bytes` bytes each, as `device_of_page` was given. Of a phase that names none the two mean
    nothing, and any other phase puts out no byte: column 0, bytes 0.

    Raises `BadKind` where the five low bits of the kind are above 2; `BadGeometry`; `BadSectors` where a read, in its command too, names
    sectors that have no byte or that go beyond the page. `ValueError` where `sector_bytes` isn't below 65,536, or `first` below 256.
    """
    told, words = COutput(), (number(sector_bytes, 65536, "the bytes of a sector"), ctypes.byref(CPhase.of(phase)), number(first, 256, "a sector"))
    status = library().onfi_output_of(ctypes.byref(CGeometry.of(geometry)), *words, ctypes.byref(told))
    if status != DONE:
        raise refusal(status)
    return told.told()


def row(geometry: Geometry, lun: int, block: int, page: int) -> int:
    """The row address of a page of a device: page, block and LUN number, from low to high bits.

    Raises `BadGeometry` where no parameter page gives the geometry, `BadPlace` where the device doesn't have the page.
    """
    told = ctypes.c_uint32()
    words = (number(lun, 256, "a LUN"), number(block, 65536, "a block"), number(page, 65536, "a page"))
    status = library().onfi_row(ctypes.byref(CGeometry.of(geometry)), *words, ctypes.byref(told))
    if status != DONE:
        raise refusal(status)
    return told.value


def device_of_page(page: Octets, sheet: Text, strobes: Text = b"", sector_bytes: int = 0) -> Device:
    """The device that the bytes of a parameter page and the text of a timing sheet describe, with strobes or without.

    The sheet has a row NAME,VALUE, in ns, for each of tWC, tRC, tADL, tWHR, tRHW, tWB, tPLRBSY, tPLPBSY and tPLEBSY. The rules
    that are given aren't strict: where bit 1 of the page's byte 114 is clear the device has block address restrictions, and its
    channel needs rules with `strict=True`.

    `strobes` is for a device of NV-DDR2 or NV-DDR3: a row NAME,VALUE, in ps, for each of tRPRE, tRC, tRPST, tRPSTH, tWPRE, tDSC,
    tWPST and tWPSTH. Data and status bytes go by them, two in a cycle, and each length is its sum in ps, rounded up to whole ns
    once; tRC of the sheet may then be missing. An empty text is none.

    The device's `lengths` are those of reads of 1 to 7 sectors of `sector_bytes` bytes each: the post of so many sectors is that of a
    read whose page has their bytes. None is stated of more sectors than a page has bytes for, its spare bytes among them, nor of any
    where `sector_bytes` is 0.

    Raises the first fault of the page (`PageShort`, `NoCopy`), of the device (`WideBus` .. `TooLarge`), of the sheet
    (`SheetMissing` .. `SheetTooLong`, with the row or the parameter as its place) or of the strobes (`StrobeMissing` ..
    `StrobeNotANumber`, with theirs; `SheetZeroCycle` and `SheetTooLong` speak of them too); `Memory`. `TypeError` where the page
    isn't bytes, or the sheet or the strobes neither str nor bytes; `ValueError` where `sector_bytes` isn't below 65,536.
    """
    device, place = CDevice(), ctypes.c_uint64()
    texts = [octets(page, "a parameter page"), characters(sheet, "a timing sheet"), characters(strobes, "a text of strobes")]
    words = [word for it in texts for word in (it, len(it))]
    sector = number(sector_bytes, 65536, "the bytes of a sector")
    status = library().onfi_device_of_page(*words, sector, ctypes.byref(device), ctypes.byref(place))
    if status != DONE:
        raise refusal(status, place.value)
    return device.told()


def text(words: str, script: Text) -> Answer:
    """What `onfi_sim` writes for a script where its command line has these words: `text("plan --by within --trace", script)`.

    The words are those of `plan`, `check` or `audit`, with one space between two of them; the script, str or bytes, is what the program
    would read, with the plan text or the log after it. Raises `BadWords`; `Memory`.
    """
    asked, given = characters(words, "words"), characters(script, "a script")
    status, answer = with_room(lambda *room: library().onfi_text(asked, len(asked), given, len(given), *room))
    if status in (MEMORY, BadWords.status):
        raise refusal(status)
    return Answer(answer, status)


def library_version() -> str:
    """The version of the library that is loaded, as `__version__` is that of this package."""
    number: int = library().onfi_version()
    return f"{number // 10_000}.{number // 100 % 100}.{number % 100}"
