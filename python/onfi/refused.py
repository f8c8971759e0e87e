"""What is refused, as exceptions that are named like the refusals."""

from __future__ import annotations

from typing import Dict, Optional, Type

from onfi.breach import Breach


class Refused(Exception):
    """A call gives nothing."""

    status = 0
    """The number that onfi.h gives it."""

    def __init__(
        self,
        text: str,
        place: int = 0,
        breach: Optional[Breach] = None,
        lun: Optional[int] = None,
        want: Optional[int] = None,
        request: Optional[int] = None,
    ) -> None:
        named = [f"luns[{lun}]"] * (lun is not None) + [f"wants[{want}]"] * (want is not None) + [str(breach)] * (breach is not None)
        super().__init__(": ".join([text, *named, *([f"request {request}"] * (request is not None))]))
        self.lun, self.want = lun, want
        """The place, in the list that was given, of the LUN or of the want that it is of; None where it is of none alone."""
        self.request = request
        """The number of the request that it is of, by a `Dispatcher`; else None."""
        self.breach = breach
        """The condition that a schedule breaks, of `Illegal` by a check; else None."""
        self.place = place
        """The token of a certificate that it speaks of, counted from 0, or the row, from 1, or the parameter of a timing sheet."""


# from here on written by tools/make-statuses
class Memory(Refused):
    """Memory was refused."""

    status = 4


class BadLimit(Refused):
    """A search may open no node, or more than 1,048,576."""

    status = 5


class Over(Refused):
    """As many nodes were opened as may be, and the search isn't over."""

    status = 6


class BadBy(Refused):
    """A plan is to be found in another way than by ONFI_PLAIN, ONFI_WITHIN or ONFI_RULE."""

    status = 7


class BadWords(Refused):
    """Words that ask for nothing that this call answers."""

    status = 9


class ZeroSpan(Refused):
    """A command or a post takes no time."""

    status = 10


class LongSpan(Refused):
    """A length or a wait is 2^50 ns or more."""

    status = 11


class BadPlaneBits(Refused):
    """More than 2 bits name the plane."""

    status = 12


class BadKind(Refused):
    """The kind of a want is above 2."""

    status = 13


class BadMembers(Refused):
    """A running group has more than 4 members."""

    status = 14


class TooMany(Refused):
    """More than eight wants, no LUN, or more than eight; or 64 requests wait for the LUN."""

    status = 20


class BadLun(Refused):
    """A want or a running group that the LUNs can't have, an erase of another page than 0, or ids of wants that are equal or don't rise."""

    status = 21


class Clock(Refused):
    """Times that reach 2^62 ns."""

    status = 22


class BadPlace(Refused):
    """A LUN, block or page that the device doesn't have."""

    status = 23


class BadGeometry(Refused):
    """A geometry that no parameter page gives."""

    status = 24


class BadOrder(Refused):
    """The number of a request isn't above that of the last one that waits for its LUN, or one of that number waits."""

    status = 27


class NoLengths(Refused):
    """A read of so many sectors without a post of as many, or sectors of what is no read."""

    status = 28


class BadSectors(Refused):
    """Sectors of a read that its page doesn't have, or that have no byte."""

    status = 29


class BadSchedule(Refused):
    """A count of a schedule is out of its range, or a start is 2^63 ns or more."""

    status = 30


class NothingDue(Refused):
    """No phase is left, or none was given since something changed."""

    status = 31


class NotDue(Refused):
    """The phase isn't the one that is due."""

    status = 33


class TooSoon(Refused):
    """The phase started before it may."""

    status = 34


class NotWaiting(Refused):
    """No request of that number waits."""

    status = 35


class BadDispatcher(Refused):
    """A dispatcher is none: something else wrote its memory."""

    status = 36


class BadHeader(Refused):
    """The header line is none of a certificate."""

    status = 40


class BadToken(Refused):
    """No token stands at the place, or so many good ones do and the text doesn't end with one LF after them."""

    status = 41


class TooManyTokens(Refused):
    """A certificate has more than 100,000,000 tokens."""

    status = 42


class OtherOption(Refused):
    """The header names another option than the channel has."""

    status = 43


class Illegal(Refused):
    """The schedule isn't legal."""

    status = 50


class Short(Refused):
    """The tokens end inside a tree."""

    status = 51


class Trailing(Refused):
    """A token stands after the tree."""

    status = 52


class Width(Refused):
    """A branch has another width than there are moves, or there is no move."""

    status = 53


class BoundLow(Refused):
    """A bound doesn't reach the finish, or there is none."""

    status = 54


class YieldNoFit(Refused):
    """A move of the LUN that is yielded to doesn't end in time, or there is none."""

    status = 55


class YieldLoop(Refused):
    """A move yields to its own LUN, to one that yields, or was yielded to."""

    status = 56


class NotEnd(Refused):
    """Something is left to do, or less time has passed."""

    status = 57


class EndsBefore(Refused):
    """The schedule ends before the time that is given."""

    status = 58


class PageShort(Refused):
    """A parameter page has fewer than 256 bytes."""

    status = 60


class NoCopy(Refused):
    """No copy of a parameter page has two signature bytes and the right check value."""

    status = 61


class WideBus(Refused):
    """The data bus has 16 bits."""

    status = 70


class NoStatusEnhanced(Refused):
    """The device has no Read Status Enhanced."""

    status = 71


class NoColumnEnhanced(Refused):
    """The device has no Change Read Column Enhanced."""

    status = 72


class NoMultiLun(Refused):
    """Several LUNs, and not at the same time."""

    status = 73


class LunCount(Refused):
    """No LUN, or more than eight."""

    status = 74


class PlaneBits(Refused):
    """More than 2 plane address bits."""

    status = 75


class Zero(Refused):
    """No page, no block or no data byte."""

    status = 76


class RowTooWide(Refused):
    """A row address doesn't fit the row address cycles."""

    status = 77


class ColumnTooWide(Refused):
    """A column address doesn't fit the column address cycles."""

    status = 78


class TooLarge(Refused):
    """More than 4,096 pages a block, 65,536 blocks a LUN or 65,535 bytes a page."""

    status = 79


class SheetMissing(Refused):
    """The sheet gives no value for a parameter."""

    status = 80


class SheetRepeated(Refused):
    """The sheet gives a parameter twice."""

    status = 81


class SheetUnknown(Refused):
    """A row of the sheet is no parameter with its value."""

    status = 82


class SheetNotANumber(Refused):
    """The value of a row of the sheet is no number."""

    status = 83


class SheetZeroCycle(Refused):
    """tWC or tRC is 0."""

    status = 84


class SheetTooLong(Refused):
    """A value is 2^32 ns or more."""

    status = 85


class StrobeMissing(Refused):
    """The strobes give no value for a parameter."""

    status = 86


class StrobeRepeated(Refused):
    """The strobes give a parameter twice."""

    status = 87


class StrobeUnknown(Refused):
    """A row of the strobes is no parameter with its value."""

    status = 88


class StrobeNotANumber(Refused):
    """The value of a row of the strobes is no number."""

    status = 89


class UnknownNode(Refused):
    """No open node has ended as that number."""

    status = 90


class OtherLeft(Refused):
    """Something else is left at the node that is named."""

    status = 91


class Sooner(Refused):
    """A LUN may go on sooner than is asked at the node that is named."""

    status = 92


class TooManyNodes(Refused):
    """More than 1,048,576 open nodes."""

    status = 93


# until here
REFUSALS: Dict[int, Type[Refused]] = {
    it.status: it
    for it in (
        # from here on written by tools/make-statuses
        Memory,
        BadLimit,
        Over,
        BadBy,
        BadWords,
        ZeroSpan,
        LongSpan,
        BadPlaneBits,
        BadKind,
        BadMembers,
        TooMany,
        BadLun,
        Clock,
        BadPlace,
        BadGeometry,
        BadOrder,
        NoLengths,
        BadSectors,
        BadSchedule,
        NothingDue,
        NotDue,
        TooSoon,
        NotWaiting,
        BadDispatcher,
        BadHeader,
        BadToken,
        TooManyTokens,
        OtherOption,
        Illegal,
        Short,
        Trailing,
        Width,
        BoundLow,
        YieldNoFit,
        YieldLoop,
        NotEnd,
        EndsBefore,
        PageShort,
        NoCopy,
        WideBus,
        NoStatusEnhanced,
        NoColumnEnhanced,
        NoMultiLun,
        LunCount,
        PlaneBits,
        Zero,
        RowTooWide,
        ColumnTooWide,
        TooLarge,
        SheetMissing,
        SheetRepeated,
        SheetUnknown,
        SheetNotANumber,
        SheetZeroCycle,
        SheetTooLong,
        StrobeMissing,
        StrobeRepeated,
        StrobeUnknown,
        StrobeNotANumber,
        UnknownNode,
        OtherLeft,
        Sooner,
        TooManyNodes,
        # until here
    )
}

__all__ = [
    "REFUSALS",
    "Refused",
    # from here on written by tools/make-statuses
    "BadBy",
    "BadDispatcher",
    "BadGeometry",
    "BadHeader",
    "BadKind",
    "BadLimit",
    "BadLun",
    "BadMembers",
    "BadOrder",
    "BadPlace",
    "BadPlaneBits",
    "BadSchedule",
    "BadSectors",
    "BadToken",
    "BadWords",
    "BoundLow",
    "Clock",
    "ColumnTooWide",
    "EndsBefore",
    "Illegal",
    "LongSpan",
    "LunCount",
    "Memory",
    "NoColumnEnhanced",
    "NoCopy",
    "NoLengths",
    "NoMultiLun",
    "NoStatusEnhanced",
    "NotDue",
    "NotEnd",
    "NotWaiting",
    "NothingDue",
    "OtherLeft",
    "OtherOption",
    "Over",
    "PageShort",
    "PlaneBits",
    "RowTooWide",
    "SheetMissing",
    "SheetNotANumber",
    "SheetRepeated",
    "SheetTooLong",
    "SheetUnknown",
    "SheetZeroCycle",
    "Short",
    "Sooner",
    "StrobeMissing",
    "StrobeNotANumber",
    "StrobeRepeated",
    "StrobeUnknown",
    "TooLarge",
    "TooMany",
    "TooManyNodes",
    "TooManyTokens",
    "TooSoon",
    "Trailing",
    "UnknownNode",
    "WideBus",
    "Width",
    "YieldLoop",
    "YieldNoFit",
    "Zero",
    "ZeroSpan",
    # until here
]
