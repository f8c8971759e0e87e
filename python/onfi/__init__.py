"""Optimal bus schedules of ONFI channels, and the check of any schedule, by the proved library libonfi.so.

What plans the wants of a channel:
    plan              by a plain search, within a limit, or by a rule; with a certificate, and so that requests end early where that is asked
What judges a schedule or a log, whoever made it:
    check             when a schedule ends that a certificate shows to be the best, or no sooner than a time
    find_breach       the first condition that a schedule breaks
    audit, audit_phases                 what a log breaks, as a whole or as it comes; `Audit` judges phase by phase
What drives a channel:
    Dispatcher        one phase after another, as requests come: `accept`, `next`, `ran`, `ready`; `phases` runs all, `run` a trace
    play, phases_of   a trace over a `Dispatcher`, or a `Scheduler` of one's own; a `Run` has tables and a chart
    gantt, waveform   phases as SVG
    due, ran          of a plan the phase that is due, and what stands after it; `Driver` keeps all that stands, for a loop
    row, output_of    the row address of a page, and the column and bytes of a data output
What a device is by its parameter page, and kinds of reads of some sectors:
    device_of_page, kind_by
What `onfi_sim` writes for a script, and the version of the library:
    text, library_version

    from onfi import Channel, Kind, Lun, Rules, Spans, Timing, Want, check, plan

    timing = Timing(read=Spans(140, 600, 25_100, 11_000), program=Spans(10_800, 600, 200_100, 280), erase=Spans(100, 600, 1_500_100, 280))
    channel = Channel(timing, Rules(read=True, write=True, plane_bits=1), luns=[Lun(), Lun()])
    wants = [Want(0, Kind.READ, lun=0, block=0, page=5), Want(1, Kind.READ, lun=1, block=0, page=0)]
    made = plan(channel, wants)
    assert check(channel, wants, made) == made.finish
    for start, end, lun, want, kind, is_post in made.phases():
        print(f"LUN {lun} from {start} to {end} ns: {kind.name.lower()} {want}, {'post' if is_post else 'command'}")

Times are ns of the channel's clock, below 2^62; lengths and waits are below 2^50. What is refused raises the exception that is
named like the refusal, a class of `Refused`; it names the LUN or the want that it is of by its place. The library is that of the
environment's ONFI_LIBRARY, else one beside this file, as a wheel has it, else lib/libonfi.so of the checkout that this file stands in,
else the system's; where there is none, the first call raises `OSError` and says what was tried.
"""

from onfi.breach import Breach, Condition, Difference, NamedPhase, Part
from onfi.calls import check, device_of_page, due, find_breach, library_version, output_of, plan, ran, row, text
from onfi.dispatcher import Dispatcher
from onfi.driver import Driver
from onfi.logs import Audit, LogBreach, LogCondition, Logged, audit, audit_phases
from onfi.model import (
    Answer,
    BusPhase,
    Channel,
    Device,
    Geometry,
    Group,
    Kind,
    Lengths,
    Lun,
    Output,
    Phase,
    Plan,
    Problem,
    Rules,
    Schedule,
    Spans,
    Stand,
    Timing,
    Want,
    kind_by,
)
from onfi.pictures import gantt, waveform
from onfi.refused import (
    # from here on written by tools/make-statuses
    REFUSALS,
    BadBy,
    BadDispatcher,
    BadGeometry,
    BadHeader,
    BadKind,
    BadLimit,
    BadLun,
    BadMembers,
    BadOrder,
    BadPlace,
    BadPlaneBits,
    BadSchedule,
    BadSectors,
    BadToken,
    BadWords,
    BoundLow,
    Clock,
    ColumnTooWide,
    EndsBefore,
    Illegal,
    LongSpan,
    LunCount,
    Memory,
    NoColumnEnhanced,
    NoCopy,
    NoLengths,
    NoMultiLun,
    NoStatusEnhanced,
    NotDue,
    NotEnd,
    NotWaiting,
    NothingDue,
    OtherLeft,
    OtherOption,
    Over,
    PageShort,
    PlaneBits,
    Refused,
    RowTooWide,
    SheetMissing,
    SheetNotANumber,
    SheetRepeated,
    SheetTooLong,
    SheetUnknown,
    SheetZeroCycle,
    Short,
    Sooner,
    StrobeMissing,
    StrobeNotANumber,
    StrobeRepeated,
    StrobeUnknown,
    TooLarge,
    TooMany,
    TooManyNodes,
    TooManyTokens,
    TooSoon,
    Trailing,
    UnknownNode,
    WideBus,
    Width,
    YieldLoop,
    YieldNoFit,
    Zero,
    ZeroSpan,
    # until here
)
from onfi.running import BadStep, Run, Scheduler, Step, phases_of, play

__all__ = [
    "Answer",
    "Audit",
    "BadBy",
    "BadDispatcher",
    "BadGeometry",
    "BadHeader",
    "BadKind",
    "BadLimit",
    "BadLun",
    "BadMembers",
    "BadOrder",
    "BadPlace",
    "BadPlaneBits",
    "BadSchedule",
    "BadSectors",
    "BadStep",
    "BadToken",
    "BadWords",
    "BoundLow",
    "Breach",
    "BusPhase",
    "Channel",
    "Clock",
    "ColumnTooWide",
    "Condition",
    "Device",
    "Difference",
    "Dispatcher",
    "Driver",
    "EndsBefore",
    "Geometry",
    "Group",
    "Illegal",
    "Kind",
    "Lengths",
    "LogBreach",
    "LogCondition",
    "Logged",
    "LongSpan",
    "Lun",
    "LunCount",
    "Memory",
    "NODES",
    "NamedPhase",
    "NoColumnEnhanced",
    "NoCopy",
    "NoLengths",
    "NoMultiLun",
    "NoStatusEnhanced",
    "NotDue",
    "NotEnd",
    "NotWaiting",
    "NothingDue",
    "OtherLeft",
    "OtherOption",
    "Output",
    "Over",
    "PageShort",
    "Part",
    "Phase",
    "Plan",
    "PlaneBits",
    "Problem",
    "REFUSALS",
    "Refused",
    "RowTooWide",
    "Rules",
    "Run",
    "Schedule",
    "Scheduler",
    "SheetMissing",
    "SheetNotANumber",
    "SheetRepeated",
    "SheetTooLong",
    "SheetUnknown",
    "SheetZeroCycle",
    "Short",
    "Sooner",
    "Spans",
    "Stand",
    "Step",
    "StrobeMissing",
    "StrobeNotANumber",
    "StrobeRepeated",
    "StrobeUnknown",
    "Timing",
    "TooLarge",
    "TooMany",
    "TooManyNodes",
    "TooManyTokens",
    "TooSoon",
    "Trailing",
    "UnknownNode",
    "Want",
    "WideBus",
    "Width",
    "YieldLoop",
    "YieldNoFit",
    "Zero",
    "ZeroSpan",
    "__version__",
    "audit",
    "audit_phases",
    "check",
    "device_of_page",
    "due",
    "find_breach",
    "gantt",
    "kind_by",
    "library_version",
    "output_of",
    "phases_of",
    "plan",
    "play",
    "ran",
    "row",
    "text",
    "waveform",
]

__version__ = "0.9.0"

NODES = 1_048_576
"""The most nodes that a search may open."""
