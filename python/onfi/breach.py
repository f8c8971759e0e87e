"""Which condition of a legal schedule is broken, and by what."""

from __future__ import annotations

import enum
import string
from dataclasses import dataclass
from typing import Dict, FrozenSet, Optional


class Condition(enum.IntEnum):
    """The conditions of a legal schedule, in the order in which they are looked at.

    Some are looked at together: 3 and 4, 14 and 15 LUN by LUN, 7 and 8 request by request, 9 to 11 group by group.
    """

    FOREIGN_LUN = 1
    """No starts are of a LUN past the last one."""
    MISSING_LUN = 2
    """There are starts of each LUN, if only an empty list of them."""
    REST_OF_FREE_LUN = 3
    """There are none of a LUN that is free."""
    REST_COUNT = 4
    """There are as many of a running group as it has phases left."""
    START_COUNT = 5
    """A group has two starts for each member; the package itself refuses other groups, by `ValueError`."""
    UNKNOWN_REQUEST = 6
    """Groups name no other requests than there are."""
    MISSING_REQUEST = 7
    """Each request is in a group."""
    REPEATED_REQUEST = 8
    """None is in groups more than once."""
    MIXED_GROUP = 9
    """Members share kind, LUN and page, and where groups are strict the block number above the plane bits."""
    SINGLE_PLANE = 10
    """Several requests are one group only where the rules have several planes at once for their kind."""
    PLANE_ORDER = 11
    """The planes of members rise."""
    BUS_NOT_FREE = 12
    """No phase starts before the bus is free."""
    OVERLAP = 13
    """No two phases overlap."""
    NOT_READY = 14
    """A running group goes on once its LUN is ready."""
    WAIT_TOO_SHORT = 15
    """Each phase waits for the one before it in its group."""
    RUNNING_GROUP_LEFT = 16
    """A new group waits for the running group of its LUN."""
    LUN_TAKEN = 17
    """Groups of one LUN take turns."""
    LUN_NOT_FREE = 18
    """A new group starts once its LUN is free."""
    BLOCK_ORDER = 19
    """Of two requests on one block the group of the earlier has ended when that of the later starts."""


class Part(enum.IntEnum):
    """What a phase is to its request."""

    COMMAND = 0
    """The command with its address and data."""
    DATA_OUTPUT = 1
    """The data output of a read."""
    STATUS = 2
    """The status of a program or an erase."""


class Difference(enum.IntEnum):
    """In what two members of a group differ, and may not."""

    KIND = 1
    LUN = 2
    PAGE = 3
    BLOCK = 4
    """The block number above the plane bits."""


DIFFERENCES = {Difference.KIND: "kinds", Difference.LUN: "LUNs", Difference.PAGE: "pages", Difference.BLOCK: "block numbers above the plane bits"}
# What a breach of each condition says; the names in it are those that it gives.
SENTENCES: Dict[Condition, str] = {
    Condition.FOREIGN_LUN: "the schedule has starts for a LUN that isn't there; the last one is LUN {lun}",
    Condition.MISSING_LUN: "the schedule leaves out LUN {lun}",
    Condition.REST_OF_FREE_LUN: "the schedule goes on with LUN {lun}, which is free",
    Condition.REST_COUNT: "the number of starts for LUN {lun}'s running group is {count} in place of {right}",
    Condition.START_COUNT: "the number of starts for the group of request {want} is {count} in place of {right}",
    Condition.UNKNOWN_REQUEST: "the schedule names request {want}, which isn't there",
    Condition.MISSING_REQUEST: "request {want} isn't in the schedule",
    Condition.REPEATED_REQUEST: "request {want} is in the schedule {count} times",
    Condition.MIXED_GROUP: "request {want} can't be grouped with request {other_want}: their {difference} differ",
    Condition.SINGLE_PLANE: "request {want} can't be grouped with request {other_want}: the device has no multi-plane operation of their kind",
    Condition.PLANE_ORDER: "request {want} can't follow request {other_want} in a group: its plane isn't higher",
    Condition.BUS_NOT_FREE: "{phase} starts at {start} ns; the bus is free from {earliest} ns",
    Condition.OVERLAP: "{phase} starts at {start} ns, while {other} holds the bus from {held} to {earliest} ns",
    Condition.NOT_READY: "{phase} starts at {start} ns; its LUN {lun} is ready from {earliest} ns",
    Condition.WAIT_TOO_SHORT: "{phase} starts at {start} ns; behind {other} its LUN {lun} is ready from {earliest} ns",
    Condition.RUNNING_GROUP_LEFT: "{phase} starts at {start} ns; LUN {lun}'s running group ends at {earliest} ns",
    Condition.LUN_TAKEN: "{phase} starts at {start} ns, while the group of request {other_want} has LUN {lun} from {held} to {earliest} ns",
    Condition.LUN_NOT_FREE: "{phase} starts at {start} ns; its LUN {lun} is free from {earliest} ns",
    Condition.BLOCK_ORDER: (
        "the group of request {want} starts at {start} ns; that of request {other_want}, which comes first on the same block, ends at {earliest} ns"
    ),
}


def told_by(condition: Condition) -> FrozenSet[str]:
    """The names of what a breach of the condition gives."""
    return frozenset(name for _, name, _, _ in string.Formatter().parse(SENTENCES[condition]) if name)


@dataclass(frozen=True)
class NamedPhase:
    """A phase of a schedule by its name: whose command or post it is."""

    part: Part
    want: Optional[int] = None
    """The id of its request; None where it is of a group that runs as the planning begins."""
    lun: Optional[int] = None
    """Of such a one its LUN."""
    block: Optional[int] = None
    """.. and the block of its member."""

    def __str__(self) -> str:
        part = {Part.COMMAND: "command", Part.DATA_OUTPUT: "data output", Part.STATUS: "status"}[self.part]
        owner = f"block {self.block} in LUN {self.lun}'s running group" if self.want is None else f"request {self.want}"
        return f"the {part} of {owner}"


@dataclass(frozen=True)
class Breach:
    """The first condition that a schedule breaks; as a str it is one sentence. What it doesn't say is None. Times are ns."""

    condition: Condition
    phase: Optional[NamedPhase] = None
    """The phase that starts too soon."""
    other: Optional[NamedPhase] = None
    """The phase before it in its group, or that has the bus."""
    want: Optional[int] = None
    """The id of the request that is spoken of."""
    other_want: Optional[int] = None
    """That of the other one: the first of its group, the one before it there, or the earlier one on its block."""
    lun: Optional[int] = None
    start: Optional[int] = None
    """When the phase starts by the schedule."""
    earliest: Optional[int] = None
    """From when on it could, as far as this condition goes."""
    held: Optional[int] = None
    """Since when what is in its way has the bus or the LUN."""
    count: Optional[int] = None
    """How many there are."""
    right: Optional[int] = None
    """How many there have to be."""
    difference: Optional[Difference] = None
    """In what the two members of a group differ."""

    def __str__(self) -> str:
        told: Dict[str, object] = {name: getattr(self, name) for name in told_by(self.condition)}
        if self.difference is not None:
            told["difference"] = DIFFERENCES[self.difference]
        return SENTENCES[self.condition].format(**told)
