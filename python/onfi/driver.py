"""A channel that a loop drives, kept as the library takes it."""

from __future__ import annotations

import ctypes
from typing import Iterable, Optional, Tuple

from onfi.calls import DONE, MOST_NODES, CProblem, options_of
from onfi.library import library
from onfi.model import Channel, Geometry, Lun, Phase, Schedule, Stand, Want
from onfi.refused import BadPlace, NothingDue, TooMany
from onfi.structs import WANTS, CGeometry, CPhase, CPlan, CSchedule, CWant, each_of, number


class Driver:
    """A channel with all that stands on it, kept as the library takes it and changed in place: a call makes nothing anew.

        driver = Driver(channel, geometry)
        driver.set_wants(wants)
        driver.plan()
        while phase := driver.due():
            driver.ran(phase, started)

    Each call is the one of its name beside it in this package, of what stands, and raises what that does; then all stands as before.
    """

    def __init__(self, channel: Channel, geometry: Geometry) -> None:
        self._said = CProblem(channel, ())
        self._lun_count = len(channel.luns)
        self._geometry = CGeometry.of(geometry)
        self._made = CPlan(CSchedule(self._lun_count))
        self._phase = CPhase()

    def __repr__(self) -> str:
        return f"Driver({self.stand})"

    @property
    def bus_free(self) -> int:
        """From when on the bus is free, in ns: a later time where a phase took longer, or where planning begins later."""
        return int(self._said.channel.bus_free)

    @bus_free.setter
    def bus_free(self, time: int) -> None:
        self._said.channel.bus_free = number(time, 1 << 64, "a time")

    def lun(self, at: int) -> Lun:
        """What the LUN does."""
        told: Lun = self._said.channel.lun[self._place(at)].told()
        return told

    def set_lun(self, at: int, lun: Lun) -> None:
        """Says what the LUN does, as after a reset."""
        place = self._place(at)
        self._said.channel.lun[place] = next(each_of("luns", type(self._said.channel.lun[place]).of, [lun]))

    def set_since(self, at: int, time: int) -> None:
        """Says from when on the LUN goes on, in ns, as where it was ready before its stated time."""
        self._said.channel.lun[self._place(at)].since = number(time, 1 << 64, "a time")

    def _place(self, at: int) -> int:
        if not 0 <= at < self._lun_count:
            raise IndexError(f"there is no LUN {at}")
        return at

    @property
    def wants(self) -> Tuple[Want, ...]:
        """What waits."""
        return tuple(it.told() for it in self._said.wants[: self._said.count.value])

    def set_wants(self, wants: Iterable[Want]) -> None:
        """Says what waits, up to eight, in place of what did; a plan has to follow. Raises `TooMany`."""
        made = [*each_of("wants", CWant.of, tuple(wants))]
        if len(made) > WANTS:
            raise self._said.refused(TooMany.status)
        self._said.wants[: len(made)] = made
        self._said.count.value = len(made)

    @property
    def schedule(self) -> Schedule:
        """What is left of the schedule; one that is set is of what stands."""
        left: Schedule = self._made.schedule.told()
        return left

    @schedule.setter
    def schedule(self, schedule: Schedule) -> None:
        self._made.schedule = CSchedule.of(schedule)

    @property
    def finish(self) -> int:
        """When the last plan ends, in ns, as it was made."""
        return int(self._made.finish)

    @property
    def below(self) -> int:
        """Before when nothing ends, in ns, by the last plan as it was made."""
        return int(self._made.below)

    @property
    def stand(self) -> Stand:
        """All that stands."""
        return self._said.told(self._made.schedule)

    def plan(
        self, by: str = "within", limit: int = MOST_NODES, early: bool = False, weights: Iterable[int] = (), running: Iterable[Iterable[int]] = ()
    ) -> None:
        """Plans what waits; no certificate is written."""
        options, size = options_of(by, limit, early, weights, running), ctypes.c_size_t()
        status = library().onfi_plan(*self._said.words, ctypes.byref(options), ctypes.byref(self._made), None, 0, ctypes.byref(size))
        if status != DONE:
            raise self._said.refused(status)

    def due(self) -> Optional[Phase]:
        """The phase that is due; None where no phase is left."""
        schedule, phase = ctypes.byref(self._made.schedule), ctypes.byref(self._phase)
        status = library().onfi_due(*self._said.words, ctypes.byref(self._geometry), schedule, phase)
        if status == NothingDue.status:
            return None
        if status != DONE:
            raise self._said.refused(status, ask=self._said.placed_on(self._geometry) if status == BadPlace.status else None)
        return self._phase.told()

    def ran(self, phase: Phase, started: int) -> None:
        """Makes what stands after the phase that is due, which ran from `started` on, in ns."""
        said = self._said
        words = (number(phase.lun, 256, "a LUN"), number(phase.number, 256, "a phase"), number(started, 1 << 64, "a time"))
        status = library().onfi_ran(ctypes.byref(said.channel), said.wants, ctypes.byref(said.count), ctypes.byref(self._made.schedule), *words)
        if status != DONE:
            raise said.refused(status)
