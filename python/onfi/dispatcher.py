"""A channel that goes on, phase by phase."""

from __future__ import annotations

import ctypes
from typing import Iterable, Iterator, Optional

from onfi.calls import DONE, CProblem, status_text
from onfi.library import library
from onfi.logs import Audit
from onfi.model import Channel, Geometry, Phase, Want
from onfi.refused import REFUSALS, BadPlace, NothingDue, Refused
from onfi.running import Arrival, phases_of
from onfi.structs import CDispatcher, CGeometry, CPhase, CWant, number


class Dispatcher:
    """A channel that takes requests as they come, and says again and again which phase is next, with its address and its command bytes.

        channel = Dispatcher(Channel(timing, rules, [Lun()] * 8), geometry)
        channel.accept(Want(0, Kind.READ, lun=3, block=5, page=7))
        for phase in channel.phases():
            print(phase.start, phase.lun, phase.kind.name, phase.want)

    `phases` runs each as soon as it may, for as long as is stated. A loop with a clock of its own asks for one after another:

        phase = channel.next(now)        # None: nothing runs, and nothing waits
        ..                               # wait until phase.start, and have it on the bus
        channel.ran(started)

    No batch is planned, and 64 requests may wait for each LUN. Times are ns. A call that raises a `Refused` changes nothing.
    """

    def __init__(self, channel: Channel, geometry: Geometry) -> None:
        """Begins with the channel as it stands; nothing waits.

        Raises what `plan` raises of the channel; `BadGeometry`; `BadPlace` where the device lacks what a LUN runs.
        """
        said, self._kept = CProblem(channel, ()), CDispatcher()
        self._phase, device, self._luns = CPhase(), CGeometry.of(geometry), len(channel.luns)
        status = library().onfi_dispatcher_begin(ctypes.byref(self._kept), ctypes.byref(said.channel), ctypes.byref(device))
        if status != DONE:
            raise said.refused(status, ask=said.placed_on(device) if status == BadPlace.status else None)

    def __repr__(self) -> str:
        """How many LUNs it has, and which phase is next at time 0; what is due stays so."""
        ahead = type(self).__new__(type(self))
        ahead._kept, ahead._phase, ahead._luns = CDispatcher.from_buffer_copy(self._kept), CPhase(), self._luns
        return f"Dispatcher({self._luns} LUNs, next: {ahead.next()})"

    def accept(self, want: Want) -> None:
        """Takes in a request, after the others that wait for its LUN. Its number is above theirs.

        Raises `BadKind`, `BadLun`, `BadPlace`, `NoLengths` where the device has no such request; `TooMany` where 64 wait for its
        LUN; `BadOrder`. The refusal names the request, and the others go on.
        """
        self._take("onfi_dispatcher_accept", want)

    def accept_again(self, want: Want) -> None:
        """Takes in a request that began and has to run once more, as after a reset or a read that is tried again, before all that waits for its LUN.

        Raises what `accept` does; `BadOrder` where one of its number waits.
        """
        self._take("onfi_dispatcher_accept_again", want)

    def _take(self, name: str, want: Want) -> None:
        given = CWant.of(want)
        status = getattr(library(), name)(ctypes.byref(self._kept), ctypes.byref(given))
        if status != DONE:
            raise refused(status, request=want.id)

    def cancel(self, request: int) -> None:
        """The request of that number waits no more. Raises `NotWaiting` where none waits."""
        self._done(library().onfi_dispatcher_cancel(ctypes.byref(self._kept), number(request, 1 << 64, "a request")), request=request)

    def next(self, now: int = 0) -> Optional[Phase]:
        """The phase that is next where it is `now`, in ns, and when it may start; None where nothing runs and nothing waits.

        It may be another one once a request has come or a LUN is ready. Raises `Clock` where it would start at 2^62 ns or later.
        """
        status = library().onfi_dispatcher_next(ctypes.byref(self._kept), number(now, 1 << 64, "a time"), ctypes.byref(self._phase))
        if status == NothingDue.status:
            return None
        self._done(status)
        return self._phase.told()

    def ran(self, started: int) -> None:
        """The phase that `next` gave runs from then on, in ns. One that takes longer than is stated may count as begun that much later.

        Raises `NothingDue` where something has changed since, or none was given; `TooSoon` before its start; `Clock` from 2^62 ns on.
        """
        self._done(library().onfi_dispatcher_ran(ctypes.byref(self._kept), number(started, 1 << 64, "a time")))

    def ready(self, lun: int, moment: int) -> None:
        """The array of a LUN was done at that moment, in ns, as R/B# or a status shows: its data or statuses may come from then on.

        Raises `BadLun`, which names it, where there is no such LUN; `NotDue` where its array doesn't work.
        """
        status = library().onfi_dispatcher_ready(ctypes.byref(self._kept), number(lun, 256, "a LUN"), number(moment, 1 << 64, "a time"))
        self._done(status, lun=lun)

    def phases(self, now: int = 0) -> Iterator[Phase]:
        """The phases that come from `now` on, each run when it may start and for as long as is stated, until nothing runs and nothing waits.

        A loop over them may accept and cancel requests: that counts from the next phase on.
        """
        phase = self.next(now)
        while phase is not None:
            self.ran(phase.start)
            yield phase
            phase = self.next(phase.end)

    def run(self, trace: Iterable[Arrival], audit: Optional[Audit] = None) -> Iterator[Phase]:
        """The phases that come of a trace of requests, which come at their times: pairs of a time in ns and a `Want`, by rising times.

            for phase in channel.run([(0, Want(0, Kind.READ, lun=3, block=5)), (2_000, Want(1, Kind.READ, lun=1, block=7))]):
                print(phase.start, phase.lun, phase.want)

        `play` keeps all that came of one, with tables and a chart.
        """
        return phases_of(self, trace, audit)

    @staticmethod
    def _done(status: int, lun: Optional[int] = None, request: Optional[int] = None) -> None:
        if status != DONE:
            raise refused(status, lun, request)


def refused(status: int, lun: Optional[int] = None, request: Optional[int] = None) -> Refused:
    """The exception of a number that a call answers, which names the LUN or the request."""
    return REFUSALS.get(status, Refused)(status_text(status), lun=lun, request=request)
