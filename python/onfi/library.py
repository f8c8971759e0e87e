"""The library libonfi.so, and what its calls take."""

from __future__ import annotations

import ctypes
import functools
import os
import pathlib
from typing import List, Tuple

from onfi.structs import CAudit, CBroken, CChannel, CDevice, CDispatcher, CGeometry, CLogBroken, COptions, COutput, CPhase, CPlan, CSchedule, CVerdict, CWant

SONAME = "libonfi.so.0"
BYTES, SIZE, LUN, TIME = ctypes.c_char_p, ctypes.c_size_t, ctypes.c_uint8, ctypes.c_uint64
ROOM = (ctypes.c_void_p, SIZE, ctypes.POINTER(SIZE))
CHANNEL, WANT, GEOMETRY, SCHEDULE = ctypes.POINTER(CChannel), ctypes.POINTER(CWant), ctypes.POINTER(CGeometry), ctypes.POINTER(CSchedule)
PHASE, DISPATCHER, AUDIT = ctypes.POINTER(CPhase), ctypes.POINTER(CDispatcher), ctypes.POINTER(CAudit)
PROBLEM = (CHANNEL, WANT, SIZE)
CALLS = {
    "onfi_version": (),
    "onfi_plan": (*PROBLEM, ctypes.POINTER(COptions), ctypes.POINTER(CPlan), *ROOM),
    "onfi_check": (*PROBLEM, SCHEDULE, TIME, BYTES, SIZE, ctypes.POINTER(CVerdict)),
    "onfi_breach": (*PROBLEM, SCHEDULE, ctypes.POINTER(CBroken)),
    "onfi_due": (*PROBLEM, GEOMETRY, SCHEDULE, PHASE),
    "onfi_ran": (CHANNEL, WANT, ctypes.POINTER(SIZE), SCHEDULE, LUN, ctypes.c_uint8, TIME),
    "onfi_dispatcher_begin": (DISPATCHER, CHANNEL, GEOMETRY),
    "onfi_dispatcher_accept": (DISPATCHER, WANT),
    "onfi_dispatcher_accept_again": (DISPATCHER, WANT),
    "onfi_dispatcher_cancel": (DISPATCHER, ctypes.c_uint64),
    "onfi_dispatcher_next": (DISPATCHER, TIME, PHASE),
    "onfi_dispatcher_ran": (DISPATCHER, TIME),
    "onfi_dispatcher_ready": (DISPATCHER, LUN, TIME),
    "onfi_audit_begin": (CHANNEL, AUDIT),
    "onfi_audit_phase": (AUDIT, PHASE, ctypes.POINTER(CLogBroken)),
    "onfi_audit_ready": (AUDIT, LUN, TIME),
    "onfi_output_of": (GEOMETRY, ctypes.c_uint16, PHASE, ctypes.c_uint8, ctypes.POINTER(COutput)),
    "onfi_row": (GEOMETRY, LUN, ctypes.c_uint16, ctypes.c_uint16, ctypes.POINTER(ctypes.c_uint32)),
    "onfi_device_of_page": (BYTES, SIZE, BYTES, SIZE, BYTES, SIZE, ctypes.c_uint16, ctypes.POINTER(CDevice), ctypes.POINTER(ctypes.c_uint64)),
    "onfi_text": (BYTES, SIZE, BYTES, SIZE, *ROOM),
    "onfi_status_text": (ctypes.c_uint32, *ROOM),
}


def places() -> List[Tuple[str, str]]:
    """Where the library may be, each with what says so: where ONFI_LIBRARY says, and nowhere else then; else beside this file, then in lib
    of the checkout that the package stands in, where it does, then where the system looks."""
    told = os.environ.get("ONFI_LIBRARY")
    if told:
        return [(told, "as ONFI_LIBRARY says")]
    here = pathlib.Path(__file__).resolve().parent
    found = [(str(here / "libonfi.so"), "beside the package")]
    if (here.parent.parent / "crates.txt").is_file():
        found.append((str(here.parent.parent / "lib/libonfi.so"), "in lib of its checkout"))
    return [*found, (SONAME, "where the system looks")]


def opened(tried: List[Tuple[str, str]]) -> ctypes.CDLL:
    """The first of these libraries that can be loaded; OSError names each that was tried, and what to do."""
    missing = []
    for path, why in tried:
        try:
            return ctypes.CDLL(path)
        except OSError as wrong:
            missing.append(f"  {path}, {why}: {wrong}")
    told = "" if os.environ.get("ONFI_LIBRARY") else "; ONFI_LIBRARY is not set"
    what = "`make library` builds lib/libonfi.so: use the package of that checkout, set ONFI_LIBRARY to its path, or install the wheel of `make wheel`"
    raise OSError("\n".join([f"no library libonfi.so can be loaded{told}. Tried:", *missing, what]))


@functools.lru_cache(maxsize=None)
def library() -> ctypes.CDLL:
    """The library, loaded once; OSError where it is older than this package."""
    found = opened(places())
    for name, takes in CALLS.items():
        if not hasattr(found, name):
            raise OSError(f"the library {found._name} has no call {name}: it is older than this package")
        call = getattr(found, name)
        call.argtypes, call.restype = takes, ctypes.c_uint32
    return found
