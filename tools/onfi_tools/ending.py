"""How a tool ends: by its status, and without a word where nobody reads any more what it prints."""

import os
import select
import sys
from pathlib import Path
from typing import Callable, NoReturn, Optional, Type, Union

# What a shell reports of a program that the closed pipe itself ended.
CLOSED = 141

Status = Union[int, str, None]


def end(main: Callable[[], Optional[int]], *faults: Type[Exception]) -> NoReturn:
    """Runs a tool, and ends with its status: 141 where the pipe is closed that it prints to, 1 where the last of it can't be written, and
    where it meets one of these faults, of which a line is said."""
    name = Path(main.__code__.co_filename).name
    try:
        status: Status = main()
    except SystemExit as ended:
        status = ended.code
    except BrokenPipeError:
        if not nobody_reads():
            raise
        status = CLOSED
    except faults as fault:
        status = f"{name}: {fault}"
    sys.exit(written(status, name))


def nobody_reads() -> bool:
    """Whether standard output is a pipe that no one has open for reading."""
    output = select.poll()
    output.register(sys.stdout.fileno(), 0)
    return any(told & select.POLLERR for _, told in output.poll(0))


def written(status: Status, name: str) -> Status:
    """The status once all is written that was printed; Python would try it again at the exit, and report it in its own way."""
    try:
        sys.stdout.flush()
    except OSError as wrong:
        os.dup2(os.open(os.devnull, os.O_WRONLY), sys.stdout.fileno())
        if isinstance(wrong, BrokenPipeError):
            return CLOSED
        if not status:
            print(f"{name}: {wrong}", file=sys.stderr)
        return status or 1
    return status
