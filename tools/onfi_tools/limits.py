"""Runs of a program that end."""

import resource
import signal
import subprocess
from typing import Any, Dict, Optional, Sequence, Union

# How much longer than its processor time a run may take by the clock: it waits for other work on the machine, and for nothing else.
WAITS = 30


def run_within(seconds: int, words: Sequence[Union[str, bytes]], given: Optional[bytes] = None, **how: Any) -> "subprocess.CompletedProcess[bytes]":
    """Runs a program on an input, and takes what it writes.

    subprocess.TimeoutExpired: it takes more than that many seconds of processor time, or nothing goes on for long."""
    streams: Dict[str, Any] = {"stdin": None if given is None else subprocess.PIPE, "stdout": subprocess.PIPE, "stderr": subprocess.PIPE, **how}
    with subprocess.Popen(words, **streams) as child:
        resource.prlimit(child.pid, resource.RLIMIT_CPU, (seconds, seconds + 1))
        try:
            output, errors = child.communicate(given, timeout=WAITS * seconds)
        except BaseException:
            child.kill()
            raise
    if child.returncode == -signal.SIGXCPU:
        raise subprocess.TimeoutExpired(words, seconds, output, errors)
    return subprocess.CompletedProcess(words, child.returncode, output, errors)
