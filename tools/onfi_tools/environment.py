"""The environment of tests: nothing of where they are run but what finds programs, a home, room for files, and what is to be tried."""

import locale
import os
import re
import tempfile
import unittest
from typing import Any, Dict

# ONFI_.. name the built program, the libraries, the trials, and how many loops are tried.
KEPT = re.compile(r"PATH|LD_LIBRARY_PATH|HOME|TMPDIR|PYENV_\w+|ONFI_(SIM|LIBRARIES|TRIALS|LOOPS)")
SET = {"LC_ALL": "C.UTF-8", "TZ": "UTC", "PYTHONDONTWRITEBYTECODE": "1"}


def be_plain() -> None:
    """Makes the environment of this process, and of what it starts, such a one: no PREFIX, no flags of a make that runs the tests, no language."""
    for name in [*os.environ]:
        if not KEPT.fullmatch(name):
            del os.environ[name]
    os.environ.update(SET)
    locale.setlocale(locale.LC_CTYPE, SET["LC_ALL"])
    os.umask(0o022)


class Apart(unittest.TextTestResult):
    """Gives each test an environment and a folder for its files, which are there for no other; what is set up for several stays as it was."""

    def __init__(self, *given: Any, **named: Any) -> None:
        super().__init__(*given, **named)
        self.before: Dict[str, str] = {}
        self.folder = os.getcwd()

    def startTest(self, test: unittest.TestCase) -> None:
        self.before, self.folder = dict(os.environ), os.getcwd()
        self.room = tempfile.TemporaryDirectory(prefix="onfi-test-")
        os.environ["TMPDIR"] = tempfile.tempdir = self.room.name
        super().startTest(test)

    def stopTest(self, test: unittest.TestCase) -> None:
        super().stopTest(test)
        os.chdir(self.folder)
        os.environ.clear()
        os.environ.update(self.before)
        tempfile.tempdir = None
        self.room.cleanup()
