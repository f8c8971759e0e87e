"""Tests that change where they are run, each of which leaves nothing to the next one."""

import io
import os
import tempfile
import unittest
from pathlib import Path
from typing import List

import support  # noqa: F401
from onfi_tools.environment import KEPT, SET, Apart

SEEN: List[str] = []


class Changes(unittest.TestCase):
    """Not found by the loader: its tests are run by the one below."""

    def runTest(self) -> None:
        SEEN.append(os.environ.get("PREFIX", "none"))
        SEEN.append(tempfile.gettempdir())
        os.environ.update(PREFIX="/nowhere", LC_ALL="C")
        (Path(tempfile.gettempdir()) / "left").touch()
        os.chdir("/")


def load_tests(loader: unittest.TestLoader, tests: unittest.TestSuite, pattern: str) -> unittest.TestSuite:
    return loader.loadTestsFromTestCase(Environment)


class Environment(unittest.TestCase):
    def test_each_test_has_its_own(self) -> None:
        before, folder = dict(os.environ), os.getcwd()
        ran = unittest.TextTestRunner(stream=io.StringIO(), resultclass=Apart).run(unittest.TestSuite([Changes(), Changes()]))
        self.assertTrue(ran.wasSuccessful(), ran.errors)
        self.assertEqual((SEEN[0], SEEN[2], len({*SEEN[1::2]})), ("none", "none", 2))
        self.assertFalse(any(Path(room).exists() for room in SEEN[1::2]))
        self.assertEqual((dict(os.environ), os.getcwd()), (before, folder))

    def test_what_is_kept_of_outside(self) -> None:
        self.assertEqual({name for name in os.environ if not KEPT.fullmatch(name)} - {*SET}, set())


if __name__ == "__main__":
    unittest.main()
