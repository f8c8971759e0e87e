"""The version stands in the file VERSION; all other places that give one give the same."""

import re
import unittest
from typing import List, Tuple

import support

VERSION = (support.ROOT / "VERSION").read_text().rstrip("\n")
MAJOR, MINOR, PATCH = VERSION.split(".")
NUMBER = str(10_000 * int(MAJOR) + 100 * int(MINOR) + int(PATCH))
PARTS = {"MAJOR": MAJOR, "MINOR": MINOR, "PATCH": PATCH}
# Of the header, the library, Python, the library that it looks for, the program, the manual page, the changes.
PLACES: List[Tuple[str, str, str]] = [
    *(("include/onfi.h", rf"^#define ONFI_VERSION_{name} (\d+)$", part) for name, part in PARTS.items()),
    ("include/onfi.h", r'^#define ONFI_VERSION "(.*)"$', VERSION),
    ("include/onfi.h", r"^#define ONFI_VERSION_NUMBER UINT32_C\((\d+)\)", NUMBER),
    *(("crates/onfi_calls/src/version.rt", rf"^const {name}: u32 = (\d+);$", part) for name, part in PARTS.items()),
    ("crates/onfi_calls/src/version.rt", r"ensures \{ result ≡ (\d+) \}", NUMBER),
    ("python/onfi/__init__.py", r'^__version__ = "(.*)"$', VERSION),
    ("python/pyproject.toml", r"^version = \{ attr = \"(.*)\" \}$", "onfi.__version__"),
    ("python/onfi/library.py", r'^SONAME = "libonfi\.so\.(\d+)"$', MAJOR),
    ("crates/onfi_console/src/help.rt", r'^pub const VERSION: &str = "(.*)";$', VERSION),
    ("docs/onfi_sim.1", r'^\.TH ONFI_SIM 1 "\d{4}-\d\d-\d\d" "onfi_sim (.*?)"', VERSION),
    ("CHANGELOG.md", r"^## (\S+)", VERSION),
]


class Version(unittest.TestCase):
    def test_it_has_three_numbers(self) -> None:
        self.assertRegex(VERSION, r"^(0|[1-9]\d*)(\.(0|[1-9]\d*)){2}$")

    def test_each_place_gives_it(self) -> None:
        for path, pattern, wanted in PLACES:
            found = re.search(pattern, (support.ROOT / path).read_text(), re.MULTILINE)
            self.assertEqual(found and found[1], wanted, (path, pattern))
