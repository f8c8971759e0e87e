"""The page of statuses: the header, the Python package and the Rattle source say what it says, and the tool says where one doesn't."""

import contextlib
import io
import shutil
import sys
import unittest
from typing import Any, List, Tuple
from unittest import mock

import support

TOOL: Any = support.load("make-statuses")
FILES = (TOOL.PAGE, TOOL.HEADER, TOOL.REFUSED, TOOL.PACKAGE, TOOL.CALLS, TOOL.SOURCE, TOOL.WORDS)
ROW = "22 | Clock | Times that reach 2^62 ns. | times that reach 2^62 ns\n"
LAST = "58 | EndsBefore | The schedule ends before the time that is given. | the schedule ends before the time that is told\n"


class Statuses(unittest.TestCase):
    def setUp(self) -> None:
        self.folder = support.room_of(self)
        for path in FILES:
            (self.folder / path).parent.mkdir(parents=True, exist_ok=True)
            shutil.copyfile(support.ROOT / path, self.folder / path)

    def change(self, path: str, old: str, new: str) -> None:
        text = (self.folder / path).read_text(encoding="utf-8")
        self.assertEqual(text.count(old), 1, old)
        (self.folder / path).write_text(text.replace(old, new), encoding="utf-8")

    def run_here(self) -> Tuple[int, List[str]]:
        said = io.StringIO()
        with mock.patch.object(TOOL, "ROOT", self.folder), mock.patch.object(sys, "argv", ["make-statuses"]), contextlib.redirect_stdout(said):
            status: int = TOOL.main()
        return status, said.getvalue().splitlines()

    def test_nothing_differs(self) -> None:
        self.assertEqual(self.run_here(), (0, []))

    def test_the_page_has_each_status_of_the_source(self) -> None:
        statuses = list(TOOL.statuses_in((support.ROOT / TOOL.PAGE).read_text(encoding="utf-8")))
        source = (support.ROOT / TOOL.SOURCE).read_text(encoding="utf-8")
        self.assertIn(f"pub const ALL: [Status; {len(statuses)}]", source)
        self.assertEqual([it.c_name for it in statuses if it.number in (0, 73, 83)], ["ONFI_DONE", "ONFI_NO_MULTI_LUN", "ONFI_SHEET_NOT_A_NUMBER"])

    def test_what_is_written_is_written_again_from_the_page(self) -> None:
        for path, old, new in ((TOOL.HEADER, "ONFI_CLOCK = 22, /* Times", "ONFI_CLOCK = 23, /* Hours"), (TOOL.REFUSED, "    status = 22\n", "    status = 23\n"),
                               (TOOL.REFUSED, "        Clock,\n", ""), (TOOL.REFUSED, '    "Clock",\n', ""), (TOOL.PACKAGE, "    Clock,\n", "")):
            before = (self.folder / path).read_bytes()
            self.change(path, old, new)
            self.assertEqual(self.run_here(), (0, [f"wrote {path}"]))
            self.assertEqual((self.folder / path).read_bytes(), before)

    def test_what_is_not_written_is_compared(self) -> None:
        said_of: List[Tuple[str, str, str, str]] = [
            (TOOL.SOURCE, ", enum Status", "    /// Times that reach 2^62 ns.\n", "    /// Late times.\n"),
            (TOOL.SOURCE, ", ALL", "    Status::Clock,\n", ""),
            (TOOL.SOURCE, ", ALL", "[Status; 65]", "[Status; 60]"),
            (TOOL.SOURCE, ", number", "Status::Clock => 22,", "Status::Clock => 23,"),
            (TOOL.SOURCE, ", text", '"times that reach 2^62 ns"', '"late times"'),
            (TOOL.WORDS, ", its names", " Clock,", ""),
            (TOOL.WORDS, ", number_of", "number_of Clock = 22\n", ""),
            (TOOL.WORDS, ", text_of", '"times that reach 2^62 ns"', '"late times"'),
            (TOOL.PACKAGE, ", __all__", '    "Clock",\n', ""),
            (TOOL.CALLS, "", "MEMORY = 0, 3, 4", "MEMORY = 0, 3, 5"),
        ]
        for path, where, old, new in said_of:
            before = (self.folder / path).read_bytes()
            self.change(path, old, new)
            status, said = self.run_here()
            self.assertEqual((status, [it.split(": ")[0] for it in said]), (1, [path + where]))
            (self.folder / path).write_bytes(before)

    def test_a_new_line_of_the_page_is_written_and_asked_for_in_the_source(self) -> None:
        self.change(TOOL.PAGE, LAST, f"{LAST}59 | TooLate | It is too late. | too late\n")
        status, said = self.run_here()
        self.assertEqual((status, said[:3]), (1, [f"wrote {TOOL.HEADER}", f"wrote {TOOL.REFUSED}", f"wrote {TOOL.PACKAGE}"]))
        self.assertEqual(said[3], f"{TOOL.PACKAGE}, __all__: it lacks TooLate")
        self.assertEqual(said[4], f"{TOOL.SOURCE}, enum Status: 'A parameter page has fewer than 256 bytes. PageShort' "
                                  "where the page has 'It is too late. TooLate'")
        self.assertEqual(len(said), 11)
        self.assertIn("    ONFI_TOO_LATE = 59, /* It is too late. */\n    /* parameter pages */\n", (self.folder / TOOL.HEADER).read_text(encoding="utf-8"))
        self.assertIn('class TooLate(Refused):\n    """It is too late."""\n\n    status = 59\n\n\n', (self.folder / TOOL.REFUSED).read_text(encoding="utf-8"))

    def test_a_line_that_is_none_is_told(self) -> None:
        for row in ("22 | Clock | Times that reach 2^62 ns.\n", "21 | Clock | A. | a\n", "x | Clock | A. | a\n", "22 | Clock | \"A\". | a\n", "22 | Clock | A. |\n"):
            self.change(TOOL.PAGE, ROW, row)
            status, said = self.run_here()
            self.assertEqual((status, len(said)), (1, 1))
            self.assertRegex(said[0], rf"^{TOOL.PAGE}:\d+: not 'NUMBER \| NAME ")
            self.change(TOOL.PAGE, row, ROW)

    def test_a_mark_that_is_gone_is_told(self) -> None:
        self.change(TOOL.HEADER, f"    /* {TOOL.END} */\n", "")
        self.assertEqual(self.run_here(), (1, [f"{TOOL.HEADER}: a mark is missing: '{TOOL.BEGIN}' or '{TOOL.END}'"]))
