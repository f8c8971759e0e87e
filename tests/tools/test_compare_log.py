"""What the dispatcher makes of the requests of a log: a worked one, where each is known from its command on, and with some outstanding."""

import os
import subprocess
import tempfile
import unittest
from pathlib import Path
from typing import Tuple

import support
from onfi_tools.comparing import Request, of_log, requests_of

SCRIPT = """\
shape,2,1,1,1
spans,read,140,140,25100,11000
spans,program,10800,140,200100,280
spans,erase,140,140,1000100,280
end
"""
# Three reads one by one, on two LUNs.
LOG = """\
0 0 read cmd 0 0
25240 0 read post 0 0
36240 1 read cmd 0 0
61480 1 read post 0 0
72480 0 read cmd 0 1
97720 0 read post 0 1
"""
# Known from their commands on they take as long. With two outstanding the second is commanded at 140, the third comes at 36,240 and has its
# command before the second's output, which ends at 47,380, and its own from 61,480 on.
KNOWN = """\
end 108720 108720
both end together
kind,of,count,mean,50,95,99,99.9,most
read,log,3,36240,36240,36240,36240,36240,36240
read,dispatcher,3,36240,36240,36240,36240,36240,36240
"""
OUTSTANDING = """\
end 108720 72480
the dispatcher ends 36240 ns sooner
kind,of,count,mean,50,95,99,99.9,most
read,log,3,60400,72480,72480,72480,72480,72480
read,dispatcher,3,39953,36240,47380,47380,47380,47380
"""


class Requests(unittest.TestCase):
    def test_each_has_its_command_and_its_post(self) -> None:
        found = requests_of(SCRIPT, LOG)
        self.assertEqual([(it.number, it.lun, it.page, it.began, it.ended) for it in found], [(0, 0, 0, 0, 36240), (1, 1, 0, 36240, 72480), (2, 0, 1, 72480, 108720)])

    def test_sectors_are_those_of_the_line_or_of_the_row(self) -> None:
        device = SCRIPT.replace("end\n", "sectorpost,1,3080\nend\n")
        log = "0 0 read cmd 0 0:1\n25240 0 read post 0 0:1\n"
        self.assertEqual(requests_of(device, log), [Request(0, "read", 1, 0, 0, 0, 0, 28320)])
        asked = device.replace("end\n", "want,read,0,0,0\nsectors,0,1\nend\n")
        self.assertEqual(requests_of(asked, log.replace(":1", "")), [Request(0, "read", 1, 0, 0, 0, 0, 28320)])

    def test_one_outstanding_comes_as_the_one_before_it_ends(self) -> None:
        found = of_log(requests_of(SCRIPT, LOG), 1)
        self.assertEqual(found.came, {0: 0, 1: 36240, 2: 72480})


class Compared(unittest.TestCase):
    room = tempfile.TemporaryDirectory(prefix="compare-log-")

    @classmethod
    def setUpClass(cls) -> None:
        cls.addClassCleanup(cls.room.cleanup)
        room = Path(cls.room.name)
        found = support.library(room)
        if found is None:
            raise unittest.SkipTest("no built library")
        (room / "libonfi.a").write_bytes((found / "libonfi.a").read_bytes())
        subprocess.run([str(support.ROOT / "tools/make-library"), "shared", str(room)], check=True)

    def run_tool(self, log: str, *words: str) -> Tuple[int, str]:
        room = Path(self.room.name)
        (room / "script").write_text(SCRIPT)
        (room / "log").write_text(log)
        command = [str(support.ROOT / "tools/compare-log"), str(room / "script"), str(room / "log"), "--library", str(room), *words]
        done = subprocess.run(command, capture_output=True, text=True, env={**os.environ, "PYTHONDONTWRITEBYTECODE": "1"})
        return done.returncode, done.stdout

    def test_requests_known_from_their_commands_on(self) -> None:
        self.assertEqual(self.run_tool(LOG), (0, KNOWN))

    def test_two_outstanding(self) -> None:
        self.assertEqual(self.run_tool(LOG, "--outstanding", "2"), (0, OUTSTANDING))

    def test_a_log_that_is_not_legal(self) -> None:
        self.assertEqual(self.run_tool(LOG.replace("25240", "25239")), (2, "illegal 2 NotReady 0 25239 25240\n"))


if __name__ == "__main__":
    unittest.main()
