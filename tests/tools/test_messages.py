"""What the program says on standard error, and that its answers stand without it: words, help, version, files, quiet."""

import os
import re
import subprocess
import tempfile
import unittest
from pathlib import Path
from typing import Any, Dict, List, NamedTuple, Optional, Sequence, Tuple, Union

import support
from onfi_tools.cases import read_cases
from onfi_tools.limits import run_within

Word = Union[str, bytes]
EXAMPLES = support.ROOT / "examples"
BATCH = EXAMPLES / "batch.onfi"
RUN = EXAMPLES / "two-hosts.onfi"
COMMANDS = ("plan", "check", "audit", "run", "device")
REFUSED_WORDS, FAILED_STREAM = 5, 7
SECONDS = 20
# The program reads at most that many bytes at a time.
BLOCK = 65_536
# A control character or a byte above ASCII; lines end with LF.
UNSAFE = re.compile(r"[^\n -~]")


class Ran(NamedTuple):
    output: str
    said: str
    status: int


def ran(*words: Word, given: Optional[bytes] = b"", **streams: Any) -> Ran:
    """What the program answers and says, each through a pipe, or nothing of what goes to another of these streams."""
    done = run_within(SECONDS, [str(support.program()), *words], given, **streams)
    return Ran((done.stdout or b"").decode(), (done.stderr or b"").decode(), done.returncode)


@unittest.skipUnless(support.program(), "no built program")
class WrongWords(unittest.TestCase):
    """A refused command line has status 5, no answer, and is shown what is wrong with it."""

    def assert_refused(self, words: Sequence[Word], *told: str) -> None:
        found = ran(*words, given=BATCH.read_bytes())
        self.assertEqual((found.output, found.status), ("", REFUSED_WORDS), words)
        self.assertTrue(found.said.startswith("error: "), found.said)
        for text in told:
            self.assertIn(text, found.said)

    # A misspelt word, an option before its command, no command, a value out of its range or none, options that exclude each other, too many.
    WORDS: List[Tuple[str, List[str]]] = [
        ("plna", ["'plna'", "tip:", "'plan'"]), ("chekc", ["'chekc'", "tip:", "'check'"]),
        ("plan --trase", ["'--trase'", "tip:", "'--trace'"]), ("plan --request", ["'--request'", "tip:", "'--requests'"]),
        ("plan --worker 2", ["'--worker'", "tip:", "'--workers'"]), ("plan --erly", ["'--erly'", "tip:", "'--early'"]),
        ("check --legl", ["'--legl'", "tip:", "'--legal'"]), ("run --limt 2", ["'--limt'", "tip:", "'--limit'"]),
        ("--limit 7 plan", ["'--limit'", "'plan --limit'"]), ("", ["'plan', 'check', 'audit', 'run' or 'device'", "--help"]),
        *((f"{command} --limit={value}", ["'--limit'", "1 to 1048576"]) for command in ("plan", "run")
          for value in ("0", "1048577", "x", "", "+7", "99999999999999999999")),
        ("audit --optimum --limit 0", ["'--limit'", "1 to 1048576"]), ("audit --limit 7", ["'--limit'", "'--optimum'"]),
        ("audit --csv", ["'--csv'", "'--optimum'"]), ("audit --optimum --ready-by-status", ["'--ready-by-status'", "'--optimum'"]),
        *((f"plan --workers {value}", ["'--workers'", "1 to 8"]) for value in ("0", "9", "two")),
        ("plan --limit", ["a value is required", "--limit <N>"]),
        ("plan --workers 2 --by within", ["'--workers'", "'--by within'"]), ("check --legal --by within", ["'--legal'", "'--by'"]),
        ("run --by next --early", ["'--early'", "'--by next'"]), ("run --by rule --limit 7", ["'--limit'", "'--by rule'"]),
        ("plan --by best", ["'--by'", "'plain', 'within' or 'rule'"]), ("run --by best", ["'plain', 'within', 'rule' or 'next'"]),
        ("plan a b", ["'b'"]), ("check a b c", ["'c'"]), ("plan --trace --trace", ["'--trace'"]),
    ]

    def test_what_is_wrong_is_told(self) -> None:
        for words, told in self.WORDS:
            self.assert_refused(words.split(), *told)

    def test_no_word_is_tipped_to_be_passed_as_a_file(self) -> None:
        for words in (["plan", "-1"], ["plan", "--limit", "-1"], ["check", "--legl"], ["run", "--x"], ["--x"]):
            found = ran(*words)
            self.assertEqual((found.output, found.status), ("", REFUSED_WORDS), words)
            self.assertNotIn("-- -", found.said)
            self.assertNotIn("\n\n\n", found.said)
            self.assertTrue(found.said.endswith("\n\nFor more information, try '--help'.\n"), found.said)

    def test_what_is_no_plain_text_is_shown_escaped(self) -> None:
        """Control characters, and bytes that are no text."""
        escaped: List[List[Word]] = [["\x1b[31mplan"], ["plan", "--\x1b[31m"], ["plan", "\x1b[31m"], ["plan", "a", "\x07b"], ["plan", "--limit=3\x7f"],
                                     ["plan", "\x1b[2J\u0085"], [b"\xff"], [b"plan", b"\xff\xfe"], [b"plan", b"--limit", b"7\x80"], [b"plan", b"--\x9b31m"]]
        for words in escaped:
            found = ran(*words)
            self.assertEqual((found.output, found.status), ("", REFUSED_WORDS))
            self.assertIsNone(UNSAFE.search(found.said), found.said)
            self.assertIn("error: ", found.said)
            if isinstance(words[0], bytes):
                self.assertRegex(found.said, r"\\x(ff|80|9b)")


@unittest.skipUnless(support.program(), "no built program")
class Help(unittest.TestCase):
    """Help is said on standard error with status 5; the version is an answer."""

    OPTIONS = {"plan": ["--by <WAY>", "--early", "--limit <N>", "--workers <N>", "--trace", "--requests", "-q, --quiet", "[FILE]"],
               "check": ["--by <WAY>", "--legal", "-q, --quiet", "[FILE]", "[PLAN]"],
               "audit": ["--all", "--ready-by-status", "--tolerance <NS>", "--one-status", "--optimum", "--limit <N>", "--csv",
                         "-q, --quiet", "[FILE]", "[LOG]"],
               "run": ["--by <WAY>", "--early", "--limit <N>", "--clock <CLOCK>", "--trace <LOG>", "-q, --quiet", "[FILE]"],
               "device": ["-q, --quiet", "[FILE]"]}

    def help(self, *words: str) -> str:
        found = ran(*words)
        self.assertEqual((found.output, found.status), ("", REFUSED_WORDS))
        self.assertFalse(found.said.startswith("error"), found.said)
        return found.said

    def test_help_of_the_program_names_its_commands_and_statuses(self) -> None:
        text = self.help("--help")
        self.assertEqual(text, self.help("-h"))
        for command in COMMANDS:
            self.assertRegex(text, rf"(?m)^  {command} +[A-Z]")
        for status in range(9):
            self.assertRegex(text, rf"[ \n]{status} \w")
        for part in ("standard input", "standard output", "standard error", "Example:", "docs/FORMATS.md"):
            self.assertIn(part, text)

    def test_help_of_a_command_says_all_of_it(self) -> None:
        for command, options in self.OPTIONS.items():
            text = self.help(command, "--help")
            self.assertEqual(text, self.help(command, "-h"))
            self.assertRegex(text.splitlines()[0], r"^[A-Z].*\.$")
            self.assertRegex(text, rf"(?m)^Usage: \S+ {command} \[OPTIONS\] \[FILE\]")
            for part in [*options, "Input: ", "Output: ", "Statuses: 0 ", "Example:\n  onfi_sim ", f"\n  onfi_sim {command} "]:
                self.assertIn(part, text)
            told = set(re.findall(r"(?m)^ +(?:-\w, )?(--\w+)", text.split("Options:")[1].split("\n\n")[0]))
            self.assertEqual(told - {"--help"}, set(re.findall(r"--\w+", " ".join(options))))

    def test_help_fits_a_screen(self) -> None:
        """Of 24 lines; that of `audit` says more."""
        for words in ((), *((command,) for command in COMMANDS if command != "audit")):
            self.assertLessEqual(len(self.help(*words, "--help").splitlines()), 24, words)

    def test_lines_of_help_fit_a_wide_terminal_and_its_examples_go_well(self) -> None:
        for words in ((), *((command,) for command in COMMANDS)):
            text = self.help(*words, "--help")
            for line in text.splitlines():
                self.assertLessEqual(len(line), 128, line)
            lines = re.findall(r"^  (onfi_sim .*)$", text.split("Example:")[1], re.MULTILINE)
            self.assertTrue(lines)
            with tempfile.TemporaryDirectory() as folder:
                (Path(folder) / "examples").symlink_to(EXAMPLES)
                (Path(folder) / "onfi_sim").symlink_to(Path(str(support.program())).resolve())
                for line in lines:
                    done = subprocess.run(f"PATH=.:$PATH\n{line}", shell=True, capture_output=True, cwd=folder)
                    self.assertEqual((done.stderr, done.returncode), (b"", 0), line)

    def test_the_version_is_an_answer(self) -> None:
        version = (support.ROOT / "VERSION").read_text()
        for word in ("--version", "-V"):
            self.assertEqual(ran(word), (f"onfi_sim {version}", "", 0))


@unittest.skipUnless(support.program(), "no built program")
class Files(unittest.TestCase):
    """A script and a plan text may stand in files; the answer is that of the same bytes on standard input."""

    def setUp(self) -> None:
        self.room = support.room_of(self)
        self.script = BATCH.read_bytes()
        self.plan = ran("plan", given=self.script).output.encode()

    def file(self, name: str, text: bytes) -> str:
        (self.room / name).write_bytes(text)
        return str(self.room / name)

    def test_a_script_is_read_from_a_file_or_standard_input(self) -> None:
        for command, path in (("plan", BATCH), ("run", RUN)):
            piped = ran(command, given=path.read_bytes())
            self.assertEqual((piped.said, piped.status), ("", 0))
            self.assertEqual(ran(command, str(path)), piped)
            self.assertEqual(ran(command, str(path), given=b"not looked at"), piped)
            self.assertEqual(ran(command, "-", given=path.read_bytes()), piped)

    def test_an_input_of_more_than_16_reads_is_read_to_its_end(self) -> None:
        text = self.script + b"\n" * (17 * BLOCK)
        answer = ran("plan", given=self.script)
        self.assertEqual(answer.status, 0)
        self.assertEqual(ran("plan", given=text), answer)
        self.assertEqual(ran("plan", self.file("long.onfi", text)), answer)

    def test_options_stand_before_or_behind_a_file(self) -> None:
        for words in (["plan", str(BATCH), "--trace"], ["plan", "--trace", "--", str(BATCH)]):
            self.assertEqual(ran(*words), ran("plan", "--trace", given=self.script))

    def test_a_plan_is_read_behind_its_script_or_from_a_file(self) -> None:
        plan, whole = self.file("plan", self.plan), self.file("whole", self.script + self.plan)
        accepted = Ran("accepted 58240\n", "", 0)
        for words, given in ((["check"], self.script + self.plan), (["check", whole], b""), (["check", str(BATCH), plan], b""),
                             (["check", "-", plan], self.script), (["check", str(BATCH), "-"], self.plan)):
            self.assertEqual(ran(*words, given=given), accepted)

    def test_a_script_without_a_last_line_end_has_its_plan_in_a_line_of_its_own(self) -> None:
        plan = self.file("plan", self.plan)
        for text in (self.script, self.script[:-1], self.script.replace(b"\n", b"\r\n")):
            self.assertEqual(ran("check", self.file("script", text), plan), ("accepted 58240\n", "", 0))

    def test_a_wrong_line_is_told_by_the_file_that_it_stands_in(self) -> None:
        wrong = self.plan.replace(b"finish ", b"finish 0")
        plan, whole = self.file("plan", wrong), self.file("whole", self.script + wrong)
        line = self.script.count(b"\n") + 2
        for words, place in ((["check", str(BATCH), plan], f"{plan}:2: 'finish 058240': "),
                             (["check", self.file("script", self.script[:-1]), plan], f"{plan}:2: 'finish 058240': "),
                             (["check", whole], f"{whole}:{line}: line 2 of the plan text 'finish 058240': ")):
            found = ran(*words)
            self.assertEqual((found.output, found.status), ("refused plan 2\n", 2))
            self.assertTrue(found.said.startswith("onfi_sim: " + place), found.said)

    def test_a_plan_text_may_begin_behind_the_script_and_go_on_in_its_own_file(self) -> None:
        front, behind = self.plan.split(b"group 2", 1)
        script, plan = self.file("script", self.script + front), self.file("plan", b"group 2" + behind)
        self.assertEqual(ran("check", script, plan), ("accepted 58240\n", "", 0))
        wrong = self.file("wrong", b"group 02" + behind)
        self.assertTrue(ran("check", script, wrong).said.startswith(f"onfi_sim: {wrong}:1: line 3 of the plan text 'group 02 "))
        empty = self.file("empty line", self.script + b"\n")
        line = self.script.count(b"\n") + 1
        self.assertTrue(ran("check", empty, plan).said.startswith(f"onfi_sim: {empty}:{line}: line 1 of the plan text '': "))

    def test_standard_input_is_told_by_its_name(self) -> None:
        wrong = self.plan.replace(b"finish ", b"finish 0")
        self.assertTrue(ran("check", str(BATCH), "-", given=wrong).said.startswith("onfi_sim: <stdin>:2: 'finish 058240': "))
        self.assertTrue(ran("check", "-", str(BATCH), given=b"\n\nbsu\nend\n").said.startswith("onfi_sim: <stdin>:3: row 1 'bsu': "))

    def test_a_refused_row_is_told_by_the_file_that_it_stands_in(self) -> None:
        script = self.file("script", b"shape,2,1,1,1\n\nbsu,0\nend\n")
        for words in (["plan", script], ["check", script], ["check", script, "-"], ["run", self.file("run", b"\n\nbsu,0\nend\n")]):
            found = ran(*words)
            self.assertEqual(found.status, 1)
            self.assertTrue(found.said.startswith(f"onfi_sim: {words[1]}:3: row "), found.said)

    def test_an_empty_plan_file_has_no_plan(self) -> None:
        empty = self.file("empty", b"")
        found = ran("check", str(BATCH), empty)
        self.assertEqual((found.output, found.status), ("refused plan 1\n", 2))
        self.assertIn(f"{empty}:1: ", found.said)

    def test_a_file_that_cannot_be_opened_is_a_refused_command_line(self) -> None:
        absent = str(self.room / "absent")
        for words in (["plan", absent], ["check", absent], ["run", absent], ["check", str(BATCH), absent], ["plan", ""]):
            found = ran(*words)
            self.assertEqual((found.output, found.status), ("", REFUSED_WORDS))
            self.assertRegex(found.said, rf"^error: the file '{re.escape(words[-1])}' can't be read: \w.*\n\Z")

    def test_a_directory_is_refused_as_a_file_that_cannot_be_opened(self) -> None:
        commands = (["plan"], ["check", str(BATCH)], ["audit", str(BATCH)], ["run"], ["device"])
        for words in ([*command, str(self.room)] for command in commands):
            self.assertEqual(ran(*words), ("", f"error: the file '{self.room}' can't be read: it is a directory\n", REFUSED_WORDS))
            self.assertEqual(ran(*words, "--quiet"), ("", "", REFUSED_WORDS))

    @unittest.skipUnless(Path("/proc/self/mem").exists(), "no file that can be opened and not read")
    def test_a_file_whose_read_fails_is_status_7_and_nothing_is_said(self) -> None:
        absent = "/proc/self/mem"
        for words in (["plan", absent], ["check", str(BATCH), absent], ["audit", str(BATCH), absent], ["run", absent], ["device", absent]):
            self.assertEqual(ran(*words), ("", "", FAILED_STREAM))


@unittest.skipUnless(support.program(), "no built program")
class Quiet(unittest.TestCase):
    def test_nothing_is_said_of_a_command_line_that_is_refused(self) -> None:
        for words in (["-q"], ["--quiet"], ["plan", "-q", "--limit"], ["plan", "--quiet", "--limit", "0"], ["plna", "--quiet"],
                      ["plan", "--trase", "-q"], ["check", "-q", "--legal", "--by", "within"], ["plan", "-q", "/absent/file"],
                      ["check", "--quiet", str(BATCH), "/absent/file"], ["plan", "-q", "\x1b"]):
            self.assertEqual(ran(*words), ("", "", REFUSED_WORDS), words)

    def test_answers_are_the_same_with_messages_and_without(self) -> None:
        """On each case of the pages of messages."""
        cases = [case for page in ("messages.cases", "illegal.cases") for case in read_cases([page + ":"])]
        self.assertGreater(sum(1 for case in cases if case.said), 100)
        for case in cases:
            more = [] if {b"-q", b"--quiet"} & {*case.arguments} else [b"--quiet"]
            self.assertEqual(ran(*case.arguments, *more, given=case.input), (case.output.decode(), "", case.status), case.place)


@unittest.skipUnless(support.program(), "no built program")
class Streams(unittest.TestCase):
    GIVEN = ((["plan"], b"bsu,0\nend\n"), (["plan", "--limit", "1"], b""), (["check"], BATCH.read_bytes()), (["run"], b"x"))
    ANSWERED = [(words.split(), given) for words in ("plan", "plan --trace", "check", "check --by within") for given in (b"", BATCH.read_bytes())]

    def test_nothing_is_said_where_a_read_fails(self) -> None:
        folder = os.open(support.ROOT, os.O_RDONLY)
        for words, _ in self.ANSWERED:
            self.assertEqual(ran(*words, given=None, stdin=folder), ("", "", FAILED_STREAM), words)
        os.close(folder)

    def test_nothing_is_said_where_the_answer_cannot_be_written(self) -> None:
        with open("/dev/full", "wb") as full:
            for words, given in (*self.GIVEN, *self.ANSWERED):
                self.assertEqual(ran(*words, given=given, stdout=full), ("", "", FAILED_STREAM), words)

    def test_nothing_is_said_where_standard_output_is_closed(self) -> None:
        for words, given in self.GIVEN:
            found = ran(*words, given=given, stdout=None, preexec_fn=lambda: os.close(1))
            self.assertEqual(found, ("", "", FAILED_STREAM), words)

    def test_an_answer_stands_where_standard_error_cannot_be_written(self) -> None:
        with open("/dev/full", "wb") as full:
            ways: List[Dict[str, Any]] = [{"stderr": full}, {"stderr": None, "preexec_fn": lambda: os.close(2)}]
            for words, given in self.GIVEN:
                said = ran(*words, given=given)
                self.assertTrue(said.said)
                for way in ways:
                    self.assertEqual(ran(*words, given=given, **way), (said.output, "", said.status), words)


@unittest.skipUnless(support.program(), "no built program")
class Runs(unittest.TestCase):
    DEVICE = "".join(line for line in RUN.read_text().splitlines(keepends=True) if line.startswith(("page,", "sheet,")))

    def test_the_operation_that_is_one_too_many_is_told_how_many_may_be(self) -> None:
        found = ran("run", given=(self.DEVICE + 10_001 * "op,0,0,read,0,0,0\n" + "end\n").encode())
        row = self.DEVICE.count("\n") + 10_001
        self.assertEqual((found.output, found.status), (f"script refused {row} OutOfRange\n", 1))
        self.assertIn(f":{row}: row {row} 'op,0,0,read,0,0,0': a script has at most 10000 rows 'op'\n", found.said)

    def test_a_channel_that_is_over_is_told_what_to_do(self) -> None:
        """Which operations one plan takes up isn't fixed, so there are many, and the run is made again where each plan was over."""
        operations = "".join(f"op,0,0,read,{block % 2},{block},0\n" for block in range(200))
        for _ in range(100):
            found = ran("run", "--limit", "1", given=(self.DEVICE + operations + "end\n").encode())
            self.assertIn(found.status, (0, 6))
            self.assertEqual(bool(found.said), found.status == 6)
            if found.status == 6:
                self.assertRegex(found.said, r"^onfi_sim: 'over,0,1': .*'--limit'.*'batch,N'.*\n\Z")
                return
        self.fail("no plan opened more than one node")
