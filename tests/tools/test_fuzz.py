"""tools/fuzz, on programs that answer rightly and wrongly."""

import sys
import tempfile
import unittest

import support

PLAN = "ONFIPLAN 1\\nfinish 7\\nONFICERT 1\\nU\\n"
REMEMBERED = PLAN.replace("ONFICERT 1", "ONFICERT 3 remember")
NEAR = REMEMBERED.replace("finish 7", "finish 7\\nbelow 6")
PROGRAM = """#!{python} -SI
import sys
text = sys.stdin.buffer.read()
words = sys.argv[1:]
command = (words + [""])[0]
traced = "--trace" in words or "--requests" in words
split, legal, within = "--workers" in words, "--legal" in words, "within" in words
def say(text, status):
    sys.stdout.write(text)
    sys.exit(status)
{body}
"""
REFUSES = """
taken = {*"--limit --trace --requests --workers --by --legal --early".split()}
options = [word for word in words[1:] if not (word.isdigit() or word in ("within", "rule"))]
if command not in ("plan", "check", "run") or sorted(options) != sorted(taken.intersection(options)):
    sys.stderr.write("error: a word\\n")
    sys.exit(5)
"""
ANSWERS = f"""
if legal:
    say("legal 7\\n", 0)
if command == "check" and within and text.endswith(b"{NEAR}"):
    say("within 7 6\\n", 8)
if command == "check":
    whole = b"{REMEMBERED}" if within else b"{PLAN}"
    say("accepted 7\\n", 0) if text.endswith(whole) else say("refused plan 1\\n", 2)
plan = "{NEAR}" if within else "{PLAN}"
say("closed\\n" if command == "run" else "" if traced else plan, 0)
"""
RIGHT = REFUSES + ANSWERS


# Some cases of each command: what is drawn doesn't change where others are added.
CASES = ["two reads of two planes are grouped", "nine wants", "one read within the least limit", "a yield, then the bound of the die",
         "a token behind the last move", "a node in which the other LUN is later, closed by the node that was read", "a node that is still open",
         "an end that nothing comes before", "nothing ends before a time", "a time, and whether the schedule is legal",
         "the chips of two channels hold blocks of their own"]


def fuzzed(body: str, inputs: int = 40) -> "tuple[int, str]":
    """Status and output of the tool on a program with this body."""
    with tempfile.TemporaryDirectory() as folder:
        program = support.executable(folder, PROGRAM.format(python=sys.executable, body=body))
        said = support.run_tool("fuzz", "36000", program, "--inputs", str(inputs), "--only", *CASES)
    return said.returncode, said.stdout


FAR = NEAR.replace("finish 7", "finish 9").replace("below 6", "below 8")
MESSAGE = 'sys.stderr.write("onfi_sim: row 1\\n  expected: another\\n")\n'
OTHER_PLAN = "ONFIPLAN 1\\nfinish 7\\nONFICERT 1\\nL\\n"
# What a program does that is a miss, the message, and on how many inputs it shows.
MISSES = {
    "a status of another command": ('say("refused finish\\n", 2)', "status 2", 40),
    "a crash": ("import os\nos.abort()", "status -6", 40),
    "an answer of no form": ('say("script refused\\n", 1)', "status 1", 40),
    "a word on standard error": ('sys.stderr.write("oh")\nsay("script refused 0 NoEnd\\n", 1)', "standard error b'oh'", 40),
    "a message beside an answer": (REFUSES + MESSAGE + ANSWERS, "standard error b'onfi_sim: row 1", 40),
    "a plan that is refused": (RIGHT.replace("accepted 7", "refused 1 Illegal").replace(", 0) if", ", 2) if"), "['check'] says b'refused 1 Illegal", 40),
    "a plan that is refused with the other header": (RIGHT.replace("if within else", "if 0 else", 1), "['check', '--by', 'within'] says b'refused plan 1", 100),
    "a sooner finish that is accepted": (RIGHT.replace('say("refused plan 1\\n", 2)', 'say("accepted 6\\n", 0)'), "says that the best plan ends from 6 to 6, and ", 40),
    "a time above the optimum": (
        RIGHT.replace(NEAR, FAR).replace("within 7 6", "within 9 8"), "'] from 8 to 9", 100),
    "a plan that is judged otherwise": (RIGHT.replace("within 7 6", "within 7 5"), "['check', '--by', 'within'] says b'within 7 5", 100),
    "a legal schedule that ends sooner": (RIGHT.replace("legal 7", "legal 6"), "['check', '--legal'] from 0 to 6", 40),
    "another plan by several workers": (REFUSES + f'if split: say("{OTHER_PLAN}", 0)' + ANSWERS, f"another plan b'{OTHER_PLAN}'", 200),
    "a reply twice": (RIGHT.replace("closed", "reply,0,0,1,done\\nreply,0,0,1,done\\nclosed"), "replies that don't rise", 40),
    "a stopped channel with another status": (RIGHT.replace("closed", "stopped,0,Bus\\nclosed"), "status 0 of the report", 40),
    "a command line that is refused without a word": (RIGHT.replace("error: a word", ""), "status 5", 100),
    "a command line that is refused with an answer": (RIGHT.replace("sys.exit(5)", 'say("refused\\n", 5)'), "status 5", 100),
    "words that are refused though nothing changed them": (RIGHT.replace("if command", "if within or command"), "status 5", 40),
}


class Fuzz(unittest.TestCase):
    def test_a_program_that_answers_rightly_passes(self) -> None:
        status, said = fuzzed(RIGHT, 100)
        self.assertEqual((status, said.splitlines()[-1]), (0, "100 passed, 0 failed"))
        plans = ("plan plan", "trace trace", "run ran", "words refused")
        for told in ("plan --by within near", "check --by within within", "check accepted", "check --by within accepted", "check --legal legal", *plans):
            self.assertRegex(said, rf"[1-9]\d* {told}\b")

    def test_a_message_passes_beside_a_refusal(self) -> None:
        status, said = fuzzed(REFUSES + MESSAGE + 'say("script refused 1 UnknownRow\\n", 1)', 20)
        self.assertEqual((status, said.splitlines()[-1]), (0, "20 passed, 0 failed"))

    def test_what_is_a_miss(self) -> None:
        for name, (body, told, inputs) in MISSES.items():
            with self.subTest(name):
                status, said = fuzzed(body, inputs)
                self.assertEqual(status, 1)
                self.assertIn(told, said)
                self.assertNotIn(" 0 failed", said.splitlines()[-1])
