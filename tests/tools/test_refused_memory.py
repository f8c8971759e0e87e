"""tools/refuse-memory, on small programs that take refused memory rightly and wrongly."""

import subprocess
import tempfile
import unittest

import support

REFUSE = support.load("refuse-memory")
CASE = "nothing to do on a bus that is free from 7 on"
PROGRAM = r"""
#include <stdio.h>
#include <stdlib.h>
#include <unistd.h>

static void say(const char *text, size_t size) { if (write(1, text, size) < 0) _exit(7); }

static void *grown(void *block, size_t size)
{
    void *larger = realloc(block, size);
    if (!larger) { WHERE_REFUSED }
    return larger;
}

int main(void)
{
    char *text = grown(NULL, 8);
    grown(text, 4096);
    ANSWER
}
"""
PLANS = r'say("ONFIPLAN 1\nfinish 7\nONFICERT 1\nU\n", 33); return 0;'
REFUSES = r'say("memory\n", 7); _exit(4);'
ONE_ERASE = "what stands behind the line end isn't looked at"
RUNS = r'say("reply,0,0,0,done\nclosed\n", 24); return 0;'
TOO_GREAT = "a limit one too great"
WRONG_WORDS = r'write(2, "error: a word\n", 14); return 5;'


def said_of_program(text: str, *ways: str, case: str = CASE) -> "subprocess.CompletedProcess[str]":
    with tempfile.TemporaryDirectory() as folder:
        return support.run_tool("refuse-memory", *ways, support.compiled(folder, text, "-O0", "-w"), case)


def said_of(where_refused: str, answer: str = PLANS, case: str = CASE) -> "subprocess.CompletedProcess[str]":
    """What the tool says of a program that does this where a growth is refused, and else answers so."""
    return said_of_program(PROGRAM.replace("WHERE_REFUSED", where_refused).replace("ANSWER", answer), case=case)


PASS = {
    "a program that reports each refusal": (REFUSES, PLANS, CASE),
    "a message beside a refusal": (r'write(2, "onfi_sim: memory was refused\n", 29); ' + REFUSES, PLANS, CASE),
    "a report that ends in memory": (r'say("reply,0,0,0,failed\nmemory\n", 26); _exit(4);', RUNS, ONE_ERASE),
    "a refused command line with memory, or its message": (REFUSES, WRONG_WORDS, TOO_GREAT),
}
# What is done where a growth is refused, the message, the answer else, and the case.
MISSED = {
    "another answer in place of the refusal": (r'say("ONFIPLAN 1\nfinish 0\nONFICERT 1\nU\n", 33); _exit(0);', "growth 1 refused, alone: status 0", PLANS, CASE),
    "lines before the refusal": (r'say("ONFIPLAN 1\nmemory\n", 18); _exit(4);', "growth 2 refused, and all behind it: status 4", PLANS, CASE),
    "a status without its line": ("_exit(4);", "status 4, ''", PLANS, CASE),
    "a line without its status": (r'say("memory\n", 7); _exit(5);', "status 5", PLANS, CASE),
    "a crash": ("abort();", "status -6", PLANS, CASE),
    "a word on standard error": (r'write(2, "oh\n", 3); ' + REFUSES, "memory\\noh\\n", PLANS, CASE),
    "half a message": (r'write(2, "onfi_sim: memory was", 20); ' + REFUSES, "growth 1 refused, alone: status 4", PLANS, CASE),
    "a message beside an answer": (REFUSES, "nothing refused: status 0", r'write(2, "onfi_sim: done\n", 15); ' + PLANS, CASE),
    "a wrong answer with memory": (REFUSES + " } if (size == 4096) { _exit(0);", "nothing refused: status 0", PLANS, CASE),
    "a reply twice": (r'say("reply,0,0,0,done\nreply,0,0,0,done\nmemory\n", 41); _exit(4);', "growth 1 refused, alone: status 4", RUNS, ONE_ERASE),
    "a reply to what was not sent": (r'say("reply,0,0,1,done\nmemory\n", 24); _exit(4);', "growth 1 refused, alone: status 4", RUNS, ONE_ERASE),
    "a closed run without a reply": (r'say("closed\n", 7); _exit(0);', "growth 1 refused, alone: status 0", RUNS, ONE_ERASE),
    "a refused command line of which nothing is said": ("_exit(5);", "growth 2 refused, alone: status 5", WRONG_WORDS, TOO_GREAT),
}


class RefusedMemory(unittest.TestCase):
    def test_what_passes(self) -> None:
        for name, program in PASS.items():
            with self.subTest(name):
                said = said_of(*program)
                self.assertEqual((said.returncode, said.stderr, said.stdout.splitlines()[-1]), (0, "", "1 passed, 0 failed"))
                self.assertIn("2 growths, 0 misses", said.stdout)

    def test_what_is_a_miss(self) -> None:
        for name, (where_refused, told, answer, case) in MISSED.items():
            with self.subTest(name):
                said = said_of(where_refused, answer, case)
                self.assertEqual((said.returncode, said.stdout.splitlines()[-1]), (1, "0 passed, 1 failed"))
                self.assertIn(told, said.stdout)

    def test_status_0_needs_each_reply_even_where_it_is_the_usual_answer(self) -> None:
        script = b"op,0,1,read,0,0,0\nop,0,1,read,0,1,0\nend\nop,0,1,read,0,2,0\n"
        for told, status, right in ((b"reply,0,1,0,done\nclosed\n", 0, False), (b"reply,0,1,0,done\nover,1,2\nclosed\n", 6, True),
                                    (b"reply,0,1,0,done\nreply,0,1,1,done\nclosed\n", 0, True)):
            case = REFUSE.Case("a page", "a case", [b"run"], script, status, told, None)
            self.assertEqual(REFUSE.without_memory(case, REFUSE.Ran(told, b"", status, 2, 1)), right)

    def test_calls_of_another_program_may_be_refused_with_their_usage(self) -> None:
        usage = r'write(2, "usage: apart|running\n", 21); return 5;'
        text = PROGRAM.replace("WHERE_REFUSED", REFUSES).replace("ANSWER", usage)
        said = said_of_program(text, "--calls", case="a trial that isn't there")
        self.assertEqual((said.returncode, said.stdout.splitlines()[-1]), (0, "1 passed, 0 failed"), said.stdout)

    def test_a_program_that_asks_for_no_memory_shows_nothing(self) -> None:
        said = said_of_program('#include <unistd.h>\nint main(void) { return write(1, "ONFIPLAN 1\\nfinish 7\\nONFICERT 1\\nU\\n", 33) != 33; }')
        self.assertEqual((said.returncode, said.stdout.splitlines()[-1]), (1, "0 passed, 1 failed"))
        self.assertIn("no growth was seen", said.stdout)


STREAMS = r"""
#include <unistd.h>

static const char answer[] = "ONFIPLAN 1\nfinish 7\nONFICERT 1\nU\n";

int main(void)
{
    char text[64];
    for (long size = 1; size;)
        if ((size = read(0, text, sizeof text)) < 0) { WHERE_READ }
    for (long done = 0, size; done < 33; done += size)
        if ((size = write(1, answer + done, 33 - done)) < 0) { WHERE_WRITTEN }
    return 0;
}
"""


# What is done where a read is refused and where a write is, the last line, and what else is said.
OF_STREAMS = {
    "a program that ends with its status": ("_exit(7);", "_exit(7);", "1 passed, 0 failed", r"\d\d? reads, 3 writes, 0 misses"),
    "an answer to what was read": ("size = 0; break;", "_exit(7);", "0 passed, 1 failed", "read 1 refused, alone: status 0"),
    "a write error that is swallowed": ("_exit(7);", "break;", "0 passed, 1 failed", "write 2 refused, alone: status 0"),
    "a write that is left out": ("_exit(7);", "size = 16;", "0 passed, 1 failed", "write 1 refused, alone: status 0"),
}


class RefusedStreams(unittest.TestCase):
    def test_a_refused_command_line_is_left_out(self) -> None:
        said = said_of_program(STREAMS.replace("WHERE_READ", "_exit(7);").replace("WHERE_WRITTEN", "_exit(7);"), "--streams", case=TOO_GREAT)
        self.assertEqual((said.returncode, said.stdout.splitlines()), (1, ["0 passed, 0 failed"]))

    def test_others(self) -> None:
        for name, (where_read, where_written, last, told) in OF_STREAMS.items():
            with self.subTest(name):
                said = said_of_program(STREAMS.replace("WHERE_READ", where_read).replace("WHERE_WRITTEN", where_written), "--streams")
                self.assertEqual((said.returncode, said.stdout.splitlines()[-1]), (int(last.startswith("0")), last))
                self.assertRegex(said.stdout, told)
