"""The built program on inputs that break off at each byte, and on more open nodes than may be remembered."""

import os
import re
import unittest
from concurrent.futures import ThreadPoolExecutor
from typing import Callable, List, Tuple, Union

import support
from onfi_tools.cases import Case, read_cases
from onfi_tools.limits import run_within

Answer = Tuple[bytes, int]
TOKEN = re.compile(rb"(B[1-9][0-9]?|[ULTX]|[DY][0-7]|R(0|[1-9]\d*)|W(0|[1-9]\d*),(0|[1-9]\d*))\Z")
NO_END = (b"script refused 0 NoEnd\n", 1)


def case_named(name: str) -> Case:
    return next(case for case in read_cases([name]) if case.name == name)


def answer(case: Case, given: bytes) -> Answer:
    ran = run_within(20, [str(support.program()), *case.arguments], given)
    return ran.stdout, ran.returncode


def good_tokens(text: bytes) -> int:
    """How many words from the first on are tokens; the last one may break off."""
    words = text.split(b" ")
    return next((place for place, word in enumerate(words) if not TOKEN.match(word)), len(words))


def answer_to_cut(script: bytes, plan: bytes, size: int) -> Answer:
    """What `check` answers to that many bytes of a script and its plan, but not all of them."""
    if size < len(script) - 1:
        return NO_END
    text = plan[: max(0, size - len(script))]
    lines = text.split(b"\n")
    if not any(line.startswith(b"ONFICERT") for line in lines[:-1]):
        return b"refused plan %d\n" % len(lines), 2
    return b"refused cert BadToken %d\n" % good_tokens(lines[-1]), 2


@unittest.skipUnless(support.program(), "no built program")
class Cuts(unittest.TestCase):
    def assert_cut(self, case: Case, expected: Callable[[int], Answer]) -> None:
        """At each size the answer is the expected one; the whole input has the case's."""
        sizes = range(len(case.input))
        with ThreadPoolExecutor(os.cpu_count()) as pool:
            answers: List[Answer] = list(pool.map(lambda size: answer(case, case.input[:size]), sizes))
        for size in sizes:
            self.assertEqual(answers[size], expected(size), case.input[:size])
        self.assertEqual(answer(case, case.input), (case.output, case.status))

    def test_a_script_cut_before_its_last_line_end_has_no_end(self) -> None:
        case = case_named("an output, a status and an erase open seven nodes")
        last = len(case.input) - 1
        self.assert_cut(case, lambda size: (case.output, 0) if size == last else NO_END)

    def test_a_judged_plan_cut_anywhere_is_refused_by_what_is_left(self) -> None:
        for name in ("a yield, then the bound of the die", "a late status yields to programs", "the statuses within a window",
                     "a node in which the other LUN is later, closed by the node that was read"):
            case = case_named(name)
            begun = case.input.index(b"ONFIPLAN")
            script, plan = case.input[:begun], case.input[begun:]
            self.assertIn(b"accepted", case.output)
            self.assert_cut(case, lambda size: answer_to_cut(script, plan, size))


def every_move(nodes: int) -> Tuple[List[str], int]:
    """The tokens of all moves of four reads on each of two LUNs, up to the end of that many open nodes, and the last one's place."""
    tokens: List[str] = []
    todo: List[Union[int, Tuple[int, int]]] = [(8, 8)]
    place = ended = 0
    while ended < nodes:
        node = todo.pop()
        if isinstance(node, int):
            place, ended = node, ended + 1
            continue
        moves = [1 if left % 2 else left // 2 for left in node]
        if sum(moves):
            todo.append(len(tokens))
        todo += [(node[0], node[1] - 1)] * moves[1] + [(node[0] - 1, node[1])] * moves[0]
        tokens.append(f"B{sum(moves)}" if sum(moves) else "X")
    return tokens, place


@unittest.skipUnless(support.program(), "no built program")
class Remembered(unittest.TestCase):
    def test_no_more_open_nodes_are_read_than_may_be_remembered(self) -> None:
        wants = "".join(f"want,read,{lun},{block},0\n" for lun in range(2) for block in range(4))
        spans = "spans,read,140,600,25100,11000\nspans,program,10800,600,200100,280\nspans,erase,100,600,1500100,280\n"
        script = "shape,2,0,0,0\n" + spans + wants + "end\n"
        plan = support.run_program("plan", given=script).stdout.split("ONFICERT")[0]
        tokens, place = every_move(1_048_577)
        for kept, told in ((tokens, f"refused 13 TooMany {place}\n"), (tokens[:-1], "refused 2 Short\n")):
            given = script + plan + "ONFICERT 3 remember\n" + " ".join(kept) + "\n"
            ran = support.run_program("check", "--by", "within", given=given)
            self.assertEqual((ran.stdout, ran.returncode), (told, 2))
            self.assertIn("doesn't prove that nothing ends before ", ran.stderr)
