"""Logs, legal ones and ones broken on purpose: the program and a judge apart from it give the same answers."""

from __future__ import annotations

import copy
import random
import unittest
from typing import Dict, List, Optional, Tuple

import support
from gap_model import Piece, bound_of, pieces_of
from log_model import CLOSERS, FURTHER, Entry, Judge, Line, Manner, Poll, Remark, answer_of

# How many logs, and how many phases one has at most.
COUNT, PHASES = 150, 80
KINDS = ("read", "program", "erase")


def script_of(rng: random.Random, phases: int) -> str:
    """A device and a state of its channel; of some, requests."""
    luns, planes = rng.randint(1, 8), rng.randint(0, 2)
    reads = rng.randint(0, 1)
    rows = [f"shape,{luns},{planes},{reads},{rng.randint(0, 1)}", f"strict,{rng.randint(0, 1)}"]
    rows += [f"spans,{kind},{rng.randint(1, 9)},{rng.randint(0, 9)},{rng.randint(0, 90)},{rng.randint(1, 30)}" for kind in KINDS]
    rows += [f"sectorpost,{sectors},{rng.randint(1, 30)}" for sectors in range(1, 8)]
    rows += [f"bus,{rng.randint(0, 50)}"] if rng.random() < 0.5 else []
    for lun in range(luns):
        chance = rng.random()
        if chance < 0.2:
            rows.append(f"free,{lun},{rng.randint(0, 90)}")
        elif chance < 0.3 and reads and planes:
            rows.append(f"running,{lun},{rng.randint(1, 3)},{rng.randint(0, 90)},read,{rng.randint(0, 3)},4,5")
        elif chance < 0.4:
            rows.append(f"running,{lun},1,{rng.randint(0, 90)},read,{rng.randint(0, 3)},{rng.randint(0, 9)}")
            rows.append(f"runsectors,{lun},{rng.randint(0, 7)}")
    if rng.random() < 0.5:
        for request in range(rng.randint(1, phases)):
            kind = rng.choice(KINDS)
            page = 0 if kind == "erase" else rng.randint(0, 2)
            rows.append(f"want,{kind},{rng.randrange(luns)},{rng.randint(0, 9)},{page}")
            if request < 8 and kind == "read" and rng.random() < 0.5:
                rows.append(f"sectors,{request},{rng.randint(0, 7)}")
    return "\n".join([*rows, "end", ""])


def candidate(rng: random.Random, judge: Judge, number: int) -> Optional[Line]:
    """A phase that may come next, perhaps."""
    at = rng.randrange(len(judge.luns))
    lun = judge.luns[at]
    if lun.members and not (lun.is_open and rng.random() < 0.5):
        member = lun.members[lun.over % len(lun.members)]
        part = "cmd" if lun.over < len(lun.members) else "post"
        return Line(judge.bus, at, member.kind, part, member.block, member.page, member.number)
    if judge.mentioned:
        kind = lun.members[0].kind if lun.members else rng.choice(KINDS)
        page = 0 if kind == "erase" else rng.randint(0, 1)
        return Line(judge.bus, at, kind, "cmd", rng.randint(0, 9), page, number if rng.random() < 0.8 else None)
    waiting = [it for it in judge.waiting if it.lun == at]
    if not waiting:
        return None
    want = rng.choice(waiting[:6])
    return Line(judge.bus, at, want.kind, "cmd", want.block, want.page, want.number)


def legal_log(rng: random.Random, script: str, phases: int, manner: Manner) -> List[Entry]:
    """Phases, each as soon as it may come or a little later, with polls, edges and comments between them where they are asked for."""
    judge = Judge([row.split(",") for row in script.split("\n")[:-2]], manner)
    lines: List[Entry] = []
    for number in range(3 * phases):
        if manner.by_status and rng.random() < 0.3 and len(lines) < phases:
            sign = rng.choice(("ready", "edge"))
            start = judge.bus + rng.choice((0, rng.randint(0, 60))) - (rng.randint(0, min(9, judge.bus)) if sign == "edge" else 0)
            poll = Poll(start, rng.randrange(len(judge.luns)), sign)
            assert judge.judge(poll) is None
            lines.append(poll)
        line = candidate(rng, judge, number)
        if line is None or len(lines) == phases:
            continue
        line.start += rng.choice((0, 0, 0, rng.randint(0, 20)))
        if manner.tolerance and line.start >= manner.tolerance:
            line.start -= rng.choice((0, rng.randint(0, manner.tolerance)))
        broken = judge.copied().judge(line)
        if broken and broken.split()[0] in ("NotReady", "LunNotFree"):
            line.start = int(broken.split()[-1])
            broken = judge.copied().judge(line)
        if broken is None:
            judge.judge(line)
            lines.append(line)
    return lines


def put_fields(script: str, lines: List[Entry], manner: Manner) -> None:
    """Gives each phase of a legal log its END and its command bytes."""
    judge = Judge([row.split(",") for row in script.split("\n")[:-2]], manner)
    last: Dict[int, Line] = {}
    for line in lines:
        assert not isinstance(line, Remark)
        lun = judge.luns[line.lun]
        is_further = isinstance(line, Line) and line.part == "cmd" and bool(lun.members)
        assert judge.judge(line) is None
        if isinstance(line, Poll):
            continue
        if is_further and line.lun in last:
            last[line.lun].closer = FURTHER[line.kind]
        line.end = judge.bus
        line.opener, line.closer = line.bytes
        last[line.lun] = line


def broken_field(rng: random.Random, line: Line) -> None:
    """Changes END or a command byte."""
    what = rng.randrange(4)
    if what == 0:
        line.end = max(0, (line.end or 0) + rng.choice((-1, 1, 999_999)))
    elif what == 1:
        line.opener = rng.choice(("00", "60", "80", "78", "ZZ", "0"))
    elif what == 2:
        line.closer = rng.choice(("10", "30", "D0", "E0", "-", "hello", "d0"))
    else:
        line.closer = FURTHER[line.kind] if line.closer == CLOSERS[line.kind, "cmd"] else CLOSERS[line.kind, "cmd"]


def broken_line(rng: random.Random, line: Entry) -> Entry:
    line = copy.copy(line)
    assert not isinstance(line, Remark)
    if isinstance(line, Line) and line.end is not None and rng.random() < 0.4:
        broken_field(rng, line)
        return line
    what = rng.randrange(4 if isinstance(line, Poll) else 7)
    if what < 3:
        line.start = max(0, line.start + rng.choice((-20, -2, -1, 1, 2, 20)))
    elif what == 3:
        line.lun = rng.randrange(8)
    elif isinstance(line, Poll):
        pass
    elif what == 4:
        line.block, line.page = rng.randint(0, 9), rng.randint(0, 2)
    elif what == 5:
        line.kind, line.part = rng.choice(KINDS), rng.choice(("cmd", "post"))
    else:
        line.number = rng.choice((None, rng.randint(0, 90)))
    return line


def break_log(rng: random.Random, lines: List[Entry]) -> None:
    """Changes a log in one to four places."""
    for _ in range(rng.randint(1, 4) if lines else 0):
        at, what = rng.randrange(len(lines)), rng.randrange(6)
        if what < 3:
            lines[at] = broken_line(rng, lines[at])
        elif what == 3:
            lines.insert(at, broken_line(rng, lines[at]))
        elif what == 4 and len(lines) > 1:
            del lines[at]
        else:
            other = rng.randrange(len(lines))
            lines[at], lines[other] = lines[other], lines[at]


def text_of(rng: random.Random, lines: List[Entry]) -> str:
    """The log in one of the four forms of lines; of some a line that says nothing."""
    numbered = rng.random() < 0.5
    texts = []
    for line in lines:
        if rng.random() < 0.05:
            texts.append(rng.choice(("#", "# a comment", "#0 0 read cmd 0 0")))
        assert not isinstance(line, Remark)
        if isinstance(line, Poll):
            texts.append(f"{line.start} {line.lun} {line.sign}")
            continue
        traced = line.end is not None and rng.random() < 0.95
        words = [str(line.start), *([str(line.end)] if traced else []), str(line.lun), line.kind, line.part, str(line.block), str(line.page)]
        words += [line.opener, line.closer] if traced else []
        words += ["-" if line.number is None else str(line.number)] if numbered else []
        texts.append(" ".join(words))
    if texts and rng.random() < 0.1:
        at = rng.randrange(len(texts))
        texts[at] = rng.choice(("", texts[at] + " ", texts[at].replace(" ", "  ", 1), "-" + texts[at], texts[at].replace("read", "Read"), texts[at] + "\r"))
    log = "".join(f"{text}\n" for text in texts)
    return log[:-1] if rng.random() < 0.03 else log


def drawn(seed: int, by_status: bool) -> Tuple[str, str, Manner]:
    rng = random.Random(seed)
    phases = rng.randint(1, PHASES)
    script = script_of(rng, phases)
    manner = Manner(rng.random() < 0.5, by_status, rng.choice((0, 0, rng.randint(1, 30))), rng.random() < 0.3)
    lines = legal_log(rng, script, phases, manner)
    if rng.random() < 0.6:
        put_fields(script, lines, manner)
    if rng.random() < 0.8:
        break_log(rng, lines)
    return script, text_of(rng, lines), manner


@unittest.skipUnless(support.program(), "no built program")
class Logs(unittest.TestCase):
    def compare(self, by_status: bool) -> None:
        legal = 0
        for seed in range(COUNT):
            script, log, manner = drawn(seed, by_status)
            ran = support.run_program("audit", *manner.words, given=script + log)
            self.assertEqual(ran.stdout, answer_of(script, log, manner), f"seed {seed} {manner.words}\n{script}{log}")
            is_legal = ran.stdout.startswith("legal ")
            self.assertEqual(ran.returncode, 0 if is_legal else 2)
            legal += is_legal
        self.assertTrue(COUNT / 10 < legal < COUNT / 2, legal)

    def test_the_program_and_the_judge_give_the_same_answers(self) -> None:
        self.compare(False)

    def test_so_they_do_where_statuses_are_polled(self) -> None:
        self.compare(True)

    def test_pieces_are_of_their_own_requests_and_nothing_passes_the_bound(self) -> None:
        many = 0
        for seed in range(COUNT):
            rng = random.Random(seed)
            script = script_of(rng, PHASES)
            lines = [it for it in legal_log(rng, script, PHASES, Manner()) if isinstance(it, Line)]
            log = "".join(f"{it.start} {it.lun} {it.kind} {it.part} {it.block} {it.page}\n" for it in lines)
            ran = support.run_program("audit", "--optimum", "--limit", "32", given=script + log)
            self.assertEqual((ran.returncode, ran.stderr), (0, ""), f"seed {seed}\n{script}{log}")
            said = [line.split() for line in ran.stdout.splitlines()]
            found = [[int(word) for word in words[1:]] for words in said if words[0] == "piece"]
            judge = Judge([row.split(",") for row in script.split("\n")[:-2]])
            self.assertEqual([Piece(*it[:4]) for it in found], pieces_of(judge.copied(), lines), f"seed {seed}\n{script}{log}")
            self.assertTrue(all(below <= best and below <= end for _, _, _, end, best, below in found), ran.stdout)
            bounds = [[int(word) for word in words[1:]] for words in said if words[0] == "bound"]
            bound = bound_of(judge, lines)
            self.assertEqual(bounds, [] if bound is None else [[*bound, bound.share]], f"seed {seed}\n{script}{log}")
            self.assertTrue(bound is None or max(bound.bus, bound.die) <= bound.end, bound)
            many += len(found)
        self.assertGreater(many, COUNT)
