"""A core plays random events as a plain machine does that keeps places, serials, answers and times by itself."""

import random
import re
import subprocess
import unittest
from typing import Dict, Iterator, List, NamedTuple, Optional, Tuple

import support

HOSTS, LUNS, BLOCKS, BATCH, ROOM, WINDOW = 3, 2, 4, 3, 4, 64
SECTORS, SECTOR_BYTES = 4, 132
# Of each kind how long its command and its post take, in ns; of the post of a read of sectors what comes before the first.
SPANS = {"read": (140, 11_000), "sectors": (140, 440), "program": (10_800, 280), "erase": (100, 280)}
SECTOR_TIME = 2_640
OF_PLAN = re.compile(r"(finish|rest|group|member) |(Bus|Lead|Trail|End|Die|Branch|Yield)\b")


class Act(NamedTuple):
    """What is done; `first` and `sectors` are those of a read of some, else 0."""

    word: str
    host: int
    lun: int
    block: int
    first: int
    sectors: int

    def said(self) -> str:
        """The kind of its request, as it is printed."""
        return f"ReadSectors {{ first: {self.first}, count: {self.sectors} }}" if self.word == "sectors" else self.word.capitalize()


class Job(NamedTuple):
    host: int
    serial: int
    kind: str
    lun: int
    block: int
    sectors: int


class Left(NamedTuple):
    """A phase of a plan that is left: its start, the number of its group, and its own there, commands first."""

    start: int
    group: int
    phase: int


def numbers_in(line: str) -> List[int]:
    return [int(digits) for digits in re.findall(r"\d+", line)]


class Plain:
    """One channel whose chip never fails, and has sectors or none. Which optimal plan is taken it is given; all else it keeps itself."""

    def __init__(self, sectors: int) -> None:
        self.sectors = sectors
        self.sent = [0] * HOSTS
        self.waiting: List[Job] = []
        self.accepted: List[Job] = []
        self.planned, self.posts = 0, 0
        self.wants: List[int] = []
        self.groups: List[List[int]] = []
        self.running: List[Optional[Tuple[int, int]]] = [None] * LUNS
        self.left: List[Left] = []
        self.answers: Dict[int, str] = {}
        self.held: List[List[int]] = [[] for _ in range(HOSTS)]
        self.posted: List[List[int]] = [[] for _ in range(HOSTS)]
        self.written = [[False] * BLOCKS for _ in range(LUNS)]

    def submit(self, act: Act) -> str:
        kind, host, lun, block, first, count = act
        comes_back = f", and back comes a request of {act.said()}"
        if host >= HOSTS:
            return "no such host" + comes_back
        if lun >= LUNS:
            return "Lun" + comes_back
        if kind == "sectors" and not (1 <= count and first + count <= self.sectors):
            return "Sectors" + comes_back
        if len(self.waiting) >= ROOM:
            return "full" + comes_back
        self.waiting.append(Job(host, self.sent[host], kind, lun, block, count))
        self.sent[host] += 1
        return f"Submitted {{ serial: {self.sent[host] - 1} }}"

    def accept(self) -> str:
        if len(self.accepted) - self.posts >= WINDOW:
            return "WindowFull"
        if not self.waiting:
            return "NothingToAccept"
        self.accepted.append(self.waiting.pop(0))
        return f"Accepted {{ place: {len(self.accepted) - 1} }}"

    def plan(self, told: List[str]) -> str:
        end = min(len(self.accepted), self.planned + BATCH - len(self.wants))
        if end <= self.planned:
            return "NothingToPlan"
        self.wants += range(self.planned, end)
        self.planned = end
        self.follow(told)
        return f"Planned {{ finish: {max(left.start + self.length(left) for left in self.left)} }}"

    def follow(self, told: List[str]) -> None:
        """The starts of the plan take the place of those that are left; its groups are of the wants."""
        rest = [numbers_in(line) for line in told if line.startswith("rest ")]
        self.left = [Left(start, running[0], running[1] + at)
                     for running, starts in zip(self.running, rest) if running for at, start in enumerate(starts)]
        for line in told:
            if line.startswith("group "):
                self.left += [Left(start, len(self.groups), at) for at, start in enumerate(numbers_in(line))]
                self.groups.append([])
            if line.startswith("member "):
                assert int(line[7:]) in self.wants, line
                self.groups[-1].append(int(line[7:]))
        self.left.sort()

    def length(self, left: Left) -> int:
        places = self.groups[left.group]
        job, is_post = self.accepted[places[left.phase % len(places)]], left.phase >= len(places)
        return SPANS[job.kind][is_post] + is_post * job.sectors * SECTOR_TIME

    def bus(self) -> str:
        if not self.left:
            return "NoPlan"
        left = self.left.pop(0)
        places = self.groups[left.group]
        if left.phase == 0:
            self.wants = [want for want in self.wants if want not in places]
        if left.phase + 1 == len(places):
            for place in places:
                self.happen(place)
        place = places[left.phase % len(places)]
        job = self.accepted[place]
        ends = left.phase + 1 == 2 * len(places)
        self.running[job.lun] = None if ends else (left.group, left.phase + 1)
        if left.phase >= len(places):
            self.held[job.host].append(place)
        return f"Phase {{ start: {left.start} }}"

    def happen(self, place: int) -> None:
        """The item at the place happens on its block, and its answer is fixed."""
        job = self.accepted[place]
        before = self.written[job.lun][job.block]
        self.written[job.lun][job.block] = {"program": True, "erase": False}.get(job.kind, before)
        size = (job.sectors or SECTORS) * SECTOR_BYTES
        told = f"{size} bytes of Some({165 if before else 255})" if job.kind in ("read", "sectors") else "done"
        self.answers[place] = "failed" if job.kind == "program" and before else told

    def post(self, host: int) -> str:
        if host >= HOSTS:
            return "NoSuch(None)"
        if not self.held[host]:
            return "NothingToPost"
        if len(self.posted[host]) >= ROOM:
            return "PostFull"
        self.posts += 1
        self.posted[host].append(self.held[host].pop(0))
        return f"Posted {{ place: {self.posted[host][-1]} }}"

    def collect(self, host: int) -> str:
        if host >= HOSTS:
            return "NoSuch(None)"
        if not self.posted[host]:
            return "NothingToCollect"
        place = self.posted[host].pop(0)
        return f"reply {place} {self.accepted[place].serial} {self.answers[place]}"

    def step(self, act: Act, told: List[str]) -> str:
        word, host = act.word, act.host
        if word in SPANS:
            return self.submit(act)
        if word in ("post", "collect"):
            return self.post(host) if word == "post" else self.collect(host)
        return self.plan(told) if word == "plan" else self.accept() if word == "accept" else self.bus()


def drawn(seed: int, count: int) -> Iterator[Act]:
    """There is no fourth host and no third LUN, and a page has neither a fifth sector nor a read of none."""
    source = random.Random(seed)
    for _ in range(count):
        word = source.choices(["submit", "accept", "plan", "bus", "post", "collect"], [7, 5, 3, 8, 5, 4])[0]
        kind = source.choice(list(SPANS)) if word == "submit" else word
        lun = 2 if source.randrange(16) == 15 else source.randrange(LUNS)
        first, count = (source.randrange(4), source.randrange(5)) if kind == "sectors" else (0, 0)
        yield Act(kind, source.randrange(HOSTS + 1), lun, source.randrange(BLOCKS), first, count)


def row_of(act: Act) -> str:
    word, host, lun, block, first, count = act
    if word == "sectors":
        return f"sectors,{lun},{block},0,{first},{host},0,{count}\n"
    if word in SPANS:
        return f"{word},{lun},{block},0,165,{host}\n"
    return f"{word},{host}\n" if word in ("post", "collect") else "plan\nlast\n" if word == "plan" else f"{word}\n"


class Cores(unittest.TestCase):
    @unittest.skipUnless(support.trials(), "onfi_trials isn't built")
    def test_random_events_are_those_of_a_plain_machine(self) -> None:
        posts, several, sectors = 0, 0, 0
        for seed in range(10):
            acts = list(drawn(seed, 1_000))
            has_sectors = seed % 2 == 0
            rows = "sectored\n" * has_sectors + f"open,1,{HOSTS},{BATCH},{ROOM},{ROOM},100000\n" + "".join(map(row_of, acts))
            lines = subprocess.run([str(support.trials()), "core"], input=rows, stdout=subprocess.PIPE, text=True, check=True).stdout.splitlines()
            plain = Plain(SECTORS * has_sectors)
            for number, act in enumerate(acts):
                line = lines.pop(0)
                told: List[str] = []
                while act[0] == "plan" and lines and (lines[0] == "no plan" or OF_PLAN.match(lines[0])):
                    told.append(lines.pop(0))
                self.assertEqual(line, plain.step(act, told), f"seed {seed}, event {number}: {act}")
            posts += plain.posts
            several += sum(len(places) > 1 for places in plain.groups)
            sectors += sum(job.kind == "sectors" for job in plain.accepted)
        self.assertGreater(posts, 500)
        self.assertGreater(several, 100)
        self.assertGreater(sectors, 50)
