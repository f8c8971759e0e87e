"""The libraries for C and for Python: their examples, refusals, and that both plan what onfi_sim plans."""

from __future__ import annotations

import dataclasses
import os
import random
import re
import subprocess
import sys
import tempfile
import unittest
from pathlib import Path
from typing import Dict, List, Optional, Sequence, Tuple

ROOT = Path(__file__).resolve().parent.parent.parent
sys.dont_write_bytecode = True
sys.path[:0] = [str(ROOT / "python"), str(ROOT / "tools")]

LIBRARY = Path(os.environ.get("ONFI_LIBRARIES", ROOT / "lib")).resolve()
PROGRAM = os.environ.get("ONFI_SIM", str(ROOT / "bin/onfi_sim"))
os.environ["ONFI_LIBRARY"] = str(LIBRARY / "libonfi.so")

import onfi  # noqa: E402
from onfi_tools.cases import words_of_text, single_cases  # noqa: E402
from onfi_tools.drawn import any_script  # noqa: E402

STRICT = ["-Wall", "-Wextra", "-Werror", "-pedantic"]
SANE = ["-fsanitize=address,undefined", "-fno-sanitize-recover=all", "-g"]
SCRIPTS = 300


def run(*words: str, given: bytes = b"", **how: str) -> "subprocess.CompletedProcess[bytes]":
    return subprocess.run(list(words), input=given, capture_output=True, env={**os.environ, **how}, timeout=3600)


BUILT = tempfile.TemporaryDirectory(prefix="onfi-c-")


def tearDownModule() -> None:
    BUILT.cleanup()


C11, CXX = ("cc", "-std=c11", "-xc"), ("c++", "-std=c++17", "-xc++")


def build(source: Path, compiler: Sequence[str] = C11, *more: Path) -> str:
    """A program with the archive, under the sanitizers; of other sources too."""
    made = Path(BUILT.name) / f"{source.stem}{compiler[-1]}"
    if not made.is_file():
        line = [*compiler, *STRICT, *SANE, f"-I{ROOT / 'include'}", str(source), *map(str, more), "-xnone", str(LIBRARY / "libonfi.a"), "-o", str(made)]
        told = run(*line)
        if told.returncode:
            raise AssertionError(told.stderr.decode())
    return str(made)


def example(name: str) -> str:
    return build(ROOT / "examples/c" / f"{name}.c")


class Headers(unittest.TestCase):
    def test_is_c99_and_c11_and_cxx(self) -> None:
        for line in (["cc", "-std=c99", "-x", "c"], ["cc", "-std=c11", "-x", "c"], ["c++", "-std=c++11", "-x", "c++"], ["c++", "-std=c++20", "-x", "c++"]):
            told = run(*line, *STRICT, "-fsyntax-only", str(ROOT / "include/onfi.h"))
            self.assertEqual((told.returncode, told.stderr), (0, b""), line)

    def test_is_linked_from_cxx(self) -> None:
        source, made = Path(BUILT.name) / "sizes.cpp", Path(BUILT.name) / "sizes"
        source.write_text('#include <onfi.h>\n#include <cstdio>\n'
                          'int main() { char t[80]; size_t n; onfi_status_text(ONFI_CLOCK, t, sizeof t, &n); std::printf("%.*s", (int)n, t); }\n')
        told = run("c++", "-std=c++17", *STRICT, *SANE, f"-I{ROOT / 'include'}", str(source), str(LIBRARY / "libonfi.a"), "-o", str(made))
        self.assertEqual((told.returncode, told.stderr), (0, b""))
        self.assertEqual(run(str(made)).stdout, b"times that reach 2^62 ns")

    def test_libraries_show_their_calls_alone(self) -> None:
        """A linker sees the calls of the header in both, and of the archive what it asks of others."""
        calls = sorted(re.findall(r"^uint32_t (onfi_\w+)\(", (ROOT / "include/onfi.h").read_text(), re.MULTILINE))
        self.assertIn("onfi_plan", calls)
        for words in (["-D", str(LIBRARY / "libonfi.so")], ["-g", str(LIBRARY / "libonfi.a")]):
            told = run("nm", "--defined-only", *words).stdout.decode()
            self.assertEqual(sorted(re.findall(r"^\w+ \w (\w+)$", told, re.MULTILINE)), calls, words)
        asked = run("nm", "-u", str(LIBRARY / "libonfi.a")).stdout.decode().split()
        self.assertEqual(sorted({*asked} - {"U", "onfi.o:"}), ["free", "malloc", "memcpy", "memmove", "memset", "realloc"])

    def test_shared_library_is_named_by_its_major_version(self) -> None:
        version = (ROOT / "VERSION").read_text().strip()
        soname = f"libonfi.so.{version.split('.')[0]}"
        told = run("readelf", "-d", str(LIBRARY / "libonfi.so")).stdout.decode()
        self.assertIn(f"Library soname: [{soname}]", told)
        self.assertEqual((LIBRARY / "libonfi.so").resolve().name, f"libonfi.so.{version}")
        self.assertEqual((LIBRARY / soname).resolve().name, f"libonfi.so.{version}")

    def test_numbers_are_those_of_python(self) -> None:
        source, made = Path(BUILT.name) / "numbers.c", Path(BUILT.name) / "numbers"
        names = {it.__name__: "ONFI_" + "".join("_" + c if c.isupper() and at else c for at, c in enumerate(it.__name__)).upper() for it in onfi.REFUSALS.values()}
        names["SheetNotANumber"], names["NoMultiLun"] = "ONFI_SHEET_NOT_A_NUMBER", "ONFI_NO_MULTI_LUN"
        lines = "".join(f'    printf("%d ", {name});\n' for name in names.values())
        source.write_text(f"#include <onfi.h>\n#include <stdio.h>\nint main(void)\n{{\n{lines}}}\n")
        told = run("cc", f"-I{ROOT / 'include'}", str(source), "-o", str(made))
        self.assertEqual(told.returncode, 0, told.stderr)
        self.assertEqual([int(it) for it in run(str(made)).stdout.split()], list(onfi.REFUSALS))


class Examples(unittest.TestCase):
    def test_batch(self) -> None:
        told = run(example("batch"))
        self.assertEqual((told.returncode, told.stderr), (0, b""))
        self.assertEqual(told.stdout.decode().splitlines(), [
            "finish 58240",
            "request 2: command at 0, data output at 25240",
            "request 0: command at 140, data output at 36240",
            "request 1: command at 880, data output at 47240",
            "ONFICERT 1",
            "L",
            "accepted 58240",
        ])

    def test_pool(self) -> None:
        """A static pool serves a batch; one that is too small is reported as refused memory. Both run without sanitizers, whose allocator it replaces."""
        for size, status in (("1048576", 0), ("512", 1)):
            made = str(Path(BUILT.name) / f"pool-{size}")
            sources = [str(ROOT / "examples/c" / name) for name in ("batch.c", "pool.c")]
            line = ["cc", "-std=c11", "-O2", *STRICT, f"-DPOOL_BYTES={size}", f"-I{ROOT / 'include'}", *sources, str(LIBRARY / "libonfi.a"), "-o", made]
            built = run(*line)
            self.assertEqual(built.returncode, 0, built.stderr)
            told = run(made)
            self.assertEqual(told.returncode, status, told.stderr)
            if status:
                self.assertEqual((told.stdout, told.stderr), (b"", b"plan: memory was refused (4)\n"))
            else:
                self.assertEqual((told.stdout, told.stderr), (run(example("batch")).stdout, b""))

    def test_pool_by_its_own_lines(self) -> None:
        """The two commands that pool.c names, from its folder, with the library that is tested."""
        lines = re.findall(r"^ \*     (cc .*)$", (ROOT / "examples/c/pool.c").read_text(), re.MULTILINE)
        self.assertEqual(len(lines), 2)
        with tempfile.TemporaryDirectory() as room:
            for line in lines:
                told = run("sh", "-c", self.into(line, room))
                self.assertEqual((told.returncode, told.stderr), (0, b""), line)
            told = run(f"{room}/batch")
        self.assertEqual((told.returncode, told.stdout), (0, run(example("batch")).stdout))

    def into(self, line: str, room: str) -> str:
        """The command as it is, but that what it makes goes into the room."""
        named = line.replace(" pool.o", f" {room}/pool.o").replace("-o batch", f"-o {room}/batch").replace("../../lib/", f"{LIBRARY}/")
        return f"cd {ROOT / 'examples/c'} && {named}{f' -o {room}/pool.o' if ' -c ' in line else ''}"

    def test_device(self) -> None:
        import test_devices_of_page

        test_devices_of_page.check_example(self, example("device"))

    def test_python(self) -> None:
        for source in sorted((ROOT / "examples/python").glob("*.py")):
            told = run(sys.executable, str(source), PYTHONPATH=str(ROOT / "python"))
            self.assertEqual((told.returncode, told.stderr), (0, b""), source)
            self.assertTrue(told.stdout, source)


class Refusals(unittest.TestCase):
    def test_in_c(self) -> None:
        words = [] if b"onfi_c: unproved" in (LIBRARY / "libonfi.a").read_bytes() else ["memory"]
        told = run(build(ROOT / "tests/libraries/refusals.c"), *words)
        self.assertEqual((told.returncode, told.stderr), (0, b""), told.stdout.decode())


class Sectors(unittest.TestCase):
    def test_in_c(self) -> None:
        told = run(build(ROOT / "tests/libraries/sectors.c"))
        self.assertEqual((told.returncode, told.stderr, told.stdout), (0, b"", b"1581 tried, 0 failed\n"))


class Audits(unittest.TestCase):
    def test_in_c(self) -> None:
        told = run(build(ROOT / "tests/libraries/audits.c"))
        self.assertEqual((told.returncode, told.stderr, told.stdout), (0, b"", b"6256 tried, 0 failed\n"))

    def test_memory(self) -> None:
        source, made = ROOT / "tests/libraries/audit_memory.c", str(Path(BUILT.name) / "audit_memory")
        wraps = [f"-Wl,--wrap={name}" for name in ("malloc", "realloc", "free")]
        told = run("cc", "-std=c11", *STRICT, *SANE, f"-I{ROOT / 'include'}", str(source), str(LIBRARY / "libonfi.a"), *wraps, "-o", made)
        self.assertEqual((told.returncode, told.stderr), (0, b""))
        told = run(made)
        self.assertEqual((told.returncode, told.stderr, told.stdout), (0, b"", b"20 tried, 0 failed\n"))


class Breaches(unittest.TestCase):
    def test_each_condition_by_hand(self) -> None:
        told = run(build(ROOT / "tests/libraries/breaches.c"))
        self.assertEqual((told.returncode, told.stderr, told.stdout), (0, b"", b"666 tried, 0 failed\n"))

    def test_python_says_what_the_program_does(self) -> None:
        """Plans whose starts or groups are changed by chance: one sentence, and none where the schedule is legal."""
        draw, seen, legal = random.Random(6), set(), 0
        for number in range(SCRIPTS):
            script = any_script(draw)
            channel, wants = said(script)
            plan = onfi.plan(channel, wants, "within", 65_536)
            schedule = changed_schedule(draw, plan.schedule)
            text = plan_text(dataclasses.replace(plan, schedule=schedule, below=plan.finish, certificate=b""))
            told = run(PROGRAM, "check", "--legal", given=script.encode() + text)
            breach = onfi.find_breach(channel, wants, schedule)
            if breach is None:
                legal += 1
                self.assertNotIn(b"isn't legal", told.stderr, script)
                continue
            seen.add(breach.condition)
            sentence = str(breach).replace("isn't there", "isn't in the script") if breach.condition == onfi.Condition.UNKNOWN_REQUEST else str(breach)
            self.assertEqual(told.stderr.decode(), f"onfi_sim: the schedule isn't legal: {sentence}\n", (script, text))
            with self.assertRaises(onfi.Illegal) as raised:
                onfi.check(channel, wants, dataclasses.replace(plan, schedule=schedule, below=0))
            self.assertEqual(raised.exception.breach, breach)
        self.assertTrue(legal)
        self.assertTrue({onfi.Condition.OVERLAP, onfi.Condition.WAIT_TOO_SHORT, onfi.Condition.REPEATED_REQUEST, onfi.Condition.REST_COUNT} <= seen, seen)


def changed_schedule(draw: random.Random, schedule: onfi.Schedule) -> onfi.Schedule:
    """One start earlier or later, a start less, a member for another, two groups in one, a group less, or all as it is."""
    rest, groups = [[*it] for it in schedule.rest], [([*it.wants], [*it.starts]) for it in schedule.groups]
    way = draw.randrange(6)
    times = [it for it in [*rest, *(starts for _, starts in groups)] if it]
    if way < 2 and times:
        starts = draw.choice(times)
        at = draw.randrange(len(starts))
        starts[at] = max(0, starts[at] + draw.choice((-1, 1, -100, 100, -30_000, 30_000)))
    elif way == 2 and any(rest):
        draw.choice([it for it in rest if it]).pop()
    elif way == 3 and groups:
        wants = draw.choice(groups)[0]
        wants[draw.randrange(len(wants))] = draw.choice([want for named, _ in groups for want in named] + [99])
    elif way == 4 and len(groups) > 1 and len(groups[0][0]) + len(groups[1][0]) <= 4:
        one, two = groups.pop(0), groups.pop(0)
        groups.insert(0, ([*one[0], *two[0]], [*one[1], *two[1]]))
    elif way == 5 and groups:
        groups.pop()
    return onfi.Schedule(rest, [onfi.Group(wants, starts) for wants, starts in groups])


class Nothing(unittest.TestCase):
    """Where a count is 0 its pointer may be null."""

    def test_null_pointers_and_empty_vectors(self) -> None:
        import test_devices_of_page

        page = Path(BUILT.name) / "page"
        page.write_bytes(test_devices_of_page.PAGE)
        for compiler in (C11, CXX):
            told = run(build(ROOT / "tests/libraries/nothing.c", compiler), str(page))
            self.assertEqual((told.returncode, told.stderr), (0, b""), told.stdout.decode())
            self.assertEqual(told.stdout, b"91 tried, 0 failed\n")


def said(script: str) -> Tuple[onfi.Channel, List[onfi.Want]]:
    """What a script without faults says, as dataclasses."""
    spans: Dict[str, onfi.Spans] = {}
    shape, bus, strict = [0, 0, 0, 0], 0, False
    luns: Dict[int, onfi.Lun] = {}
    wants: List[onfi.Want] = []
    for row in script.splitlines()[:-1]:
        name, *fields = row.split(",")
        if name == "shape":
            shape = [*map(int, fields)]
        elif name == "spans":
            spans[fields[0]] = onfi.Spans(*map(int, fields[1:]))
        elif name == "bus":
            bus = int(fields[0])
        elif name == "strict":
            strict = fields[0] == "1"
        elif name == "free":
            luns[int(fields[0])] = onfi.Lun(int(fields[1]))
        elif name == "running":
            members = [onfi.Want(0, onfi.Kind[fields[3].upper()], int(fields[0]), int(block), int(fields[4])) for block in fields[5:]]
            luns[int(fields[0])] = onfi.Lun(int(fields[2]), members, int(fields[1]))
        else:
            wants.append(onfi.Want(len(wants), onfi.Kind[fields[0].upper()], int(fields[1]), int(fields[2]), int(fields[3])))
    timing = onfi.Timing(spans["read"], spans["program"], spans["erase"])
    standing = [luns.get(lun, onfi.Lun()) for lun in range(shape[0])]
    return onfi.Channel(timing, onfi.Rules(bool(shape[2]), bool(shape[3]), strict, shape[1]), standing, bus_free=bus), wants


def plan_text(plan: onfi.Plan) -> bytes:
    lines = ["ONFIPLAN 1", f"finish {plan.finish}"]
    if plan.below < plan.finish:
        lines.append(f"below {plan.below}")
    lines += [" ".join(["rest", str(lun), *map(str, starts)]) for lun, starts in enumerate(plan.schedule.rest) if starts]
    lines += [" ".join(["group", "+".join(map(str, group.wants)), *map(str, group.starts)]) for group in plan.schedule.groups]
    return ("\n".join(lines) + "\n").encode() + plan.certificate


def cost_of(channel: onfi.Channel, wants: Sequence[onfi.Want], weights: Sequence[int], schedule: onfi.Schedule) -> int:
    """What a plan counts for: of each request that has a post left its weight, 1 where none is given, times the end of its post."""
    timing = channel.timing
    length: Dict[int, int] = {onfi.Kind.READ: timing.read.post, onfi.Kind.PROGRAM: timing.program.post, onfi.Kind.ERASE: timing.erase.post}
    by_id = {want.id: (want, weights[at] if at < len(weights) else 1) for at, want in enumerate(wants)}
    cost = 0
    for group in schedule.groups:
        for number, start in zip(group.wants, group.starts[len(group.wants):]):
            cost += by_id[number][1] * (start + length[by_id[number][0].kind])
    for lun, starts in zip(channel.luns, schedule.rest):
        posts = starts[max(len(lun.members) - lun.next, 0):]
        cost += sum(start + length[lun.members[0].kind] for start in posts)
    return cost


# The program's status where a command line is refused.
USAGE = 5


class Same(unittest.TestCase):
    """By C, by Python and by onfi_sim there is one answer."""

    def planned(self, by_structs: str, script: str, by: str, limit: int, weights: Optional[Sequence[int]] = None) -> Optional[onfi.Plan]:
        """The plan, the same by all, and checked; None where the search is over."""
        rows = "".join(f"weight,{at},{weight}\n" for at, weight in enumerate(weights or ()))
        words, more = ["--by", by, *["--limit", str(limit)] * (by != "rule"), *["--early"] * (weights is not None)], ["early", *map(str, weights or ())]
        wanted = run(PROGRAM, "plan", *words, given=(rows + script).encode())
        c = run(by_structs, by, str(limit), *(more if weights is not None else []), given=script.encode())
        self.assertEqual((c.stdout, c.returncode, c.stderr), (wanted.stdout, wanted.returncode, b""), script)
        text = onfi.text(" ".join(["plan", *words]), rows + script)
        self.assertEqual((text.text, text.status), (wanted.stdout, wanted.returncode), script)
        channel, wants = said(script)
        if wanted.returncode == 6:
            self.assertRaises(onfi.Over, onfi.plan, channel, wants, by, limit)
            return None
        plan = onfi.plan(channel, wants, by, limit, weights is not None, weights or ())
        self.assertEqual(plan_text(plan), wanted.stdout, script)
        self.assertEqual(onfi.check(channel, wants, plan), plan.finish, script)
        judged = run(PROGRAM, "check", "--by", "plain" if by == "plain" else "within", given=script.encode() + wanted.stdout)
        told = (f"within {plan.finish} {plan.below}\n", 8) if plan.below < plan.finish else (f"accepted {plan.finish}\n", 0)
        self.assertEqual((judged.stdout.decode(), judged.returncode), told, script)
        return plan

    def test_plans(self) -> None:
        draw, by_structs = random.Random(1), build(ROOT / "tests/libraries/plan_script.c")
        for _ in range(SCRIPTS):
            self.planned(by_structs, any_script(draw), "plain", 1_048_576)

    def test_plans_within(self) -> None:
        draw, by_structs = random.Random(4), build(ROOT / "tests/libraries/plan_script.c")
        short = 0
        for _ in range(SCRIPTS):
            plan = self.planned(by_structs, any_script(draw), "within", draw.choice((1, 2, 10, 65_536, 1_048_576)))
            assert plan is not None
            short += plan.below < plan.finish
        self.assertGreater(short, 0)

    def test_plans_by_the_rule(self) -> None:
        """No plan within a limit ends later."""
        draw, by_structs = random.Random(6), build(ROOT / "tests/libraries/plan_script.c")
        proved = 0
        for _ in range(SCRIPTS):
            script = any_script(draw)
            plan, (channel, wants) = self.planned(by_structs, script, "rule", 1_048_576), said(script)
            assert plan is not None
            self.assertLessEqual(onfi.plan(channel, wants, "within", 1).finish, plan.finish, script)
            proved += plan.below == plan.finish
        self.assertTrue(0 < proved < SCRIPTS)

    def test_plans_made_better(self) -> None:
        """Each ends no later than the plan that it was made of, shows the same, and counts for no more."""
        draw, by_structs = random.Random(5), build(ROOT / "tests/libraries/plan_script.c")
        sooner = 0
        for _ in range(SCRIPTS):
            script, by, limit = any_script(draw), draw.choice(("within", "within", "rule")), draw.choice((1, 10, 65_536))
            channel, wants = said(script)
            weights = [draw.choice((1, 2, 65_535)) for _ in range(draw.randint(0, len(wants)))]
            plan, found = self.planned(by_structs, script, by, limit, weights), onfi.plan(channel, wants, by, limit)
            assert plan is not None
            self.assertEqual(plan.below, found.below, script)
            self.assertLessEqual(plan.finish, found.finish, script)
            counts = [cost_of(channel, wants, weights, it.schedule) for it in (plan, found)]
            self.assertLessEqual(counts[0], counts[1], script)
            sooner += counts[0] < counts[1]
        self.assertGreater(sooner, 0)

    def test_cases_of_the_program(self) -> None:
        """Plans, checks and logs of scripts."""
        by_text, tried, seen = example("script"), 0, set()
        for case in single_cases([]):
            words = words_of_text(case.arguments)
            if not words:
                continue
            tried += 1
            given = Path(BUILT.name) / "script.onfi"
            given.write_bytes(case.input)
            c = run(by_text, words, str(given))
            if case.status == USAGE:
                self.assertEqual((c.stdout, c.returncode, c.stderr), (b"", onfi.BadWords.status, b""), case.place)
                self.assertRaises(onfi.BadWords, onfi.text, words, case.input)
                continue
            self.assertEqual((c.stdout, c.returncode, c.stderr), (case.output, case.status, b""), case.place)
            python = onfi.text(words, case.input)
            self.assertEqual((python.text, python.status), (case.output, case.status), case.place)
            seen |= {(case.arguments[0], case.status)}
        self.assertGreaterEqual(tried, 300)
        self.assertTrue({(b"audit", status) for status in range(3)} <= seen, seen)

    def test_texts_of_drawn_scripts(self) -> None:
        """Traces with requests, plans that remember states, their checks, and whether they are legal."""
        draw = random.Random(3)
        for _ in range(SCRIPTS // 10):
            script = any_script(draw).encode()
            known = onfi.text("plan --by within", script).text
            asked = [("plan --requests", script), ("plan --by within --requests", script), ("plan --by within --trace", script),
                     ("check --by within", script + known), ("check --legal", script + known)]
            for words, given in asked:
                wanted, found = run(PROGRAM, *words.split(), given=given), onfi.text(words, given)
                self.assertEqual((found.text, found.status), (wanted.stdout, wanted.returncode), (words, script))


if __name__ == "__main__":
    unittest.main()
