"""How fast a built program checks a long certificate, beside reading the same text alone.

    tools/bench check [PROGRAM] [--rounds N]

The program plans a hard script, which gives a certificate of about 2.3 million tokens, and checks it by turns as it is and after a
schedule of which one start is too early: that is read whole and refused as illegal, so it is reading alone. Printed are, from the best
of N rounds (15), the tokens a second of both in processor time and by the clock, their ratio, and the peak memory of each run beside
the size of the input. The exit status is 0 where checking runs at no less than a third of the speed of reading.
"""

import argparse
import re
from typing import List

from onfi_tools.bench.runs import Run, add_words, run

SCRIPT = """shape,8,0,0,0
spans,read,140,600,50100,176000
spans,program,175000,600,600100,280
spans,erase,100,600,3000100,280
running,2,1,68398,program,0,0
running,3,1,251334,program,0,0
running,4,1,128304,program,0,0
want,program,0,1,0
want,program,1,4,0
want,program,2,2,0
want,program,0,8,0
want,program,4,1,0
want,program,5,2,0
want,program,6,8,0
want,program,3,1,0
end
"""


def with_an_early_start(plan: str) -> str:
    """The plan text with the first start of its first line `rest` set to 0, which is before its LUN is ready."""
    return re.sub(r"(?m)^(rest \d+) \d+", r"\1 0", plan, count=1)


def wanted(program: str, command: str, given: str, begins: str, status: int) -> Run:
    got = run([program, command], given, watched=True)
    if not got.output.startswith(begins) or got.status != status:
        raise ValueError(f"{command} answered {got.output[:80]!r} with status {got.status}")
    return got


def words(parser: argparse.ArgumentParser) -> None:
    add_words(parser, rounds=15)


def main(asked: argparse.Namespace) -> int:
    plan = wanted(asked.program, "plan", SCRIPT, "ONFIPLAN 1\n", 0).output
    tokens = len(plan[plan.index("ONFICERT"):].split("\n")[1].split())
    whole, early = SCRIPT + plan, SCRIPT + with_an_early_start(plan)
    checks: List[Run] = []
    readings: List[Run] = []
    for _ in range(asked.rounds):
        checks.append(wanted(asked.program, "check", whole, "accepted ", 0))
        readings.append(wanted(asked.program, "check", early, "refused 1 Illegal", 2))
    print(f"tokens {tokens}, input {len(whole)} bytes, rounds {asked.rounds}")
    ratios = []
    for name in ("processor", "clock"):
        check, reading = (min(float(getattr(got, name)) for got in runs) for runs in (checks, readings))
        ratios.append(reading / check)
        print(f"{name}: check {tokens / check / 1e6:.2f} million tokens a second ({check:.3f} s), "
              f"reading alone {tokens / reading / 1e6:.2f} ({reading:.3f} s), ratio {reading / check:.3f}")
    for name, runs in [("check", checks), ("reading alone", readings)]:
        peak = max(got.peak for got in runs)
        print(f"{name}: peak memory {peak} bytes, {peak / len(whole):.2f} times the input")
    return 0 if ratios[0] >= 1 / 3 else 1
