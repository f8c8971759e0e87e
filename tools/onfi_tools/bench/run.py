"""How many operations of hosts the built program runs a second, on 1, 2 and 4 channels.

    tools/bench run [PROGRAM] [--rounds N] [--operations N]

Each channel has a host of its own with N reads (2,000, at most 2,500). The best round counts: operations a second by the clock, which
other work on the machine makes fewer, and the microseconds of processor time for each operation, which waiting threads add to. A run
whose report isn't whole ends the measuring.
"""

import argparse

from onfi_tools.bench.runs import ROOT, Run, add_words, run

DEVICE = [row for row in (ROOT / "examples" / "two-hosts.onfi").read_text(encoding="utf-8").splitlines() if row.startswith(("page,", "sheet,"))]


def script(channels: int, operations: int) -> str:
    """Reads by a host on each channel, of both LUNs in turn."""
    rows = [f"op,{at},{at},read,{number % 2},{number * 7 % 1000},{number % 64}" for number in range(operations) for at in range(channels)]
    return "\n".join([*DEVICE, f"channels,{channels}", f"hosts,{channels}", *rows, "end", ""])


def measured(program: str, text: str, replies: int) -> Run:
    ran = run([program, "run"], text)
    if ran.status or ran.output.count("\n") != replies + 1:
        raise ValueError(f"a run ended with status {ran.status} and {ran.output.count(chr(10))} lines")
    return ran


def words(parser: argparse.ArgumentParser) -> None:
    add_words(parser, rounds=9, operations=2000)


def main(asked: argparse.Namespace) -> int:
    for channels in (1, 2, 4):
        replies, text = channels * asked.operations, script(channels, asked.operations)
        runs = [measured(asked.program, text, replies) for _ in range(asked.rounds)]
        clock, used = min(one.clock for one in runs), min(one.processor for one in runs)
        print(f"{channels} channels: {replies / clock:.0f} operations a second, {used / replies * 1e6:.0f} us of processor time each")
    return 0
