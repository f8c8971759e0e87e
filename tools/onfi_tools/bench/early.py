"""Plans that are made better: `plan --early` beside `plan`, each checked.

    tools/bench early [PROGRAM] [--seed N] [--small N] [--scripts N] [--jobs N]

From the seed (1) come two sets:

    small     N problems (500) of up to four requests on one to three LUNs, some of which run a group, with weights of 1 to 9. All orders
              of phases and all groups are tried, and the least cost of those that end in time is compared with that of
              `plan --by within --early`
    worth     N scripts (1,000) of `tools/bench worth`, of eight requests that count alike: the mean end of a request in a plan by
              `plan --by within`, and in one by `plan --by within --early`

Each plan is given to its check. A refused plan, one that may end late, one that costs more than it did, and a cost below the least
end the run with status 1.
"""

import argparse
import concurrent.futures
import os
import random
from typing import Dict, List, NamedTuple

from onfi_tools import plans
from onfi_tools.bench.runs import MOST, add_words, planned, quantile, table
from onfi_tools.bench.worth import drawn_batch
from onfi_tools.channel import Channel, Device, Group, Lun, idle
from onfi_tools.device import KINDS
from onfi_tools.drawn import MIX, any_lengths, drawn_wants


def best(program: str, script: str, *options: str) -> str:
    """The text of a plan that ends first."""
    plan, finish, below = planned(program, script, "--by", "within", "--limit", str(MOST), *options)
    if finish > below:
        raise ValueError(f"ends at {finish}, after {below}\n{script}")
    return plan


class Small(NamedTuple):
    """What a small problem cost by the plan, by the better one, and at least."""

    plan: int
    better: int
    least: int


def small_channel(rng: random.Random) -> Channel:
    device = Device(rng.randint(1, 3), rng.randint(0, 2), rng.random() < 0.5, rng.random() < 0.5, any_lengths(rng))
    wants = drawn_wants(rng, device.luns, MIX, rng.randint(2, 4), 8)
    luns = [drawn_lun(rng, device) if rng.random() < 0.3 else Lun() for _ in range(device.luns)]
    return idle(device, wants)._replace(luns=tuple(luns))


def drawn_lun(rng: random.Random, device: Device) -> Lun:
    """A LUN whose array works for one request."""
    kind = rng.choices(KINDS, MIX)[0]
    group = Group(kind, 0, (rng.randrange(8),), 1)
    return Lun(rng.randrange(device.lengths[kind].array + 1), group)


def measure_small(program: str, channel: Channel, weights: Dict[int, int]) -> Small:
    script = plans.weight_rows(weights) + channel.script()
    plan, made = best(program, script), best(program, script, "--early")
    least = plans.least_cost(channel, weights, plans.finish_of(plan) or 0)
    cost, old = (plans.ends_of(channel, text).cost(weights) for text in (made, plan))
    if least is None or cost < least or cost > old:
        raise ValueError(f"costs {cost}, was {old}, and the least is {least}\n{script}{made[:2000]}")
    return Small(old, cost, least)


def small_lines(asked: argparse.Namespace, pool: concurrent.futures.Executor) -> List[str]:
    rng = random.Random(asked.seed)
    drawn = []
    for _ in range(asked.small):
        channel = small_channel(rng)
        drawn.append((channel, {want.number: rng.randint(1, 9) for want in channel.wants}))
    found = [*pool.map(lambda it: measure_small(asked.program, *it), drawn)]
    above = [100 * (one.better / one.least - 1) for one in found if one.better > one.least]
    last = [f"{quantile(above, 0.5):.2f} %", f"{max(above):.2f} %"] if above else ["", ""]
    row = [sum(one.plan == one.least for one in found), len(found) - len(above), *last]
    columns = ["the least cost by the plan", ".. by the better one", "above the least, of the others: median", "most"]
    return [f"seed {asked.seed}, {asked.small:,} small problems, each against all its schedules", "", *table(columns, [row], 0)]


def mean_ends(program: str, channel: Channel) -> List[float]:
    """The mean end of a request by the plan, and by the better one, in ns."""
    script = channel.script()
    return [plans.ends_of(channel, text).mean() for text in (best(program, script), best(program, script, "--early"))]


def worth_lines(asked: argparse.Namespace, pool: concurrent.futures.Executor) -> List[str]:
    rng = random.Random(asked.seed)
    batches = [drawn_batch(rng) for _ in range(asked.scripts)]
    found = list(pool.map(lambda batch: mean_ends(asked.program, idle(batch.device, batch.wants)), batches))
    saved = [100 * (1 - early / plain) for plain, early in found]
    together = 100 * (1 - sum(early for _, early in found) / sum(plain for plain, _ in found))
    rows = [[f"{cell:.1f} %" for cell in (together, quantile(saved, 0.5), quantile(saved, 0.9), max(saved))]]
    columns = ["all together", "of a script: median", "nine of ten at most", "most"]
    return [f"seed {asked.seed}, {asked.scripts:,} scripts of `tools/bench worth`: how much sooner a request ends in the mean", "",
            *table(columns, rows, 0)]


def words(parser: argparse.ArgumentParser) -> None:
    add_words(parser, seed=1, small=500, scripts=1000, jobs=os.cpu_count() or 1)


def main(asked: argparse.Namespace) -> int:
    with concurrent.futures.ThreadPoolExecutor(asked.jobs) as pool:
        lines = small_lines(asked, pool) if asked.small else []
        lines += ["", *worth_lines(asked, pool)] if asked.scripts else []
    print("\n".join(lines))
    return 0
