"""Plans that remember states beside plain ones: `plan --by within` beside `plan`, each checked.

    tools/bench remember [PROGRAM] [SEED] [--scripts N] [--chains N] [--jobs N] [--few]

From the seed (1) come N scripts (2,000) of eight requests, a quarter of each set:

    mixed              on 1 to 8 LUNs, on devices of any lengths, may any groups or not, some LUNs running a group
    mixed, 8 LUNs      the same on 8 LUNs
    reads, 8 LUNs      reads alone on 8 LUNs
    devices            five devices as they are built, on 4 and 8 LUNs, half of the LUNs running a group, requests of all kinds

and each script of examples/hard and examples/hard-states, with --few none. Of each:

    over               how many scripts have no plan within the greatest limit
    nodes              the least `--limit` that answers: how many nodes the search opens; of two walks of a search that remembers
                       states, the greater count
    ms                 processor time of the whole program
    bytes              the text of the certificate

of a set the median, the number that 99 of 100 scripts don't pass, and the greatest; over counts as greater than all. A finish that
differs between the two, a plan that `check --by within` doesn't accept with its finish, and an answer of another form end the run with
status 1.

Then N chains (400) of six rolling batches: eight requests on one of those devices, planned by `plan --by within`, run to a phase drawn at
random, filled up to eight again. Of all these: how many are over within a limit, by `plan` and by `plan --by within`; of
`plan --by within` how many plans are proved optimal, and by how much of the time from the free bus to the finish the others may be too
long at most: the median, nine of ten, the greatest. Each such plan is checked by `check --by within`.
"""

import argparse
import concurrent.futures
import os
import random
import re
import sys
from typing import Callable, Dict, Iterator, List, NamedTuple, Optional, Sequence, Tuple

from onfi_tools import plans
from onfi_tools.bench.runs import HARD, MOST, ROOT, add_words, answered, cells_at, greatest_over, is_short, planned, quantile, run, said, table
from onfi_tools.channel import idle
from onfi_tools.drawn import DEVICES, MIX, REQUESTS, SETS, device_of, drawn_wants

HARD_STATES = sorted((ROOT / "examples" / "hard-states").glob("*.onfi"))
HARD_MOST = 100_000
BATCHES = 6
LIMITS = (200, 2_000, 65_536)
PLAN = re.compile(r"ONFIPLAN 1\nfinish (\d+)\n.*^(ONFICERT [^\n]*\n([^\n]*)\n)\Z", re.DOTALL | re.MULTILINE)


class Plan(NamedTuple):
    """A plan: its finish in ns, the nodes of its search, the ms that it took, the bytes of its certificate."""

    finish: int
    nodes: int
    ms: float
    bytes: int
    text: str


def nodes_of(is_over: Callable[[int], bool], tree: int) -> int:
    """The least limit with which a search isn't over: mostly the nodes of its certificate's tree."""
    return tree if is_over(tree - 1) and not is_over(tree) else greatest_over(is_over) + 1


def plan_of(program: str, options: Sequence[str], script: str) -> Optional[Plan]:
    """The plan by these options; None where it is over within the greatest limit."""
    words = [program, "plan", *options, "--limit"]
    ran = run([*words, str(MOST)], script)
    if is_short(ran):
        return None
    found = PLAN.match(ran.output)
    if ran.status or not found:
        raise ValueError(f"no plan, status {ran.status}: {ran.output[:200]}\n{script}")
    tree = sum(not token.startswith("Y") for token in found[3].split())
    nodes = nodes_of(lambda limit: is_short(run([*words, str(limit)], script)), tree)
    return Plan(int(found[1]), nodes, 1000 * ran.processor, len(found[2].encode()), ran.output)


class Pair(NamedTuple):
    """A script's plain plan and the one that remembers states."""

    plain: Optional[Plan]
    remembered: Optional[Plan]


def measure(program: str, script: str) -> Pair:
    pair = Pair(plan_of(program, [], script), plan_of(program, ["--by", "within"], script))
    if pair.remembered:
        answered(program, ["check", "--by", "within"], script + pair.remembered.text, f"accepted {pair.remembered.finish}\n")
        if pair.plain and pair.plain.finish != pair.remembered.finish:
            raise ValueError(f"finishes {pair.plain.finish} and {pair.remembered.finish}\n{script}")
    return pair


def quantiles(plans: Sequence[Optional[Plan]], field: str) -> str:
    """The median, the one that 99 of 100 don't pass, the greatest."""
    rising = sorted(getattr(plan, field) for plan in plans if plan)
    return cells_at(rising, (len(plans) // 2, -(-99 * len(plans) // 100) - 1, len(plans) - 1))


def set_rows(name: str, pairs: Sequence[Pair]) -> List[List[str]]:
    both = (("plan", [pair.plain for pair in pairs]), ("plan --by within", [pair.remembered for pair in pairs]))
    return [[name, f"`{word}`", said(plans.count(None)), *(quantiles(plans, field) for field in ("nodes", "ms", "bytes"))] for word, plans in both]


def pairs_of_sets(program: str, seed: int, count: int, pool: concurrent.futures.Executor) -> Iterator[Tuple[str, List[Pair]]]:
    """The plans of each set's scripts, as they are measured."""
    rng = random.Random(seed)
    for name, draw in SETS.items():
        scripts = [draw(rng) for _ in range(count // len(SETS))]
        yield name, list(pool.map(lambda script: measure(program, script), scripts))


def agreed(pairs: Sequence[Pair]) -> Tuple[int, int]:
    """How many plans that remember states are accepted, and how many finishes both searches found; measuring ends where one is wrong."""
    return sum(pair.remembered is not None for pair in pairs), sum(None not in pair for pair in pairs)


def measure_sets(asked: argparse.Namespace, pool: concurrent.futures.Executor) -> List[str]:
    rows: List[List[str]] = []
    pairs: List[Pair] = []
    for name, own in pairs_of_sets(asked.program, asked.seed, asked.scripts, pool):
        rows += set_rows(name, own)
        pairs += own
        print(f"measured: {name}", file=sys.stderr, flush=True)
    accepted, both = agreed(pairs)
    line = (f"seed {asked.seed}, {len(pairs):,} scripts; {both:,} finishes of both agree, {accepted:,} plans of "
            f"`plan --by within` accepted by `check --by within`, {len(pairs) - accepted:,} over")
    return [line, "", *table(["scripts", "by", "over", "nodes", "ms", "bytes of the certificate"], [*rows, *set_rows("all", pairs)], 2), ""]


def measure_hard(asked: argparse.Namespace, pool: concurrent.futures.Executor) -> List[str]:
    files = [] if asked.few else [*HARD, *HARD_STATES]
    pairs = list(pool.map(lambda path: measure(asked.program, path.read_text()), files))
    few = sum(pair.remembered is not None and pair.remembered.nodes <= HARD_MOST for pair in pairs)
    cells = [[cell for plan in pair for cell in ([said(plan.nodes), said(plan.ms), said(plan.bytes)] if plan else ["over", "", ""])] for pair in pairs]
    columns = ["hard script", "nodes of `plan`", "ms", "bytes", "nodes of `plan --by within`", "ms", "bytes"]
    return [f"{few} of {len(files)} hard scripts are answered by `plan --by within` within {HARD_MOST:,} nodes", "",
            *table(columns, [[path.stem, *own] for path, own in zip(files, cells)])]


class Batch(NamedTuple):
    """One of a chain: which searches are over, by option and limit, and by how much of its time the plan of `plan --by within` may be too
    long at most, by limit, in per cent."""

    over: Dict[Tuple[str, int], bool]
    gaps: Dict[int, float]


SEARCHES = [("plan", limit) for limit in (2_000, MOST)] + [("plan --by within", limit) for limit in (*LIMITS, MOST)]


def is_over(program: str, words: str, limit: int, script: str) -> bool:
    return is_short(run([program, *words.split(), "--limit", str(limit)], script))


def chain_of(program: str, seed: str) -> List[Batch]:
    """The batches of a chain that is drawn from this seed."""
    rng = random.Random(seed)
    device = device_of(*rng.choice(DEVICES), rng.choice((2, 4, 8)))
    channel, batches = idle(device, drawn_wants(rng, device.luns, MIX)), []
    for _ in range(BATCHES):
        found = {limit: planned(program, channel.script(), "--by", "within", "--limit", str(limit)) for limit in LIMITS}
        gaps = {limit: 100 * (plan.finish - plan.below) / max(plan.finish - channel.bus, 1) for limit, plan in found.items()}
        over = {(words, limit): is_over(program, words, limit, channel.script()) for words, limit in SEARCHES}
        batches.append(Batch(over, gaps))
        text = found[LIMITS[-1]].text
        count = rng.randint(1, len(plans.phases_of(channel, text)))
        channel = plans.filled(plans.left(channel, text, count), drawn_wants(rng, device.luns, MIX), REQUESTS)
    return batches


def gaps_row(batches: Sequence[Batch], limit: int) -> List[str]:
    gaps = [batch.gaps[limit] for batch in batches if batch.gaps[limit] > 0]
    cells = [f"{limit:,}", f"{100 - 100 * len(gaps) / len(batches):.1f} %"]
    return cells + ([f"{quantile(gaps, share):.1f} %" for share in (0.5, 0.9, 1)] if gaps else ["", "", ""])


def batches_of_chains(program: str, seed: int, count: int, pool: concurrent.futures.Executor) -> List[Batch]:
    seeds = [f"chain {seed} {number}" for number in range(count)]
    return [batch for chain in pool.map(lambda own: chain_of(program, own), seeds) for batch in chain]


def times_over(batches: Sequence[Batch]) -> List[str]:
    """How many are over, for each of the searches."""
    return [said(sum(batch.over[search] for batch in batches)) for search in SEARCHES]


def measure_chains(asked: argparse.Namespace, pool: concurrent.futures.Executor) -> List[str]:
    batches = batches_of_chains(asked.program, asked.seed, asked.chains, pool)
    if not batches:
        return []
    over = [[f"`{words}`", f"{limit:,}", count] for (words, limit), count in zip(SEARCHES, times_over(batches))]
    columns = ["limit of `plan --by within`", "proved optimal", "others too long by at most: median", "nine of ten", "greatest"]
    return [f"seed {asked.seed}, {asked.chains:,} chains of {BATCHES} rolling batches: {len(batches):,}", "",
            *table(["by", "limit", "over"], over), "", *table(columns, [gaps_row(batches, limit) for limit in LIMITS], 0), ""]


def words(parser: argparse.ArgumentParser) -> None:
    add_words(parser, scripts=2000, chains=400, jobs=os.cpu_count() or 1)
    parser.add_argument("seed", nargs="?", type=int, default=1)
    parser.add_argument("--few", action="store_true")


def main(asked: argparse.Namespace) -> int:
    with concurrent.futures.ThreadPoolExecutor(asked.jobs) as pool:
        lines = measure_sets(asked, pool) + measure_chains(asked, pool) + measure_hard(asked, pool)
    print("\n".join(lines))
    return 0
