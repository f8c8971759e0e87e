"""Figures of channels in rolling use as tables."""

import statistics
from typing import Callable, Dict, List, Sequence, Tuple

from onfi_tools.bench.runs import quantile, table
from onfi_tools.rolling_use import TWELVE, WORKLOADS, Configuration, Measured
from onfi_tools.rolling_ways import BASE, PLANS, title_of

# Where its throughput is at most that much of the bound, in %, there may be something to gain.
ROOM = 95
# What a configuration is a part of, in the order in which tables have them.
PART_TITLES: List[Callable[[Configuration], str]] = [
    lambda of: of.device,
    lambda of: WORKLOADS[of.workload],
    lambda of: f"{of.byte:g} ns a byte",
    lambda of: f"{of.luns} LUNs",
    lambda of: f"{of.depth} outstanding",
]

Cell = Callable[[Measured, str], str]


def title_with(of: Configuration) -> str:
    """A configuration with what it has beside its twelve-fold title."""
    load = f" at most, {100 * of.load:g} % of the bus" if of.load else ""
    return of.title() + load + ("" if of.array == "1-1" else f", arrays {of.array}")


def share(one: Measured, way: str) -> float:
    """The throughput of a way, in % of that of reads first over all."""
    return 100 * one.by_way[way]["rate"] / one.by_way[BASE]["rate"]


def of_bound(one: Measured, way: str) -> float:
    """The throughput of a way, in % of that which no scheduler passes."""
    return 100 * one.by_way[way]["rate"] / one.by_way[way]["bound"]


def share_cell(one: Measured, way: str) -> str:
    figures = one.by_way[way]
    return f"{figures['rate']:,.0f} a second; bus {100 * figures['bus']:.0f} %" if way == BASE else f"{share(one, way):.0f}"


def latency_cell(kind: str, *which: str) -> Cell:
    """Latencies of a kind of requests; empty where there are none."""
    return lambda one, way: " / ".join(f"{one.by_way[way][f'{kind}_{it}']:,.0f}" for it in which) if one.by_way[way][f"{kind}s"] else ""


def planning_cell(one: Measured, way: str) -> str:
    figures = one.by_way[way]
    return f"{figures['planning_us']:,.0f} / {figures['planning_longest_us'] / 1000:,.0f}; {figures['over']:.0f} of {figures['plans']:,.0f}"


def cells_table(first: str, measured: Sequence[Measured], ways: Sequence[str], cell: Cell) -> List[str]:
    """Configurations one by one; nothing where there are none, or no ways."""
    rows = [[title_with(one.configuration), *(cell(one, way) for way in ways)] for one in measured]
    return table([first, *(title_of(way) for way in ways)], rows) if rows and ways else []


def ratio_cell(measured: Sequence[Measured], way: str, name: str) -> str:
    """The median of a latency in that of reads first over all, over the configurations that have such requests."""
    pairs = [(one.by_way[way][name], one.by_way[BASE][name]) for one in measured]
    ratios = [own / other for own, other in pairs if own and other]
    return f"{statistics.median(ratios):.2f}" if ratios else ""


def bound_cell(measured: Sequence[Measured], way: str) -> str:
    """The median and the least of a way's throughput, in % of that which no scheduler passes."""
    found = [of_bound(one, way) for one in measured]
    return f"{statistics.median(found):.0f}; {min(found):.0f}"


def spread_row(measured: Sequence[Measured], way: str) -> List[str]:
    """How a way's throughput, in % of that of reads first over all, is spread over the configurations; its latencies beside."""
    found = [share(one, way) for one in measured]
    more, less = sum(number > 101 for number in found), sum(number < 99 for number in found)
    numbers = (statistics.median(found), quantile(found, 0.1), min(found), max(found))
    latencies = [ratio_cell(measured, way, name) for name in ("read_mean", "read_99", "program_mean", "program_99")]
    return [title_of(way), *(f"{number:.1f}" for number in numbers), f"{more}; {less}", bound_cell(measured, way), *latencies]


def spread_table(first: str, measured: Sequence[Measured], ways: Sequence[str]) -> List[str]:
    columns = ["median", "nine of ten at least", "worst", "best", "1 % more; less", "of the bound: median; least",
               "reads' mean", "reads' 99 %", "programs' mean", "programs' 99 %"]
    return table([first, *columns], [spread_row(measured, way) for way in ways])


def room_table(measured: Sequence[Measured], ways: Sequence[str]) -> List[str]:
    """Each way where there may be something to gain: where reads first over all is well below what no scheduler passes."""
    own = [one for one in measured if of_bound(one, BASE) <= ROOM]
    rows = []
    for way in ways if own else []:
        found = [share(one, way) for one in own]
        numbers = (statistics.median(found), statistics.mean(found), max(found), min(found))
        rows.append([title_of(way), *(f"{number:.1f}" for number in numbers), bound_cell(own, way), ratio_cell(own, way, "read_99")])
    columns = ["median", "mean", "best", "worst", "of the bound: median; least", "reads' 99 %"]
    return table([f"on the {len(own)} with at most {ROOM} % of the bound", *columns], rows)


# The same configuration with reads of whole pages, and of one sector of four.
Pair = Tuple[Measured, Measured]


def gain(pair: Pair, way: str, name: str = "rate") -> float:
    """A figure with reads of a sector over that with reads of pages."""
    page, sector = pair
    return sector.by_way[way][name] / page.by_way[way][name]


def sector_row(pair: Pair, ways: Sequence[str]) -> List[str]:
    page, sector = pair
    rates = [f"{one.by_way[BASE]['rate']:,.0f}" for one in pair]
    shares = [f"{share(page, way):.0f}; {share(sector, way):.0f}" for way in ways if way != BASE]
    return [title_with(sector.configuration), *rates, f"{gain(pair, BASE):.2f}", f"{of_bound(sector, BASE):.0f}", *shares]


def sector_table(pairs: Sequence[Pair], ways: Sequence[str]) -> List[str]:
    """What reads of a sector give by reads first over all; of the other ways their throughput in % of its, of pages and of sectors."""
    columns = ["a page", "a sector", "ratio", "% of the bound", *(title_of(way) for way in ways if way != BASE)]
    return table(["requests a second", *columns], [sector_row(pair, ways) for pair in pairs])


def gain_row(pairs: Sequence[Pair], way: str) -> List[str]:
    found, latencies = [gain(pair, way) for pair in pairs], [gain(pair, way, "read_mean") for pair in pairs]
    sectors = [sector for _, sector in pairs]
    shares = [share(one, way) for one in sectors]
    numbers = (min(found), statistics.median(found), max(found), statistics.median(latencies))
    own = f"{statistics.median(shares):.1f}; {min(shares):.1f}; {max(shares):.1f}"
    return [f"{WORKLOADS[sectors[0].configuration.workload]}, {title_of(way)}", *(f"{number:.2f}" for number in numbers), own, bound_cell(sectors, way)]


def gain_table(pairs: Sequence[Pair], ways: Sequence[str]) -> List[str]:
    """Of one workload: how much more requests a second reads of a sector give than reads of pages, and how much later they are answered."""
    columns = ["least", "median", "most", "reads' mean latency, median", "% of reads first, all: median; worst; best", "of the bound: median; least"]
    return table(["over whole pages", *columns], [gain_row(pairs, way) for way in ways])


def parts_of(measured: Sequence[Measured]) -> List[Tuple[str, List[Measured]]]:
    """All configurations, and those of each device, workload, bus, number of LUNs and of requests outstanding."""
    parts: Dict[str, List[Measured]] = {"all": list(measured)}
    for part_of in PART_TITLES:
        for one in measured:
            parts.setdefault(part_of(one.configuration), []).append(one)
    return list(parts.items())


def bound_row(name: str, own: Sequence[Measured]) -> List[str]:
    found = [of_bound(one, BASE) for one in own]
    numbers = (statistics.median(found), quantile(found, 0.1), min(found))
    return [name, str(len(own)), *(f"{number:.0f}" for number in numbers), str(sum(number <= ROOM for number in found))]


def bound_table(measured: Sequence[Measured]) -> List[str]:
    """How much of what no scheduler passes the best plain way has."""
    columns = ["configurations", "median", "nine of ten at least", "least", f"at most {ROOM} %"]
    return table([f"{title_of(BASE)}, % of the bound", *columns], [bound_row(name, own) for name, own in parts_of(measured)])


def apart(*tables: List[str]) -> List[str]:
    """The tables that have rows, an empty line between them."""
    return "\n\n".join("\n".join(lines) for lines in tables if lines).splitlines()


def twelve_tables(twelve: Sequence[Measured], ways: Sequence[str]) -> List[List[str]]:
    """The twelve configurations one by one: throughput, latencies, plans, erases."""
    return [
        cells_table("throughput, % of reads first, all", twelve, ways, share_cell),
        cells_table("throughput, % of what no scheduler passes", twelve, ways, lambda one, way: f"{of_bound(one, way):.0f}"),
        *(cells_table(f"{kind}s, us: mean / 99 % / 99.9 %", twelve, ways, latency_cell(kind, "mean", "99", "999")) for kind in ("read", "program")),
        cells_table("a plan, us in the mean / ms at most; over, of all plans", twelve, [way for way in ways if way in PLANS], planning_cell),
        cells_table("LUNs that erase at once", [one for one in twelve if one.by_way[BASE]["erasing"]], ways,
                    lambda one, way: f"{one.by_way[way]['erasing']:.1f}"),
    ]


def quick_tables(parts: Sequence[Sequence[Measured]], ways: Sequence[str]) -> List[str]:
    """The twelve; early arrays and open loops, one by one."""
    twelve, early, loops = parts
    reads, programs = (latency_cell(kind, "mean", "99") for kind in ("read", "program"))
    return apart(
        *twelve_tables(twelve, ways), spread_table("over the twelve", twelve, ways), room_table(twelve, ways),
        cells_table("requests a second; us that 99 % of reads don't pass", early, ways, lambda one, way: "{rate:,.0f}; {read_99:,.0f}".format(**one.by_way[way])),
        cells_table("us, mean / 99 %: reads; programs", loops, ways, lambda one, way: f"{reads(one, way)}; {programs(one, way)}"))


def whole_tables(measured: Sequence[Measured], ways: Sequence[str]) -> List[str]:
    """All configurations, and what each device, workload, bus and number of LUNs has of it; the twelve one by one."""
    twelve = [one for of in TWELVE for one in measured if one.configuration == of]
    medians = [[name, *(f"{statistics.median(share(one, way) for one in own):.0f}" for way in ways)] for name, own in parts_of(measured)]
    return apart(spread_table("throughput, % of reads first, all", measured, ways), room_table(measured, ways), bound_table(measured),
                 table(["its median", *(title_of(way) for way in ways)], medians), *twelve_tables(twelve, ways))
