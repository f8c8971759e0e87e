"""WORTH, and what SPEED and REMEMBER have of the same kind: tables are of the raw rows in bench, and what WORTH says of gains is so."""

import csv
import statistics
import unittest
from pathlib import Path
from typing import Dict, List, Tuple

import support
from onfi_tools.rolling_tables import ROOM, Pair, bound_table, gain_table, of_bound, room_table, sector_table, share, spread_table
from onfi_tools.rolling_use import ALL, OF_SECTORS, Asked, Configuration, Measured, Rows, all_of, measure, six_of
from onfi_tools.rolling_ways import BASE, WAYS

BENCH = support.ROOT / "bench"
PAGE = (support.ROOT / "docs/WORTH.md").read_text()
README = (support.ROOT / "README.md").read_text()
ASKED = Asked(requests=10000, seed=1, limit=2000, jobs=1)

Table = Dict[str, Dict[str, str]]


def table_of(lines: List[str]) -> Table:
    """The cells of a table by the first cell of their row and by their column."""
    head, *rows = support.cells_of("\n".join(lines))
    return {row[0]: dict(zip(head[1:], row[1:])) for row in rows}


def page_table(first: str) -> Table:
    """The table of the page that begins with this cell."""
    lines = PAGE.splitlines()
    begin = next(place for place, line in enumerate(lines) if line.startswith(f"| {first} |"))
    end = next(place for place in range(begin, len(lines)) if not lines[place].startswith("|"))
    return table_of(lines[begin:end])


def rows_of(name: str) -> List[Dict[str, str]]:
    return list(csv.DictReader((BENCH / name).read_text().splitlines()))


class Tables(unittest.TestCase):
    def compare(self, first: str, tables: List[List[str]], least: int) -> None:
        """The page's table, which may leave out rows and columns, with those of what the tool makes."""
        made = {row: cells for lines in tables for row, cells in table_of(lines).items()}
        shown = page_table(first)
        self.assertGreaterEqual(len(shown), least)
        for row, cells in shown.items():
            for column, cell in cells.items():
                self.assertEqual(made[row][column], cell, f"{row}: {column}")


class Page(Tables):
    ways: List[str]
    measured: List[Measured]

    @classmethod
    def setUpClass(cls) -> None:
        """All ways that the rows have. Nothing is run: a run that they don't have is an error."""
        rows = Rows(BENCH / "rolling.csv")
        cls.ways = [way for way in WAYS if any(way in key for key in rows.found)]
        cls.measured = measure(Path("/nowhere"), ALL, cls.ways, ASKED, rows)

    def test_its_tables_are_those_of_the_rows(self) -> None:
        spread = spread_table("throughput, % of reads first, all", self.measured, self.ways)
        for made in (bound_table(self.measured), spread, room_table(self.measured, self.ways)):
            self.compare(made[0].strip("| ").split(" | ")[0], [made], 1)

    def test_gains_are_those_that_are_reported(self) -> None:
        """Of phase by phase in the mean of all, of those with room, and in the median of those with erases."""
        room = [one for one in self.measured if of_bound(one, BASE) <= ROOM]
        erases = [one for one in self.measured if one.configuration.workload == "erases"]
        means = [statistics.mean(share(one, "steady") for one in own) - 100 for own in (self.measured, room)]
        median = statistics.median(share(one, "steady") for one in erases) - 100
        said = f"has {means[0]:.1f} % more than reads first, all, in the mean, {means[1]:.1f} % on the {len(room)}, and with erases {median:.0f} % in the median"
        self.assertIn(said, PAGE)
        readme = f"{means[0]:.1f} % more throughput than the best plain way in the mean of {len(self.measured)} configurations, and {means[1]:.1f} % on the {len(room)}"
        self.assertIn(readme, README)

    def test_no_way_passes_the_bound_by_more_than_is_reported(self) -> None:
        most = max(of_bound(one, way) for one in self.measured for way in one.by_way)
        self.assertIn(f"has {most - 100:.1f} % more than the bound", PAGE)


class Sectors(Tables):
    """Reads of 4 KiB beside whole pages: of all configurations without a search, and of six of each workload; by all ways that the rows have."""

    def pairs(self, sectors: List[Configuration], requests: int) -> Tuple[List[Pair], List[str]]:
        rows, asked = Rows(BENCH / "sectors.csv"), ASKED._replace(requests=requests)
        ways = [way for way in WAYS if any(way in key and str(requests) in key for key in rows.found)]
        rows.found.update(Rows(BENCH / "rolling.csv").found)
        pages = [of._replace(workload=OF_SECTORS[of.workload]) for of in sectors]
        by_page, by_sector = (measure(Path("/nowhere"), each, ways, asked, rows) for each in (pages, sectors))
        return list(zip(by_page, by_sector)), ways

    def test_all_configurations(self) -> None:
        self.compare("over whole pages", [gain_table(*self.pairs(all_of([name]), ASKED.requests)) for name in OF_SECTORS], 2)

    def test_six_configurations(self) -> None:
        self.compare("requests a second", [sector_table(*self.pairs(six_of(name), 2000)) for name in OF_SECTORS], 4)


class Stored(unittest.TestCase):
    """The tables whose runs take the library or the program: their cells are those of the stored rows."""

    def test_batches(self) -> None:
        names = {"devices with strobes: all": ("profiles", "all"), "devices with strobes: reads": ("profiles", "reads")}
        found = {(row["devices"], row["scripts"], row["way"]): f"{row['median']} / {row['mean']} / {row['best']}" for row in rows_of("batches.csv")}
        for scripts, cells in page_table("scripts").items():
            for way, cell in cells.items():
                self.assertEqual(found[(*names.get(scripts, ("own", scripts)), way)], cell, scripts)

    def test_216_configurations(self) -> None:
        found = {row["way"]: row for row in rows_of("spread.csv") if row["configurations"] == "216, 2000 nodes"}
        for way, cells in page_table("216 configurations").items():
            row = found[way]
            made = [row["median"], row["nine_of_ten"], row["worst"], row["best"], row["read_99"]]
            self.assertEqual(list(cells.values()), made, way)

    def test_twelve_configurations(self) -> None:
        found = {(row["configuration"], row["way"]): row for row in rows_of("twelve.csv") if row["condition"] == "as stated"}
        for configuration, cells in page_table("throughput").items():
            for way, cell in cells.items():
                row = found[configuration, way]
                own = f"{int(row['rate']):,}; {row['bus']} %" if way == "reads first, all" else row["throughput"]
                self.assertEqual(own, cell, f"{configuration}: {way}")

    def test_planning(self) -> None:
        said = PAGE.split("### What planning takes\n")[1].split("\n#")[0]
        rows = [row for row in rows_of("twelve.csv") if row["plan_us"] and row["condition"] == "as stated"]
        own = [row for row in rows if row["way"] == "plan in order"]
        means = [int(row["plan_us"]) for row in own]
        self.assertIn(f"{min(means):,} to {max(means):,}", said)
        self.assertIn(f"{max(int(row['plan_longest_ms']) for row in own)} ms at most", said)
