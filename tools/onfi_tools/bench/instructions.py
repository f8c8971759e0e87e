"""Instructions of a built program: a node of a search, a small plan, a certificate, a token of a check, an operation.

    tools/bench instructions [PROGRAM..] [--functions N] [--libraries FOLDER..] [--driver FOLDER]

Each PROGRAM has a column: the built onfi_sim, or another with the same options. A plain search that is run as `PROGRAM -l LIMIT FILE`
and prints `FILE FINISH OPENED ..`, by a name that begins with `bnb`, has the rows of searches alone. Instructions are counted by
valgrind's callgrind, long memory as cleared by vectors: two runs agree to a part in a thousand.

| row | what is counted |
|---|---|
| a node of NAME | `plan --limit 100000` of the script of examples/hard, which is over, above a script without requests, for each node |
| a plan of one read, of three | examples/one-read.onfi, examples/batch.onfi, above a script without requests |
| a node, with its certificate | a script of 32,853 nodes and 39,916 tokens, planned within the greatest limit |
| a node, remembering states | nodes 101 to 400 of both walks of `plan --by within` of programs-on-one-plane, tokens included |
| a token checked, a token read | `check` of that certificate; the same after a start that is too early, so that the text is only read |
| an operation of a run, phase by phase | `run`, `run --by next` of 400 reads on one channel by one host, above a run without operations: the median of three |

--functions N: the N functions that take most in each search and in the run phase by phase too, with their part of it.

--libraries FOLDER..: whole calls of the library for C too, or alone where no PROGRAM is named; each FOLDER holds libonfi.a and has a
column. Each call is counted by itself, without reading its script. Scripts are drawn from seed 1.

`plan` of N, `plan --by within` of N, `plan --by within --early` of N
    onfi_plan by each of these ways on the first 40 scripts of `tools/bench worth` with N requests, within 100,000 nodes: the
    median, the one that nine of ten don't pass, and the greatest; one that is over counts as greater than all, and isn't the greatest
a node of `plan`
    onfi_plan on the first 12 of 1,000 such scripts whose search opens 1,000 to 30,000 nodes, over all nodes that the search opens and
    that its certificate has
a node of `plan --by within`
    that way on the first six of 500 scripts of each set of `tools/bench remember` whose search opens 1,000 to 14,000 nodes, over
    the nodes of both walks
a token of `check`, of `check --by within`
    onfi_check and onfi_check_known of the plans of these, for each token

--driver FOLDER: what a turn of the driver of examples/c takes over the library of FOLDER, for each request that it answers, with 70 %
reads on tlc at 2 ns a byte, eight LUNs, 64 outstanding: all but what the mock of the board does, and of it each call of the library.
"""

import argparse
import re
import statistics
import subprocess
import tempfile
from pathlib import Path
from typing import Callable, Counter, List, NamedTuple, Sequence, Tuple

from onfi_tools.bench import driver_costs, whole_plans
from onfi_tools.bench.run import script as script_of_reads
from onfi_tools.bench.runs import HARD, PROGRAM, ROOT, counted, row, table

LIMIT = 100_000
NODES = 32_853
OPERATIONS = 400
PHASE_BY_PHASE = ("--by", "next")
RUNS = 3
SCRIPT = """shape,8,1,1,1
spans,read,140,600,50100,176000
spans,program,175000,600,600100,280
spans,erase,100,600,3000100,280
free,0,202345
running,4,1,236749,read,0,0
want,program,1,0,1
want,read,6,3,0
want,program,0,2,0
want,program,4,0,1
want,program,5,1,1
want,program,5,4,1
want,read,2,1,0
want,read,6,1,1
end
"""
WITHOUT_REQUESTS = "".join(line for line in SCRIPT.splitlines(True) if line.startswith(("shape", "spans", "end")))


class Count(NamedTuple):
    """What a run wrote, its instructions, and the functions that took most, with their parts of a thousand."""

    output: str
    instructions: int
    functions: List[Tuple[str, int]]


def functions_of(counts: str) -> List[Tuple[str, int]]:
    """The functions of a file of callgrind by what they took themselves, most first, in parts of a thousand."""
    sums: Counter[str] = Counter()
    for cost in driver_costs.costs_of(counts):
        sums[cost.caller] += 0 if cost.callee else cost.instructions
    whole = sum(sums.values())
    return [(name, 1000 * own // whole) for name, own in sums.most_common()]


class Program:
    """A built program and what one of its runs costs before it plans: of a script without requests, or of a search of one node."""

    def __init__(self, path: str) -> None:
        self.path = str(Path(path).resolve())
        self.plain = Path(path).name.startswith("bnb")
        start = self.run(["-l", "1", "/dev/stdin"], HARD[0].read_text()) if self.plain else self.run(["plan"], WITHOUT_REQUESTS, "ONFIPLAN")
        self.start = start.instructions

    def run(self, words: List[str], given: str = "", begins: str = "") -> Count:
        """Runs it under callgrind; its answer must begin so."""
        with tempfile.TemporaryDirectory() as folder:
            counts = Path(folder) / "counts"
            ran = counted(counts, [self.path, *words], given)
            found = re.search(r"Collected : (\d+)", ran.stderr)
            if not found or not ran.stdout.startswith(begins):
                raise ValueError(f"{self.path} {' '.join(words)}: {ran.stdout[:200]!r} in place of {begins!r}: {ran.stderr[-500:]}")
            return Count(ran.stdout, int(found[1]), functions_of(counts.read_text(errors="replace")))

    def above_start(self, words: List[str], given: str, begins: str) -> int:
        return self.run(words, given, begins).instructions - self.start

    def search(self, script: Path) -> Tuple[float, Count]:
        """Instructions of a node of a search that is over."""
        words = ["-l", str(LIMIT), "/dev/stdin"] if self.plain else ["plan", "--limit", str(LIMIT)]
        found = self.run(words, script.read_text(), "" if self.plain else f"over {LIMIT}\n")
        return (found.instructions - self.start) / (int(found.output.split()[2]) if self.plain else LIMIT), found

    def plan(self, name: str) -> float:
        """Instructions of the plan of a small script of examples."""
        return self.above_start(["plan"], (ROOT / "examples" / name).read_text(), "ONFIPLAN")

    def certificate(self) -> float:
        """Instructions of a node, its certificate included."""
        self.run(["plan", "--limit", str(NODES - 1)], SCRIPT, f"over {NODES - 1}\n")
        return self.above_start(["plan", "--limit", str(NODES)], SCRIPT, "ONFIPLAN") / NODES

    def remembering(self) -> float:
        """Instructions of a node of a search that remembers states, its token included."""
        given = (ROOT / "examples" / "hard" / "programs-on-one-plane.onfi").read_text()
        few, many = (self.run(["plan", "--by", "within", "--limit", str(limit)], given, "ONFIPLAN").instructions for limit in (100, 400))
        return (many - few) / 600

    def token(self, early: bool) -> float:
        """Instructions of a token of a check; with an early start, of one that is only read."""
        plan = subprocess.run([self.path, "plan"], input=SCRIPT, capture_output=True, check=True, text=True).stdout
        tokens = len(plan.split("ONFICERT 1\n")[1].split())
        given = SCRIPT + (re.sub(r"\nrest 4 \d+", "\nrest 4 0", plan) if early else plan)
        return self.above_start(["check"], given, "refused 1 Illegal" if early else "accepted") / tokens

    def operation(self, *by: str) -> float:
        """Instructions of an operation of a host, each run the median of a few: threads that wait make them vary."""
        none, many = (statistics.median(self.reads(count, *by).instructions for _ in range(RUNS)) for count in (0, OPERATIONS))
        return (many - none) / OPERATIONS

    def reads(self, operations: int, *by: str) -> Count:
        return self.run(["run", *by], script_of_reads(1, operations), "reply" if operations else "closed")


def program_table(programs: Sequence[Program], functions: int) -> None:
    """Prints the rows of programs, and that many functions of each search."""
    print("\n".join(table(["instructions of", *(Path(program.path).name for program in programs)], [])))
    most = []
    for script in HARD:
        searches = [program.search(script) for program in programs]
        print(row([f"a node of {script.stem}", *(f"{cost:,.0f}" for cost, _ in searches)]), flush=True)
        most += [(script.stem, counted) for _, counted in searches]
    rows: List[Tuple[str, Callable[[Program], float]]] = [
        ("a plan of one read", lambda program: program.plan("one-read.onfi")),
        ("a plan of three reads", lambda program: program.plan("batch.onfi")),
        ("a node, with its certificate", Program.certificate),
        ("a node, remembering states", Program.remembering),
        ("a token checked", lambda program: program.token(False)),
        ("a token read", lambda program: program.token(True)),
        ("an operation of a run", Program.operation),
        ("an operation of a run, phase by phase", lambda program: program.operation(*PHASE_BY_PHASE)),
    ]
    for name, cost in rows:
        print(row([name, *("" if program.plain else f"{cost(program):,.0f}" for program in programs)]), flush=True)
    if functions:
        most += [("a run, phase by phase", program.reads(OPERATIONS, *PHASE_BY_PHASE)) for program in programs if not program.plain]
    for name, of in most if functions else []:
        print(f"{name}: " + ", ".join(f"{function} {part / 10} %" for function, part in of.functions[:functions]))


def words(parser: argparse.ArgumentParser) -> None:
    parser.add_argument("programs", nargs="*", metavar="PROGRAM")
    parser.add_argument("--functions", type=int, default=0, metavar="N")
    parser.add_argument("--libraries", type=Path, nargs="+", default=[], metavar="FOLDER")
    parser.add_argument("--driver", type=Path, metavar="FOLDER")


def main(asked: argparse.Namespace) -> int:
    built = [] if asked.libraries or asked.driver else [PROGRAM]
    programs = [Program(path) for path in asked.programs or built]
    if programs:
        program_table(programs, asked.functions)
    if asked.libraries:
        print("\n".join(whole_plans.columns(asked.libraries)))
    if asked.driver:
        print("\n".join(driver_costs.ways(asked.driver)))
    return 0
