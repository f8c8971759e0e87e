"""Scripts of workloads: a worked one, where pages stand, what writes do, and what is refused."""

import random
import re
import tempfile
import unittest
from pathlib import Path
from typing import Dict, List, Set, Tuple

import support
from onfi_tools.script import first_form, rows_of
from onfi_tools.workload import MOST_OPERATIONS, Mapping, Operation, Place, Request, Shape, lane_of, paged_rows, read_requests, shape_of, workload_of

DEVICE = "examples/firmware/batch.onfi"
TRACE = "examples/workload.csv"
# Two channels of two LUNs with two planes; four blocks of a plane, so that three are home and one takes writes.
SMALL = Shape(channels=2, luns=2, planes=2, blocks=8, pages=4, page_bytes=100)
WORKED = """\
channels,2
hosts,2
submitcap,1024
postcap,1024
at,0
op,0,0,read,0,0,0
op,1,1,read,0,0,0
op,0,0,read,0,1,0
op,1,1,read,0,1,0
at,2500
op,0,0,erase,1,768,0
op,0,0,program,1,768,0,*03
op,1,1,erase,1,768,0
op,1,1,program,1,768,0,*03
op,0,0,read,0,0,8
at,40000
op,0,0,read,1,768,0
at,55200
op,0,0,program,1,768,1,*06
at,900000
op,0,0,read,1,768,1
op,1,1,read,1,768,0
at,1500000
op,1,1,read,1,768,0
end
"""


def made(trace: str, *words: str, device: str = DEVICE) -> Tuple[int, str, str]:
    """Status, rows after the device and standard error of the tool, of a trace that is its text."""
    with tempfile.TemporaryDirectory() as room:
        path = Path(room) / "trace.csv"
        path.write_text(trace)
        ran = support.run_tool("make-workload", str(path), "--device", device, *words)
    return ran.returncode, re.sub(r"^(page|sheet|strict|geometry|shape|spans),.*\n", "", ran.stdout, flags=re.MULTILINE), ran.stderr


def operations(text: str) -> List[str]:
    return [line for line in text.splitlines() if line.startswith("op,")]


class Worked(unittest.TestCase):
    def test_the_example(self) -> None:
        trace = (support.ROOT / TRACE).read_text()
        self.assertEqual(made(trace, "--channels", "2", "--unit", "us"), (0, WORKED, ""))

    def test_latencies_of_its_lines(self) -> None:
        """Three lines: of two replies the later counts, one without a reply has no latency; shares of one and of two lines."""
        trace = "10,R,0,100000\n20,R,0,1\n30,W,0,1\n"
        ops = [row.split(",") for row in operations(made(trace)[1])]
        reads = sum(1 for row in ops if row[3] == "read") - 1
        report = "".join(f"reply,0,0,{serial},{1000 + serial},read,*FF\n" for serial in range(reads + 1)) + f"reply,0,0,{reads + 1},5000,done\nclosed\n"
        with tempfile.TemporaryDirectory() as room:
            (Path(room) / "report").write_text(report)
            status, told, said = made(trace, "--latencies", f"{room}/report")
        lines = ["line,time,kind,operations,ns", f"1,10,read,{reads},{1000 + reads - 1 - 10}", f"2,20,read,1,{1000 + reads - 20}"]
        self.assertEqual((status, told.splitlines()), (0, lines))
        first, second = 989 + reads, 980 + reads
        shares = [second, first, first, first, first]
        self.assertEqual(said.splitlines(), ["kind,lines,mean,50 %,95 %,99 %,99.9 %,most", ",".join(map(str, ["read", 2, (first + second) // 2, *shares]))])

    def test_the_device_is_that_of_the_script(self) -> None:
        ran = support.run_tool("make-workload", TRACE, "--device", DEVICE)
        rows = [row for row in (support.ROOT / DEVICE).read_text().splitlines() if row.split(",")[0] in ("page", "sheet", "strict")]
        self.assertEqual(ran.stdout.splitlines()[: len(rows)], rows)

    def test_a_device_of_the_first_form(self) -> None:
        with tempfile.TemporaryDirectory() as room:
            path = Path(room) / "device.onfi"
            path.write_text("geometry,8,4,100,0\nshape,2,1,1,1\nspans,read,140,600,25100,11000\nwant,read,0,0,0\nend\n")
            _, rows, said = made("0,R,250,100\n", device=str(path))
        self.assertEqual((operations(rows), said), (["op,0,0,read,1,0,0", "op,0,0,read,1,1,0"], ""))

    def test_times(self) -> None:
        none: List[str] = []
        for trace, words, times in (("7,R,0,1\n7,R,0,1\n9.9,R,0,1\n", none, [7, 9]), ("1.2345,R,0,1\n2,R,0,1\n", ["--unit", "us"], [1234, 2000]),
                                    ("5,T,0,1\n7,R,0,1\n9,R,0,1\n", ["--from-zero"], [2, 4]), ("a,b,c,d\n\n3,read,0,1,more\n", none, [3])):
            status, rows, said = made(trace, *words)
            self.assertEqual((status, re.findall(r"^at,(\d+)$", rows, re.MULTILINE), said), (0, list(map(str, times)), ""))

    def test_rows_more(self) -> None:
        _, rows, _ = made("0,R,0,1\n", "--row", "batch,4", "--row", "submitcap,8")
        self.assertEqual(rows.splitlines()[:5], ["channels,1", "hosts,1", "postcap,1024", "batch,4", "submitcap,8"])

    def test_pages_that_a_request_touches(self) -> None:
        for request, count in (("R,0,16384", 1), ("R,0,16385", 2), ("R,16383,2", 2), ("R,5,0", 0), ("W,16383,2", 4), ("T,0,99999", 0)):
            self.assertEqual(len(operations(made(f"0,{request}\n")[1])), count, request)

    def test_a_trim(self) -> None:
        """Only pages that it covers, until they are written again."""
        rows = operations(made("0,T,100,32768\n1,R,0,49152\n2,W,16384,1\n3,R,16384,1\n", "--fresh")[1])
        self.assertEqual([row.split(",")[3] for row in rows], ["read", "read", "program", "read"])
        self.assertEqual([row.split(",")[4:7] for row in rows[2:]], [["0", "769", "0"]] * 2)

    def test_as_many_requests_as_a_script_holds(self) -> None:
        status, rows, said = made("".join(f"{at},R,0,49152\n" for at in range(4000)), "--channels", "4")
        self.assertEqual((status, len(operations(rows))), (0, MOST_OPERATIONS // 3 * 3))
        self.assertEqual(said, "make-workload: 3333 of 4000 requests are taken: a script has at most 10,000 operations\n")


class Places(unittest.TestCase):
    def test_each_page_stands_by_itself(self) -> None:
        """Channels first, then planes, then LUNs, then pages of a plane; none is left out and none beyond the home blocks."""
        found: Dict[Tuple[int, ...], int] = {}
        for logical in range(SMALL.logical_pages()):
            lane, number = lane_of(SMALL, logical)
            place = lane.place(SMALL, number)
            self.assertEqual((place.channel, place.block % 2), (logical % 2, logical // 2 % 2))
            self.assertEqual((place.lun, (place.block // 2) * 4 + place.page), (logical // 4 % 2, logical // 8))
            found[place] = logical
        self.assertEqual(len(found), 2 * 2 * 6 * 4)
        self.assertTrue(all(channel < 2 and lun < 2 and block < 6 and page < 4 for channel, lun, block, page in found))

    def test_reads_find_what_was_written_last(self) -> None:
        """Against a model of pages, which have the line that wrote them: each is programmed once after its erase, in the order of its block."""
        rng = random.Random(7)
        shape = SMALL._replace(blocks=80)
        for erases in (True, False):
            mapping = Mapping(shape, True, erases)
            striped = [(lane_of(shape, logical), logical) for logical in range(shape.logical_pages())]
            pages: Dict[Tuple[int, ...], int] = {lane.place(shape, number): -logical for (lane, number), logical in striped}
            held: Dict[int, int] = {}
            programs: Dict[Tuple[int, ...], int] = {}
            erased: Set[Tuple[int, ...]] = set()
            for line in range(1, 200):
                kind, logical = rng.choice(("read", "write")), rng.randrange(24)
                for operation in mapping.operations(Request(line, line, kind, logical * 100, 100)):
                    fields = operation.row().split(",")
                    place = tuple(int(fields[at]) for at in (2, 4, 5, 6))
                    self.assertEqual(fields[1], fields[2])
                    if fields[3] == "erase":
                        self.assertNotIn(place[:3], erased)
                        erased.add(place[:3])
                    elif fields[3] == "program":
                        self.assertEqual((place[3], place[2] >= 60), (programs.get(place[:3], 0), True))
                        self.assertEqual(place[:3] in erased, erases)
                        programs[place[:3]] = place[3] + 1
                        pages[place] = held[logical] = line
                        self.assertEqual(fields[7], f"*{line:02X}")
                    else:
                        self.assertEqual(pages[place], held.get(logical, -logical))
            self.assertEqual((len(held), len(programs) > 12), (24, True))

    def test_addresses_wrap(self) -> None:
        last = SMALL.logical_pages() * 100
        rows = [Mapping(SMALL, True, True).operations(Request(1, 0, "read", at, 100)) for at in (0, last, 5 * last)]
        self.assertEqual(rows, [rows[0]] * 3)


class Sectors(unittest.TestCase):
    """Pages of 400 bytes, of which a read takes the sectors of 100 that it touches."""

    def test_reads_of_some_sectors(self) -> None:
        shape = SMALL._replace(page_bytes=400, sectors=4)
        for (address, size), told in {(0, 400): [(0, 0)], (0, 100): [(0, 1)], (199, 2): [(1, 2)], (350, 200): [(3, 1), (0, 2)], (1, 399): [(0, 0)],
                                      (300, 901): [(3, 1), (0, 0), (0, 0), (0, 1)]}.items():
            made = Mapping(shape, False, True).operations(Request(1, 0, "read", address, size))
            self.assertEqual([(it.first, it.sectors) for it in made], told, (address, size))
        last = shape.logical_pages() * 400
        self.assertEqual([(it.place.block, it.first, it.sectors) for it in Mapping(shape, True, True).operations(Request(1, 0, "read", last + 100, 100))], [(0, 1, 1)])

    def test_more_than_a_read_can_take(self) -> None:
        """Of sixteen sectors a read takes up to seven, else the page."""
        shape = SMALL._replace(page_bytes=1600, sectors=16)
        made = [Mapping(shape, False, True).operations(Request(1, 0, "read", 100, size))[0] for size in (700, 701)]
        self.assertEqual([(it.first, it.sectors) for it in made], [(1, 7), (0, 0)])

    def test_the_device_says_how_many(self) -> None:
        """By a row `sector` of a page with spare bytes, or by rows `sectorpost`."""
        profile = (support.ROOT / "examples/devices/tlc.onfi").read_text()
        for size, sectors in ((4608, 4), (4096, 4), (9216, 2), (20000, 1)):
            self.assertEqual(shape_of(rows_of(f"sector,{size}\n{profile}"), 1, None).sectors, sectors)
        self.assertEqual(shape_of(rows_of(profile), 1, None).sectors, 1)
        rows = rows_of("geometry,8,4,100,0\nshape,2,1,1,1\nspans,read,140,600,25100,11000\nsectorpost,2,9\nsectorpost,1,5\nend\n")
        self.assertEqual(shape_of(rows, 1, None).sectors, 2)

    def test_a_script_keeps_them(self) -> None:
        """Where the device has a row `sector`, as the script then has."""
        with tempfile.TemporaryDirectory() as room:
            path = Path(room) / "device.onfi"
            path.write_text("sector,4608\n" + (support.ROOT / "examples/devices/tlc.onfi").read_text())
            _, rows, said = made("0,R,4096,8192\n0,R,0,16384\n", device=str(path))
        self.assertEqual((operations(rows), "sector,4608" in rows.splitlines(), said), (["op,0,0,read,0,0,0"], True, ""))
        self.assertIn("opread,0,0,0,0,0,1,2\n", rows)

    def test_a_device_in_rows_of_the_first_form(self) -> None:
        """As the simulator of channels reads it: of a page with strobes and sectors, and of rows that are of that form already."""
        profile = (support.ROOT / "examples/devices/tlc.onfi").read_text()
        found = first_form("sector,4608\n" + profile)
        self.assertEqual(found[:2], ["shape,4,2,1,1", "spans,read,175,600,75100,16095"])
        self.assertEqual(found[4:], ["sectorpost,1,4572", "sectorpost,2,8413", "sectorpost,3,12254", "sectorpost,4,16095"])
        self.assertEqual(first_form("\n".join([*found, "strict,1", "want,read,0,0,0", "end"])), [*found, "strict,1"])


class Pages(unittest.TestCase):
    """Traces of pages, as an FTL gives them."""

    TRACE = "time,op,lun,block,page,first sector,sectors\n0,read,1,5,3,2,1\n0.5,P,0,8,0\n\n2,erase,0,12,0,0,0\n"
    OPERATIONS = [Operation(2, 0, "read", Place(0, 1, 5, 3), 2, 1), Operation(3, 500, "program", Place(0, 0, 8, 0)), Operation(5, 2000, "erase", Place(0, 0, 12, 0))]

    def test_its_lines(self) -> None:
        self.assertEqual(list(read_requests(self.TRACE.splitlines(), "us")), self.OPERATIONS)
        for line in ("0,read,1,5", "0,trim,1,5,3", "0,read,1,5,-3", "0,read,1,5,3,x,1", "x,read,1,5,3"):
            with self.assertRaisesRegex(ValueError, "^line 2: not time,op,lun,block,page,first sector,sectors: "):
                list(read_requests([self.TRACE.splitlines()[0], line], "us"))

    def test_a_script_of_it(self) -> None:
        with tempfile.TemporaryDirectory() as room:
            path = Path(room) / "device.onfi"
            path.write_text("sector,4608\n" + (support.ROOT / "examples/devices/tlc.onfi").read_text())
            _, rows, _ = made(self.TRACE, "--unit", "us", device=str(path))
        found = rows[rows.index("at,0"):].splitlines()
        self.assertEqual(found, ["at,0", "opread,0,0,1,5,3,2,1", "at,500", "op,0,0,program,0,8,0,*03", "at,2000", "op,0,0,erase,0,12,0", "end"])

    def test_pages_and_sectors_that_the_device_doesnt_have(self) -> None:
        mapping, place = Mapping(SMALL._replace(sectors=4), False, True), Place(0, 1, 7, 3)
        fits = [Operation(9, 0, "read", place, 1, 3), Operation(9, 0, "program", place), Operation(9, 0, "erase", place._replace(page=0))]
        self.assertEqual([mapping.operations(it) for it in fits], [[it] for it in fits])
        wrong = [Operation(9, 0, "read", place._replace(**{name: value})) for name, value in (("lun", 2), ("block", 8), ("page", 4))]
        wrong += [Operation(9, 0, "erase", place), Operation(9, 0, "read", place, 2, 3), Operation(9, 0, "program", place, 0, 1)]
        for it in [*wrong, Operation(9, 0, "read", place, 0, 8)]:
            with self.assertRaisesRegex(ValueError, "^line 9: (a page|sectors) that "):
                mapping.operations(it)

    def test_operations_alone(self) -> None:
        """Those of bytes, each with the line that it is of; what is printed is read back."""
        status, rows, said = made("7,W,0,16384\n9,R,0,16384\n", "--pages", "--from-zero")
        told = ["time,op,lun,block,page,first sector,sectors,line", "0,erase,0,768,0,0,0,1", "0,program,0,768,0,0,0,1", "2,read,0,768,0,0,0,2"]
        self.assertEqual((status, rows.splitlines(), said), (0, told, ""))
        again = [it._replace(line=0) for it in read_requests(paged_rows(self.OPERATIONS), "ns") if isinstance(it, Operation)]
        self.assertEqual(again, [it._replace(line=0) for it in self.OPERATIONS])
        self.assertEqual(made("7,W,0,1\n", "--pages", "--channels", "2")[0], 2)


class Refused(unittest.TestCase):
    def test_rows_that_are_none(self) -> None:
        for trace, said in (("0,R,0,1\nx,R,0,1\n", "line 2: not time,kind,address,size: x,R,0,1"), ("0,R,0\n", "line 1: not time"),
                            ("0,E,0,1\n", "line 1: not time"), ("0,R,-1,1\n", "line 1: not time"), ("0,R,0,1.5\n", "line 1: not time"),
                            ("0,R,0,1\nNaN,R,0,1\n", "line 2: not time"), ("0,R,0,1\ninf,R,0,1\n", "line 2: not time"),
                            ("5,R,0,1\n4,R,0,1\n", "line 2: comes before the line above it"),
                            ("4611686018427387904,R,0,1\n", "line 1: a time of 2^62 ns or more"),
                            ("0,R,12884901888,1\n", "line 1: beyond the 12884901888 bytes of the drive")):
            status, rows, told = made(trace)
            self.assertEqual((status, rows), (1, ""), trace)
            self.assertTrue(told.startswith(f"make-workload: {said}") and told.count("\n") == 1, told)

    def test_a_plane_that_is_full(self) -> None:
        """Each plane of the small drive has one block of four pages for writes."""
        requests = [Request(line, 0, "write", 0, 100) for line in range(1, 6)]
        self.assertEqual(workload_of(requests[:4], Mapping(SMALL, False, True), False).taken, 4)
        with self.assertRaisesRegex(ValueError, "^line 5: a plane has no block left to write to, and no garbage is collected$"):
            workload_of(requests, Mapping(SMALL, False, True), False)

    def test_devices_that_are_none(self) -> None:
        for device, word in (("examples/batch.onfi", "neither rows `page`"), ("README.md", "no line `end`"), ("nothing.onfi", "No such file")):
            status, rows, said = made("0,R,0,1\n", device=device)
            self.assertEqual((status, rows), (1, ""))
            self.assertIn(word, said)
        self.assertEqual(made("0,R,0,1\n", "--page-bytes", "0")[0], 2)
        self.assertEqual(made("0,R,0,1\n", "--channels", "5")[0], 2)


@unittest.skipUnless(support.program(), "no built program")
class Runs(unittest.TestCase):
    def test_the_program_runs_the_example(self) -> None:
        """Without moments of arrival: each read gives the line that wrote its page, or FF."""
        script = support.run_tool("make-workload", TRACE, "--device", DEVICE, "--channels", "2", "--unit", "us").stdout
        given = "".join(line for line in script.splitlines(keepends=True) if not line.startswith("at,"))
        ran = support.run_program("run", "--clock", "simulated", given=given)
        self.assertEqual(ran.returncode, 0, ran.stderr)
        replies = re.findall(r"^reply,(\d),\1,(\d+),\d+,(.*)$", ran.stdout, re.MULTILINE)
        told = [answer for _, _, answer in sorted(replies, key=lambda it: (it[0], int(it[1])))]
        first = ["read,*FF", "read,*FF", "done", "done", "read,*FF", "read,*03", "done", "read,*06"]
        self.assertEqual(told, [*first, "read,*FF", "read,*FF", "done", "done", "read,*03", "read,*03"])

    def test_requests_arrive_at_their_moments(self) -> None:
        """No reply comes before its request, and of the first one of each channel it is known when it comes."""
        script = support.run_tool("make-workload", TRACE, "--device", DEVICE, "--channels", "2", "--unit", "us").stdout
        ran = support.run_program("run", "--clock", "simulated", given=script)
        self.assertEqual(ran.returncode, 0, ran.stderr)
        ends = [(int(host), int(at)) for host, at in re.findall(r"^reply,(\d),\d,\d+,(\d+),", ran.stdout, re.MULTILINE)]
        arrive: Dict[int, List[int]] = {0: [], 1: []}
        moment = 0
        for row in script.splitlines():
            moment = int(row[3:]) if row.startswith("at,") else moment
            if row.startswith("op,"):
                arrive[int(row[3])].append(moment)
        for host, times in arrive.items():
            told = [at for found, at in ends if found == host]
            self.assertEqual(len(told), len(times))
            self.assertTrue(all(came < at for came, at in zip(times, told)), (host, times, told))
            self.assertGreater(max(told), max(times))


class Read(unittest.TestCase):
    def test_the_lines_of_a_trace(self) -> None:
        found = list(read_requests(["time,kind,address,size", "1, w ,2,3", "", "1,Read,4,5"], "ns"))
        self.assertEqual(found, [Request(2, 1, "write", 2, 3), Request(4, 1, "read", 4, 5)])
