"""Pictures of traces, read back by readers of this file and held against the traces' own lines."""

import json
import re
import subprocess
import unittest
import xml.etree.ElementTree as ET
from typing import Dict, Iterator, List, NamedTuple, Tuple

import support
from onfi_tools import perfetto, svg, text, vcd
from onfi_tools.trace import Overlap, Part, Phase, by_lun, overlaps, read_trace, stretches

SVG = "{http://www.w3.org/2000/svg}"
TITLE = re.compile(r"LUN (\d), (\w+), ([a-z ]+)(?:, block (\d+), page (\d+))?: ([\d,]+) to ([\d,]+) ns")
PAGE = (support.ROOT / "docs/pictures/README.md").read_text()
# What the page shows of the batch, all of it and a part.
TEXT_OF_BATCH, PART_OF_BATCH = (re.sub("^# ", "", shown, flags=re.MULTILINE) for shown in re.findall(r"draw-trace 60.*\n((?:# .*\n)+)", PAGE))


# The second line comes into the first.
FAULTY = ["0 140 0 read cmd 0 0 00 30 4", "100 240 1 read cmd 0 0 00 30 -"]


def part_of(phase: Phase) -> Part:
    return Part.COMMAND if not phase.is_post else Part.OUTPUT if phase.kind == "read" else Part.STATUS


def sides_of(element: ET.Element) -> Tuple[float, float]:
    """About where a text begins and ends."""
    share = {"start": 0.0, "middle": 0.5, "end": 1.0}[element.attrib["text-anchor"]]
    size = 5.5 * len(element.text or "")
    left = float(element.attrib["x"]) - share * size
    return left, left + size


class Traces(unittest.TestCase):
    def test_a_line_that_is_none_is_named(self) -> None:
        good = "0 140 0 read cmd 0 0 00 30"
        for bad in ("over 7", "5 140 0 read cmd 0 0 00", "9 9 0 read cmd 0 0 00 30", "1 2 8 read cmd 0 0 00 30",
                    "1 2 0 copy cmd 0 0 00 30", "1 2 0 read array 0 0 00 30", "-1 2 0 read cmd 0 0 00 30"):
            with self.assertRaisesRegex(ValueError, "^line 1: not a line"):
                read_trace([bad])
        with self.assertRaisesRegex(ValueError, "^line 2: not a line"):
            read_trace([good, "over 7"])

    def test_lines_that_overlap(self) -> None:
        """An output from 100 up to 1,000, two commands that come into it, one that comes as it ends, and one into the one before."""
        given = ["100 1000 0 read post 0 0 06 E0", "200 340 1 read cmd 0 0 00 30", "900 1040 2 read cmd 0 0 00 30",
                 "1040 1180 3 read cmd 0 0 00 30", "1179 1319 1 read cmd 1 0 00 30"]
        self.assertEqual(overlaps(read_trace(given)), [Overlap(200, 340, 1, 2, 1), Overlap(900, 1000, 2, 3, 1), Overlap(1179, 1180, 1, 5, 4)])
        for name in support.SCRIPTS:
            self.assertEqual(overlaps(support.trace(name)), [])

    def test_an_array_that_is_ready_early(self) -> None:
        """Of 25,100 ns: an output after 20,000, one after all of them, and one a ns later."""
        for wait, wanted in ((20000, [(Part.EARLY, 20000)]), (25100, [(Part.ARRAY, 25100)]), (25101, [(Part.ARRAY, 25100), (Part.WAIT, 1)])):
            phases = read_trace(["0 140 0 read cmd 0 0 00 30", f"{140 + wait} {11140 + wait} 0 read post 0 0 06 E0"])
            found = stretches(phases, 0, support.lengths("batch"))
            self.assertEqual([(it.part, it.end - it.start) for it in found[1:-1]], wanted)

    def test_comments_are_passed_over(self) -> None:
        lines = support.trace_text("batch").splitlines()
        remarked = ["# a trace", *lines, "#"]
        self.assertEqual([it._replace(line=0) for it in read_trace(remarked)], [it._replace(line=0) for it in read_trace(lines)])

    def test_the_request_of_a_line_is_kept(self) -> None:
        lines = support.trace_text("diagram").splitlines()
        for request in ("0", "7", "-"):
            found = read_trace([f"{line} {request}" for line in lines])
            self.assertEqual({it.request for it in found}, {request})
            self.assertEqual([it._replace(request=None) for it in found], support.trace("diagram"))
        for wrong in (" x", " -1", " 0 0"):
            with self.assertRaisesRegex(ValueError, "line 1: not a line of a trace"):
                read_trace([lines[0] + wrong])

    def test_stretches_leave_no_hole_within_a_group(self) -> None:
        for name in support.SCRIPTS:
            for own in by_lun(support.trace(name)).values():
                for lengths in (None, support.lengths(name)):
                    found = stretches(own, 0, lengths)
                    for one, other in zip(found, found[1:]):
                        self.assertTrue(one.end == other.start or other.part is Part.COMMAND)
                        self.assertLessEqual(one.end, other.start)

    def test_array_time_ends_when_it_is_over(self) -> None:
        first = stretches(by_lun(support.trace("batch"))[0], 0, support.lengths("batch"))
        told = [(cell.start, cell.end, cell.part) for cell in first]
        self.assertEqual(told, [
            (140, 280, Part.COMMAND), (280, 880, Part.GAP), (880, 1020, Part.COMMAND), (1020, 26120, Part.ARRAY),
            (26120, 36240, Part.WAIT), (36240, 47240, Part.OUTPUT), (47240, 58240, Part.OUTPUT)])

    def test_a_group_that_ran_before_is_told(self) -> None:
        lun = stretches(by_lun(support.trace("programs-on-one-plane"))[1], 0, None)
        self.assertEqual([cell.part for cell in lun[:3]], [Part.BEFORE, Part.STATUS, Part.COMMAND])

    @unittest.skipUnless(support.program(), "no built program")
    def test_the_program_prints_the_stored_traces(self) -> None:
        for name, path in support.SCRIPTS.items():
            ran = support.run_program("plan", "--trace", given=(support.ROOT / path).read_text())
            self.assertEqual(ran.stdout, support.trace_text(name))


class Windows(unittest.TestCase):
    """A trace and a part of it, in each form."""

    def drawn(self, *words: str, status: int = 0) -> str:
        ran = support.run_tool("draw-trace", *words, given=support.trace_text("batch"))
        self.assertEqual(ran.returncode, status, ran.stderr)
        return ran.stderr if status else ran.stdout

    def test_text(self) -> None:
        self.assertEqual(self.drawn("60", "--from", "25000", "--to", "37000"), PART_OF_BATCH)
        for words in ("", "--from 0", "--to 58240"):
            self.assertEqual(self.drawn("60", *words.split()), TEXT_OF_BATCH)

    def test_idle_time_keeps_its_rows(self) -> None:
        wanted = "bus\nLUN 0  " + 9 * "-" + "\nLUN 1  " + 9 * "-" + "\n       2000 25240 ns\n"
        self.assertEqual(self.drawn("9", "--from", "2000", "--to", "25240"), wanted)

    def test_drawings(self) -> None:
        root = ET.fromstring(self.drawn("--as", "svg", "--from", "25000", "--to", "37000"))
        titles = [str(title.text) for title in root.iter(SVG + "title")]
        self.assertEqual(titles[0], "Bus schedule, 25,000 to 37,000 ns")
        self.assertIn("LUN 1, read, data output, block 0, page 0: 25,240 to 36,240 ns", titles)
        self.assertIn("LUN 0, read, data output, block 0, page 0: 36,240 to 37,000 ns", titles)
        self.assertIn("LUN 0, read, array time: 25,000 to 36,240 ns", titles)
        self.assertEqual(len(titles), 1 + 2 + 4)
        texts = [str(text.text) for text in root.iter(SVG + "text")]
        self.assertIn("37,000 ns", texts)
        self.assertFalse([text for text in texts if text.startswith("finish")])

    def test_a_dump_goes_on_behind_its_part(self) -> None:
        dump = self.drawn("--as", "vcd", "--from", "200", "--to", "900")
        self.assertEqual(dump.splitlines()[-1], "#900")
        changes = read_vcd(dump)
        self.assertEqual((changes[0].time, changes[-1].time), (200, 880))
        whole = read_vcd(self.drawn("--as", "vcd"))
        inner = [it for it in changes if it.time > 200]
        self.assertEqual(inner, [it for it in whole if 200 < it.time < 900])
        at_first = {it.signal: it.value for it in whole if it.time <= 200}
        self.assertEqual({it.signal: it.value for it in changes if it.time == 200}, at_first)

    def test_events(self) -> None:
        events = json.loads(self.drawn("--as", "perfetto", "--from", "25000", "--to", "37000"))["traceEvents"]
        told = sorted((it["tid"], it["args"]["start"], it["args"]["end"]) for it in events if it["ph"] == "X")
        self.assertEqual(told, [(1, 25240, 36240), (1, 36240, 37000), (2, 25000, 36240), (2, 36240, 37000), (3, 25000, 25240), (3, 25240, 36240)])

    def test_what_is_no_part_is_told(self) -> None:
        for words in (["--from", "5", "--to", "5"], ["--from", "58240"], ["--to", "0"]):
            self.assertRegex(self.drawn(*words, status=1), r"^draw-trace: nothing lies between \d+ and \d+ ns\n$")
        for word in ("-1", "1.5", "x", ""):
            self.assertIn("invalid time value", self.drawn(f"--from={word}", status=2))


class Drawings(unittest.TestCase):
    def bars(self, root: ET.Element) -> List[Tuple[float, float, Tuple[str, ...]]]:
        """Left side, width and what its title says, of each bar."""
        found = []
        for rect in root.iter(SVG + "rect"):
            title = rect.find(SVG + "title")
            if title is not None:
                told = TITLE.fullmatch(title.text or "")
                assert told
                found.append((float(rect.attrib["x"]), float(rect.attrib["width"]), told.groups()))
        return found

    def test_each_phase_is_a_bar_of_the_bus_and_of_its_lun(self) -> None:
        for name in support.SCRIPTS:
            phases = support.trace(name)
            bars = self.bars(ET.fromstring(svg.picture(phases, support.lengths(name), 960, True)))
            told = [bar[2] for bar in bars if bar[2][3] is not None]
            asked = [(str(phase.lun), phase.kind, part_of(phase).value, str(phase.block), str(phase.page),
                      f"{phase.start:,}", f"{phase.end:,}") for phase in phases]
            self.assertEqual(sorted(told), sorted(asked + asked))

    def test_bars_lie_at_their_times(self) -> None:
        phases = support.trace("diagram")
        room = 800 - svg.LEFT - svg.RIGHT
        for x, width, told in self.bars(ET.fromstring(svg.picture(phases, None, 800, False))):
            start, end = (int(time.replace(",", "")) for time in told[5:7])
            self.assertAlmostEqual(x, svg.LEFT + start * room / 5650, delta=0.01)
            self.assertAlmostEqual(width, (end - start) * room / 5650, delta=0.02)

    def test_statuses_are_seen(self) -> None:
        """No bar of another part lies over a status, however short that is drawn."""
        statuses = 0
        for name in support.SCRIPTS:
            for width in (svg.LEAST_WIDTH, 960):
                root = ET.fromstring(svg.picture(support.trace(name), support.lengths(name), width, False))
                for bars in (self.bars(row) for row in root.iter(SVG + "g")):
                    for at, (x, wide, told) in enumerate(bars):
                        if told[2] == "status":
                            statuses += 1
                            over = [it for it in bars[at + 1 :] if it[2][2] != "status" and it[0] < x + wide - 0.02 and it[0] + it[1] > x + 0.02]
                            self.assertEqual(over, [], (name, told))
        self.assertGreater(statuses, 10)

    def test_solid_colours_differ_in_grey(self) -> None:
        greys = []
        for fill in svg.FILLS.values():
            if fill.startswith("#"):
                red, green, blue = (int(fill[at : at + 2], 16) for at in (1, 3, 5))
                greys.append(0.299 * red + 0.587 * green + 0.114 * blue)
        self.assertEqual(greys, sorted(greys))
        self.assertTrue(all(behind - before > 40 for before, behind in zip(greys, greys[1:])))

    def test_names_lie_within_the_drawing_and_beside_each_other(self) -> None:
        late = [phase._replace(start=phase.start + 2**62 - 99999, end=phase.end + 2**62 - 99999)
                for phase in support.trace("batch")]
        drawn = [svg.picture(support.trace(name), support.lengths(name), width, name != "batch")
                 for name in support.SCRIPTS for width in (svg.LEAST_WIDTH, 960)]
        for drawing in drawn + [svg.picture(late, None, 960, True)]:
            root = ET.fromstring(drawing)
            lines: Dict[str, List[Tuple[float, float]]] = {}
            for element in root.iter(SVG + "text"):
                left, right = sides_of(element)
                self.assertTrue(0 <= left and right <= float(root.attrib["width"]), element.text)
                lines.setdefault(element.attrib["y"], []).append((left, right))
            for line in lines.values():
                line.sort()
                self.assertTrue(all(one[1] <= other[0] for one, other in zip(line, line[1:])), line)

    def test_an_overlap_is_red_with_its_line(self) -> None:
        root = ET.fromstring(svg.picture(read_trace(FAULTY), None, 320 + 58 + 24, False))
        red = [rect for rect in root.iter(SVG + "rect") if rect.attrib.get("fill") == svg.RED]
        self.assertEqual([rect.findtext(SVG + "title") for rect in red], ["line 2 overlaps line 1: 100 to 140 ns", None])
        left, width = (float(red[0].attrib[side]) for side in ("x", "width"))
        self.assertAlmostEqual(left, svg.LEFT + 100 * 320 / 240, delta=0.01)
        self.assertAlmostEqual(width, 40 * 320 / 240, delta=0.01)
        self.assertIn("2", [text.text for text in root.iter(SVG + "text") if text.attrib["fill"] == svg.RED])
        for name in support.SCRIPTS:
            self.assertNotIn(f'fill="{svg.RED}"', svg.picture(support.trace(name), None, 960, False))

    def test_an_overlap_in_text(self) -> None:
        self.assertEqual(text.picture(read_trace(FAULTY), 24).splitlines()[0], "bus    0000000000!!!!1111111111")

    def test_the_pictures_of_the_documents(self) -> None:
        for name, width, labels in (("batch", 960, False), ("diagram", 800, True)):
            drawn = svg.picture(support.trace(name), support.lengths(name), width, labels)
            self.assertEqual((support.ROOT / "docs/pictures" / f"{name}.svg").read_text(), drawn)

    def test_the_diagram_names_all_parts(self) -> None:
        root = ET.fromstring((support.ROOT / "docs/pictures/diagram.svg").read_text())
        names = [element.text for element in root.iter(SVG + "text")]
        for name in ("command", "gap", "array time", "wait for the bus", "data output", "status"):
            self.assertGreaterEqual(names.count(name), 2, name)

    def test_a_trace_without_phases(self) -> None:
        self.assertEqual(self.bars(ET.fromstring(svg.picture([], None, 960, True))), [])


class Change(NamedTuple):
    time: int
    signal: str
    value: str


def read_vcd(dump: str) -> List[Change]:
    """All changes in order; an AssertionError where it is no dump."""
    head, body = dump.split("$enddefinitions $end\n")
    variables: Dict[str, Tuple[str, int]] = {}
    scopes: List[str] = []
    for line in head.splitlines():
        word, *rest, end = line.split()
        assert end == "$end" and word in ("$comment", "$timescale", "$scope", "$upscope", "$var"), line
        if word == "$var":
            assert rest[0] in ("wire", "string") and rest[2] not in variables and (rest[1] == "1") == (len(rest) == 4), line
            variables[rest[2]] = (".".join([*scopes, rest[3]]), int(rest[1]) if rest[0] == "wire" else 0)
        elif word == "$scope":
            scopes.append(rest[1])
        elif word == "$upscope":
            scopes.pop()
    assert not scopes
    return list(changes_of(body, variables))


def changes_of(body: str, variables: Dict[str, Tuple[str, int]]) -> Iterator[Change]:
    time = -1
    for line in body.splitlines():
        if line.startswith("#"):
            assert int(line[1:]) > time
            time = int(line[1:])
        elif line not in ("$dumpvars", "$end"):
            value, key = line[1:].split() if line[0] in "bs" else line
            name, bits = variables[key]
            assert time >= 0 and (line[0] == "s" if bits == 0 else len(value) == bits and set(value) <= set("01xz")), line
            yield Change(time, name, value)


def value_at(changes: List[Change], signal: str, time: int) -> str:
    return [change.value for change in changes if change.signal == signal and change.time <= time][-1]


class Dumps(unittest.TestCase):
    def test_what_each_phase_shows(self) -> None:
        """It has the bus and its LUN, with kind, block and page; nobody has the bus between phases."""
        for name in support.SCRIPTS:
            phases = support.trace(name)
            changes = read_vcd(vcd.picture(phases, support.lengths(name)))
            self.assertEqual(len({change.signal for change in changes}), 1 + 5 * len(by_lun(phases)))
            for phase, time in ((phase, time) for phase in phases for time in (phase.start, phase.end - 1)):
                told = [value_at(changes, f"channel.lun{phase.lun}_{signal}", time) for signal in ("phase", "ready", "kind", "block", "page")]
                self.assertEqual(value_at(changes, "channel.bus_owner", time), f"{phase.lun:03b}")
                self.assertEqual(told[:3], [part_of(phase).value.replace(" ", "_"), "1", phase.kind])
                self.assertEqual([int(it, 2) for it in told[3:]], [phase.block, phase.page])
            for end in {phase.end for phase in phases} - {phase.start for phase in phases}:
                self.assertEqual(value_at(changes, "channel.bus_owner", end), "zzz")

    def test_an_idle_lun_has_no_kind_and_no_page(self) -> None:
        changes = read_vcd(vcd.picture(support.trace("batch"), support.lengths("batch")))
        for time, kind in ((0, "none"), (140, "read"), (2000, "read"), (58240, "none")):
            self.assertEqual(value_at(changes, "channel.lun0_kind", time), kind)
        for time, block in ((0, "z" * 16), (140, "0" * 16), (280, "z" * 16), (880, "0" * 15 + "1"), (1020, "z" * 16)):
            self.assertEqual(value_at(changes, "channel.lun0_block", time), block)

    def test_ready_falls_for_gap_and_array_time(self) -> None:
        changes = read_vcd(vcd.picture(support.trace("batch"), support.lengths("batch")))
        told = [(change.time, change.value) for change in changes if change.signal == "channel.lun0_ready"]
        self.assertEqual(told, [(0, "1"), (280, "0"), (880, "1"), (1020, "0"), (26120, "1")])

    def test_what_the_trace_does_not_tell_is_unknown(self) -> None:
        changes = read_vcd(vcd.picture(support.trace("programs-on-one-plane"), None))
        self.assertEqual(value_at(changes, "channel.lun1_ready", 0), "x")
        self.assertEqual(value_at(changes, "channel.lun1_phase", 0), "runs_since_before")

    def test_phases_that_overlap_have_no_owner(self) -> None:
        changes = read_vcd(vcd.picture(read_trace(FAULTY), None))
        told = [(change.time, change.value) for change in changes if change.signal == "channel.bus_owner"]
        self.assertEqual(told, [(0, "000"), (100, "xxx"), (140, "001"), (240, "zzz")])

    def test_no_change_is_told_twice(self) -> None:
        changes = read_vcd(vcd.picture(support.trace("batch"), None))
        for signal in {change.signal for change in changes}:
            values = [change.value for change in changes if change.signal == signal]
            self.assertTrue(all(one != other for one, other in zip(values, values[1:])))

    def test_a_trace_without_phases(self) -> None:
        changes = read_vcd(vcd.picture([], None))
        self.assertEqual(changes, [Change(0, "channel.bus_owner", "zzz")])


class Events(unittest.TestCase):
    def test_tracks_fields_and_times(self) -> None:
        """The bus's track is the trace; the events of a track don't overlap."""
        for name, lengths in ((name, lengths) for name in support.SCRIPTS for lengths in (None, support.lengths(name))):
            phases = support.trace(name)
            told = json.loads(perfetto.picture(phases, lengths))
            self.assertEqual((told["displayTimeUnit"], {event["ph"] for event in told["traceEvents"]}), ("ns", {"M", "X"}))
            tracks: Dict[int, List[Dict[str, int]]] = {event["tid"]: [] for event in told["traceEvents"] if event["name"] == "thread_name"}
            for event in (event for event in told["traceEvents"] if event["ph"] == "X"):
                self.assertEqual([round(event[part] * 1000) for part in ("ts", "dur")], [event["args"]["start"], event["args"]["end"] - event["args"]["start"]])
                tracks[event["tid"]].append(event["args"])
            self.assertEqual([(event["start"], event["end"], event["opener"]) for event in tracks[perfetto.BUS]],
                             [(phase.start, phase.end, phase.opener) for phase in phases])
            for own in tracks.values():
                self.assertTrue(len(own) > 1 and all(one["end"] <= other["start"] for one, other in zip(own, own[1:])))

    def test_requests_and_overlaps(self) -> None:
        events = json.loads(perfetto.picture(read_trace(FAULTY), None))["traceEvents"]
        timed = [event for event in events if event["ph"] == "X"]
        self.assertEqual([event["args"].get("request") for event in timed], [4, None, 4, None])
        marks = [(event["name"], event["ts"]) for event in events if event["ph"] == "i"]
        self.assertEqual(marks, [("line 2 overlaps line 1", 0.1)])


class Commands(unittest.TestCase):
    def test_each_form_by_the_command(self) -> None:
        given = support.trace_text("batch")
        script = str(support.ROOT / "examples/batch.onfi")
        phases, lengths = support.trace("batch"), support.lengths("batch")
        drawn = {"svg": svg.picture(phases, lengths, 960, False), "vcd": vcd.picture(phases, lengths),
                 "perfetto": perfetto.picture(phases, lengths)}
        for form, asked in drawn.items():
            ran = support.run_tool("draw-trace", "--as", form, "--script", script, given=given)
            self.assertEqual(ran.stdout, asked)

    def by_script(self, script: str, given: str, *words: str) -> "subprocess.CompletedProcess[str]":
        """The trace drawn by a script of that text."""
        path = support.room_of(self) / "script.onfi"
        path.write_text(script)
        return support.run_tool("draw-trace", *words, "--script", str(path), given=given)

    def test_a_log_without_ends_is_drawn_as_its_trace(self) -> None:
        lines = [line.split() for line in support.trace_text("batch").splitlines()]
        log = "".join(" ".join([start, *place]) + "\n" for start, _, *place in (line[:7] for line in lines))
        script = str(support.ROOT / "examples/batch.onfi")
        for form in ("svg", "vcd", "text"):
            drawn = [support.run_tool("draw-trace", "--as", form, "--script", script, given=given) for given in (log, support.trace_text("batch"))]
            self.assertEqual(drawn[0].stdout, drawn[1].stdout)
            self.assertEqual((drawn[0].returncode, bool(drawn[0].stdout)), (0, True))
        ran = support.run_tool("draw-trace", given=log)
        self.assertEqual((ran.returncode, ran.stderr), (1, "draw-trace: line 1: not a line of a trace: 0 1 read cmd 0 0\n"))

    def test_a_script_of_another_device_is_told(self) -> None:
        batch, other = ((support.ROOT / f"examples/{name}.onfi").read_text() for name in ("batch", "simulator/batch"))
        soon = "0 140 1 read cmd 0 0 00 32\n740 880 1 read cmd 1 0 00 30\n"
        for script, given, wrong in ((other, support.trace_text("batch"), "line 4: the phase takes 11000 ns, by the script 369380"),
                                     (batch.replace("600,25100", "601,25100"), soon, "line 2: starts before the gap")):
            for form in ("svg", "vcd", "perfetto"):
                ran = self.by_script(script, given, "--as", form)
                self.assertEqual((ran.returncode, ran.stdout, ran.stderr.count("\n")), (1, "", 1))
                self.assertRegex(ran.stderr, rf"{wrong}.*: /.*/script\.onfi isn't the script of this trace\n$")

    def test_an_output_of_some_sectors_is_as_long_as_the_script_says(self) -> None:
        """Of 528 bytes at 20 ns in 11,000 ns, three times 132 less in 3,080 ns."""
        for name, row in (("batch", "sectorpost,1,3080"), ("program-by-page", "sector,132")):
            script = f"{row}\n" + (support.ROOT / f"examples/{name}.onfi").read_text()
            for post, status in ((3080, 0), (11000, 0), (3081, 1)):
                ran = self.by_script(script, f"0 140 1 read cmd 0 0 00 30\n25240 {25240 + post} 1 read post 0 0 06 E0\n")
                self.assertEqual((ran.returncode, bool(ran.stdout)), (status, not status), ran.stderr)
