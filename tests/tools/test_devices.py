"""Parameter pages from named fields, phase lengths by sheets and strobes, and the examples of devices."""

import random
import re
import subprocess
import tempfile
import unittest
from pathlib import Path
from typing import Dict, List, Tuple

import support
from onfi_tools import device
from onfi_tools.cases import read_cases
from onfi_tools.channel import Device
from onfi_tools.drawn import MIX, drawn_wants, running_row
from onfi_tools.script import lengths_of, page_numbers

EXAMPLES = support.ROOT / "examples"
# Those of the program; those of the libraries are built and run by tests/libraries.
PAGES = [EXAMPLES / user / "README.md" for user in ("firmware", "simulator", "test-bench", "devices")]
WORKED = ("multi_lun=1 multi_plane_writes=1 multi_plane_reads=1 status_enhanced=1 column_enhanced=1 data_bytes=512 "
          "spare_bytes=16 pages_per_block=64 blocks_per_lun=1000 luns=2 column_cycles=2 row_cycles=3 plane_bits=1 "
          "no_block_restrictions=1 tPROG_us=200 tBERS_us=1500 tR_us=25 tCCS_ns=200").split()


def page_rows(script: Path) -> List[str]:
    return [line for line in script.read_text().splitlines() if line.startswith("page,")]


def commands_of(page: Path, with_silent: bool = False) -> List[Tuple[str, str]]:
    """The commands of a page's shell blocks that are followed by what they print, each of its lines after `# `; or also those that print nothing."""
    found: List[Tuple[str, str]] = []
    for block in re.findall(r"^```sh\n(.*?)^```$", page.read_text(), re.MULTILINE | re.DOTALL):
        for command, written in re.findall(r"^((?!#).+)\n((?:#.*\n)*)", block, re.MULTILINE):
            if written or with_silent:
                found.append((command, re.sub("^# ?", "", written, flags=re.MULTILINE)))
    return found


class Pages(unittest.TestCase):
    def test_check_values(self) -> None:
        self.assertEqual((device.crc16(b""), device.crc16(b"123456789")), (0x4F4E, 0x2771))

    def test_the_worked_page(self) -> None:
        ran = support.run_tool("make-page", *WORKED)
        self.assertEqual(ran.stdout.splitlines(), page_rows(EXAMPLES / "program-by-page.onfi"))

    def test_each_field_is_read_back(self) -> None:
        for name, field in device.NUMBERS.items():
            for value in (1, (1 << field.bits) - 1):
                numbers = device.numbers_of(device.page_of({name: value}, {}))
                self.assertEqual({other: found for other, found in numbers.items() if found}, {name: value})

    def test_block_restrictions_are_told(self) -> None:
        """By a line beside the page: where several planes may be taken at once, and bit 1 of byte 114 is clear."""
        said = "make-page: the page has block address restrictions (no_block_restrictions=0): write the row strict,1 beside it\n"
        planes = ["plane_bits=1", "multi_plane_reads=1"]
        for words, told in ((planes, said), (["plane_bits=2", "multi_plane_writes=1"], said), (["plane_bits=1"], ""),
                            (["multi_plane_reads=1"], ""), ([*planes, "no_block_restrictions=1"], "")):
            ran = support.run_tool("make-page", *words)
            self.assertEqual((ran.returncode, ran.stderr), (0, told), words)
        self.assertEqual(device.page_of({"no_block_restrictions": 1}, {})[114], 2)

    def test_examples_allow_what_their_pages_say(self) -> None:
        """Each script by a page that has block restrictions is strict."""
        found = [path for path in EXAMPLES.glob("**/*.onfi") if page_rows(path)]
        self.assertGreaterEqual(len(found), 6)
        for path in found:
            restricted = device.restricts_blocks(page_numbers(path.read_text()))
            self.assertEqual("strict,1" in path.read_text().splitlines(), restricted, path.name)

    def test_texts(self) -> None:
        page = device.page_of({}, {"manufacturer": "SOMEBODY", "model": "A MODEL"})
        self.assertEqual(page[32:44], b"SOMEBODY    ")
        self.assertEqual(page[44:64], b"A MODEL             ")

    def test_the_first_good_copy_is_taken(self) -> None:
        one, other = (device.page_of({"luns": luns}, {}) for luns in (1, 2))
        self.assertEqual(device.first_copy(bytes(256) + one[:-1] + b"\xff" + other), other)
        for data in (b"", one[:-1], bytes(512)):
            with self.assertRaises(ValueError):
                device.first_copy(data)


class Lengths(unittest.TestCase):
    def test_a_page_and_its_sheet_give_the_usual_lengths(self) -> None:
        self.assertEqual(lengths_of((EXAMPLES / "program-by-page.onfi").read_text()),
                         lengths_of((EXAMPLES / "batch.onfi").read_text()))

    def test_scripts_without_lengths_are_told(self) -> None:
        for text in ("shape,1,0,0,0\n", "shape,1,0,0,0\nend\n", "page,4F4E\nend\n",
                     (EXAMPLES / "program-by-page.onfi").read_text().replace("sheet,tWB,100\n", "")):
            with self.assertRaises(ValueError):
                lengths_of(text)


class Examples(unittest.TestCase):
    def test_their_pages_are_those_of_their_fields(self) -> None:
        two, four = "firmware/two-planes", "simulator/four-planes"
        for script, fields, copies in (("firmware/batch", two, 1), ("test-bench/batch", two, 1),
                                       ("simulator/batch", four, 3), ("simulator/faults", four, 3),
                                       *((f"devices/{it}", f"devices/{it}", 1) for it in ("slc", "tlc", "qlc"))):
            ran = support.run_tool("make-page", "--copies", str(copies), f"@examples/{fields}.fields")
            self.assertEqual(ran.stdout.splitlines(), page_rows(EXAMPLES / f"{script}.onfi"))

    def test_bytes_become_rows(self) -> None:
        command = re.search(r"`(od [^`]+)`", (EXAMPLES / "firmware/README.md").read_text())
        assert command
        rows = page_rows(EXAMPLES / "firmware/batch.onfi")
        with tempfile.TemporaryDirectory() as folder:
            (Path(folder) / "page.bin").write_bytes(bytes.fromhex("".join(row[5:] for row in rows)))
            made = subprocess.run(command[1], shell=True, capture_output=True, text=True, cwd=folder).stdout
        self.assertEqual(made.splitlines(), [row[:5] + row[5:].lower() for row in rows])

    def test_what_a_device_printed_becomes_a_file_and_rows(self) -> None:
        """By the commands of their page, of bytes as its `printf` writes them."""
        page = (EXAMPLES / "devices/README.md").read_text()
        form = re.search(r'`(printf\(.*?\))`', page)
        commands = re.findall(r"^    (.*page\.hex.*)$", page, re.MULTILINE)
        rows = page_rows(EXAMPLES / "devices/tlc.onfi")
        taken = bytes.fromhex("".join(row[5:] for row in rows)) * 3
        assert form
        source = f"#include <stdio.h>\nint main(void) {{ unsigned char page[768]; fread(page, 1, 768, stdin); for (int at = 0; at < 768; at++) {form[1]}; }}"
        with tempfile.TemporaryDirectory() as folder:
            printer = support.compiled(folder, source, "-w")
            (Path(folder) / "page.hex").write_bytes(subprocess.run([printer], input=taken, capture_output=True).stdout)
            told = [subprocess.run(it, shell=True, capture_output=True, text=True, cwd=folder) for it in commands]
            self.assertEqual((Path(folder) / "page.bin").read_bytes(), taken)
        self.assertEqual([(it.returncode, it.stderr) for it in told], [(0, "")] * 2)
        self.assertEqual(told[1].stdout.splitlines(), rows * 3)

    def test_their_pages_are_short(self) -> None:
        for page in PAGES:
            self.assertLessEqual(len(page.read_text().splitlines()), 24)

    @unittest.skipUnless(support.program(), "no built program")
    def test_their_commands_print_what_is_written(self) -> None:
        ran = 0
        for page in (support.ROOT / "README.md", *sorted((support.ROOT / "docs").glob("**/*.md")), *PAGES):
            for command, written in commands_of(page):
                self.assertEqual(support.run_shell(command), written, command)
                ran += 1
        self.assertGreaterEqual(ran, 10)

    def test_commands_can_be_pasted(self) -> None:
        """No prompt stands before a command, so that a block does in a shell what it shows."""
        for page in (support.ROOT / "README.md", *sorted((support.ROOT / "docs").glob("**/*.md")), *sorted(EXAMPLES.glob("*/README.md"))):
            self.assertNotRegex(page.read_text(), re.compile(r"^ *\$ ", re.MULTILINE), str(page))


BY_PAGE = EXAMPLES / "program-by-page.onfi"
PAGE, NUMBERS = page_rows(BY_PAGE), page_numbers(BY_PAGE.read_text())
SHEET = {"tWC": 20, "tRC": 20, "tADL": 100, "tWHR": 80, "tRHW": 100, "tWB": 100, "tPLRBSY": 500, "tPLPBSY": 500, "tPLEBSY": 500}
DRAWN = 200
COMMANDS = (["plan"], ["plan", "--by", "within"], ["plan", "--trace"], ["plan", "--by", "within", "--requests"], ["device"])
Told = Tuple[Dict[str, int], Dict[str, int]]


def split(rng: random.Random, names: Tuple[str, ...], total: int) -> Dict[str, int]:
    """That many ps, dealt out to these parameters."""
    cuts = sorted(rng.randint(0, total) for _ in names[1:])
    return {name: end - begin for name, begin, end in zip(names, [0, *cuts], [*cuts, total])}


def alike(rng: random.Random) -> Told:
    """A sheet and strobes that give the lengths of SHEET: what they take off is given back, but for less than 1 ns a phase.

    A status takes a whole cycle, so it has one read cycle less before it; up to 3 ps are taken off each cycle.
    """
    out, into, less, more = rng.randint(0, 100), rng.randint(0, 100), rng.randint(0, 3), rng.randint(0, 3)
    sheet = {**SHEET, "tADL": SHEET["tADL"] - into, "tRHW": SHEET["tRHW"] - out, "tWHR": SHEET["tWHR"] - SHEET["tRC"]}
    sheet["tRC"] = rng.choice((0, 1, 20, 1000))
    strobes = {**split(rng, ("tRPRE", "tRPST", "tRPSTH"), 1000 * out), **split(rng, ("tWPRE", "tWPST", "tWPSTH"), 1000 * into)}
    return sheet, {**strobes, "tRC": 2000 * SHEET["tRC"] - less, "tDSC": 2000 * SHEET["tWC"] - more}


def rows_of(rng: random.Random, sheet: Dict[str, int], strobes: Dict[str, int]) -> List[str]:
    rows = [f"sheet,{name},{value}" for name, value in sheet.items()] + [f"strobe,{name},{value}" for name, value in strobes.items()]
    return rng.sample(rows, len(rows))


def drawn_rows(rng: random.Random) -> List[str]:
    """What runs on the device of the page, and up to eight wants."""
    it = Device(2, 1, True, True, device.spans_of(NUMBERS, SHEET))
    rows = [running_row(rng, it, lun, 2) for lun in range(2) if rng.random() < 0.3]
    return rows + [want.row() for want in drawn_wants(rng, 2, MIX, rng.randint(0, 8), 6)] + ["end", ""]


class Strobes(unittest.TestCase):
    def test_a_device_of_1200_million_transfers(self) -> None:
        sheet = {**SHEET, "tWC": 25, "tADL": 150}
        strobes = {"tRPRE": 15000, "tRC": 1667, "tRPST": 26000, "tRPSTH": 15000, "tWPRE": 15000, "tDSC": 1667, "tWPST": 7000, "tWPSTH": 25000}
        pages: List[Tuple[Dict[str, int], int, int]] = [
            ({}, 972, 813), ({"spare_bytes": 17}, 973, 814), ({"data_bytes": 16384, "spare_bytes": 2048, "tCCS_ns": 400}, 16095, 15736)]
        for fields, read, program in pages:
            found = device.strobed_spans_of({**NUMBERS, **fields}, sheet, strobes)
            self.assertEqual((found["read"].post, found["program"].cmd, found["erase"].post), (read, program, 338))

    def test_strobes_are_drawn_that_give_the_lengths_of_a_sheet(self) -> None:
        rng = random.Random(1)
        for _ in range(1000):
            sheet, strobes = alike(rng)
            self.assertEqual(device.strobed_spans_of(NUMBERS, sheet, strobes), device.spans_of(NUMBERS, SHEET))


@unittest.skipUnless(support.program(), "no built program")
class Texts(unittest.TestCase):
    def test_drawn_scripts(self) -> None:
        rng = random.Random(61)
        planned = 0
        for number in range(DRAWN):
            rest, words = drawn_rows(rng), [*COMMANDS[number % len(COMMANDS)]]
            words += ["--limit", "2000"] if words[0] == "plan" else []
            sheets: List[Told] = [(SHEET, {}), alike(rng)]
            texts = ["\n".join(PAGE + rows_of(rng, *told) + rest) for told in sheets]
            by_sheet, by_strobes = (support.run_program(*words, given=text) for text in texts)
            self.assertEqual((by_strobes.stdout, by_strobes.returncode), (by_sheet.stdout, by_sheet.returncode), texts[1])
            planned += by_sheet.returncode == 0
        self.assertGreater(planned, DRAWN // 2)

    def test_cases_of_the_usual_sheet(self) -> None:
        """Each answer but a refusal stays as it is, since refusals name rows."""
        rng, tried = random.Random(62), 0
        usual = "\n".join(f"sheet,{name},{value}" for name, value in SHEET.items()).encode()
        for case in read_cases([]):
            told = alike(rng)
            # (posts of sectors by strobes have cases of their own)
            if case.status or case.second or case.input.count(usual) != 1 or b"\nsector," in case.input:
                continue
            page = page_numbers(case.input.decode())
            if device.strobed_spans_of(page, *told) != device.spans_of(page, SHEET):
                continue
            text = case.input.replace(usual, "\n".join(rows_of(rng, *told)).encode()).decode()
            ran = support.run_program(*(word.decode() for word in case.arguments), given=text)
            self.assertEqual((ran.stdout, ran.returncode), (case.output.decode(), 0), case.place)
            tried += 1
        self.assertGreater(tried, 50)
