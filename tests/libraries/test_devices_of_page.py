"""Devices by page and sheet: against the lengths that tools/onfi_tools reckons, and each refusal by its name."""

from __future__ import annotations

import dataclasses
import subprocess
import sys
import tempfile
import unittest
from pathlib import Path
from typing import Any, Dict, List, Tuple, Type

sys.path.insert(0, str(Path(__file__).resolve().parent))
import test_libraries  # noqa: E402

import onfi  # noqa: E402
from onfi_tools import device  # noqa: E402
from onfi_tools.script import lengths_of  # noqa: E402

SCRIPT = (test_libraries.ROOT / "examples/program-by-page.onfi").read_text()


def rows(script: str, word: str) -> str:
    """The rows of a script that begin with a word, without it."""
    return "".join(line[len(word) + 1:] + "\n" for line in script.splitlines() if line.startswith(word + ","))


SHEET = rows(SCRIPT, "sheet")
PAGE = bytes.fromhex(rows(SCRIPT, "page").replace("\n", ""))
NUMBERS = {name: value for name, value in device.numbers_of(PAGE).items() if value}


def page(**fields: int) -> bytes:
    return device.page_of({**NUMBERS, **fields}, {})


def run_example(program: str, *texts: bytes, count: int = 0) -> "subprocess.CompletedProcess[str]":
    """What the example prints of these texts; of so many files, of which those without a text aren't there."""
    with tempfile.TemporaryDirectory() as room:
        files = [Path(room) / name for name in ("page", "sheet", "strobes")[: max(len(texts), count)]]
        for file, text in zip(files, texts):
            file.write_bytes(text)
        return subprocess.run([program, *map(str, files)], capture_output=True, text=True)


def check_lengths(test: unittest.TestCase, script: str, told: "subprocess.CompletedProcess[str]") -> None:
    wanted = [" ".join(map(str, (kind, *spans))) for kind, spans in lengths_of(script).items()]
    test.assertEqual((told.returncode, told.stderr), (0, ""))
    test.assertEqual(sorted(told.stdout.splitlines()[:3]), sorted(wanted))


def check_example(test: unittest.TestCase, program: str) -> None:
    """The example in C prints the lengths, also of devices with strobes, and what is refused."""
    told = run_example(program, PAGE, SHEET.encode())
    check_lengths(test, SCRIPT, told)
    test.assertEqual(told.stdout.splitlines()[3], "2 LUNs of 1000 blocks of 64 pages of 512 + 16 bytes, 2 planes")
    for profile in sorted((test_libraries.ROOT / "examples/devices").glob("*.onfi")):
        script = profile.read_text()
        texts = bytes.fromhex(rows(script, "page").replace("\n", "")), rows(script, "sheet").encode(), rows(script, "strobe").encode()
        check_lengths(test, script, run_example(program, *texts))
    told = run_example(program, PAGE, b"tWC,20\ntRC,x\n")
    test.assertEqual((told.returncode, told.stdout), (1, "refused 83 the value of a row of the sheet is no number, place 2\n"))
    told = run_example(program, PAGE, BESIDE.encode(), b"tDQ,5\n")
    test.assertEqual((told.returncode, told.stdout[:11]), (1, "refused 88 "))
    faults: Dict[str, List[bytes]] = {"sheet: No such file or directory": [PAGE], "page: No such file or directory": [],
                                      "sheet: it has 8192 bytes or more": [PAGE, b"x" * 8192]}
    for fault, given in faults.items():
        told = run_example(program, *given, count=2)
        test.assertEqual((told.returncode, told.stdout), (1, ""))
        test.assertRegex(told.stderr, rf"^device: \S+/{fault}\n$")


BESIDE = SHEET.replace("tWC,20", "tWC,25").replace("tRC,20\n", "").replace("tADL,100", "tADL,150")
STROBES = "tRPRE,15000\ntRC,1667\ntRPST,26000\ntRPSTH,15000\ntWPRE,15000\ntDSC,1667\ntWPST,7000\ntWPSTH,25000\n"


class Strobes(unittest.TestCase):
    def lengths(self, bytes_: bytes, strobes: onfi.calls.Text = STROBES) -> Tuple[int, int, int]:
        timing = onfi.device_of_page(bytes_, BESIDE, strobes).timing
        return timing.read.post, timing.program.cmd, timing.erase.post

    def test_lengths(self) -> None:
        self.assertEqual(self.lengths(PAGE), (972, 813, 338))
        self.assertEqual(self.lengths(PAGE, STROBES.encode()), (972, 813, 338))
        self.assertEqual(self.lengths(page(spare_bytes=17)), (973, 814, 338))
        self.assertEqual(self.lengths(page(data_bytes=16384, spare_bytes=2048, tCCS_ns=400)), (16095, 15736, 338))
        self.assertEqual(self.lengths(PAGE, STROBES.replace("1667", "2000")), (1059, 900, 338))

    def test_all_but_data_and_status_is_as_by_the_sheet(self) -> None:
        found, plain = onfi.device_of_page(PAGE, BESIDE, STROBES), onfi.device_of_page(PAGE, BESIDE + "tRC,20\n")
        self.assertEqual((found.geometry, found.rules), (plain.geometry, plain.rules))
        for one, other in zip(*((it.timing.read, it.timing.program, it.timing.erase) for it in (found, plain))):
            self.assertEqual((one.gap, one.array), (other.gap, other.array))

    def test_a_read_cycle_of_the_sheet_is_not_looked_at(self) -> None:
        for cycle in (0, 1, 1000):
            self.assertEqual(onfi.device_of_page(PAGE, f"tRC,{cycle}\n" + BESIDE, STROBES), onfi.device_of_page(PAGE, BESIDE, STROBES))

    def refused(self, name: Type[onfi.Refused], strobes: str, place: int = 0, sheet: str = BESIDE, bytes_: bytes = PAGE) -> None:
        with self.assertRaises(name) as told:
            onfi.device_of_page(bytes_, sheet, strobes)
        self.assertEqual(told.exception.place, place)

    def test_refusals(self) -> None:
        for place, row in enumerate(STROBES.splitlines(keepends=True), 1):
            self.refused(onfi.StrobeMissing, STROBES.replace(row, ""), place)
            self.refused(onfi.StrobeRepeated, STROBES + row, place)
        self.refused(onfi.StrobeMissing, "tRC,1667\n", 1)
        self.refused(onfi.StrobeUnknown, STROBES + "tDQ,5\n", 9)
        self.refused(onfi.StrobeUnknown, "tRC\n", 1)
        self.refused(onfi.StrobeNotANumber, "tRPRE,15\ntRC,1.667\n", 2)
        self.refused(onfi.SheetTooLong, "tRPRE,4294967296\n")
        self.refused(onfi.SheetZeroCycle, STROBES.replace("tRC,1667", "tRC,0"))
        self.refused(onfi.SheetZeroCycle, STROBES.replace("tDSC,1667", "tDSC,0"))
        self.assertRaisesRegex(TypeError, "^a text of strobes is str or bytes, not dict$", onfi.device_of_page, PAGE, BESIDE, {"tRC": 1667})

    def test_order(self) -> None:
        """Page, device, text of the sheet, text of the strobes, what the sheet lacks, what the strobes lack."""
        self.refused(onfi.PageShort, "tDQ,5\n", sheet="x", bytes_=PAGE[:255])
        self.refused(onfi.WideBus, "tDQ,5\n", sheet="x", bytes_=page(wide_bus=1))
        self.refused(onfi.SheetUnknown, "tDQ,5\n", 1, sheet="x")
        self.refused(onfi.StrobeUnknown, "tDQ,5\n", 1, sheet="tWC,0\n")
        self.refused(onfi.SheetMissing, "tRC,0\n", 3, sheet="tWC,0\n")
        self.refused(onfi.SheetZeroCycle, "tRC,0\n", sheet=BESIDE.replace("tWC,25", "tWC,0"))
        self.refused(onfi.StrobeMissing, "tRC,0\n", 1)


class Sectors(unittest.TestCase):
    def test_lengths(self) -> None:
        """Four sectors of 132 bytes are a page; each cycle of a read takes 20 ns, and what is given out before and after its bytes 440 ns."""
        found, plain = onfi.device_of_page(PAGE, SHEET, sector_bytes=132), onfi.device_of_page(PAGE, SHEET)
        self.assertEqual(dataclasses.replace(found, lengths=onfi.Lengths({})), plain)
        self.assertEqual(found.lengths.sectors, {1: 3_080, 2: 5_720, 3: 8_360, 4: found.timing.read.post})
        self.assertEqual(onfi.device_of_page(PAGE, SHEET, sector_bytes=528).lengths.sectors, {1: 11_000})
        self.assertEqual([*onfi.device_of_page(PAGE, SHEET, sector_bytes=1).lengths.sectors], [1, 2, 3, 4, 5, 6, 7])
        for none in (0, 529, 65_535):
            self.assertEqual(onfi.device_of_page(PAGE, SHEET, sector_bytes=none), plain)
        self.assertRaises(ValueError, onfi.device_of_page, PAGE, SHEET, "", 65_536)

    def test_lengths_by_strobes(self) -> None:
        """Two bytes in a cycle of 1.667 ns: 66 cycles less for each sector less, each length rounded up once."""
        found = onfi.device_of_page(PAGE, BESIDE, STROBES, 132)
        self.assertEqual(dataclasses.replace(found, lengths=onfi.Lengths({})), onfi.device_of_page(PAGE, BESIDE, STROBES))
        self.assertEqual(found.lengths.sectors, {1: 642, 2: 752, 3: 862, 4: 972})

    def test_refusals(self) -> None:
        """As without sectors, with the place of the row or of the parameter."""
        faults: List[Tuple[Type[onfi.Refused], int, Any]] = [
            (onfi.PageShort, 0, (PAGE[:255], SHEET)), (onfi.WideBus, 0, (page(wide_bus=1), SHEET)),
            (onfi.SheetMissing, 2, (PAGE, BESIDE)), (onfi.SheetUnknown, 1, (PAGE, "tXX,1\n" + SHEET)),
            (onfi.StrobeMissing, 2, (PAGE, BESIDE, "tRPRE,1\n")), (onfi.StrobeUnknown, 1, (PAGE, BESIDE, "tDQ,5\n")),
        ]
        for name, place, words in faults:
            with self.assertRaises(name) as told:
                page_of, sheet, strobes = [*words, b""][:3]
                onfi.device_of_page(page_of, sheet, strobes, 132)
            self.assertEqual(told.exception.place, place)


class Devices(unittest.TestCase):
    def test_lengths(self) -> None:
        found = onfi.device_of_page(PAGE, SHEET)
        told = {kind: (it.cmd, it.gap, it.array, it.post) for kind, it in (("read", found.timing.read), ("program", found.timing.program), ("erase", found.timing.erase))}
        self.assertEqual(told, {kind: tuple(spans) for kind, spans in lengths_of(SCRIPT).items()})
        self.assertEqual(found.rules, onfi.Rules(read=True, write=True, strict=False, plane_bits=1))

    def test_geometry(self) -> None:
        self.assertEqual(onfi.device_of_page(PAGE, SHEET).geometry, onfi.Geometry(
            blocks_per_lun=1000, page_bits=6, block_bits=10, lun_bits=1, pages_per_block=64, data_bytes=512, spare_bytes=16, lun_count=2,
            plane_address_bits=1, column_address_cycles=2, row_address_cycles=3, any_page_order=False, multi_plane_writes=True, multi_plane_reads=True))

    def test_a_later_copy(self) -> None:
        self.assertEqual(onfi.device_of_page(bytes(256) + PAGE, SHEET), onfi.device_of_page(PAGE, SHEET))

    def test_a_page_with_restrictions_of_block_addresses(self) -> None:
        """Byte 114, multi-plane attributes, isn't looked at: rules aren't strict where bit 1 is set (none), nor where it is clear."""
        for attributes in (0x00, 0x02, 0xFF):
            body = PAGE[:114] + bytes([attributes]) + PAGE[115:254]
            found = onfi.device_of_page(body + device.crc16(body).to_bytes(2, "little"), SHEET)
            self.assertEqual(found, onfi.device_of_page(PAGE, SHEET))

    def test_bytes_and_texts(self) -> None:
        found = onfi.device_of_page(PAGE, SHEET)
        self.assertEqual(onfi.device_of_page(bytearray(PAGE), SHEET.encode()), found)
        self.assertEqual(onfi.device_of_page(memoryview(PAGE), bytearray(SHEET.encode())), found)
        self.assertRaisesRegex(TypeError, "^a parameter page is bytes, not str$", onfi.device_of_page, PAGE.decode("latin-1"), SHEET)
        self.assertRaisesRegex(TypeError, "^a timing sheet is str or bytes, not dict$", onfi.device_of_page, PAGE, {"tWC": 20})

    def refused(self, name: Type[onfi.Refused], bytes_: bytes = PAGE, sheet: str = SHEET, place: int = 0) -> None:
        with self.assertRaises(name) as told:
            onfi.device_of_page(bytes_, sheet)
        self.assertEqual(told.exception.place, place)

    def test_pages(self) -> None:
        self.refused(onfi.PageShort, PAGE[:255])
        self.refused(onfi.NoCopy, PAGE[:-1] + b"\0")
        faults: Dict[Type[onfi.Refused], Tuple[str, int]] = {
            onfi.WideBus: ("wide_bus", 1), onfi.NoStatusEnhanced: ("status_enhanced", 0), onfi.NoColumnEnhanced: ("column_enhanced", 0),
            onfi.NoMultiLun: ("multi_lun", 0), onfi.LunCount: ("luns", 9), onfi.PlaneBits: ("plane_bits", 3), onfi.Zero: ("data_bytes", 0),
            onfi.RowTooWide: ("row_cycles", 1), onfi.ColumnTooWide: ("column_cycles", 1), onfi.TooLarge: ("blocks_per_lun", 65537),
        }
        for name, (field, value) in faults.items():
            self.refused(name, page(**{field: value}))

    def test_sheets(self) -> None:
        self.refused(onfi.SheetMissing, sheet=SHEET.replace("tADL,100\n", ""), place=3)
        self.refused(onfi.SheetRepeated, sheet=SHEET + "tWB,1\n", place=6)
        self.refused(onfi.SheetUnknown, sheet="tXX,1\n" + SHEET, place=1)
        self.refused(onfi.SheetNotANumber, sheet="tWC,-1\n", place=1)
        self.refused(onfi.SheetTooLong, sheet="tWC,4294967296\n")
        self.refused(onfi.SheetZeroCycle, sheet=SHEET.replace("tRC,20", "tRC,0"))


if __name__ == "__main__":
    unittest.main()
