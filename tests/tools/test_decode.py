"""tools/decode, on captures made of plans' traces, and on cycles that are no phase."""

from __future__ import annotations

import itertools
import random
import subprocess
import unittest
from typing import List, Sequence

import support
from onfi_tools.capture import Cycle, Geometry, Sample, csv_of, cycles, read_csv, read_vcd, samples_of, shown, vcd_of
from onfi_tools.decoding import Amiss, Found, Item, Poll, decoded, log_line
from onfi_tools.trace import Phase

# Of the devices of the stored traces: 64 or more pages, 1,024 or more blocks, one LUN at each CE#; or two.
GEOMETRY = Geometry(2, 3, 8, 12, 1)
WORDS = ("--pages", "256", "--blocks", "4096")
DATA = 6


def samples(phases: Sequence[Phase], geometry: Geometry = GEOMETRY) -> List[Sample]:
    return list(samples_of(shown(phases, geometry, DATA), 8 // geometry.luns))


def line_of(phase: Phase) -> str:
    part = "post" if phase.is_post else "cmd"
    return f"{phase.start} {phase.end} {phase.lun} {phase.kind} {part} {phase.block} {phase.page} {phase.opener} {phase.closer}"


def cycle(at: int, what: str, byte: int, target: int = 0) -> Cycle:
    return Cycle(10 * at, 10 * at + 5, target, what, byte)


def told(sent: Sequence[Cycle]) -> List[Item]:
    return list(decoded(sent, GEOMETRY))


def sent_of(opener: int, address: int, *more: Cycle) -> List[Cycle]:
    """An opener at 0 ns, that many address cycles, and others after them."""
    return [cycle(0, "command", opener), *(cycle(1 + at, "address", at) for at in range(address)), *more]


class Plans(unittest.TestCase):
    """What shows a trace is decoded as that trace."""

    def test_each_stored_trace_in_both_forms(self) -> None:
        for name, luns in itertools.product(support.SCRIPTS, (1, 2)):
            phases = self.begun(support.trace(name))
            geometry = GEOMETRY._replace(luns=luns)
            made = samples(phases, geometry)
            for read in (list(read_csv(csv_of(made).splitlines())), list(read_vcd(vcd_of(made)))):
                found = [log_line(it, support.lengths(name)) for it in decoded(cycles(read), geometry) if not isinstance(it, Amiss)]
                self.assertEqual(found, [line_of(phase) for phase in phases], name)

    def begun(self, phases: List[Phase]) -> List[Phase]:
        """The phases without statuses of what ran before the trace, of which no capture shows the command."""
        due: List[object] = []
        found = []
        for phase in phases:
            place = (phase.lun, phase.kind, phase.block, phase.page)
            if not phase.is_post:
                due.append(place)
            elif phase.kind != "read" and place not in due:
                continue
            found.append(phase)
        return found

    def test_the_tool_makes_a_log_that_is_legal(self) -> None:
        made = samples(support.trace("batch"))
        script = str(support.ROOT / "examples/batch.onfi")
        for text in (csv_of(made), vcd_of(made)):
            ran = support.run_tool("decode", "-", *WORDS, "--script", script, given=text)
            self.assertEqual((ran.returncode, ran.stderr, ran.stdout), (0, "", support.trace_text("batch")))
            plain = support.run_tool("decode", "-", *WORDS, given=text)
            wanted = "".join(f"{p.start} {p.lun} {p.kind} {'post' if p.is_post else 'cmd'} {p.block} {p.page}\n" for p in support.trace("batch"))
            self.assertEqual((plain.returncode, plain.stdout), (0, wanted))

    @unittest.skipUnless(support.program(), "no built program")
    def test_the_program_takes_that_log(self) -> None:
        script = support.ROOT / "examples/batch.onfi"
        log = support.run_tool("decode", "-", *WORDS, "--script", str(script), given=csv_of(samples(support.trace("batch")))).stdout
        self.assertEqual(support.run_program("audit", given=script.read_text() + log).stdout, f"legal {log.count(chr(10))}\n")


class Cycles(unittest.TestCase):
    def wrong(self, sent: Sequence[Cycle]) -> List[str]:
        found = told(sent)
        self.assertTrue(found and all(isinstance(it, Amiss) for it in found), found)
        return [it.why for it in found if isinstance(it, Amiss)]

    def test_what_is_no_phase(self) -> None:
        close = cycle(9, "command", 0x30)
        for sent, why in (
            ([cycle(0, "command", 0xFF)], "FFh opens no phase"),
            ([cycle(0, "address", 1)], "an address cycle without an opener"),
            ([cycle(0, "output", 1)], "an output cycle without an opener"),
            (sent_of(0x00, 4, close), "4 address cycles after 00h in place of 5"),
            (sent_of(0x60, 5, cycle(9, "command", 0xD0)), "5 address cycles after 60h in place of 3"),
            (sent_of(0x00, 5), "00h without a closer"),
            (sent_of(0x06, 5, cycle(9, "command", 0xE0)), "06h without an output"),
            (sent_of(0x78, 3), "78h without an output"),
            (sent_of(0x00, 5, cycle(6, "input", 1)), "an input cycle after 00h"),
            (sent_of(0x00, 5, cycle(6, "output", 1)), "an output cycle after 00h"),
            (sent_of(0x00, 5, cycle(6, "command and address", 1)), "a command and address cycle after 00h"),
            ([cycle(0, "command", 0x60), *(cycle(at, "address", 0xFF) for at in (1, 2, 3)), cycle(4, "command", 0xD0)], "a row of LUN 15 of its target"),
        ):
            self.assertEqual(self.wrong(sent), [why])

    def test_a_closer_of_another_operation(self) -> None:
        self.assertEqual(self.wrong(sent_of(0x00, 5, cycle(9, "command", 0x10))), ["00h without a closer", "10h opens no phase"])

    def test_another_target_ends_what_was_opened(self) -> None:
        sent = sent_of(0x00, 5, *(cycle(it.start // 10 + 10, it.what, it.byte, 1) for it in sent_of(0x60, 3, cycle(9, "command", 0xD0))))
        first, second = told(sent)
        self.assertEqual(first, Amiss(0, "00h without a closer"))
        self.assertIsInstance(second, Found)
        self.assertEqual(isinstance(second, Found) and (second.lun, second.kind, second.start), (1, "erase", 100))

    def test_statuses(self) -> None:
        """Busy is nothing, ready the post of an erase that has none yet, and a poll of any other."""
        erase = [cycle(0, "command", 0x60), *(cycle(at, "address", 0) for at in (1, 2, 3)), cycle(4, "command", 0xD0)]
        sent: List[Cycle] = []
        for number, status in enumerate((0x80, 0xE0, 0xE0), 1):
            at = 10 * number
            sent += [cycle(at, "command", 0x78), *(cycle(at + it, "address", 0) for it in (1, 2, 3)), cycle(at + 4, "output", status)]
        found = told(erase + sent)
        self.assertEqual([type(it) for it in found], [Found, Found, Poll])
        self.assertEqual([isinstance(it, Found) and it.is_post for it in found], [False, True, False])
        self.assertEqual(log_line(found[2], None) if isinstance(found[2], Poll) else "", "345 0 ready")

    def test_one_status_of_two_planes(self) -> None:
        """After another command the plane of which none was read has none due."""
        sent: List[Cycle] = []
        for at, opener, block, last in ((0, 0x60, 0, 0xD1), (10, 0x60, 1, 0xD0), (20, 0x78, 0, 0xE0), (30, 0x60, 2, 0xD0), (40, 0x78, 1, 0xE0)):
            rows = (0, block, 0)
            sent += [cycle(at, "command", opener), *(cycle(at + 1 + it, "address", byte) for it, byte in enumerate(rows))]
            sent.append(cycle(at + 4, "output" if opener == 0x78 else "command", last))
        found = told(sent)
        self.assertEqual([type(it) for it in found], [Found, Found, Found, Found, Poll])
        self.assertEqual([isinstance(it, Found) and it.is_post for it in found], [False, False, True, False, False])

    def test_a_phase_longer_than_the_script_states(self) -> None:
        phase = support.trace("batch")[0]
        made = samples([phase._replace(end=phase.end + 2)])
        ran = support.run_tool("decode", "-", *WORDS, "--script", str(support.ROOT / "examples/batch.onfi"), given=csv_of(made))
        self.assertEqual((ran.returncode, ran.stdout, ran.stderr), (1, "", "decode: at 0 ns: it takes 141 ns, by the script 140\n"))

    def test_changed_captures_end_in_a_word(self) -> None:
        """Cycles that are left out, swapped or changed: each phase that is reported was shown, or what isn't one is named."""
        phases = support.trace("batch")
        sent = shown(phases, GEOMETRY, DATA)
        for seed in range(200):
            rng = random.Random(seed)
            changed = list(sent)
            at = rng.randrange(len(changed))
            if rng.random() < 0.5:
                del changed[at]
            else:
                changed[at] = changed[at]._replace(byte=rng.randrange(256), what=rng.choice(("command", "address", "input", "output")))
            found = told(changed)
            kept = [it for it in found if isinstance(it, Found)]
            named = [it for it in found if not isinstance(it, Found)]
            starts = {phase.start for phase in phases}
            self.assertTrue(all(it.start in starts for it in kept) or named, seed)
            self.assertGreaterEqual(len(kept) + len(named), len(phases) - 1, seed)


class Captures(unittest.TestCase):
    def refused(self, text: str) -> str:
        ran: "subprocess.CompletedProcess[str]" = support.run_tool("decode", "-", *WORDS, given=text)
        self.assertEqual((ran.returncode, ran.stdout), (1, ""))
        return ran.stderr

    def test_what_cannot_be_read(self) -> None:
        names = "ns,cle,ale,we_n,re_n,dq,ce0_n"
        for text, why in (
            ("", "line 1: no line cle"),
            ("ns,cle,ale,we_n,re_n,dq\n", "line 1: no line ce0_n"),
            (f"{names}\n0,0,0,1,1,0\n", "line 2: not a sample"),
            (f"{names}\n0,0,0,1,1,GG,1\n", "line 2: not a sample"),
            (f"{names}\n5,0,0,1,1,0,1\n4,0,0,0,1,0,1\n", "at 4 ns: a sample before the one above it"),
            (f"{names},ce1_n\n0,0,0,1,1,0,0,0\n1,0,0,0,1,0,0,0\n2,0,0,1,1,0,0,0\n", "at 1 ns: CE# of targets 0 and 1 are low at once"),
            ("$timescale 1 h $end $enddefinitions $end\n", "a dump without a time scale of ps, ns, us or ms"),
        ):
            self.assertEqual(self.refused(text), f"decode: {why}\n")

    def test_times_in_another_unit(self) -> None:
        made = samples(support.trace("batch")[:1])
        text = vcd_of(made).replace("1 ns", "10 ps")
        scaled = "\n".join(f"#{int(line[1:]) * 100}" if line.startswith("#") else line for line in text.splitlines())
        self.assertEqual(list(cycles(read_vcd(scaled))), list(cycles(made)))
