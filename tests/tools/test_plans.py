"""Channels, plans that are played on them, and the plain policies of tools/bench worth: worked schedules, and drawn ones that the program judges."""

import random
import unittest
from typing import List, Tuple

import support
from onfi_tools import plans
from onfi_tools.channel import Channel, Device, Group, Lun, Want, idle, script_of
from onfi_tools.device import Spans
from onfi_tools.drawn import USUAL, any_lengths, drawn_wants
from onfi_tools.policies import (RANKS, Policy, best_of_ranks, by_commands, by_posts, by_reads, first_in_first_out, ranked, round_robin,
                                 round_robin_commands_first)

WAYS: Tuple[Policy, ...] = (first_in_first_out, round_robin, round_robin_commands_first, best_of_ranks)
USUAL_DEVICE = Device(2, 1, True, True, USUAL)
# Of examples/batch.onfi.
WANTS = [Want(0, "read", 0, 0, 0), Want(1, "read", 0, 1, 0), Want(2, "read", 1, 0, 0)]
PLAN = "ONFIPLAN 1\nfinish 58240\ngroup 2 0 25240\ngroup 0+1 140 880 36240 47240\nONFICERT 3 remember\nL\n"


def drawn(rng: random.Random) -> Tuple[Device, List[Want]]:
    device = Device(rng.randint(1, 8), rng.randint(0, 2), rng.random() < 0.7, rng.random() < 0.7, any_lengths(rng))
    return device, drawn_wants(rng, device.luns, (1, 1, 1), rng.randint(0, 8), 6)


class Worked(unittest.TestCase):
    def test_first_in_first_out_waits_for_the_next_request_in_order(self) -> None:
        planned = first_in_first_out(USUAL_DEVICE, WANTS)
        self.assertEqual(planned, (83480, {(0,): [0, 25240], (1,): [36240, 61480], (2,): [36380, 72480]}))

    def test_round_robin_starts_the_largest_group_and_goes_on(self) -> None:
        self.assertEqual(script_of(USUAL_DEVICE, WANTS), (support.ROOT / "examples/batch.onfi").read_text())
        text = "ONFIPLAN 1\nfinish 58380\ngroup 0+1 0 740 36380 47380\ngroup 2 140 25380\nONFICERT 1\nX\n"
        self.assertEqual(round_robin(USUAL_DEVICE, WANTS).text(), text)

    def test_commands_first_changes_who_has_the_bus(self) -> None:
        device = Device(2, 1, True, True, {**USUAL, "read": Spans(10, 0, 5, 100)})
        wants = [Want(0, "read", 0, 0, 0), Want(1, "read", 1, 0, 0), Want(2, "read", 1, 1, 0)]
        self.assertEqual(round_robin(device, wants).starts, {(0,): [0, 20], (1, 2): [10, 120, 135, 235]})
        self.assertEqual(round_robin_commands_first(device, wants).starts, {(0,): [0, 30], (1, 2): [10, 20, 130, 230]})

    def test_a_rank_says_which_of_what_can_start(self) -> None:
        """LUN 0 has read and could put out, LUN 1 could begin to read: at 15 both can. Reads go before data of programs."""
        device = Device(2, 1, False, False, {**USUAL, "read": Spans(10, 0, 5, 100), "program": Spans(200, 0, 5, 10)})
        wants = [Want(0, "read", 0, 0, 0), Want(1, "read", 1, 0, 0), Want(2, "read", 0, 1, 0)]
        self.assertEqual(ranked(device, wants, by_posts).starts, {(0,): [0, 20], (1,): [10, 120], (2,): [220, 235]})
        self.assertEqual(ranked(device, wants, by_commands).starts, {(0,): [0, 20], (1,): [10, 130], (2,): [120, 230]})
        self.assertEqual(best_of_ranks(device, wants).finish, 330)
        self.assertEqual(ranked(device, [Want(0, "program", 0, 0, 0), WANTS[2]._replace(number=1)], by_reads).starts, {(0,): [10, 310], (1,): [0, 210]})

    def test_what_is_left_of_a_group(self) -> None:
        channel = idle(Device(1, 1, True, True, {**USUAL, "read": Spans(10, 3, 5, 100)}), [])
        self.assertEqual([channel.work_of(Group("read", 0, (0, 1), phase)) for phase in range(4)], [228, 215, 200, 100])


class Drawn(unittest.TestCase):
    @unittest.skipUnless(support.program(), "no built program")
    def test_all_ways_are_legal_and_the_best_is_none_of_the_worse(self) -> None:
        """By the program, which gives the finish too."""
        rng = random.Random(7)
        for _ in range(100):
            device, wants = drawn(rng)
            for way in WAYS:
                planned = way(device, wants)
                given = script_of(device, wants) + planned.text()
                self.assertEqual(support.run_program("check", "--legal", given=given).stdout, f"legal {planned.finish}\n", given)
            finishes = [ranked(device, wants, rank).finish for rank in RANKS] + [way(device, wants).finish for way in WAYS[1:3]]
            self.assertEqual(best_of_ranks(device, wants).finish, min(finishes))


class Played(unittest.TestCase):
    """What a channel is after some phases of the plan of examples/batch.onfi."""

    def rows(self, count: int) -> List[str]:
        script = plans.left(idle(USUAL_DEVICE, WANTS), PLAN, count).script()
        return [row for row in script.splitlines() if row.split(",")[0] in ("bus", "free", "running", "want")]

    def test_after_each_kind_of_phase(self) -> None:
        self.assertEqual(self.rows(0), ["bus,0", "free,0,0", "free,1,0", *(want.row() for want in WANTS)])
        self.assertEqual(self.rows(1), ["bus,140", "free,0,0", "running,1,1,25240,read,0,0", "want,read,0,0,0", "want,read,0,1,0"])
        self.assertEqual(self.rows(3), ["bus,1020", "running,0,2,26120,read,0,0,1", "running,1,1,25240,read,0,0"])
        self.assertEqual(self.rows(6), ["bus,58240", "free,0,58240", "free,1,36240"])

    def test_a_batch_is_filled_up(self) -> None:
        channel = plans.filled(plans.left(idle(USUAL_DEVICE, WANTS), PLAN, 1), [Want(0, "erase", 1, 7, 0)] * 3, 4)
        self.assertEqual([want.row() for want in channel.wants[2:]], ["want,erase,1,7,0"] * 2)
        self.assertEqual([want.number for want in channel.wants], [0, 1, 2, 3])

    def test_what_ran_before_is_none_of_those_that_wait(self) -> None:
        """Request 2 runs as the next batch begins, in which another one has its number."""
        channel = plans.filled(plans.left(idle(USUAL_DEVICE, WANTS), PLAN, 1), [Want(0, "erase", 1, 7, 0)], 3)
        self.assertEqual(len(plans.left(channel, "rest 1 25240\n", 1).wants), 3)
        self.assertEqual(plans.ends_of(channel, "rest 1 25240\n"), ({}, [36240]))

    def test_times_of_a_plan(self) -> None:
        self.assertEqual((plans.finish_of(PLAN), plans.below_of(PLAN), plans.finish_of("over 7")), (58240, 58240, None))
        self.assertEqual(plans.below_of(PLAN.replace("58240", "58240\nbelow 36240", 1)), 36240)


class Costs(unittest.TestCase):
    """An erase on LUN 0 decides the finish, a status of LUN 1 is due, and a program of LUN 2 waits.

    The erase ends at 908 at the soonest; after its command the status ends at 8 and the program at 461.
    """

    lengths = {"read": Spans(10, 1, 100, 20), "program": Spans(50, 1, 400, 3), "erase": Spans(5, 1, 900, 3)}
    channel = Channel(Device(3, 1, True, True, lengths), 0, (Lun(), Lun(0, Group("program", 0, (4,), 1)), Lun()),
                      (Want(0, "erase", 0, 0, 0), Want(1, "program", 2, 0, 0)))

    def test_ends_of_a_plan(self) -> None:
        ends = plans.ends_of(self.channel, "finish 908\nrest 1 5\ngroup 0 0 905\ngroup 1 8 458\n")
        self.assertEqual(ends, ({0: 908, 1: 461}, [8]))
        self.assertEqual((ends.cost({}), ends.cost({1: 20}), ends.mean()), (1377, 10136, 459.0))
        pair = idle(self.channel.device, [Want(4, "read", 0, 0, 0), Want(6, "read", 0, 1, 0)])
        self.assertEqual(plans.ends_of(pair, "group 4+6 0 11 121 141\n").wants, {4: 141, 6: 161})
        self.assertEqual(plans.weight_rows({0: 3, 7: 65_535}), "weight,0,3\nweight,7,65535\n")

    def test_the_least_of_all_schedules(self) -> None:
        self.assertEqual([plans.least_cost(self.channel, {}, latest) for latest in (907, 908, 911)], [None, 1377, 3 + 911 + 461])
        self.assertEqual(plans.least_cost(self.channel, {1: 20}, 908), 908 + 58 + 20 * 458)

    def test_groups_are_tried(self) -> None:
        """Two programs on two planes: apart the second waits for the first."""
        for may_group, least in ((True, 504 + 507), (False, 453 + 906)):
            device = Device(1, 1, True, may_group, self.lengths)
            self.assertEqual(plans.least_cost(idle(device, [Want(0, "program", 0, 0, 0), Want(1, "program", 0, 1, 0)]), {}, 10_000), least)
