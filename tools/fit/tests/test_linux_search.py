"""Linux's own search, done again, beside exhaustive search: it never finds what is not there, and on Intel's tables it
misses nothing. The variable FIT_TRIES says how many random lists each machine has."""

import os
import random
import unittest

from fit import machines
from fit.linux_search import Wish, linux_finds
from fit.tests.search import PAIR, has_assignment
from fit.tests.support import ProgramTest

TRIES = int(os.environ.get("FIT_TRIES", "200"))


def wishes_at_random(machine: machines.Machine) -> list[Wish]:
    """What up to as many events as there are counters ask for: codes of rows, and others."""
    codes = [row.first for row in machine.rows] + [0x1FF, 0x3FE]
    found = []
    for _ in range(random.randint(2, machine.counters)):
        counters = machine.counters_for(random.choice(codes))
        if counters.mask:
            found.append(Wish(counters.mask, "pair" in counters.marks, "overlap" in counters.marks))
    return found


def misses_on(machine: machines.Machine) -> tuple[int, int]:
    """How many of the tries have an assignment, and how many of these Linux misses."""
    there = missed = 0
    for _ in range(TRIES):
        wishes = wishes_at_random(machine)
        fits = has_assignment([wish.mask | PAIR * wish.is_pair for wish in wishes])
        found = linux_finds(wishes, machine)
        if found and not fits:
            raise AssertionError(f"{machine.name}: Linux can't find {wishes}")
        there += fits
        missed += fits and not found
    return there, missed


class Search(unittest.TestCase):
    def test_random_lists(self) -> None:
        random.seed(74)
        seen = dict.fromkeys(("lists", "with an assignment", "missed on AMD"), 0)
        for name in machines.names():
            machine = machines.load(name)
            if machine.identity.startswith("0x"):
                continue
            with self.subTest(machine=name):
                there, missed = misses_on(machine)
                seen["lists"] += TRIES
                seen["with an assignment"] += there
                if machine.identity.startswith("Genuine"):
                    self.assertEqual(0, missed)
                    without = machines.without_threads(machine)
                    self.assertEqual(0, misses_on(without)[1])
                seen["missed on AMD"] += missed
        print(", ".join(f"{count:,} {what}" for what, count in seen.items()))
        self.assertGreater(seen["with an assignment"], seen["lists"] // 10)

    def test_by_hand(self) -> None:
        machine = machines.plain(4)
        for masks, finds in [
            ([1, 2, 4, 8], True), ([0xF, 0xF, 1], True), ([1, 1], False), ([3, 5, 9, 8], False), ([3, 3, 3], False),
            ([6, 3, 1], False), ([5, 3, 3], False), ([3, 5, 3], True), ([3, 3, 5], True), ([0x9, 0x3, 0x5, 0x3], False),
        ]:
            wishes = [Wish(mask) for mask in masks]
            self.assertEqual(finds, linux_finds(wishes, machine), masks)
            self.assertLessEqual(finds, has_assignment(masks))

    def test_crossing_masks_are_missed(self) -> None:
        machine = machines.plain(4)
        masks = [0b0011, 0b0101, 0b0110, 0b1001]
        self.assertTrue(has_assignment(masks))
        orders = ([3, 0, 1, 2], [0, 1, 2, 3])
        found = [linux_finds([Wish(masks[at]) for at in order], machine) for order in orders]
        self.assertIn(False, found)

    def test_pairs(self) -> None:
        machine = machines.load("zen3")
        pair, single = Wish(0b010101, True), Wish(0b111111)
        self.assertTrue(linux_finds([pair, pair, pair], machine))
        self.assertTrue(linux_finds([pair, pair, single, single], machine))
        self.assertFalse(linux_finds([pair, pair, pair, single], machine))
        self.assertFalse(linux_finds([pair, single, single, single, single, single], machine))


class Said(ProgramTest):
    def test_a_miss_is_said_beside_the_answer(self) -> None:
        masks = ["--mask", "a=9", "--mask", "b=3", "--mask", "c=5", "--mask", "d=6"]
        status, out, _ = self.fit("--counters", "4", *masks, "-e", "{a,b,c,d}")
        self.assertEqual(0, status)
        self.assertIn("in {a,b,c,d} Linux's search misses the assignment that is there, and refuses the open of d", out)
        status, out, _ = self.fit("--counters", "4", *masks, "-e", "a,b,c,d")
        self.assertIn("a, b, c and d are on together here, and Linux's search misses that assignment.", out)

    def test_registers_are_said(self) -> None:
        status, out, _ = self.fit("-m", "skylake", "-e", "LLC-loads,LLC-load-misses,LLC-stores")
        self.assertEqual(0, status)
        self.assertIn("the list needs 3 values of 2 in the register that offcore_rsp writes", out)
        _, out, _ = self.fit("-m", "skylake", "-e", "{LLC-loads,LLC-load-misses,LLC-stores}")
        self.assertIn("{LLC-loads,LLC-load-misses,LLC-stores} needs 3 values of 2 in the register", out)
        _, out, _ = self.fit("-m", "skylake", "-e", "{LLC-loads,LLC-load-misses,LLC-loads}")
        self.assertNotIn("values", out)

    def test_what_excludes_is_said_where_threads_share_a_core(self) -> None:
        words = ("-m", "sandybridge", "-e", "L1-dcache-loads,branches")
        _, out, _ = self.fit(*words)
        self.assertIn("at most 2 of the 4 general counters while L1-dcache-loads counts", out.replace("\n    ", " "))
        _, out, _ = self.fit(*words, "--ht", "off")
        self.assertNotIn("at most", out)

    def test_north_bridge_and_force_abort_are_said(self) -> None:
        _, out, _ = self.fit("-m", "k10", "-e", "r4e1,cycles")
        self.assertIn("r4e1 counts on the north bridge", out)
        _, out, _ = self.fit("-m", "skylake", "-e", "branches,branch-misses,r1,r2")
        self.assertIn("where allow_tsx_force_abort is 0, Linux leaves counter 3 out", out)
        _, out, _ = self.fit("-m", "skylake", "-e", "branches,branch-misses,r1")
        self.assertNotIn("allow_tsx", out)


if __name__ == "__main__":
    unittest.main()
