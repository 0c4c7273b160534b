"""Groups are spread over runs in which each is on all the time."""

import json
import unittest
from collections.abc import Sequence
from typing import Any

from fit.runs import fewest_runs, first_fit
from fit.tests.support import ProgramTest


class Search(unittest.TestCase):
    """What is put together from verdicts, here on sizes: a run has room for four."""

    def fits(self, sizes: Sequence[int]) -> dict[int, bool]:
        members = range(1, 1 << len(sizes))
        return {mask: sum(size for at, size in enumerate(sizes) if mask >> at & 1) <= 4 for mask in members}

    def test_first_fit_goes_by_order(self) -> None:
        self.assertEqual([0b0011, 0b0100, 0b1000], first_fit(4, self.fits([2, 1, 3, 2])))

    def test_all_partitions_are_tried(self) -> None:
        found = fewest_runs(4, self.fits([2, 1, 3, 2]))
        self.assertEqual([0b0110, 0b1001], sorted(found))
        self.assertEqual(3, len(fewest_runs(3, self.fits([3, 3, 2]))))


class Repeat(ProgramTest):
    def runs(self, *words: str) -> tuple[int, Any]:
        status, out, err = self.fit("--repeat", "--json", *words)
        self.assertEqual("", err)
        return status, json.loads(out)["repeat"]

    def test_no_fewer_do(self) -> None:
        status, out, _ = self.fit("--counters", "2", "--repeat", "-e", "{cycles,branches},cycles:u,cycles:k,branches")
        self.assertEqual(0, status)
        self.assertTrue(out.endswith(
            "run 1: -e '{cycles,branches}'\nrun 2: -e 'cycles:u,cycles:k'\nrun 3: -e 'branches'\n"
            "3 runs suffice, and no fewer do: all partitions were tried.\n"
        ), out)

    def test_fewer_than_first_fit(self) -> None:
        groups = ["{cycles,cycles}", "branches", "{cycles,cycles,cycles}", "{branches,branches}"]
        status, found = self.runs("--counters", "4", "-e", ",".join(groups))
        self.assertEqual((0, True), (status, found["tried_all_partitions"]))
        self.assertEqual([groups[:2], groups[2:3], groups[3:]], found["runs"])
        self.assertEqual([[groups[0], groups[3]], groups[1:3]], found["fewer"])

    def test_more_than_eight_groups_are_not_claimed_minimal(self) -> None:
        status, found = self.runs("--counters", "4", "-e", ",".join(["cycles"] * 9))
        self.assertEqual((0, False), (status, found["tried_all_partitions"]))
        self.assertEqual([4, 4, 1], [len(run) for run in found["runs"]])
        _, out, _ = self.fit("--repeat", "--counters", "4", "-e", ",".join(["cycles"] * 9))
        self.assertTrue(out.endswith("\n3 runs suffice.\n"), out)

    def test_what_is_never_on_alone_is_left_out(self) -> None:
        text = "{cycles,cycles,cycles,cycles},branches:e,cycles:D,{cycles,cycles,cycles}"
        status, found = self.runs("-m", "k10", "--watchdog", "-e", text)
        self.assertEqual((1, [["cycles:D"], ["{cycles,cycles,cycles}"]]), (status, found["runs"]))
        self.assertEqual(["{cycles,cycles,cycles,cycles}", "branches:e"], [one["group"] for one in found["left_out"]])

    def test_exclusive_groups_have_runs_of_their_own(self) -> None:
        _, found = self.runs("--counters", "4", "-e", "cycles:e,branches,instructions:e,dummy")
        self.assertEqual([["cycles:e", "dummy"], ["branches"], ["instructions:e"]], found["runs"])
        self.assertIsNone(found["fewer"])

    def test_two_kinds_of_core(self) -> None:
        words = ["-m", "cortex-a53=0", "-m", "cortex-a72=1", "-e", "{cycles,branch-misses},cs"]
        for more in ((), ("-a",)):
            _, found = self.runs(*words, *more)
            self.assertEqual([3], [len(run) for run in found["runs"]], more)
