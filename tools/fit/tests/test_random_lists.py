"""Random lists, held to exhaustive search: what is refused at open, what is never on, and each share.

There are some without exclusive groups on each machine, and others with exclusive groups and on two kinds of core.
tools/maintain/fit_lists.py tries as many on each machine as it is told.
"""

import random
import unittest

from fit import machines
from fit.tests.random_lists import WHAT, Seen, judged_lists, lists_that_differ, random_group, wanted_of
from fit.tests.search import shares
from fit.tests.support import ProgramTest

SEED, LISTS, OTHERS = 20261129, 4, 50


class Others(ProgramTest):
    def setUp(self) -> None:
        self.pick = random.Random(self.id())

    def test_exclusive_groups(self) -> None:
        machine, seen = machines.plain(4), set()
        pool = sorted(machine.masks)
        for has_watchdog in (False, True):
            always = [machine.masks["cycles"]] * has_watchdog
            texts = [self.list_of(pool) for _ in range(OTHERS)]
            for text, findings in zip(texts, judged_lists(self.program, [machine], texts, has_watchdog)):
                with self.subTest(watchdog=has_watchdog, list=text):
                    wanted = shares([wanted_of(finding.group) for finding in findings], always)
                    for finding, share in zip(findings, wanted):
                        self.assertEqual(share * finding.times.enabled, finding.times.running)
                        seen.add((finding.reason.word if finding.reason else "", finding.is_never_on))
        words = ("hall", "exclusive", "exclusive-self")
        self.assertLessEqual({(word, never) for word in words for never in (False, True)} | {("", False)}, seen)

    def list_of(self, pool: list[str]) -> str:
        """A list with pinned and exclusive groups."""
        return ",".join(random_group(self.pick, pool, 0.2, 0.2) for _ in range(self.pick.randint(2, 6)))

    def test_two_kinds_of_core(self) -> None:
        both = machines.read_machines(["cortex-a53=0-1", "cortex-a72=2"], [], ())
        pool = [f"{machine.pmu}/{event}/" for machine in both for event in ("cpu_cycles", "br_mis_pred")]
        pool += ["cycles", "branch-misses"]
        texts = [",".join(self.group_of(pool) for _ in range(self.pick.randint(2, 9))) for _ in range(OTHERS)]
        in_turns = 0
        for text, findings in zip(texts, judged_lists(self.program, both, texts, False)):
            with self.subTest(list=text):
                for machine in both:
                    own = [finding for finding in findings if finding.group.machine == machine]
                    for finding, share in zip(own, shares([wanted_of(finding.group) for finding in own])):
                        # half of the time the task is on the other kind of core
                        self.assertEqual(share * finding.times.enabled, 2 * finding.times.running)
                        in_turns += 0 < share < 1
        self.assertGreater(in_turns, 50)

    def group_of(self, pool: list[str]) -> str:
        """A group on one kind of core, or on each."""
        name = self.pick.choice(pool)
        size = self.pick.choice((1, 2, 3, 6))
        return "{" + ",".join([name] * size) + "}" + self.pick.choice(("", "", ":D"))


class RandomLists(ProgramTest):
    def test_on_each_machine(self) -> None:
        seen = Seen()
        for name in machines.names():
            with self.subTest(machine=name):
                differ = lists_that_differ(self.program, machines.load(name), SEED, range(LISTS), seen)
                self.assertEqual([], list(differ))
        self.assertEqual(LISTS * len(machines.names()), seen["lists"])
        for what in WHAT:
            self.assertGreater(seen[what], 20, what)
        print(", ".join(f"{seen[what]} {what}" for what in WHAT))


if __name__ == "__main__":
    unittest.main()
