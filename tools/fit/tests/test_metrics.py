"""perf's weak groups of metrics are taken apart exactly where exhaustive search finds no assignment.

perf says which events a metric has. The variable FIT_METRICS says how many metrics of each machine are tried, `all` for
each of them; without perf the tests are skipped.
"""

import os
import random
import unittest

from fit import machines
from fit.answering import answer_to
from fit.events import read_lists
from fit.faults import BadInput
from fit.meanings import Meanings
from fit.plan import Group, Plan, plan_of
from fit.tests.search import PAIR, has_assignment
from fit.tests.support import ProgramTest, has_perf

MACHINES = ("skylake", "icelake", "zen3")
COUNT = os.environ.get("FIT_METRICS", "10")


@unittest.skipUnless(has_perf(), "perf 6.1 is not there, which says the events of metrics")
class WeakGroups(ProgramTest):
    def setUp(self) -> None:
        what = ("metrics", "need another PMU", "groups", "taken apart", "refused a part", "beyond")
        self.seen = dict.fromkeys(what, 0)

    def test_metrics(self) -> None:
        random.seed(73)
        for name in MACHINES:
            machine = machines.load(name)
            with Meanings() as meanings:
                names = meanings.tables_of(machine).metric_names()
                self.assertGreater(len(names), 10)
                chosen = names if COUNT == "all" else random.sample(names, min(int(COUNT), len(names)))
                for metric in chosen:
                    with self.subTest(machine=name, metric=metric):
                        self.check(machine, meanings, metric)
        print(", ".join(f"{count} {what}" for what, count in self.seen.items()))
        self.assertGreater(self.seen["groups"], 10)

    def check(self, machine: machines.Machine, meanings: Meanings, metric: str) -> None:
        """A metric's weak groups, one by one."""
        self.seen["metrics"] += 1
        try:
            lists = meanings.metric_lists([metric], [machine])
            plan = plan_of(read_lists(lists), [machine], (), False, meanings)
        except BadInput:
            # perf itself can't read the events: a PMU beside the core's is not in the stand-in
            self.seen["need another PMU"] += 1
            return
        for group in plan.groups:
            if len(group.events) > 1:
                self.check_group(machine, plan, group)

    def check_group(self, machine: machines.Machine, plan: Plan, group: Group) -> None:
        """One weak group by itself."""
        self.seen["groups"] += 1
        answer = answer_to(self.program, type(plan)(plan.machines, (group,), (), False))
        if group.is_beyond:
            self.seen["beyond"] += 1
            self.assertEqual([True], [finding.group.is_beyond for finding in answer.findings])
            return
        refused = any(event.refused for event in group.events)
        asks = [event.mask | PAIR * event.is_pair for event in group.events if event.mask]
        fits = not refused and has_assignment(asks)
        names = [event.name for event in group.events]
        # perf leaves slots and its parts together where it takes a group apart, so what is refused there stays refused
        self.assertEqual(refused, any(finding.refused for finding in answer.findings), names)
        if not refused:
            self.assertEqual(fits, len(answer.findings) == 1, names)
        self.seen["taken apart"] += not fits
        self.seen["refused a part"] += refused


if __name__ == "__main__":
    unittest.main()
