"""Forty lists whose shares were worked out by hand, each also held to the search of the tests."""

from fit.command import machines_of, parser
from fit.events import read_lists
from fit.findings import Finding, judged_twice
from fit.machines import Machine
from fit.plan import Plan, plan_of, watchdog_mask
from fit.table import percent
from fit.tests.search import Wanted, opened, shares
from fit.tests.support import ProgramTest

ALL, NEVER = "all", "never"
FIVE = "{cycles,cycles,cycles,cycles,cycles}"
# the machine, the list, and what perf stat has to print for each group: its percentage, all the time, or never
LISTS = [
    ("--counters 1", "cycles", [ALL]),
    ("--counters 1", "cycles,cycles", ["50.00", "50.00"]),
    ("--counters 1", "branches:u,branches:k", ["50.00", "50.00"]),
    ("--counters 1", "cycles,branches,instructions", ["33.33", "33.33", "33.33"]),
    ("--counters 2", "cycles,cycles", [ALL, ALL]),
    ("--counters 2", "cycles,branches,instructions", ["66.67", "66.67", "66.67"]),
    ("--counters 2", "cycles,cycles,{branches,branches}", ["33.33", "66.67", "33.33"]),
    ("--counters 2", "{branches,branches},cycles,cycles", ["33.33", "33.33", "66.67"]),
    ("--counters 2", "cycles,{branches,branches},cycles", ["66.67", "33.33", "33.33"]),
    ("--counters 2", "dummy,cycles,{task-clock,cycles},cycles", [ALL, "66.67", "66.67", "66.67"]),
    ("--counters 4", "cycles,cycles,cycles,cycles,cycles", ["80.00"] * 5),
    ("--counters 4", "cycles,cycles,cycles,cycles,cycles,cycles", ["66.67"] * 6),
    ("--counters 4", "{cycles,cycles},{cycles,cycles},{cycles,cycles}", ["66.67"] * 3),
    ("--counters 4", "{cycles,cycles,cycles},{cycles,cycles},cycles", ["66.67", "33.33", "66.67"]),
    ("--counters 4", "{cycles,cycles,cycles,cycles},cycles", ["50.00", "50.00"]),
    ("--counters 4", "{cycles,cycles},{cycles,cycles},{cycles,cycles,cycles,cycles}", ["33.33", "66.67", "33.33"]),
    ("--counters 4", f"{FIVE},cycles", ["50.00", "50.00"]),
    ("--counters 4", "cycles:D,{cycles,cycles,cycles,cycles}", [ALL, NEVER]),
    ("--counters 4", "cycles:D,{cycles,cycles,cycles},cycles", [ALL, "50.00", "50.00"]),
    ("--counters 4", "{cycles,cycles,cycles,cycles},cycles,cycles:D", [NEVER, "50.00", ALL]),
    ("--counters 2", "cycles:D,cycles:D,cycles:D", [ALL, ALL, NEVER]),
    ("--counters 2", "cycles:D,{cycles,cycles}:D,cycles:D", [ALL, NEVER, ALL]),
    ("--counters 4", "cycles:e,branches", ["50.00", "50.00"]),
    ("--counters 4", "cycles:e,branches,instructions", ["33.33", "33.33", "66.67"]),
    ("--counters 4", "cycles:D,branches:e", [ALL, NEVER]),
    ("--counters 4", "cycles:eD,branches", [ALL, NEVER]),
    ("--counters 1 --watchdog", "branches", [NEVER]),
    ("--counters 2 --watchdog", "branches,instructions", ["50.00", "50.00"]),
    ("-m k10 --watchdog", "cycles,instructions,branches,branch-misses", ["75.00"] * 4),
    ("-m sandybridge", "l1d_pend_miss.pending,cycle_activity.cycles_l1d_pending", ["50.00", "50.00"]),
    (
        "-m sandybridge",
        "cycles,instructions,ref-cycles,branches,branch-misses,cache-references,cache-misses",
        [ALL] * 7,
    ),
    ("-m sandybridge --watchdog", "cycles,branches,branch-misses,cache-references,cache-misses", ["80.00"] * 5),
    ("-m haswell", "{r01c0,r0148},r01c0", ["50.00", "50.00"]),
    ("-m core2", "r11,r12,r0113", ["33.33", "33.33", "33.33"]),
    ("-m core2", "r10,r12,branches", ["66.67", "66.67", "66.67"]),
    ("-m nehalem", "r0151,r014e,r0143,branches", ["75.00", "75.00", "50.00", "75.00"]),
    ("-m bulldozer --mask x=9 --mask y=38", "cycles,cycles,cycles,x,y,y", [ALL] * 6),
    ("-m zen --watchdog", "{cycles,cycles,cycles,cycles,cycles,cycles},cycles", [NEVER, "50.00"]),
    ("-m cortex-a53", "cycles,cycles,instructions,branches,branch-misses,cache-references,cache-misses", [ALL] * 7),
    ("-m cortex-a53=0-3 -m cortex-a72=4-5", "cycles", ["50.00", "50.00"]),
]


def printed(finding: Finding) -> str:
    """What perf stat prints for a group, in the words of the table above."""
    if finding.is_never_on:
        return NEVER
    return percent(finding.times).strip("(%)") or ALL


class Shares(ProgramTest):
    def test_table(self) -> None:
        self.assertEqual(40, len(LISTS))
        for options, text, wanted in LISTS:
            with self.subTest(options=options, list=text):
                machines, _ = machines_of(parser().parse_args(options.split()))
                plan = plan_of(read_lists([text]), machines, (), "--watchdog" in options)
                [(findings, _)] = judged_twice(self.program, plan, [plan.groups])
                self.assertEqual(wanted, [printed(finding) for finding in findings])
                if len(machines) == 1:
                    self.assertEqual(wanted, searched(plan, machines[0]))


def searched(plan: Plan, machine: Machine) -> list[str]:
    """The same by the search: what perf prints for each share."""
    groups = []
    for group in plan.groups:
        masks = [event.mask for event in group.events]
        groups.append(Wanted([masks[place] for place in opened(masks)], group.is_pinned, group.is_exclusive))
    always = [watchdog_mask(machine)] if plan.has_watchdog else []
    found = []
    for share in shares(groups, always):
        part = f"{100.0 * share.numerator / share.denominator:.2f}"
        found.append(NEVER if share == 0 else ALL if share == 1 else part)
    return found
