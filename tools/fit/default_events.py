"""The events that `perf stat` of 6.1 counts without -e, and those that -d adds."""

from __future__ import annotations

from collections.abc import Sequence

from fit.machines import Machine

FIRST = ("task-clock", "context-switches", "cpu-migrations", "page-faults", "cycles")
STALLED = ("stalled-cycles-frontend", "stalled-cycles-backend")
LAST = ("instructions", "branches", "branch-misses")
TOPDOWN = ("topdown-retiring", "topdown-bad-spec", "topdown-fe-bound", "topdown-be-bound")
TOPDOWN_BELOW = ("topdown-heavy-ops", "topdown-br-mispredict", "topdown-fetch-lat", "topdown-mem-bound")
DETAILS = (
    ("L1-dcache-loads", "L1-dcache-load-misses", "LLC-loads", "LLC-load-misses"),
    ("L1-icache-loads", "L1-icache-load-misses", "dTLB-loads", "dTLB-load-misses", "iTLB-loads", "iTLB-load-misses"),
    ("L1-dcache-prefetches", "L1-dcache-prefetch-misses"),
)


def default_lists(machines: Sequence[Machine]) -> list[str]:
    """The list without -e. What is asked for by a name of the core's PMU stands there where its first machine is the
    only one and has the name."""
    machine = machines[0]
    is_alone = len(machines) == 1 and machine.pmu == "cpu"
    names = [*FIRST, *(name for name in STALLED if is_alone and name in machine.hardware), *LAST]
    groups = []
    if is_alone and "slots" in machine.names:
        parts = TOPDOWN + (TOPDOWN_BELOW if "topdown-heavy-ops" in machine.names else ())
        groups.append("{" + ",".join(("slots", *parts)) + "}")
    return [",".join(names + groups)]


def detail_lists(count: int) -> list[str]:
    """The lists that so many -d add."""
    return [",".join(names) for names in DETAILS[:count]]
