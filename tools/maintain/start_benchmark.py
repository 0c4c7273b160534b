#!/usr/bin/env python3
"""Measures what the smallest script costs: page faults, and processor time, each the median of runs.

Several programs, as those of two commits, are measured in turn.

Usage: start_benchmark.py PROGRAM [PROGRAM ..]
  PROGRAM  a built program, as crates/perf_run/out/perf_run; `rt run` in crates/perf_run leaves it there
"""

import sys
from statistics import median

from measuring import Cost, cost
from perfscript import command
from perfscript.progress import each

RUNS = 101
SMALLEST = "perf 1\nmachine cpus=1 counters=1\nend\n"


def main(*programs: str) -> None:
    found: list[list[Cost]] = [[] for _ in programs]
    for _ in each("rounds", range(RUNS), RUNS):
        for program, own in zip(programs, found):
            own.append(cost(program, ["replay"], SMALLEST))
    for program, own in zip(programs, found):
        faults, spent = median(one.faults for one in own), median(one.processor for one in own)
        print(f"{program}: {faults:.0f} page faults, {1000 * spent:.2f} ms of processor time; the median of {RUNS}")


if __name__ == "__main__":
    sys.exit(command.called(__doc__, main, 1))
