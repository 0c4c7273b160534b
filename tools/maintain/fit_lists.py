#!/usr/bin/env python3
"""Asks random lists of each machine's events by tools/fit.py, and holds the answers to exhaustive search.

Usage: fit_lists.py [--program PATH] [--lists N] [--seed N] [--jobs N] [MACHINE..]

Without machines each of tools/fit/machines is tried. The search is that of tools/fit/tests: it tries each choice of
counters that the machine's rows allow, and check_machines.py compares these rows with a kernel's. A list that differs
is printed as words for fit.py, with what differs, and the status is then 1. Lists depend on the seed alone.
"""

from __future__ import annotations

import argparse
import os
import sys
import time
from concurrent.futures import ProcessPoolExecutor

TOOLS = os.path.normpath(os.path.join(os.path.dirname(os.path.abspath(__file__)), ".."))
sys.path.insert(0, TOOLS)

from fit import machines  # noqa: E402  the packages are found only now
from fit.tests.random_lists import WHAT, Seen, lists_that_differ  # noqa: E402
from perfscript import program_at  # noqa: E402
from perfscript.command import Parser, ended, from_one  # noqa: E402

DIFFERS = 1
# how many lists of a machine a job tries
PART = 500


def tried(path: str | None, name: str, seed: int, numbers: range) -> tuple[str, Seen, list[tuple[str, str]]]:
    """What came up in some lists of a machine, and which differ."""
    seen = Seen()
    return name, seen, list(lists_that_differ(program_at(path), machines.load(name), seed, numbers, seen))


def run(options: argparse.Namespace) -> int:
    chosen = options.machines or machines.names()
    for name in chosen:
        machines.load(name)
    program_at(options.program)
    parts = [(name, range(first, min(first + PART, options.lists)))
             for name in chosen for first in range(0, options.lists, PART)]
    began, total, differ = time.monotonic(), Seen(), set[tuple[str, str]]()
    with ProcessPoolExecutor(options.jobs) as pool:
        for future in [pool.submit(tried, options.program, name, options.seed, numbers) for name, numbers in parts]:
            name, seen, faults = future.result()
            total.update(seen)
            differ |= {(name, words) for words, _ in faults}
            for words, fault in faults:
                print(f"{name}: {words}: {fault}", flush=True)
    said = ", ".join(f"{total[what]} {what}" for what in WHAT)
    print(f"{len(chosen)} machines: {said}; {len(differ)} lists differ, {time.monotonic() - began:.0f} s")
    return DIFFERS if differ else 0


def main() -> int:
    parser = Parser("fit_lists.py", __doc__ or "")
    parser.add_argument("machines", metavar="MACHINE", nargs="*")
    parser.add_argument("--lists", type=from_one, default=2000, metavar="N", help="how many lists a machine; 2000")
    parser.add_argument("--seed", type=int, default=1, metavar="N", help="another seed gives other lists; 1")
    parser.add_argument("--jobs", type=from_one, default=os.cpu_count() or 1, metavar="N", help="processes at once")
    return run(parser.parse_args())


if __name__ == "__main__":
    sys.exit(ended("fit_lists.py", main))
