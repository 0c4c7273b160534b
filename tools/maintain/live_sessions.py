#!/usr/bin/env python3
"""Does random sessions of perf_live line by line, and has perf_run replay the journal of each.

Usage: live_sessions.py [--program PATH] [--replay PATH] [--seeds FIRST-LAST] [--jobs N]

The sessions come from tools/perfscript/tests/random_sessions.py, with lines among them that are none. Each answer has
to be that of the replay, and each line that is none has to be refused in a script for the same reason. A session that
differs is named with its seed, and the status is then 1.
"""

import os
import sys
import time
from collections.abc import Callable
from concurrent.futures import ProcessPoolExecutor
from functools import partial

TOOLS = os.path.normpath(os.path.join(os.path.dirname(os.path.abspath(__file__)), ".."))
sys.path.insert(0, TOOLS)

from perfscript import Fault, built_at  # noqa: E402  the package is found only now
from perfscript.command import Parser, ended  # noqa: E402
from perfscript.live import live_at  # noqa: E402
from perfscript.progress import Progress  # noqa: E402
from perfscript.tests.random_sessions import Compared, compare  # noqa: E402

DIFFERS = 1


def main() -> int:
    parser = Parser("live_sessions.py", __doc__ or "", program="perf_live")
    parser.add_argument("--replay", metavar="PATH", help="the built perf_run, which replays the journals")
    parser.add_argument("--seeds", default="1-2000", metavar="FIRST-LAST")
    parser.add_argument("--jobs", type=int, default=os.cpu_count() or 1, metavar="N")
    options = parser.parse_args()
    first, _, last = options.seeds.partition("-")
    if not first.isdigit() or not (last or first).isdigit():
        raise Fault(f"--seeds: {options.seeds} is not FIRST-LAST, two numbers")
    if options.jobs < 1:
        raise Fault(f"--jobs: {options.jobs} is too few; give 1 or more")
    live = live_at(options.program)
    replay = built_at(options.replay, "--replay")
    return do_all(range(int(first), int(last or first) + 1), partial(compare, live=live, program=replay), options.jobs)


def do_all(seeds: range, compare_one: Callable[[int], Compared], jobs: int) -> int:
    """Compares the sessions of all seeds, and prints what differs and the counts."""
    began, taken, bad, wrong = time.monotonic(), 0, 0, 0
    with Progress("sessions", len(seeds)) as progress, ProcessPoolExecutor(jobs) as pool:
        for one in pool.map(compare_one, seeds):
            taken, bad, wrong = taken + one.taken, bad + one.bad, wrong + bool(one.fault)
            if one.fault:
                print(f"seed {one.seed}: {one.fault}", flush=True)
            progress.step()
    seconds = time.monotonic() - began
    print(f"{len(seeds)} sessions: {taken} lines taken, {bad} bad, {wrong} sessions differ, {seconds:.0f} s")
    return DIFFERS if wrong else 0


if __name__ == "__main__":
    sys.exit(ended("live_sessions.py", main))
