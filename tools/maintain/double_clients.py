#!/usr/bin/env python3
"""Runs random clients in the double by both ways of catching: each journal certified, and both answers alike.

Usage: double_clients.py [--program PATH] [--seeds FIRST-LAST] [--jobs N]

The clients come from tools/double/tests/random_clients.py. A client whose answers differ is named with its seed, and
the status is then 1.
"""

import os
import sys
import tempfile
import time
from concurrent.futures import ProcessPoolExecutor
from contextlib import redirect_stderr

TOOLS = os.path.normpath(os.path.join(os.path.dirname(os.path.abspath(__file__)), ".."))
sys.path.insert(0, TOOLS)

from double.build import NotHere, compiled  # noqa: E402
from double.testing import Double, Uncertified  # noqa: E402
from double.tests.random_clients import SCENARIO, Program  # noqa: E402
from perfscript import Fault, built_at  # noqa: E402
from perfscript.command import Parser, ended, from_one  # noqa: E402

CLIENT = os.path.join(TOOLS, "double", "tests", "client.c")
DIFFERS, NOT_HERE = 1, 77


def answers(by_library: bool, text: str, program: str, client: str) -> tuple[int, str, list[str]]:
    """The client's status and output, and the journals."""
    with tempfile.TemporaryDirectory(prefix="double-clients.") as folder:
        paths = [os.path.join(folder, name) for name in ("x.scenario", "operations")]
        for path, content in zip(paths, (SCENARIO, text)):
            with open(path, "w", encoding="ascii") as file:
                file.write(content)
        with Double(paths[0], program, by_library) as double, open(os.devnull, "w") as nowhere, redirect_stderr(nowhere):
            result = double.run([client, paths[1]])
    # the folder's name is no answer
    return result.status, result.out.replace(folder, ""), result.journals()


def compare(seed: int, program: str, client: str) -> tuple[int, int, str]:
    """How many answers a seed's client was given, and what is wrong; nothing where all is well."""
    text = Program(seed).text
    try:
        caught, loaded = (answers(way, text, program, client) for way in (False, True))
    except Uncertified as fault:
        return seed, 0, f"not certified: {fault}"
    except Fault as fault:
        return seed, 0, str(fault)
    if caught[0] or not caught[1]:
        return seed, 0, f"the client ended with status {caught[0]}"
    return seed, caught[1].count("\n"), "" if caught == loaded else "the two ways of catching give other answers"


def main() -> int:
    parser = Parser("double_clients.py", __doc__ or "")
    parser.add_argument("--seeds", default="1-500", metavar="FIRST-LAST")
    parser.add_argument("--jobs", type=from_one, default=os.cpu_count() or 1, metavar="N")
    options = parser.parse_args()
    first, _, last = options.seeds.partition("-")
    if not first.isdigit() or not (last or first).isdigit():
        raise Fault(f"--seeds: {options.seeds} is not FIRST-LAST, two numbers")
    seeds, program = range(int(first), int(last or first) + 1), built_at(options.program).path
    began, wrong, count = time.monotonic(), 0, 0
    with tempfile.TemporaryDirectory(prefix="double-clients.") as folder:
        try:
            client = compiled(CLIENT, folder, "-pthread")
        except NotHere as why:
            print(why, file=sys.stderr)
            return NOT_HERE
        size = len(seeds)
        with ProcessPoolExecutor(options.jobs) as pool:
            for seed, given, fault in pool.map(compare, seeds, size * [program], size * [client]):
                count += given
                wrong += bool(fault)
                if fault:
                    print(f"seed {seed}: {fault}", flush=True)
    print(f"{len(seeds)} clients by both ways: {count} operations, {wrong} differ, {time.monotonic() - began:.0f} s")
    return DIFFERS if wrong else 0


if __name__ == "__main__":
    sys.exit(ended("double_clients.py", main))
