#!/usr/bin/env python3
"""Measures how many commands of perf_event_open(2) a second the program does, beside the running kernel.

Usage: kernel_commands.py [--program PATH] [--replay PATH]

A round opens a software event, enables it, reads it and closes it. The kernel does the rounds for a client in C, which
`cc` compiles; perf_run replays them as one script, from whose time that of a script with no line is taken off; perf_live
answers them one by one over pipes. --program gives the built perf_live, --replay the built perf_run. Each number is
that of the best run. Ends with 77 where there is no `cc`, or the kernel opens no event.
"""

import os
import subprocess
import sys
import tempfile

import live_benchmark
import measuring
import packages  # noqa: F401
from double.build import NotHere, compiled
from perfscript import Draft, Fault, built_at
from perfscript.command import Parser, ended
from perfscript.live import live_at

CLIENT = os.path.join(os.path.dirname(os.path.abspath(__file__)), "kernel_commands.c")
RUNS, ROUNDS, COMMANDS, NOT_HERE = 9, 4000, 4, 77
HEAD = ["perf 1", "machine cpus=1 counters=1"]
ROUND = ["open 0 kind=task-clock task=all cpu=0 format=3 flags=disabled", "enable 0", "read 0", "close 0"]


def rounds() -> Draft:
    """The rounds as a script."""
    lines = ROUND * ROUNDS
    return Draft(HEAD, {"t0": lines}, [], ["t0"] * len(lines))


def of_the_kernel(client: str) -> float:
    """The seconds that the kernel takes for the rounds; NotHere where it opens no event."""
    done = subprocess.run([client, str(ROUNDS)], capture_output=True, text=True, check=False)
    if done.returncode:
        raise NotHere(f"the running kernel does not do these commands: {done.stderr.strip() or done.returncode}")
    return int(done.stdout) / 1e9


def of_a_replay(program: str) -> float:
    """The seconds that a replay of the rounds takes, without its start."""
    start = min(measuring.cost(program, ["replay"], Draft(HEAD, {}, [], []).text()).seconds for _ in range(RUNS))
    return min(measuring.cost(program, ["replay"], rounds().text()).seconds for _ in range(RUNS)) - start


def of_a_session(live: str, folder: str) -> float:
    """The seconds that a session takes for the rounds, over pipes from the client in C."""
    client = compiled(live_benchmark.CLIENT, folder)
    head, lines = live_benchmark.session_of(rounds())
    return live_benchmark.over_a_pipe(live, client, head, lines) * len(lines) / 1e6


def main() -> int:
    parser = Parser("kernel_commands.py", __doc__ or "", program="perf_live")
    parser.add_argument("--replay", metavar="PATH", help="the built perf_run")
    options = parser.parse_args()
    live, replay = live_at(options.program), built_at(options.replay, "--replay").path
    with tempfile.TemporaryDirectory(prefix="kernel-commands.") as folder:
        try:
            client = compiled(CLIENT, folder)
            kernel = min(of_the_kernel(client) for _ in range(RUNS))
        except NotHere as why:
            print(why, file=sys.stderr)
            return NOT_HERE
        took = {
            "the running kernel": kernel,
            "perf_run replay, all lines at once": of_a_replay(replay),
            "perf_live, line by line over pipes": of_a_session(live, folder),
        }
    for name, seconds in took.items():
        print(f"{name}: {COMMANDS * ROUNDS / seconds:,.0f} commands a second")
    return 0


if __name__ == "__main__":
    sys.exit(ended("kernel_commands.py", main))
