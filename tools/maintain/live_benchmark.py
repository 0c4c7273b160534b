#!/usr/bin/env python3
"""Measures what a line costs that perf_live answers before the next one comes.

Usage: live_benchmark.py [--program PATH] [--replay PATH]

Sessions are those scripts of replay_benchmark.py that have no ring. For each: microseconds a line over pipes from a
client in C, which `cc` compiles; the rate of the client in Python; and the processor time of the session read from a
file beside that of perf_run's replay of the same lines. Ends with 77 where there is no `cc`.
"""

import os
import subprocess
import sys
import tempfile
import time

import measuring
import replay_benchmark
from double.build import NotHere, compiled
from perfscript import Draft, Fault, Live, built_at
from perfscript.command import Parser, ended
from perfscript.live import live_at

CLIENT = os.path.join(os.path.dirname(os.path.abspath(__file__)), "live_client.c")
RUNS, SECONDS, NOT_HERE = 5, 100, 77


def session_of(draft: Draft) -> tuple[str, list[str]]:
    """A script as a session: its head, and its lines with their actors in the order in which they are done."""
    done: dict[str, int] = {}
    lines = []
    for actor in draft.order:
        number = done.get(actor, 0)
        done[actor] = number + 1
        lines.append(f"{actor} {draft.lines[actor][number]}")
    return "\n".join([*draft.head, "end"]) + "\n", lines


def over_a_pipe(live: str, client: str, head: str, lines: list[str]) -> float:
    """The microseconds of a line, of the best run of the client in C."""
    with tempfile.TemporaryDirectory(prefix="live-benchmark.") as folder:
        paths = [os.path.join(folder, name) for name in ("head", "lines")]
        for path, text in zip(paths, (head, "".join(line + "\n" for line in lines))):
            with open(path, "w", encoding="latin-1") as file:
                file.write(text)
        best = min(measured(client, live, *paths) for _ in range(RUNS))
    return best / len(lines) / 1000


def measured(client: str, *words: str) -> int:
    """The nanoseconds that the client prints."""
    try:
        done = subprocess.run([client, *words], capture_output=True, text=True, timeout=SECONDS)
    except subprocess.TimeoutExpired:
        raise Fault(f"{words[0]} had not answered all lines of the client in C after {SECONDS} seconds") from None
    if done.returncode:
        raise Fault(f"{words[0]} does not answer the client in C: {' '.join(done.stderr.split())}")
    return int(done.stdout.split()[2])


def in_python(live: str, head: str, lines: list[str]) -> float:
    """The lines a second of the client in Python, of the best run."""
    best = float("inf")
    for _ in range(RUNS):
        with Live(head, live, is_checked=False) as running:
            began = time.perf_counter()
            for line in lines:
                running.line(*line.split(" ", 1))
            best = min(best, time.perf_counter() - began)
    return len(lines) / best


def beside_replay(live: str, replay: str, draft: Draft, head: str, lines: list[str]) -> tuple[float, float]:
    """The processor time in milliseconds of a session from a file, and of the replay; the least of the runs."""
    session = head + "".join(line + "\n" for line in lines)
    own = min(measuring.cost(live, [], session).processor for _ in range(RUNS))
    whole = min(measuring.cost(replay, ["replay"], draft.text()).processor for _ in range(RUNS))
    return 1000 * own, 1000 * whole


def main() -> int:
    parser = Parser("live_benchmark.py", __doc__ or "", program="perf_live")
    parser.add_argument("--replay", metavar="PATH", help="the built perf_run")
    options = parser.parse_args()
    live, replay = live_at(options.program), built_at(options.replay, "--replay").path
    table = (
        ("1 processor, 3 events", replay_benchmark.small()),
        ("8 processors, 200 events", replay_benchmark.large()),
        ("4,000 copies", replay_benchmark.copies(62)),
    )
    with tempfile.TemporaryDirectory(prefix="live-benchmark.") as folder:
        try:
            client = compiled(CLIENT, folder)
        except NotHere as why:
            print(why, file=sys.stderr)
            return NOT_HERE
        for name, draft in table:
            head, lines = session_of(draft)
            pipe, rate = over_a_pipe(live, client, head, lines), in_python(live, head, lines)
            own, whole = beside_replay(live, replay, draft, head, lines)
            rates = f"{pipe:.1f} us a line from C, {rate:.0f} lines a second from Python"
            times = f"{own:.1f} ms from a file, {whole:.1f} ms by replay, {own / whole:.1f} times"
            print(f"{name}, {len(lines)} lines: {rates}; {times}", flush=True)
    print(f"The best of {RUNS} runs; milliseconds are processor time.")
    return 0


if __name__ == "__main__":
    sys.exit(ended("live_benchmark.py", main))
