#!/usr/bin/env python3
"""Measures how many calls of a client the double answers in a second, by each way of catching and each back end.

Usage: double_benchmark.py [--program PATH] [--live PATH]

The client is that of tools/double/tests. It opens two events, and then disables, enables and reads them in turn; a run
of the opens alone is taken off. Without --live, the variable PERF_LIVE or a perf_live at its usual place, replays alone
are measured. Ends with 77 where the double does not run here.
"""

import os
import sys
import tempfile
import time

TOOLS = os.path.normpath(os.path.join(os.path.dirname(os.path.abspath(__file__)), ".."))
sys.path.insert(0, TOOLS)

from double.backend import live_path  # noqa: E402  the packages are found only now
from double.broker import Broker  # noqa: E402
from double.build import NotHere, compiled  # noqa: E402
from double.certificate import certify  # noqa: E402
from double.run import Run  # noqa: E402
from double.scenario import read_scenario  # noqa: E402
from perfscript import Fault, Program, built_at  # noqa: E402
from perfscript.command import Parser, ended  # noqa: E402
from perfscript.live import live_at  # noqa: E402

CLIENT = os.path.join(TOOLS, "double", "tests", "client.c")
SCENARIO = """\
perf 1
machine cpus=1 counters=2
kind cycles mask=3
kind instructions mask=3
@start
p0 work 100 user cycles=70 instructions=90
@read
p0 work 10 user cycles=7 instructions=9
end
"""
OPENS = ["o 0 0 0 0 0 3 0 -1 0 -1 0 128 0", "o 1 0 1 0 0 3 0 -1 0 -1 0 128 0"]
CALLS = ["i 0 0x2401 0", "r 0 24", "i 0 0x2400 0", "r 1 24", "i 1 0x2403 0"]
# how many calls a run has: a replay for each call takes longer the more there are
COUNTS = (100, 500, 2000)
RUNS, NOT_HERE = 3, 77


class Served:
    """A scenario, what answers, and how calls are caught."""

    def __init__(self, scenario: str, program: Program, live: str, by_library: bool) -> None:
        self.scenario = read_scenario("the scenario", scenario, program)
        self.program, self.live, self.by_library = program, live, by_library

    def seconds(self, command: list[str]) -> float:
        """How long a command takes. Fault where its answers are not certified."""
        broker = Broker(self.scenario, self.program, live=self.live)
        with open(os.devnull, "w") as nowhere:
            began = time.perf_counter()
            with Run(broker, command, None, self.by_library, (nowhere.fileno(), nowhere.fileno())) as run:
                run.serve()
            spent = time.perf_counter() - began
        differs = run.failure or certify(broker.sessions, self.program).differs
        if differs or run.status:
            raise Fault(f"the client ended with status {run.status}: {differs or 'certified'}")
        return spent


def seconds_of(served: Served, client: str, operations: list[str]) -> float:
    """How long the client takes in the double, of the best run, without its certificate."""
    with tempfile.NamedTemporaryFile("w", encoding="ascii") as file:
        file.write("\n".join(operations) + "\n")
        file.flush()
        return min(served.seconds([client, file.name]) for _ in range(RUNS))


def measure(program: Program, lives: list[str], client: str) -> None:
    """Prints a line for each way of catching and each back end."""
    for by_library in (False, True):
        for live in lives:
            served, rates = Served(SCENARIO, program, live, by_library), []
            opens = seconds_of(served, client, OPENS)
            for count in COUNTS:
                calls = [CALLS[number % len(CALLS)] for number in range(count)]
                rates.append(f"{count / (seconds_of(served, client, OPENS + calls) - opens):.0f} of {count} calls")
            way, back = "a library" if by_library else "seccomp", "perf_live" if live else "replays"
            print(f"caught by {way}, answered by {back}: a second {', '.join(rates)}", flush=True)


def main() -> int:
    parser = Parser("double_benchmark.py", __doc__ or "")
    parser.add_argument("--live", metavar="PATH", help="the built perf_live")
    options = parser.parse_args()
    live = live_at(options.live, "--live") if options.live else live_path()
    program = built_at(options.program)
    with tempfile.TemporaryDirectory(prefix="double-benchmark.") as folder:
        try:
            client = compiled(CLIENT, folder, "-pthread")
            measure(program, [live, ""] if live else [""], client)
        except NotHere as why:
            print(why, file=sys.stderr)
            return NOT_HERE
    print(f"The best of {RUNS} runs, without the certificate that each session had.")
    return 0


if __name__ == "__main__":
    sys.exit(ended("double_benchmark.py", main))
