#!/usr/bin/env python3
"""Runs lines of `perf stat` on machines by tools/fit.py, and holds what comes of them to a table and to a search.

Usage: perf_lines.py [--program PATH] [--write | --metrics | --time] [--jobs N] [MACHINE..]

Without words each line of tools/fit/tests/perf_lines.toml is run; with machines, the lines of these. --write writes
what came of them into the table. --metrics runs every metric that perf has for the machines instead, by default for
Skylake, Ice Lake and Zen 3, and counts their weak groups: each has to be taken apart exactly where exhaustive search
over the counters finds no assignment. --time calls tools/fit.py for each line instead, one after the other, and perf
alone with the same words; it prints how long both took, and the status is 1 where the tool takes 3 s more than perf.
The status is 1 where something differs. It needs perf 6.1.
"""

from __future__ import annotations

import collections
import os
import resource
import shlex
import subprocess
import sys
import time
import tomllib
from collections.abc import Iterable, Sequence
from concurrent.futures import ProcessPoolExecutor
from typing import NamedTuple

TOOLS = os.path.normpath(os.path.join(os.path.dirname(os.path.abspath(__file__)), ".."))
sys.path.insert(0, TOOLS)

from fit import machines  # noqa: E402
from fit.meanings import Meanings  # noqa: E402
from fit.tests.perf_lines import PATH, Case, cases, come, faults, has_counters, outcome  # noqa: E402
from fit.tests.support import has_perf  # noqa: E402
from perfscript import Fault, built_at  # noqa: E402
from perfscript.command import Parser, ended, from_one  # noqa: E402

OF_METRICS = ("skylake", "icelake", "zen3")
METRIC = "-M "
# in seconds beside perf's own
MOST_TIME = 3.0


def tried(given: tuple[str | None, Case]) -> tuple[Case, str, list[str], dict[str, int]]:
    """What came of a line, what is wrong with it, and how many weak groups there are of each kind."""
    path, case = given
    try:
        came = come(built_at(path), case)
        if came.done.answer is None and case.words.startswith(METRIC):
            # its events are of whole processors, and perf says that -a asks for them
            came = come(built_at(path), case._replace(words=f"-a {case.words}"))
    except Exception as fault:
        return case, "", [f"{type(fault).__name__}: {fault}"], {}
    counts: collections.Counter[str] = collections.Counter(metrics=1)
    counts["perf opened nothing"] += came.done.answer is None
    for leader in came.done.opens.wishes:
        if leader.leader is None and len(leader.group) > 1 and came.done.answer:
            is_apart = any(came.done.opens.last[one].is_again for one in leader.group if one in came.done.opens.last)
            counts["groups"] += 1
            counts["beyond"] += bool(leader.beyond)
            counts["taken apart"] += is_apart
            counts["without an assignment"] += not leader.beyond and not has_counters(leader.group)
    return case, outcome(came.done), faults(came), counts


class Spent(NamedTuple):
    """What a command took in seconds: by the clock, and of a processor."""

    clock: float
    processor: float


def spent(words: Sequence[str]) -> Spent:
    """What a command takes, whatever it prints."""
    before, began, none = resource.getrusage(resource.RUSAGE_CHILDREN), time.monotonic(), subprocess.DEVNULL
    subprocess.run(words, stdin=none, stdout=none, stderr=none, check=False)
    clock, after = time.monotonic() - began, resource.getrusage(resource.RUSAGE_CHILDREN)
    return Spent(clock, after.ru_utime + after.ru_stime - before.ru_utime - before.ru_stime)


def timed(program: str | None, chosen: Sequence[Case]) -> int:
    """Prints how long the tool and perf alone take for each line. Answers how many take too long."""
    slow, most = 0, 0.0
    for case in chosen:
        words = shlex.split(case.words.removeprefix("--watchdog"))
        options = ["--watchdog"] * case.has_watchdog + (["--program", program] if program else [])
        perf = ["perf", "stat", *words]
        call = [sys.executable, os.path.join(TOOLS, "fit.py"), "-m", case.machine, *options, "--", *perf]
        own, whole = spent(perf if "--" in words else [*perf, "true"]), spent(call)
        slow += whole.clock - own.clock > MOST_TIME
        most = max(most, whole.processor)
        print(f"{whole.clock:.2f} s, {whole.processor:.2f} s of a processor, perf alone {own.clock:.2f} s: "
              f"{case.machine}: perf stat {case.words}", flush=True)
    print(f"{len(chosen)} lines, at most {most:.2f} s of a processor; {slow} take more than {MOST_TIME:.0f} s beside "
          "perf's own")
    return slow


def metric_cases(names: Iterable[str]) -> list[Case]:
    """A line for each metric that perf has for these machines."""
    found = []
    for name in names:
        with Meanings() as meanings:
            metrics = meanings.tables_of(machines.load(name)).metric_names()
        found += [Case(name, METRIC + metric, "") for metric in metrics]
    return found


def write(found: dict[tuple[str, str], str]) -> None:
    """Writes the table: each line of it with what came of it now."""
    with open(PATH, "rb") as file:
        table = tomllib.load(file)
    lines = ["# What comes of lines of `perf stat` on machines; perf_lines.py beside this says in which words."]
    for machine, outcomes in table.items():
        lines += ["", f"[{machine}]"]
        lines += [f'"{words}" = "{found.get((machine, words), text)}"' for words, text in outcomes.items()]
    with open(PATH, "w", encoding="utf-8") as file:
        file.write("\n".join(lines) + "\n")


def main() -> int:
    parser = Parser("perf_lines.py", __doc__ or "")
    parser.add_argument("machines", metavar="MACHINE", nargs="*")
    what = parser.add_mutually_exclusive_group()
    for option in ("--write", "--metrics", "--time"):
        what.add_argument(option, action="store_true")
    parser.add_argument("--jobs", type=from_one, default=os.cpu_count() or 1)
    options = parser.parse_args()
    return ended("perf_lines.py", lambda: run(options.program, options))


def run(program: str | None, options: object) -> int:
    given = vars(options)
    if not has_perf():
        raise Fault("perf 6.1 is not there; Debian has it as linux-perf")
    for name in given["machines"]:
        machines.load(name)
    chosen = metric_cases(given["machines"] or OF_METRICS) if given["metrics"] else cases()
    chosen = [case for case in chosen if case.machine in given["machines"] or not given["machines"]]
    built_at(program)
    if given["time"]:
        return int(timed(program, chosen) > 0)
    found, differ = dict[tuple[str, str], str](), 0
    totals: dict[str, collections.Counter[str]] = {}
    with ProcessPoolExecutor(given["jobs"]) as pool:
        for case, text, wrong, counts in pool.map(tried, [(program, one) for one in chosen]):
            found[case.machine, case.words] = text
            totals.setdefault(case.machine, collections.Counter()).update(counts)
            if not given["metrics"] and not given["write"] and text != case.outcome:
                wrong = [*wrong, f"came `{text}`, and the table has `{case.outcome}`"]
            differ += bool(wrong)
            for line in wrong:
                print(f"{case.machine}: perf stat {case.words}: {line}", flush=True)
    if given["write"]:
        write(found)
    for name, total in totals.items():
        print(f"{name}: " + ", ".join(f"{count} {what}" for what, count in total.items()))
    print(f"{len(chosen)} lines, {differ} differ")
    return int(differ > 0)


if __name__ == "__main__":
    sys.exit(main())
