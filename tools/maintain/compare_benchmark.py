#!/usr/bin/env python3
"""Compares what two builds of the program cost, as those of two commits, and prints the ratios.

Both are measured in turn, 15 times each. Processor time is the median; of memory the greatest peak counts. Beside a
text that is read stands `wc -w` of it; `run` stands beside the `replay` of the order that it printed, by the clock, and
the smallest script beside true(1).

Usage: compare_benchmark.py BEFORE AFTER
  BEFORE, AFTER  built programs, as crates/perf_run/out/perf_run; `rt run` in crates/perf_run leaves one there
"""

import sys
from collections.abc import Sequence
from statistics import median
from typing import NamedTuple

import measuring
import read_benchmark
import replay_benchmark
from perfscript import Draft, Fault, command
from perfscript.limits import MOST_BYTES, MOST_KINDS, MOST_LINES
from perfscript.progress import each
from run_then_replay import with_order, without_counters
from start_benchmark import SMALLEST

RUNS = 15
LINES = 16000


class Task(NamedTuple):
    """What is measured: the program's words, the text that it reads, and how it has to end."""

    name: str
    words: Sequence[str]
    text: str
    status: int = 0
    note: str = ""


class Costs(NamedTuple):
    """Medians of the processor time and of the time by the clock in seconds, the greatest memory in bytes, and the
    median of page faults."""

    processor: float
    seconds: float
    memory: int
    faults: float


def work_lines() -> str:
    """A script of nearly MOST_BYTES bytes of work lines, all of them long. Its order is one act short."""
    kinds = [f"kind-{number:02}" for number in range(MOST_KINDS)]
    head = "perf 1\nmachine cpus=1 counters=1\n" + "".join(f"kind {kind} mask=1\n" for kind in kinds) + "processor 0\n"
    work = "work 1000 user " + " ".join(f"{kind}=123456" for kind in kinds) + "\n"
    count = min(MOST_LINES, (MOST_BYTES - len(head) - len("order\nend\n")) // (len(work) + len(" p0")))
    return head + work * count + "order" + " p0" * (count - 1) + "\nend\n"


def refused_reads() -> Draft:
    """Reads of an event that is closed."""
    head = "perf 1\nmachine cpus=1 counters=1\nkind cycles mask=1\n"
    lines = ["open 0 kind=cycles task=all cpu=0", "close 0"] + ["read 0"] * LINES
    return replay_benchmark.script_of(head, {}, lines, ["t0"] * len(lines))


def group_reads() -> Draft:
    """Reads of a group of eight, with all that a read can have."""
    head = "perf 1\nmachine cpus=1 counters=8\nkind cycles mask=ff\n"
    opens = [f"open {e} kind=cycles task=all cpu=0{' leader=0' * (e > 0)} format=1f" for e in range(8)]
    lines = [*opens, *["read 0"] * LINES]
    return replay_benchmark.script_of(head, {}, lines, ["t0"] * len(lines))


def turning() -> Draft:
    """One processor with 200 events on four counters, and a tick each ten lines."""
    head = "perf 1\nmachine cpus=1 counters=4\nkind cycles mask=f\n"
    opens = [f"open {e} kind=cycles task=all cpu=0 format=3" for e in range(200)]
    lines = ["tick" if i % 10 == 9 else "work 100 user cycles=50" for i in range(LINES)]
    return replay_benchmark.script_of(head, {0: lines}, opens, ["t0"] * len(opens) + ["p0"] * len(lines))


def short_of_one(text: str) -> tuple[str, str]:
    """The note with which a text is refused whose order is one act short."""
    return text, f"perf_run: line {text.count(chr(10))}: ORDER"


def tasks(program: str) -> list[Task]:
    """All that is measured; the program makes the script of 1,000 rounds."""
    order, order_note = short_of_one(read_benchmark.text_of(read_benchmark.MOST_ACTS))
    work, work_note = short_of_one(work_lines())
    made = replay_benchmark.made(program).text()
    return [
        Task("the script of 1,000 rounds", ["replay"], made),
        Task("the same by threads", ["run"], made),
        Task("an order of 4 MiB, read", ["replay"], order, 1, order_note),
        Task("4 MiB of work lines, read", ["replay"], work, 1, work_note),
        Task("a table of 16,000 refused lines", ["stat"], refused_reads().text()),
        Task("16,000 reads of a group of 8", ["replay"], group_reads().text()),
        Task("beside 1 counting event", ["replay"], replay_benchmark.counting(1).text()),
        Task("beside 200 counting events", ["replay"], replay_benchmark.counting(200).text()),
        Task("200 events and ticks", ["replay"], turning().text()),
        Task("the same by threads", ["run"], turning().text()),
        Task("the smallest script", ["replay"], SMALLEST),
    ]


def measured(program: str, task: Task) -> measuring.Cost:
    return measuring.cost(program, task.words, task.text, task.status, task.note)


def costs_of(runs: Sequence[measuring.Cost]) -> Costs:
    """The costs of some runs."""
    times = median(run.processor for run in runs), median(run.seconds for run in runs)
    return Costs(*times, max(run.peak for run in runs), median(run.faults for run in runs))


def in_turn(programs: Sequence[str], task: Task) -> list[Costs]:
    """The costs of the task for each program, all of them measured in turn."""
    runs = [[measured(program, task) for program in programs] for _ in range(RUNS)]
    return [costs_of(of_one) for of_one in zip(*runs)]


def by_threads(program: str, text: str) -> float:
    """How much longer a run by threads takes than a replay of the order that it printed: the median of pairs, whose
    reports have to be the same."""
    ratios = []
    for _ in range(RUNS):
        run, report = measuring.printed(program, ["run"], text)
        again, same = measuring.printed(program, ["replay"], with_order(text, report.split("\n")[0]))
        if without_counters(report) != without_counters(same):
            raise Fault("a run and the replay of its order report differently")
        ratios.append(run.seconds / again.seconds)
    return median(ratios)


def row(task: Task, before: Costs, after: Costs) -> str:
    """What changed for a task."""
    times = f"{1000 * before.processor:7.2f} ms {1000 * after.processor:7.2f} ms {after.processor / before.processor:5.2f}"
    memory = f"{before.memory / 2**20:6.1f} MiB {after.memory / 2**20:6.1f} MiB {after.memory / before.memory:5.2f}"
    return f"{task.name:<33}{times}  {memory}"


def beside(name: str, ratio: float, note: str) -> str:
    return f"{name:<60}{ratio:6.2f}  {note}"


def main(before: str, after: str) -> None:
    every = tasks(after)
    found = [in_turn((before, after), task) for task in each("tasks", every, len(every))]
    print(f"{'':<33}{'processor time, before, after, ratio':<30}  memory, before, after, ratio")
    for task, both in zip(every, found):
        print(row(task, *both))
    own = [costs for _, costs in found]
    for task, costs in ((every[at], own[at]) for at in (0, 2, 3)):
        words = costs_of([measuring.cost("env", ["LC_ALL=C", "wc", "-w"], task.text) for _ in range(RUNS)])
        print(beside(f"{task.name}, beside `wc -w`", costs.processor / words.processor, "of processor time"))
    for at, name in ((1, "the script of 1,000 rounds"), (9, "200 events and ticks")):
        print(beside(f"{name}, `run` beside `replay`", by_threads(after, every[at].text), "by the clock"))
    print(beside("200 counting events beside 1", own[7].processor / own[6].processor, "of processor time"))
    nothing = costs_of([measuring.cost("true", []) for _ in range(RUNS)])
    faults = f"of processor time; {own[10].faults:.0f} page faults, {nothing.faults:.0f}"
    print(beside("the smallest script beside true(1)", own[10].processor / nothing.processor, faults))


if __name__ == "__main__":
    sys.exit(command.called(__doc__, main, 2, 2))
