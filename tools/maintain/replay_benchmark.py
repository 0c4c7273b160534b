#!/usr/bin/env python3
"""Measures how long the program takes for a whole replay beside reading the same text alone, and its peak memory.

A script is read alone where its order is one act short: the program reads all of the text, finds that, and answers
ORDER at the last line. The script that the program makes of 1,000 rounds is replayed too, and run by threads, beside
`make 1000`, which makes it, does its order and sums up its report.

Usage: replay_benchmark.py PROGRAM
  PROGRAM  the built program, crates/perf_run/out/perf_run; `rt run` in crates/perf_run leaves it there
"""

import os
import statistics
import sys
from collections.abc import Mapping, Sequence

import measuring
from packages import DATA
from perfscript import Draft, Script, command, program_at
from perfscript.progress import Progress

RUNS = 5
LINES = 16000
WORK_LINES = 16000


def script_of(head: str, cpus: Mapping[int, list[str]], tool: list[str], order: Sequence[str]) -> Draft:
    """A script with these lines of each processor and of tool 0, in this order."""
    return Draft(head.splitlines(), {**{f"p{cpu}": lines for cpu, lines in cpus.items()}, "t0": tool}, [], list(order))


def small() -> Draft:
    """One processor with two counters, three events in turn, work and ticks."""
    head = "perf 1\nmachine cpus=1 counters=2\nkind cycles mask=3\n"
    opens = [f"open {e} kind=cycles task=all cpu=0 format=3" for e in range(3)]
    reads = [f"read {e}" for e in range(3)]
    count = LINES - len(opens) - len(reads)
    lines = ["tick" if i % 4 == 3 else "work 100 user cycles=50" for i in range(count)]
    return script_of(head, {0: lines}, opens + reads, ["t0"] * len(opens) + ["p0"] * count + ["t0"] * len(reads))


def large() -> Draft:
    """Eight processors, 64 tasks, 200 events, work with ticks and switches."""
    head = "perf 1\nmachine cpus=8 counters=4\nkind cycles mask=f\nkind misses mask=3\n"
    head += "".join(f"task {t}\n" for t in range(64))
    opens = [f"open {e} kind={'misses' if e % 3 else 'cycles'} task={e % 64} cpu=any format=3" for e in range(168)]
    opens += [f"open {168 + e} kind=cycles task=all cpu={e % 8} format=3" for e in range(32)]
    reads = [f"read {e}" for e in range(200)]
    each = (LINES - len(opens) - len(reads)) // 8
    work, cpus = "work 100 user cycles=50 misses=5", dict[int, list[str]]()
    for cpu in range(8):
        others = {0: f"switch {cpu * 8}", 4: "tick"}
        cpus[cpu] = [f"switch {cpu * 8 + i // 8 % 8}" if i % 8 == 0 else others.get(i % 8, work) for i in range(each)]
    order = ["t0"] * len(opens) + [f"p{cpu}" for cpu in range(8)] * each + ["t0"] * len(reads)
    return script_of(head, cpus, opens + reads, order)


def copies(tasks: int) -> Draft:
    """Tasks that are forked, work and exit, with 64 copies each."""
    head = "perf 1\nmachine cpus=1 counters=4\nkind cycles mask=f\ntask 0\n"
    opens = [f"open {e} kind=cycles task=0 cpu=any format=3 flags=inherit" for e in range(64)]
    reads = [f"read {e}" for e in range(64)]
    lines = ["switch 0"] + [f"fork {t}" for t in range(1, tasks + 1)]
    for t in range(1, tasks + 1):
        lines += [f"switch {t}", "work 100 user cycles=50", "exit"]
    return script_of(head, {0: lines}, opens + reads, ["t0"] * len(opens) + ["p0"] * len(lines) + ["t0"] * len(reads))


def sampling() -> Draft:
    """Four processors with a ring and an event each; each stretch of work sends a record, and before each eighth the
    ring's tail is seen at its head."""
    head = "perf 1\nmachine cpus=4 counters=2\nkind cycles mask=3\n"
    head += "".join(f"ring {cpu} bytes=4096\n" for cpu in range(4))
    tool = []
    for cpu in range(4):
        tool += [f"open {cpu} kind=cycles task=all cpu={cpu} period=1000 sample=7", f"map {cpu} {cpu}"]
    cpus, order = {cpu: ["work 100 user ip=401000 cycles=1000"] * (LINES // 4) for cpu in range(4)}, ["t0"] * len(tool)
    for i in range(LINES // 4):
        for cpu in range(4):
            order += [f"s{cpu}={32 * i}"] * (i % 8 == 0) + [f"p{cpu}"]
    return script_of(head, cpus, tool, order)


def counting(events: int) -> Draft:
    """Work on one processor, of some length, beside a number of events that count it: four of a hardware kind, the
    others clocks."""
    head = "perf 1\nmachine cpus=1 counters=4\nkind cycles mask=f\n"
    opens = [f"open {e} kind={'cycles' if e < 4 else 'task-clock'} task=all cpu=0 format=3" for e in range(events)]
    return script_of(head, {0: ["work 100 user cycles=50"] * WORK_LINES}, opens, ["t0"] * events + ["p0"] * WORK_LINES)


def stored(name: str) -> Draft:
    """A worked case."""
    return Draft.of(Script(command.text_of(os.path.join(DATA, name + ".script"))))


def made(program: str) -> Draft:
    """The script of 1,000 rounds."""
    return Draft.of(Script(program_at(program).outputs([("make 1000 script", "")])[0]))


def processor_time(program: str, text: str) -> float:
    """The median processor time of replays, in seconds."""
    return statistics.median(measuring.cost(program, ["replay"], text).processor for _ in range(RUNS))


def beside_counting(program: str, progress: Progress) -> None:
    """Work lines beside more and more counting events, with the time of a start taken off."""
    start = processor_time(program, "perf 1\nmachine cpus=1 counters=1\nend\n")
    first = 0.0
    for events in (1, 16, 64, 200):
        spent = processor_time(program, counting(events).text()) - start
        progress.step()
        first = first or spent
        times = f"{1000 * spent:.1f} ms of processor time, {spent / first:.2f} times that beside 1; median of {RUNS}"
        print(f"{WORK_LINES} work lines beside {events} counting events: {times}")


def beside_reading(program: str, name: str, draft: Draft) -> None:
    """A whole replay beside reading the same text, whose order is then one act short."""
    whole, peak = measuring.best(RUNS, program, ["replay"], draft.text())
    short = Draft(draft.head, draft.lines, draft.readers, draft.order[:-1]).text()
    note = f"perf_run: line {len(short.splitlines())}: ORDER"
    read, _ = measuring.best(RUNS, program, ["replay"], short, 1, note)
    times = f"reading {1000 * read:.1f} ms, replay {1000 * whole:.1f} ms, {whole / read:.1f} times"
    print(f"{name}: {len(draft.order)} acts; {times}; {peak:.1f} MiB; the best of {RUNS}")


def main(program: str) -> None:
    table = (
        ("1 processor, 3 events", small()),
        ("8 processors, 200 events", large()),
        ("2,000 copies", copies(31)),
        ("4,000 copies", copies(62)),
        ("copies-full", stored("tasks-and-copies/copies-full")),
        ("16,000 records", sampling()),
        ("the script of 1,000 rounds", made(program)),
    )
    with Progress("measurements", len(table) + 6) as progress:
        for name, draft in table:
            beside_reading(program, name, draft)
            progress.step()
        made_text = table[-1][1].text()
        for name, words in (("the script of 1,000 rounds, run by threads", "run"), ("make 1000", "make 1000")):
            seconds, peak = measuring.best(RUNS, program, words.split(), made_text if words == "run" else "")
            print(f"{name}: {1000 * seconds:.1f} ms; {peak:.1f} MiB; the best of {RUNS}")
            progress.step()
        beside_counting(program, progress)


if __name__ == "__main__":
    sys.exit(command.called(__doc__, main, 1, 1))
