#!/usr/bin/env python3
"""Refuses each request for memory of a run in turn, one number a run, and checks how the run ends.

    tools/maintain/refused_memory.py PROGRAM

PROGRAM is the built perf_run. `refused_memory.c` beside this file is compiled by `cc` and loaded into the program by
LD_PRELOAD. It numbers requests from 0, and refuses the one of a given number. Three kinds of requests are numbered,
each by itself:

    program  malloc, calloc, realloc, aligned_alloc, memalign, posix_memalign and mmap, called by the program's own code
    library  the same, called by other code, as the C library, from the program's start on
    threads  pthread_create

What the C library takes within itself, as the stack of a thread, is not numbered: there `threads` refuses the whole
start. What the kernel refuses, as a page at its first use, is not either.

The number goes up from 0 until nothing was refused. Each run in which a request was refused has to end in one of two
ways: with status 4, the whole note of no memory and nothing on standard output; or with status 0, no note and the whole
report. The run in which nothing was refused has to end in the second way. What a replay has to report is the worked
case's report. What a run by threads reports has to be what a replay of its order reports, but for the counters that
`seats` names.

Under `run` the threads take turns as they come, so the request of a number is not the same one in each run, and there
may be fewer. So each number has three runs there, and the last number is the first one that no run reached.

Prints a table: the case, the word, the kind, how many numbers there are, and how many runs with a refused request ended
in the first way and how many in the second. Ends with 1 where a run ended otherwise.
"""

import itertools
import sys
import tempfile
from collections.abc import Callable
from typing import TypeAlias

import preloaded
from perfscript import command, program_at
from perfscript.progress import each
from preloaded import Ended
from run_then_replay import with_order, without_counters

NO_MEMORY = (4, b"", b"perf_run: no memory\n")
CASES = {
    "one event is opened and read": "counts-and-reads/one-event-read",
    "a burst over several periods": "rings-and-records/burst-over-periods",
    "six inherited events on four counters": "counts-and-reads/six-inherited-events-on-four-counters",
}
ALL = [(name, "replay") for name in CASES] + [(list(CASES)[-1], "run")]
KINDS = ["program", "library", "threads"]
RUNS = {"replay": 1, "run": 3}
HEADS = ["Case", "Word", "Requests", "Numbers", "No memory", "Done"]
# a call in which the request of a number is refused, and whether its output is the whole report
Call: TypeAlias = Callable[[int], Ended]
IsWhole: TypeAlias = Callable[[bytes], bool]


def is_report(program: str, word: str, text: bytes, report: bytes, out: bytes) -> bool:
    """Whether this is a whole report of the text, which the replay of its own order gives too."""
    if word == "replay":
        return out == report
    written = out.decode("latin-1")
    again = program_at(program).call("replay", with_order(text.decode(), written.split("\n")[0]))
    same = without_counters(again.out) == without_counters(written)
    return (again.status, again.note) == (0, "") and same


def ending(ended: Ended, is_whole: IsWhole) -> str | None:
    """`no memory` or `done`, or None where a call ended in no way that it may."""
    if ended[:3] == NO_MEMORY:
        return "no memory"
    if (ended.status, ended.note) == (0, b"") and is_whole(ended.out):
        return "done"
    return None


def counts(call: Call, runs: int, is_whole: IsWhole, step: int = 1) -> tuple[list[int], list[str]]:
    """How many numbers there are, up to the first that no run reached, how many refused runs ended with no memory and
    with done, and the faults. Memory runs out only where it was refused."""
    ends: dict[int, list[Ended]] = {}
    for number in itertools.count(0, step):
        ends[number] = [call(number) for _ in range(runs)]
        if not any(ended.told for ended in ends[number]):
            break
    hows = [(number, ended, ending(ended, is_whole)) for number, own in ends.items() for ended in own]
    faults = [f"request {number}: status {ended.status}, note {ended.note!r}, output {ended.out[:80]!r}"
              for number, ended, how in hows if how is None or how == "no memory" and not ended.told]
    refused = [how for _, ended, how in hows if ended.told]
    return [number, refused.count("no memory"), refused.count("done")], faults


def row_of(program: str, library: str, name: str, word: str, kind: str,
           step: int = 1) -> tuple[list[object], list[str]]:
    """A row of the table, and the faults."""
    text, report = (preloaded.stored(CASES[name] + end) for end in (".script", ".report"))

    def call(number: int) -> Ended:
        return preloaded.call(program, [word], text, library, {"KIND": kind, "NUMBER": number})

    found, faults = counts(call, RUNS[word], lambda out: is_report(program, word, text, report, out), step)
    return [name, f"`{word}`", kind, *found], [f"{name}, {word}, {kind}, {fault}" for fault in faults]


def main(path: str) -> int:
    program, rows, faults = program_at(path).path, list[list[object]](), list[str]()
    with tempfile.TemporaryDirectory() as folder:
        library = preloaded.library_of("refused_memory", folder)
        for (name, word), kind in each("rows", itertools.product(ALL, KINDS), len(ALL) * len(KINDS)):
            row, own = row_of(program, library, name, word, kind)
            rows.append(row)
            faults += own
    return preloaded.printed(HEADS, rows, faults)


if __name__ == "__main__":
    sys.exit(command.called(__doc__, main, 1, 1))
