#!/usr/bin/env python3
"""Measures how long the program takes to read a script of the greatest length, 4194304 bytes, and its peak memory.

The text is a script, and nearly all of it is order lines of acts of processor 0. That processor has one line, so the
order is not complete: the program reads all of the text, finds that, and answers ORDER at the last line.

Usage: read_benchmark.py PROGRAM
  PROGRAM  the built program, crates/perf_run/out/perf_run; `rt run` in crates/perf_run leaves it there
"""

import sys

import measuring
from perfscript import command
from perfscript.limits import MOST_BYTES
from perfscript.progress import each

HEAD, ORDER, ACT, END = "perf 1\nmachine cpus=1 counters=10\nprocessor 0\ntick\n", "order{}\n", " p0", "end\n"
# the acts of one order line that fills the text
MOST_ACTS = (MOST_BYTES - len(HEAD) - len(END) - len("order\n")) // len(ACT)
RUNS = 3


def text_of(acts_per_line: int) -> str:
    """A script of MOST_BYTES bytes whose order lines, but for the last, have so many acts."""
    size = MOST_BYTES - len(HEAD) - len(END)
    full = ORDER.format(ACT * acts_per_line)
    count, left = divmod(size, len(full))
    last = ORDER.format(ACT * ((left - len("order\n")) // len(ACT))) if left else ""
    text = HEAD + full * count + last + END
    if len(text) != MOST_BYTES:
        raise ValueError(f"{len(text)} bytes")
    return text


def main(program: str) -> None:
    lengths = (1, 1000, MOST_ACTS)
    for acts_per_line in each("texts", lengths, len(lengths)):
        text = text_of(acts_per_line)
        lines = text.count("\n")
        seconds, peak = measuring.best(RUNS, program, ["replay"], text, 1, f"perf_run: line {lines}: ORDER")
        best = f"{seconds:.2f} s, the best of {RUNS}; peak memory {peak:.1f} MiB"
        print(f"{len(text)} bytes, {lines} lines, {text.count(ACT)} acts: {best}")


if __name__ == "__main__":
    sys.exit(command.called(__doc__, main, 1, 1))
