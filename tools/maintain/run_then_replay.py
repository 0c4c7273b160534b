#!/usr/bin/env python3
"""Runs scripts by threads, and replays each with the order that its report names.

    tools/maintain/run_then_replay.py PROGRAM SCRIPT..

PROGRAM is the built perf_run. Each script is given to `run`; then the order that the report's first line names is put
in place of the script's own, and that text is given to `replay`. Both reports have to be the same, byte for byte, but
for the counters that `seats` names, where each choice that serves the same events is right. A text that `run`
refuses has to be refused by `replay` with the same note, unless `replay` refuses it for its order. Ends with 1 where
one differs.
"""

import re
import sys

import packages  # noqa: F401
from perfscript import Program, command, lines_of, program_at
from perfscript.progress import each


def with_order(text: str, order: str) -> str:
    """The script with this order line in place of its own order lines."""
    lines = [line.text for line in lines_of(text) if line.head != "order"]
    place = max(number for number, line in enumerate(lines) if line == "end")
    return "\n".join(lines[:place] + ([order] if order != "order" else []) + lines[place:]) + "\n"


def without_counters(report: str) -> str:
    """The report with the counters left out that its `seats` lines name."""
    return re.sub(r"(?m)^(\S+ seats)(.*)$", lambda seats: seats[1] + re.sub(r"=\d+", "", seats[2]), report)


def differs(program: Program, text: str) -> str | None:
    """Says how a run and its replay differ, or None."""
    run = program.call("run", text)
    if run.status != 0:
        again = program.call("replay", text)
        same = run == again or again.note.endswith(": ORDER")
        return None if same else f"run ended with {run.status} {run.note!r}, replay with {again.status} {again.note!r}"
    again = program.call("replay", with_order(text, run.out.split("\n")[0]))
    if again.status != 0:
        return f"replay of the run's order ended with {again.status} {again.note!r}"
    return None if without_counters(run.out) == without_counters(again.out) else "the reports differ"


def main(path: str, *scripts: str) -> int:
    program, texts, failures = program_at(path), [command.text_of(script) for script in scripts], 0
    for script, text in each("scripts", zip(scripts, texts), len(scripts)):
        how = differs(program, text)
        if how:
            failures += 1
            print(f"{script}: {how}")
    print(f"{len(scripts)} scripts, {failures} failures")
    return 1 if failures else 0


if __name__ == "__main__":
    sys.exit(command.called(__doc__, main, 2))
