"""The files that `--script` and `--svg` name."""

from __future__ import annotations

import argparse

from fit.drawing import picture_of
from fit.faults import BadInput
from fit.plan import Plan
from fit.script import Script, scripts_of
from perfscript import Program


def draw(options: argparse.Namespace, program: Program, plan: Plan, script: Script | None) -> None:
    """Writes the files that the options name."""
    if script is None and (options.script is not None or options.svg is not None):
        raise BadInput("--script, --svg: Linux refuses each open, so nothing is asked")
    if script is not None and options.script is not None:
        write(options.script, script.text(), "--script")
    if options.svg is not None:
        [(unasked, _)] = scripts_of(plan, [plan.asked], asks=False)
        write(options.svg, picture_of(program, unasked), "--svg")


def write(path: str, text: str, option: str) -> None:
    """Writes a file that an option names."""
    try:
        with open(path, "w", encoding="utf-8", errors="backslashreplace") as file:
            file.write(text)
    except OSError as fault:
        raise BadInput(f"{option}: {path} can't be written: {fault.strerror}") from None
