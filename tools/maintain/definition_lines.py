#!/usr/bin/env python3
"""Writes into docs/maintain/DEFINITIONS.md and docs/RULES.md the line at which each definition and each call stands.

The pages name a definition or a call as `NAME`, `crates/FILE:LINE`. This looks the last part of NAME up in FILE and
writes its line. It is run by hand after definitions moved, from the top of the repository, and says which names it did
not find. It also says which worked cases the rows of docs/RULES.md name that are not there.

Usage: definition_lines.py [--check]    with --check nothing is written, and the status is 1 where a line is wrong
"""

import os
import re
import sys
from pathlib import Path

import packages  # noqa: F401
from perfscript import Fault, command

PAGES = ("docs/maintain/DEFINITIONS.md", "docs/RULES.md")
CASES = "crates/worked_cases/data"
PLACE = re.compile(r"`([^`]+)`, `(crates/[^`:]+):(\d+)`")
CASE = re.compile(r"\| `([a-z-]+/[a-z0-9-]+)` (?=\|)")


def line_of(path: str, name: str) -> int | None:
    """The line, from 1, at which a file declares a name; None where it doesn't, or is not there."""
    if not os.path.exists(path):
        return None
    name = re.escape(name.split("::")[-1])
    words = r"(?:pub )?(?:unfoldable |abbrev |const )?(?:pub )?(?:record |data |struct |enum |trait )?"
    declared = re.compile(rf"{words}{name}(?= |$)|pub (?:const )?fn {name}\b")
    lines = Path(path).read_text("utf-8").split("\n")
    # Those that share parameters stand indented below them, and methods in their impl.
    for indent in ("", "  ", "    "):
        for number, line in enumerate(lines, 1):
            if line.startswith(indent) and declared.match(line[len(indent):]) and re.search(r" : |[{(]", line):
                return number
    return None


def with_lines(page: str) -> tuple[str, list[str]]:
    """A page with the line of each definition, and the names that were not found."""
    missing = []

    def placed(match: re.Match[str]) -> str:
        name, path, _ = match.groups()
        number = line_of(path, name)
        if number is None:
            missing.append(f"{name} in {path}")
            return match.group(0)
        return f"`{name}`, `{path}:{number}`"

    return PLACE.sub(placed, page), missing


def main(*words: str) -> int:
    if words not in ((), ("--check",)):
        raise Fault(f"{words[0]}: not known; definition_lines.py --help has the words")
    is_check, faults = bool(words), 0
    for path in PAGES:
        page = Path(path).read_text("utf-8")
        written, missing = with_lines(page)
        missing += [f"case {name}" for name in CASE.findall(page) if not os.path.exists(f"{CASES}/{name}.script")]
        for name in missing:
            print(f"{path}: not found: {name}", file=sys.stderr)
        faults += len(missing) + (is_check and written != page)
        if not is_check:
            Path(path).write_text(written, "utf-8")
    return 1 if faults else 0


if __name__ == "__main__":
    sys.exit(command.called(__doc__, main))
