#!/usr/bin/env python3
"""Prints what the crates' text amounts to, a number a line, so that a change of the house can be compared before and after.

Lines of sources, of definitions and of proofs that no tool writes; clauses; functions that only forward to one of the same
name; files that name the line `Reset`; statements that are proved more than once; definitions that the headline rests on.

Usage: house_counts.py    from the top of the repository
"""

import os
import re
import sys
from collections.abc import Iterator

import packages  # noqa: F401
from perfscript import command
from repeated_lemmas import MADE, repeated
from trusted import believed

CLAUSE = re.compile(r"(?m)^\s+(?:requires|ensures)\s")
FUNCTION = re.compile(r"(?ms)^(\s*)(?:pub(?:\(crate\))? )?(?:const )?fn (\w+)\b(.*?)^\1\{\n(.*?)^\1\}")
# A line of a tool, by which one can see what a new one touches.
LINE = re.compile(r"\bReset\b")


def texts(*parts: str) -> Iterator[tuple[str, str]]:
    """Each source or definition below these folders of the crates, with its path."""
    for crate in sorted(os.listdir("crates")):
        for part in parts:
            for folder, _, files in os.walk(f"crates/{crate}/{part}"):
                for name in sorted(files):
                    if name.endswith((".rt", ".antt")):
                        path = os.path.join(folder, name)
                        with open(path, encoding="utf-8") as file:
                            yield path, file.read()


def lines_of(*parts: str) -> int:
    return sum(text.count("\n") for _, text in texts(*parts) if MADE not in text)


def forwards() -> list[str]:
    """The functions whose whole body is a call of one of the same name."""
    found = []
    for path, text in texts("src"):
        for _, name, _, body in FUNCTION.findall(text):
            call = re.fullmatch(rf"\s*(?:[\w.:&\s]*?(?:\.|::)){name}(?:::<[^>]*>)?\((?:[^;{{}}]*)\)\??\s*;?\s*", body)
            if call:
                found.append(f"{path}: {name}")
    return found


def main() -> int:
    trusted, again = believed(), repeated()
    rows = [
        ("lines of src", lines_of("src")),
        ("lines of specs", lines_of("specs")),
        ("lines of proofs that no tool writes", lines_of("proofs")),
        ("clauses", sum(len(CLAUSE.findall(text)) for _, text in texts("src"))),
        ("functions that forward to the same name", len(forwards())),
        ("files of src and specs that name Reset", sum(1 for _, text in texts("src", "specs") if LINE.search(text))),
        ("files of proofs that name Reset", sum(1 for _, text in texts("proofs") if LINE.search(text))),
        ("statements proved more than once", len(again)),
        ("surplus proofs of these", sum(len(it) - 1 for it in again)),
        ("definitions that the headline rests on", len(trusted)),
        ("their lines", sum(it.lines for it in trusted)),
    ]
    for name, number in rows:
        print(f"{number:6} {name}")
    return 0


if __name__ == "__main__":
    sys.exit(command.called(__doc__, main, 0, 0))
