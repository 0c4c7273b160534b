#!/usr/bin/env python3
"""Prints each file of definitions that public clauses cite, with the first sentence of what it says at its head.

A public clause is a `requires` or `ensures` of a call that the crate's lib.rt hands out, as itself or by its type or
trait, or the invariant of such a type. It cites the files from which the names in it are imported. The files of types
that are declared in Rust are not asked for, nor those of the toolchain's libraries.

Usage: cited_definitions.py    from the top of the repository. Ends with 1 where a file says nothing at its head.
"""

import os
import re
import sys
from collections.abc import Collection, Iterator
from itertools import takewhile
from pathlib import Path

import packages  # noqa: F401
from perfscript import command
from specs import imports_of

NAME = r"[A-Za-z_][A-Za-z_0-9]*"
CLAUSE = re.compile(r"\s+(?:requires|ensures|ghost invariant =)\s")
BLOCK = re.compile(rf"(?:pub )?(?:unsafe )?(?:impl|trait)(?:<.*?>)? (?:{NAME}(?:<.*?>)? for )?&?(?:mut )?({NAME})")
CALL = re.compile(rf"(\s*)(pub )?(?:const )?fn ({NAME})")


def handed_out(crate: str) -> set[str] | None:
    """The names that a crate's lib.rt hands out: None for a program, which hands out nothing."""
    path = Path(f"crates/{crate}/src/lib.rt")
    if not path.exists():
        return None
    text = path.read_text("utf-8")
    lists = re.findall(rf"pub use [a-z_0-9:]+::(?:\{{([^}}]*)\}}|({NAME}))", text)
    names = {name.strip().split(" as ")[0] for some, one in lists for name in (some or one).split(",") if name.strip()}
    return names | set(re.findall(rf"pub (?:struct|enum|trait|const fn|fn) ({NAME})", text))


def files_by_name(text: str) -> dict[str, str]:
    """The file of definitions of each name that a source file imports, an alias's too."""
    names, files = imports_of(text)
    found = {name: key[:2] for name, key in names.items() if key[0] != "std"} | files
    return {name.strip("◌"): f"crates/{crate}/specs/{file}.antt" for name, (crate, file) in found.items()}


def blocks(text: str, names: Collection[str]) -> Iterator[tuple[str, bool]]:
    """The lines of a source file, each with whether it is of something that the crate hands out."""
    block, is_public = None, False
    for line in text.splitlines():
        if line and not line[0].isspace() and line[0] not in ")}{":
            opened = BLOCK.match(line)
            block = opened[1] if opened else None
            is_public = block in names
        call = CALL.match(line)
        if call:
            is_public = block in names if block else call[3] in names
        yield line, is_public


def public_clauses(text: str, names: Collection[str]) -> Iterator[str]:
    """The clauses of a source file that a caller of the crate sees. A clause ends where its brackets do."""
    clause = ""
    for line, is_public in blocks(text, names):
        if clause or (is_public and CLAUSE.match(line)):
            clause += line
            if clause.count("{") == clause.count("}"):
                yield clause
                clause = ""


def cited(crate: str, names: Collection[str]) -> set[str]:
    """The files of definitions that a crate's public clauses cite."""
    found = set()
    for path in Path(f"crates/{crate}/src").rglob("*.rt"):
        text = path.read_text("utf-8")
        files = files_by_name(text)
        for clause in public_clauses(text, names):
            found |= {files[word] for word in re.findall(NAME, clause) if word in files}
    return found


def head(text: str) -> str:
    """The first sentence of the comment at a file's head, after the line that trusted.py writes; empty where there is
    none."""
    lines = takewhile(lambda line: line.startswith("-- "), text.splitlines())
    said = " ".join(line.removeprefix("-- ") for line in lines if line not in ("-- believed", "-- inner"))
    return re.split(r"(?<=\.) (?=[A-Z])", said)[0]


def all_cited() -> list[str]:
    """The files of definitions that public clauses of any crate cite."""
    handed = {crate: handed_out(crate) for crate in os.listdir("crates")}
    return sorted({file for crate, names in handed.items() if names is not None for file in cited(crate, names)})


def main() -> int:
    silent = []
    for path in all_cited():
        said = head(Path(path).read_text("utf-8"))
        print(f"{path}: {said}")
        silent += [] if said else [path]
    for path in silent:
        print(f"{path}: says nothing at its head; write there what it defines, and after what", file=sys.stderr)
    return 1 if silent else 0


if __name__ == "__main__":
    sys.exit(command.called(__doc__, main, 0, 0))
