#!/usr/bin/env python3
"""Prints the layers of the repository: the groups of crates.txt, the highest first, and what each crate is.

What a crate is says the first sentence at the head of its root file, or its first parts where they are long enough. A crate
stands on crates of its own group or of those before it alone; a crate that does not is named, with status 2.

Usage: layers.py [--write | --check]    from the top of the repository

--write puts the groups, with the names of their crates, between the two marks of docs/maintain/ARCHITECTURE.md; --check
ends with 1 where the page has others.
"""

import os
import re
import sys
import textwrap
from dataclasses import dataclass, field

import packages  # noqa: F401
from perfscript import Fault, command

LIST, PAGE = "crates.txt", "docs/maintain/ARCHITECTURE.md"
MARKS = ("<!-- layers.py writes from here -->", "<!-- to here -->")
# more words than these say what a crate is
ENOUGH = 8
LINE = re.compile(r"(\w+)[^:]*:(.*)")


@dataclass
class Group:
    """A group of crates: its heading, and the libraries of each crate, by name."""

    heading: str
    crates: dict[str, list[str]] = field(default_factory=dict)


def groups_of(text: str) -> list[Group]:
    """The groups of a list of crates, in its order."""
    groups: list[Group] = []
    for number, line in enumerate(text.splitlines(), 1):
        found = LINE.fullmatch(line)
        if line.startswith("# "):
            groups.append(Group(line[2:]))
        elif found and groups:
            groups[-1].crates[found[1]] = found[2].split()
        elif line.strip():
            raise Fault(f"{LIST}: line {number}: neither a heading nor a crate below one")
    return groups


def check_order(groups: list[Group]) -> None:
    """Raises a Fault where a crate stands on one of a later group."""
    place = {name: number for number, group in enumerate(groups) for name in group.crates}
    for number, group in enumerate(groups):
        for name, libraries in group.crates.items():
            later = [library for library in libraries if place.get(library, 0) > number]
            if later:
                raise Fault(f"{LIST}: {name} stands on {later[0]}, of a later group; move one of them")


def what_it_is(name: str) -> str:
    """What a crate is, in a few words: the start of the head of its root file."""
    paths = [f"crates/{name}/src/{root}.rt" for root in ("lib", "main")]
    path = next((path for path in paths if os.path.exists(path)), None)
    if path is None:
        raise Fault(f"{LIST}: {name} has no root file; there is no {paths[0]}")
    with open(path, encoding="utf-8") as file:
        head = " ".join(line[3:].strip() for line in file if line.startswith("//!"))
    sentence = re.split(r"\.(?: |$)", head, maxsplit=1)[0]
    parts = re.split(r"([:,;])", sentence)
    starts = ("".join(parts[:end]) for end in range(1, len(parts), 2))
    return next((start for start in starts if len(start.split()) > ENOUGH), sentence)


def described(groups: list[Group]) -> str:
    """The groups and what each crate is, the highest first."""
    parts = []
    for group in reversed(groups):
        parts += [group.heading, *(f"  {name}: {what_it_is(name)}" for name in reversed(group.crates)), ""]
    return "\n".join(parts).strip()


def layers(groups: list[Group]) -> str:
    """The groups as a page has them, the highest first."""
    rows = []
    for group in reversed(groups):
        names = ", ".join(f"`{name}`" for name in reversed(group.crates))
        rows.append(f"- **{group.heading}.** {names}")
    return "\n".join(textwrap.fill(row, 120, subsequent_indent="  ", break_on_hyphens=False) for row in rows)


def written(page: str, text: str) -> str:
    """A page with a text between its marks."""
    before, first, rest = page.partition(MARKS[0])
    _, last, after = rest.partition(MARKS[1])
    if not first or not last:
        raise Fault(f"{PAGE}: the two marks of layers.py are not there; put them where the layers belong")
    return f"{before}{first}\n\n{text}\n\n{last}{after}"


def main(*words: str) -> int:
    if words not in ((), ("--write",), ("--check",)):
        raise Fault(f"{' '.join(words)}: not known; layers.py --help has the words")
    with open(LIST, encoding="utf-8") as file:
        groups = groups_of(file.read())
    check_order(groups)
    if not words:
        print(described(groups))
        return 0
    with open(PAGE, encoding="utf-8") as file:
        page = file.read()
    wanted = written(page, layers(groups))
    if words == ("--check",):
        if wanted != page:
            print(f"{PAGE}: stale; layers.py --write brings it up to date", file=sys.stderr)
        return int(wanted != page)
    with open(PAGE, "w", encoding="utf-8") as file:
        file.write(wanted)
    return 0


if __name__ == "__main__":
    sys.exit(command.called(__doc__, main))
