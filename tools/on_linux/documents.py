"""Reads what docs/LINUX.md says of each known difference, and writes into docs what the last run showed."""

import re
from collections.abc import Mapping
from pathlib import Path
from typing import NamedTuple, TypeAlias

from perfscript import Fault

FOLDER = Path(__file__).resolve().parent
RULES, PAGE = (FOLDER.parents[1] / "docs" / name for name in ("RULES.md", "LINUX.md"))
# the page in docs/; where the tools are installed, setup.py has put a copy beside them
LINUX = PAGE if PAGE.exists() else FOLDER / "LINUX.md"
ROW = re.compile(r"^\| `([a-z-]+)` \|(.*)\|$", re.M)
STAND_IN, LAST_RUN = "## Where the stand-in differs", "## The last run"
# the place of the column Linux in the table of docs/RULES.md, from the end: the column of cases stands last
COLUMN = -2


class Row(NamedTuple):
    """A known difference; `known_from` is the cell that names the versions."""

    name: str
    known_from: str
    is_of_stand_in: bool

    @property
    def versions(self) -> set[str]:
        """The versions without their last number."""
        return set(re.findall(r"(\d+\.\d+)(?:\.\d+)?", self.known_from))


Rows: TypeAlias = Mapping[str, Row]


def rows(text: str) -> dict[str, Row]:
    """The rows of the tables of differences, by their names."""
    front, _, behind = text.split(LAST_RUN)[0].partition("\n" + STAND_IN)
    found: dict[str, Row] = {}
    for part in (front, behind):
        found |= {name: Row(name, cells.split("|")[-1].strip(), part is behind) for name, cells in ROW.findall(part)}
    return found


def known_rows() -> Rows:
    return rows(LINUX.read_text("utf-8"))


def rule_names(text: str) -> list[str]:
    """The first column of the table of docs/RULES.md."""
    parts = text.split("\n| Rule |", 1)
    if len(parts) != 2:
        raise Fault("docs/RULES.md: no table with a column Rule")
    return [line.split("|")[1].strip() for line in parts[1].splitlines()[2:] if line.startswith("| ")]


def with_column(text: str, cells: Mapping[str, str]) -> str:
    """The text of docs/RULES.md with what the run says of each rule in the column Linux."""
    front, table = text.split("\n| Rule |", 1)
    lines = table.split("\n")
    if lines[0].split("|")[COLUMN - 1].strip() != "Linux":
        raise Fault("docs/RULES.md: the column before the last is not Linux")
    for place, line in enumerate(lines[2:], 2):
        parts = line.split("|")
        if line.startswith("| ") and parts[1].strip() in cells:
            parts[COLUMN - 1] = f" {cells[parts[1].strip()]} "
            lines[place] = "|".join(parts)
    return front + "\n| Rule |" + "\n".join(lines)


def with_last_run(text: str, run: str) -> str:
    """The text of docs/LINUX.md with this as what the last run showed."""
    if LAST_RUN not in text:
        raise Fault(f"docs/LINUX.md: no heading {LAST_RUN!r}")
    return text.split(LAST_RUN)[0] + LAST_RUN + "\n\n" + run + "\n"
