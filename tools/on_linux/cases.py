"""The tool's own list of cases, in groups: those of the files of cases/, and sweeps.

cases/README.md says how a case is written.
"""

import re
import tomllib
from collections.abc import Mapping
from itertools import chain
from pathlib import Path
from typing import Any

from on_linux import sweeps
from on_linux.kernel import PAGE
from on_linux.scripts import Case, Cases, script
from perfscript import Fault

FOLDER = Path(__file__).with_name("cases")
FULL = re.compile(r"(?:(\d+)\*)?full(\d+)([+-]\d+)?")
WORDS = {"cpus", "tasks", "rings", "bytes", "kinds", "p0", "p1", "opens", "t0", "order", "text", "options", "shows"}


def all_cases() -> list[Case]:
    return [*chain(
        sweeps.one_reason(), of_file("opens"), sweeps.two_reasons(), of_file("mappings"), sweeps.formats_alone(),
        sweeps.formats_of_group(), sweeps.sizes(), of_file("commands_twice"), of_file("commands"), of_file("counting"),
        sweeps.families(), of_file("forks"), of_file("generations"), sweeps.layouts(), sweeps.trailers(),
        sweeps.full_rings(), of_file("full_rings"), of_file("sampling"), of_file("copies"), of_file("differences"),
        of_file("no_counterpart"), of_file("partly"),
    )]


def of_file(file: str) -> Cases:
    """The cases of a file. What stands above them holds for each that does not say otherwise."""
    path = FOLDER / f"{file}.toml"
    head = tomllib.loads(FULL.sub(in_numbers, path.read_text("utf-8")))
    group, cases = head.pop("group"), head.pop("cases")
    for name, own in cases.items():
        given = head | own
        if given.keys() - WORDS:
            raise Fault(f"{path}: {name}: a case has no {', '.join(sorted(given.keys() - WORDS))}")
        yield Case(group, name, given.get("text") or text_of(given), given.get("options", ()), given.get("shows", ()))


def in_numbers(found: re.Match[str]) -> str:
    """`2*full24+60`: twice as many records of 24 bytes as a ring of one page holds, and 60."""
    times, size, more = found.groups()
    return str(int(times or 1) * ((PAGE - 1) // int(size)) + int(more or 0))


def text_of(given: Mapping[str, Any]) -> str:
    """The script of a case."""
    work = {cpu: lines(given[f"p{cpu}"]) for cpu in (0, 1) if f"p{cpu}" in given}
    tool = lines(given.get("opens", "")) + lines(given.get("t0", ""))
    head = {key: given[key] for key in ("cpus", "tasks", "kinds") if key in given}
    return script(tool, work, given.get("order", ""), rings=given.get("bytes", [PAGE] * given.get("rings", 0)), **head)


def lines(text: str) -> list[str]:
    return re.split("; |\n", text.strip()) if text else []
