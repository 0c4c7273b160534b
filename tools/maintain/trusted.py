#!/usr/bin/env python3
"""Says which definitions must be believed by a reader of the headline, the contract of `perf_main`, and which more by
a reader of the contract of `live_main`.

It walks from the clauses of each call to each definition that they name, and on to those that these name. It prints
them in an order in which they can be read, each behind those that it names, with the lines that each has.

Usage: trusted.py [--table | --write | --check]    from the top of the repository

--table prints the table of docs/maintain/DEFINITIONS.md, a row a file, those to read first in bold. --write puts it
there, between its two marks, and how many definitions there are into docs/maintain/PROOF.md likewise; and it writes the
first line of each file of definitions: `-- believed` where one of the two rests on one of its definitions, else
`-- inner`. --check ends with 1 where a page or a file has another, and names it.
"""

import os
import re
import sys

import packages  # noqa: F401
from perfscript import Fault, command
from specs import Definition, Key, all_definitions, cited, imports_of

PAGE, COUNT_PAGE = "docs/maintain/DEFINITIONS.md", "docs/maintain/PROOF.md"
BELIEVED, INNER = "-- believed\n", "-- inner\n"
MARKS = ("<!-- trusted.py writes from here -->", "<!-- to here -->")
SOURCE, CALL = "crates/perf_top/src/lib.rt", "perf_main"
SESSION_SOURCE, SESSION_CALL = "crates/live_session/src/talking.rt", "live_main"
# the files to read first: what the call promises, what is on, what is counted and answered, and which orders there are
FIRST = {
    "perf_top": ("Outcome",),
    "script_spec": ("Texts",),
    "stage_spec": (
        *("Order", "Stage", "History", "Effective", "Verdict", "Rules", "Fits", "Settle"),
        *("Shares", "Families", "Sums", "Reading", "Replies"),
    ),
    "report_spec": ("Answers",),
}
FIRST_PATHS = {f"crates/{crate}/specs/{name}.antt" for crate, names in FIRST.items() for name in names}


def clauses_of(path: str, call: str) -> tuple[str, str]:
    """A source file, and the text of the clauses of one of its calls."""
    text = read(path)
    found = re.search(rf"(?ms)^pub fn {call}\b.*?\) -> \w+\n(.*?)^\{{", text)
    if not found:
        raise Fault(f"{path}: no call {call}; name the call in trusted.py anew")
    return text, found[1]


def reached(definitions: dict[Key, Definition], first: list[Key]) -> list[Definition]:
    """The definitions that these lead to, each behind those that it names."""
    done: dict[Key, None] = {}

    def visit(start: Key) -> None:
        waiting = [(start, iter(definitions[start].cites))]
        under = {start}
        while waiting:
            key, rest = waiting[-1]
            following = next((it for it in rest if it not in done and it not in under), None)
            if following is None:
                waiting.pop()
                done[key] = None
            else:
                under.add(following)
                waiting.append((following, iter(definitions[following].cites)))

    for key in first:
        if key in definitions and key not in done:
            visit(key)
    return [definitions[key] for key in done]


def rests_on(source: str, call: str) -> list[Definition]:
    """What the contract of a call rests on, in an order in which it can be read."""
    text, clauses = clauses_of(source, call)
    return reached(all_definitions(), cited(clauses, *imports_of(text)))


def believed() -> list[Definition]:
    """What the headline rests on, in an order in which it can be read."""
    return rests_on(SOURCE, CALL)


def believed_of_sessions(found: list[Definition]) -> list[Definition]:
    """What a session's contract rests on beside these."""
    known = {(it.path, it.name) for it in found}
    return [it for it in rests_on(SESSION_SOURCE, SESSION_CALL) if (it.path, it.name) not in known]


def by_file(found: list[Definition]) -> dict[str, list[Definition]]:
    """The definitions of each file, in the order in which the files are first needed."""
    files: dict[str, list[Definition]] = {}
    for it in found:
        files.setdefault(it.path, []).append(it)
    return files


def counted(found: list[Definition]) -> str:
    """How many definitions there are, with how many lines, in how many files."""
    lines = sum(it.lines for it in found)
    return f"{len(found)} definitions, {lines} lines, in {len(by_file(found))} files"


def summary(found: list[Definition]) -> str:
    """What there is to believe, and what of it to read first."""
    first = [it for it in found if it.path in FIRST_PATHS]
    return f"{counted(found)}. In bold, to read first: {counted(first)}."


def table(found: list[Definition]) -> str:
    """A row for each file, in the order in which it is first needed: how many definitions, and how many lines."""
    rows = []
    for path, some in by_file(found).items():
        name = f"**`{path}`**" if path in FIRST_PATHS else f"`{path}`"
        rows.append(f"| {name} | {len(some)} | {sum(it.lines for it in some)} |")
    return "\n".join(["| File | Definitions | Lines |", "|---|---|---|", *rows])


def tables(found: list[Definition], more: list[Definition]) -> str:
    """The table of the headline, and that of what a session's contract rests on beside it."""
    return "\n".join([summary(found), "", table(found), "", f"`{SESSION_CALL}` rests on {counted(more)} more.", "", table(more)])


def headed(text: str, is_believed: bool) -> str:
    """A file of definitions with the first line that says whether the headline rests on it."""
    rest = text.removeprefix(BELIEVED).removeprefix(INNER)
    return (BELIEVED if is_believed else INNER) + rest


def spec_files() -> list[str]:
    """The files of definitions of all crates, without those that only list others."""
    found = []
    for crate in sorted(os.listdir("crates")):
        for folder, _, names in os.walk(f"crates/{crate}/specs"):
            found += [os.path.join(folder, name) for name in names if name.endswith(".antt") and name != "Lib.antt"]
    return sorted(found)


def between_marks(path: str, written: str) -> str:
    """A page with a text between its marks."""
    before, first, rest = read(path).partition(MARKS[0])
    _, last, after = rest.partition(MARKS[1])
    if not first or not last:
        raise Fault(f"{path}: the two marks of trusted.py are not there; put them where its text belongs")
    return f"{before}{first}\n{written}\n{last}{after}"


def pages(found: list[Definition], more: list[Definition]) -> dict[str, str]:
    """Both pages, with what they say of these definitions."""
    return {PAGE: between_marks(PAGE, tables(found, more)), COUNT_PAGE: between_marks(COUNT_PAGE, summary(found))}


def main(*words: str) -> int:
    if words not in ((), ("--table",), ("--write",), ("--check",)):
        raise Fault(f"{' '.join(words)}: not known; trusted.py --help has the words")
    found = believed()
    more = believed_of_sessions(found)
    if not words:
        for it in [*found, *more]:
            print(f"{it.path}:{it.first}: {it.name} ({it.lines})")
    if words in ((), ("--table",)):
        print(tables(found, more))
        return 0
    paths = {it.path for it in [*found, *more]}
    wanted = {path: headed(read(path), path in paths) for path in spec_files()}
    if words == ("--write",):
        for path, text in wanted.items():
            write(path, text)
        # the lines have moved by the heads
        found = believed()
        for path, text in pages(found, believed_of_sessions(found)).items():
            write(path, text)
        return 0
    wanted |= pages(found, more)
    stale = [path for path, text in wanted.items() if read(path) != text]
    for path in stale:
        print(f"{path}: stale; trusted.py --write brings it up to date", file=sys.stderr)
    return 1 if stale else 0


def read(path: str) -> str:
    with open(path, encoding="utf-8") as file:
        return file.read()


def write(path: str, text: str) -> None:
    with open(path, "w", encoding="utf-8") as file:
        file.write(text)


if __name__ == "__main__":
    sys.exit(command.called(__doc__, main))
