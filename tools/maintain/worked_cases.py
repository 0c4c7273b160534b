#!/usr/bin/env python3
"""Keeps the worked cases of crates/worked_cases, and what the program must print for them.

Usage: worked_cases.py
           writes crates/worked_cases/stdout from the list crates/worked_cases/data/cases, and says which files of the
           data no list names, and which cases stand twice
       worked_cases.py call GROUP FOLDER..
           takes a case of each folder into the group GROUP, under the folder's name. The folder has the files `args`,
           `stdin`, `stdout`, `stderr` and `status` of a call of perf_run; then as above
       worked_cases.py folder GROUP FOLDER
           takes the cases of a folder of scripts into the group GROUP, in the place of those that the group had; then
           as above. Beside NNN.script there is NNN.report, what standard output must hold, or NNN.note, what standard
           error must hold

A group is a folder of the data, whose name says what its cases hold. The words of the list are told at its head. What a
case expects is taken from the folders alone: nothing here asks the program.
"""

import os
import re
import shutil
import sys
from collections.abc import Sequence
from pathlib import Path
from typing import NamedTuple

from packages import DATA
from perfscript import Fault, command

STDOUT = os.path.join(os.path.dirname(DATA), "stdout")
LIST, THEOREMS = os.path.join(DATA, "cases"), os.path.join(DATA, "theorems")

STATUS = {"done": "0", "refused": "1", "words": "0", "usage": "5", "table": "0"}
USAGE = "perf_run: usage: run, replay, make N, make N script"


class Case(NamedTuple):
    """A case of the list: its kind, its name, and for some kinds a note."""

    kind: str
    name: str
    note: str = ""

    @property
    def has_script(self) -> bool:
        """Whether the text stands for a script, which is then printed, and the printed text run too."""
        return self.kind == "done" or self.note.endswith(": ORDER") or self.note.startswith("perf_run: act ")

    @property
    def given(self) -> str:
        """The file that the program is given."""
        return self.name + (".words" if self.kind in ("words", "usage") else ".script")

    @property
    def files(self) -> list[str]:
        """The files of the case: what is given, and what must come of it where the list does not say it."""
        wanted = {"done": ".report", "words": ".report", "table": ".table"}
        return [self.given, *([self.name + wanted[self.kind]] if self.kind in wanted else [])]


def read(*path: str) -> str:
    return command.text_of(os.path.join(*path))


def rows(path: str) -> list[str]:
    """The lines of a list that are no comments."""
    return [line for line in read(path).splitlines() if line and not line.startswith("#")]


def cases() -> list[Case]:
    """The cases of the list, in order."""
    return [Case(*line.split(" ", 2)) for line in rows(LIST)]


def theorems() -> list[list[str]]:
    """The files of the theorems with the names of their cases, in order."""
    return [line.split(" ") for line in rows(THEOREMS)]


def write(all_cases: Sequence[Case]) -> None:
    """Writes the list below its head, and what the program must print for it."""
    head = [line for line in read(LIST).splitlines() if line.startswith("#")]
    Path(LIST).write_text("\n".join([*head, *(" ".join(filter(None, case)) for case in all_cases)]) + "\n")
    lines = [f"{case.name}: {STATUS[case.kind]}, as expected{', printed too' * case.has_script}" for case in all_cases]
    Path(STDOUT).write_text("\n".join([*lines, f"{len(all_cases)} cases, 0 failures"]) + "\n")


def copy(source: str, name: str) -> None:
    target = os.path.join(DATA, name)
    os.makedirs(os.path.dirname(target), exist_ok=True)
    shutil.copyfile(source, target)
    os.chmod(target, 0o644)


def note_of(text: str) -> str:
    """The one line of a note."""
    if not re.fullmatch(r"[^\n]+\n", text):
        raise Fault(f"no note of one line: {text!r}")
    return text[:-1]


def name_of_text(text: str, name: str) -> str:
    """The name of a script that has this text, if there is one; else the name given, for which it is kept."""
    paths = {case.name: os.path.join(DATA, case.name + ".script") for case in cases()}
    return next((other for other, path in paths.items() if os.path.exists(path) and read(path) == text), name)


def case_of_call(group: str, folder: str) -> Case:
    """The case of a call. The table of `stat` stands beside the script, which another case may have too."""
    name = f"{group}/{os.path.basename(os.path.normpath(folder))}"
    text, out, note, args = (os.path.join(folder, file) for file in ("stdin", "stdout", "stderr", "args"))
    status, words = read(folder, "status").strip(), read(args).split()
    if words == ["stat"]:
        name = name_of_text(read(text), name)
        kind, copied = "table", {name + ".script": text, name + ".table": out}
    elif words == ["replay"]:
        kind, copied = ("done" if status == "0" else "refused"), {name + ".script": text}
        copied |= {name + ".report": out} if status == "0" else {}
    elif status == "0":
        kind, copied = "words", {name + ".words": args, name + ".report": out}
    else:
        kind, copied = "usage", {name + ".words": args}
    # what has to be empty: where all is done the note, of which a report has none, and else the output
    surplus = read(note) if status == "0" else read(out)
    if status != STATUS[kind] or surplus or kind == "usage" and note_of(read(note)) != USAGE:
        raise Fault(f"{folder}: status {status}")
    for target, source in copied.items():
        copy(source, target)
    return Case(kind, name, note_of(read(note)) if kind == "refused" else "")


def case_of_script(group: str, stem: str) -> Case:
    """The case of the script STEM.script."""
    name = f"{group}/{os.path.basename(stem)}"
    copy(stem + ".script", name + ".script")
    if os.path.exists(stem + ".note"):
        return Case("refused", name, note_of(read(stem + ".note")))
    copy(stem + ".report", name + ".report")
    return Case("done", name)


def cases_of_folder(group: str, folder: str) -> list[Case]:
    shutil.rmtree(os.path.join(DATA, group), ignore_errors=True)
    stems = sorted(name[: -len(".script")] for name in os.listdir(folder) if name.endswith(".script"))
    return [case_of_script(group, os.path.join(folder, stem)) for stem in stems]


def replaced(old: list[Case], new: list[Case], group: str | None) -> list[Case]:
    """The old cases, and the new ones in the place of those that they replace: those of the same names or in the group.
    A table is a case of its own."""
    names = {(case.kind == "table", case.name) for case in new}
    gone = [(case.kind == "table", case.name) in names or case.name.split("/")[0] == group for case in old]
    place = gone.index(True) if True in gone else len(old)
    return old[:place] + new + [case for case, is_gone in zip(old[place:], gone[place:]) if not is_gone]


def strays(all_cases: Sequence[Case]) -> list[str]:
    """The files of the data that are of no case, and the theorems that are no case."""
    names = {case.name for case in all_cases}
    named = {"cases", "theorems"} | {file for case in all_cases for file in case.files}
    there = {os.path.relpath(os.path.join(folder, file), DATA) for folder, _, files in os.walk(DATA) for file in files}
    other = {file for file in there if file.endswith(".other-seats") and file.rpartition(".")[0] in names}
    return sorted(there - named - other) + [name for _, name in theorems() if name not in names]


def copies(all_cases: Sequence[Case]) -> list[str]:
    """The cases that give the program what an earlier one gives it, each with that one."""
    first: dict[tuple[str, bool, str], str] = {}
    found = []
    for case in all_cases:
        key = (case.given.rpartition(".")[2], case.kind == "table", read(DATA, case.given))
        if first.setdefault(key, case.name) != case.name:
            found.append(f"{case.name} is a copy of {first[key]}")
    return found


def main(*words: str) -> int:
    all_cases = cases()
    if words[:1] == ("call",) and len(words) > 2:
        all_cases = replaced(all_cases, [case_of_call(words[1], folder) for folder in words[2:]], None)
    elif words[:1] == ("folder",) and len(words) == 3:
        all_cases = replaced(all_cases, cases_of_folder(words[1], words[2]), words[1])
    elif words:
        raise Fault(f"{' '.join(words)}: not known; worked_cases.py --help has the words")
    write(all_cases)
    faults = [f"no case: {name}" for name in strays(all_cases)] + copies(all_cases)
    if faults:
        print("\n".join(faults), file=sys.stderr)
    return 1 if faults else 0


if __name__ == "__main__":
    sys.exit(command.called(__doc__, main))
