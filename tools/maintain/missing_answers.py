#!/usr/bin/env python3
"""Writes the answers whose lack makes the check of a must-fail edit run a second time.

    tools/maintain/missing_answers.py CRATE [EDIT ..]

Where a goal stays open that no answers file has, a check runs once more to print what such a file could hold. This
takes as long as the check itself, and `rt ci` checks a crate once with each edit. So this applies each edit of a crate,
or those named, one after the other, and looks what the check prints. Of each edit that lacks an answer it adds one goal
to the `Answers.antt` of the function, with what the check tries by itself: `search rules`, or, where that alone proves
the goal of the right body, `grind (arith, common_steps)`. Where neither does, or the right body has no such goal,
nothing is added.

Run it at the top of the repository, once `rt check` passes in the crate, and change nothing there while it runs. It
prints a line for each edit and each goal. Behind it: `rt fmt` and `rt check` in the crate.
"""

import glob
import os
import re
import subprocess
import sys
import tempfile
from collections.abc import Sequence
from pathlib import Path
from typing import NamedTuple, TypeAlias

import packages  # noqa: F401
from perfscript import Fault, command

# A check that runs twice takes longer than this for the second time, in seconds.
SECOND_RUN = 0.6
BLOCK = re.compile(
    r"^help: (?:write|add these lines to) \./(proofs/\S+/Answers\.antt)(?: with these lines|,).*\n"
    r"((?:    .*\n|\s*\n)+)",
    re.M,
)
GOAL = re.compile(r"^    pub (\S+) : (goal\.\S+.*)\n    \1 (.*?)\s*= \?$", re.M)
USE = re.compile(r"^    (use Rattle\.\S+\.Goals as goal)$", re.M)
REFUSED = re.compile(r"^(?:note: )?(?:\./)?(proofs/\S+/Answers\.antt):\d+:\d+: error: `([^`]+)`", re.M)


class Goal(NamedTuple):
    """A goal: its name, its type, what its answer is given, and the line that imports its module."""

    name: str
    type: str
    given: str
    use: str


# the goals of files of answers
Goals: TypeAlias = dict[str, list[Goal]]
# What the check tries by itself, in its order, with the import of the names that it takes behind the first word.
TACTICS = [
    ("search rules", "use Rattle.std.proofs.Common.{rules}"),
    ("grind (arith, common_steps)", "use Rattle.std.proofs.{Common.{arith}, lemmas.Grind.{common_steps}}"),
]


def offered(said: str) -> list[tuple[str, list[Goal]]]:
    """The goals that a check offers to answer: pairs of a file and a list of goals, in the order printed."""
    found = []
    for path, body in BLOCK.findall(said):
        use = USE.search(body)
        if use:
            found.append((path, [Goal(name, kind, given, use[1]) for name, kind, given in GOAL.findall(body)]))
    return found


def refused(said: str) -> set[tuple[str, str]]:
    """The answers that a check refuses: pairs of a file and a name."""
    return set(REFUSED.findall(said))


def with_answers(text: str | None, goals: Sequence[tuple[Goal, int]]) -> str:
    """An answers file, or None where there is none, with goals added: pairs of a goal and its place in TACTICS."""
    lines = (text or "").strip("\n").split("\n")
    uses = [line for line in lines if line.startswith("use ")]
    for goal, tactic in goals:
        answer, use = TACTICS[tactic]
        if not all(re.search(rf"\b{name}\b", "\n".join(uses)) for name in re.findall(r"\w+", answer)[1:]):
            uses.insert(0, use)
        if goal.use not in uses:
            uses.append(goal.use)
    rest = "\n".join(line for line in lines if not line.startswith("use ")).strip("\n")
    answers = [f"pub {it.name} : {it.type}\n{it.name} {it.given} = {TACTICS[place][0]}" for it, place in goals]
    return "\n\n".join(["\n".join(uses), *filter(None, [rest]), *answers]) + "\n"


def read(path: str) -> str | None:
    """A file's text, or None."""
    return Path(path).read_text("utf-8") if os.path.exists(path) else None


def write(path: str, text: str | None) -> None:
    """Writes a file, or removes it and the folders that are left empty."""
    if text is None:
        os.remove(path)
        if not os.listdir(os.path.dirname(path)):
            os.removedirs(os.path.dirname(path))
        return
    os.makedirs(os.path.dirname(path), exist_ok=True)
    Path(path).write_text(text, "utf-8")


def edited(edit: str) -> tuple[str, str, str] | None:
    """The file that an edit changes, its text, and its text with the edit; None where the edit can't be applied."""
    parts = re.findall(r"^(file|old|new): ?(.*)$", read(edit) or "", re.M)
    path = parts[0][1]
    changed = text = read(path) or ""
    for (_, old), (_, new) in zip(parts[1::2], parts[2::2]):
        if text.count(old) != 1:
            return None
        changed = changed.replace(old, new)
    return path, text, changed


def check() -> tuple[str, float]:
    """What a check of the crate says, and how long its second run took."""
    with tempfile.NamedTemporaryFile("r", suffix=".stages") as times:
        words = ["rt", "check", "--stage-times", times.name]
        ran = subprocess.run(words, capture_output=True, text=True, errors="replace")
        took = re.search(r"^stage offers (\S+)", times.read(), re.M)
    return ran.stdout, float(took[1]) if took else 0.0


def lacking(edits: Sequence[str]) -> Goals:
    """The goals that edits lack, one for each edit at most, by their files."""
    found: Goals = {}
    for edit in edits:
        change = edited(edit)
        if not change:
            print(f"{os.path.basename(edit)}: can't be applied")
            continue
        path, text, changed = change
        try:
            write(path, changed)
            said, took = check()
        finally:
            write(path, text)
        for answers, goals in offered(said) if took > SECOND_RUN else []:
            own = found.setdefault(answers, [])
            if not {goal.name for goal in goals} & {goal.name for goal in own}:
                own += goals[:1]
        print(f"{os.path.basename(edit)}: second run {took:.1f} s", flush=True)
    return found


def settle(found: Goals) -> None:
    """Adds what a check of the right body admits, and says what that was."""
    before = {path: read(path) for path in found}
    left = {(path, goal.name): (goal, 0) for path, goals in found.items() for goal in goals}
    while True:
        for path, text in before.items():
            goals = [it for (of, _), it in left.items() if of == path]
            wanted = with_answers(text, goals) if goals else text
            if read(path) != wanted:
                write(path, wanted)
        bad = [it for it in refused(check()[0]) if it in left] if left else []
        if not bad:
            break
        for it in bad:
            goal, tactic = left.pop(it)
            if tactic + 1 < len(TACTICS):
                left[it] = goal, tactic + 1
            else:
                print(f"{it[0]}: {it[1]} not added")
    for (path, name), (_, tactic) in left.items():
        print(f"{path}: {name} = {TACTICS[tactic][0]}")


def main(crate: str, *names: str) -> None:
    if not os.path.isdir(f"crates/{crate}/must-fail"):
        raise Fault(f"crates/{crate}/must-fail: no such folder; run it at the top, with a crate's name")
    os.chdir(f"crates/{crate}")
    edits = sorted(glob.glob("must-fail/*.edit"))
    settle(lacking([it for it in edits if not names or os.path.basename(it)[:-5] in names]))


if __name__ == "__main__":
    sys.exit(command.called(__doc__, main, 1))
