#!/usr/bin/env python3
"""Lists the statements that stand more than once in the proofs of the crates, up to the names of their variables.

A statement is the type of a lemma under proofs/, behind the parameters of its modules that it names. Files that
script_terms.py writes, and answers, invariants and goals of single functions, are left out.

Usage: repeated_lemmas.py [MOST]    from the top of the repository. With MOST it ends with 1 where more statements stand
more than once.
"""

import os
import re
import sys
from collections.abc import Iterator

import packages  # noqa: F401
from perfscript import Fault, command
from specs import NAME

LEMMA = re.compile(rf"^(\s*)(?:pub )?({NAME}) : (.*)$")
MODULE = re.compile(r"^(\s*)module _ (.*?)\s*where$")
GROUP = re.compile(r"[({]([^(){}:]+?) : ")
WORD = re.compile(rf"{NAME}")
LEFT_OUT = ("Answers.antt", "Invariants.antt", "Goals.antt", "Proof.antt", "Lib.antt")
MADE = "script_terms"


def files() -> Iterator[str]:
    """The files of lemmas, by crate."""
    for crate in sorted(os.listdir("crates")):
        for folder, _, names in os.walk(f"crates/{crate}/proofs"):
            for name in sorted(names):
                if name.endswith(".antt") and name not in LEFT_OUT:
                    yield os.path.join(folder, name)


def lemmas(path: str) -> Iterator[tuple[int, str, str]]:
    """The line, the name and the whole statement of each lemma of a file."""
    with open(path, encoding="utf-8") as file:
        text = file.read()
    if MADE in text:
        return
    lines = text.splitlines()
    shared: list[tuple[int, str]] = []
    number = 0
    while number < len(lines):
        line = lines[number]
        indent = len(line) - len(line.lstrip())
        if line.strip() and not line.lstrip().startswith("--"):
            while shared and indent <= shared[-1][0]:
                shared.pop()
        head = number
        module, opened = MODULE.match(line), LEMMA.match(line)
        if line.lstrip().startswith("module _") and not module:
            while number + 1 < len(lines) and not lines[number].endswith("where"):
                number += 1
                line = f"{line} {lines[number].strip()}"
            module = MODULE.match(line)
        if module:
            shared.append((indent, module[2]))
        elif opened:
            whole = opened[3]
            while number + 1 < len(lines) and len(lines[number + 1]) - len(lines[number + 1].lstrip()) > indent:
                number += 1
                whole = f"{whole} {lines[number].strip()}"
            if is_proved(lines[number + 1 :], opened[2], indent):
                yield head + 1, opened[2], f"{needed(shared, whole)} {whole}"
        number += 1


def is_proved(behind: list[str], name: str, indent: int) -> bool:
    """Whether a proof of this name follows: else it is a field of a record."""
    for line in behind:
        if not line.strip().startswith(("unfolding ", "--")):
            return line.startswith(" " * indent + name + " ")
    return False


def needed(shared: list[tuple[int, str]], statement: str) -> str:
    """The parameters of the modules around a statement that it names, or that those name."""
    groups = [it for _, text in shared for it in re.findall(r"[({][^(){}]*(?:\([^()]*\)[^(){}]*)*[)}]", text)]
    words, kept = set(WORD.findall(statement)), []
    for group in reversed(groups):
        names = GROUP.match(group)
        if names and words & set(names[1].split()):
            words |= set(WORD.findall(group))
            kept.append(group)
    return " ".join(reversed(kept))


def plain(statement: str) -> str:
    """A statement with its variables numbered in the order of their binders, and without what is only layout."""
    statement = statement.replace("{", "(").replace("}", ")")
    names = [name for group in GROUP.findall(statement) for name in group.split()]
    names += re.findall(rf"λ ((?:{NAME} )*{NAME})\.", statement)
    numbered = {name: f"v{place}" for place, name in enumerate(dict.fromkeys(word for it in names for word in it.split()))}
    split = re.sub(r"\(((?:[^\s():]+ )+[^\s():]+) : ([^()]*)\)", lambda it: " ".join(f"({n} : {it[2]})" for n in it[1].split()), statement)
    renamed = WORD.sub(lambda it: numbered.get(it[0], it[0]), split)
    return re.sub(r"\s+", " ", re.sub(r"\(v\d+ : Type 0\) ?→? ?", "", renamed).replace(") → (", ") (")).strip()


def repeated() -> list[list[tuple[str, int, str]]]:
    """The places of each statement that stands more than once."""
    found: dict[str, list[tuple[str, int, str]]] = {}
    for path in files():
        for line, name, statement in lemmas(path):
            if "≡" in statement or "→" in statement:
                found.setdefault(plain(statement), []).append((path, line, name))
    return sorted((it for it in found.values() if len(it) > 1), key=lambda it: (-len(it), it))


def main(*words: str) -> int:
    if len(words) > 1 or words and not words[0].isdigit():
        raise Fault(f"{' '.join(words)}: a number was wanted; repeated_lemmas.py --help has the usage")
    found = repeated()
    for places in found:
        print("; ".join(f"{path}:{line}: {name}" for path, line, name in places))
    print(f"{len(found)} statements stand more than once, with {sum(len(it) - 1 for it in found)} surplus proofs")
    return 1 if words and len(found) > int(words[0]) else 0


if __name__ == "__main__":
    sys.exit(command.called(__doc__, main))
