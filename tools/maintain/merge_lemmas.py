#!/usr/bin/env python3
"""Keeps one proof of each statement that repeated_lemmas.py lists, and has the other files cite it.

The proof that stays is one of a crate on which the crates of all others stand. Where there is none the statement is left
alone, and so is a lemma inside a module, since its statement goes on in the module's head. It changes text and proves
nothing: check each crate afterwards, lowest first; `rt tidy` then takes out imports that nothing uses.

Usage: merge_lemmas.py [--write]    from the top of the repository

Without --write it lists what it would keep, and how many proofs would go.
"""

import os
import re
import sys
from dataclasses import dataclass
from functools import cache

import layers
import repeated_lemmas
from perfscript import Fault, command
from specs import NAME, leaves

USE = re.compile(r"^((?:pub )?use )(Rattle\..*)$")
DECLARED = re.compile(rf"^(?:(?:pub|abbrev|unfoldable|record) )*({NAME}) ")
WORD = re.compile(NAME)


@dataclass(frozen=True)
class Place:
    """A lemma: its file, the line from 1 on which its statement begins, and its name."""

    path: str
    line: int
    name: str

    @property
    def crate(self) -> str:
        return self.path.split(os.sep)[1]

    @property
    def module(self) -> tuple[str, ...]:
        """The path by which others import its file."""
        parts = self.path.removesuffix(".antt").split(os.sep)
        return ("Rattle", *parts[1:])


@cache
def read(path: str) -> tuple[str, ...]:
    """The lines of a file as it stands."""
    with open(path, encoding="utf-8") as file:
        return tuple(file.read().splitlines())


def stands_on() -> dict[str, set[str]]:
    """The crates that each crate names in crates.txt, and itself."""
    with open(layers.LIST, encoding="utf-8") as file:
        groups = layers.groups_of(file.read())
    return {crate: {crate, *below} for group in groups for crate, below in group.crates.items()}


def proofs() -> list[str]:
    """All files of proofs."""
    walked = (os.walk(f"crates/{crate}/proofs") for crate in sorted(os.listdir("crates")))
    return [os.path.join(at, name) for walk in walked for at, _, names in walk for name in names if name.endswith(".antt")]


@cache
def imports(path: str) -> tuple[tuple[int, tuple[str, ...]], ...]:
    """The line, from 0, of each import of a file, and its path."""
    found = [(number, USE.match(line)) for number, line in enumerate(read(path))]
    return tuple((number, tuple(whole)) for number, use in found if use for whole, _ in leaves(use[2]))


@cache
def imported(path: str) -> frozenset[str]:
    """The files of its own crate that a file imports."""
    ways = [whole[:length] for _, whole in imports(path) for length in range(3, len(whole) + 1)]
    own = path.split(os.sep)[1]
    files = {os.path.join("crates", *way[1:]) + ".antt" for way in ways if way[1] == own}
    return frozenset(file for file in files if os.path.isfile(file))


def block(lines: tuple[str, ...], place: Place) -> range:
    """The lines of a lemma, from 0: its statement and its clauses, with the empty line after them and with the comment
    before it where that is of no other lemma."""
    start, end = place.line - 1, place.line
    while end < len(lines) and lines[end].startswith((" ", "]", "}", ")", "unfolding ", f"{place.name} ")):
        end += 1
    end += end < len(lines) and not lines[end]
    if end == len(lines) or lines[end].startswith(("-- ", "module ")):
        while lines[start - 1].startswith("-- "):
            start -= 1
    return range(start, end)


def is_alone(place: Place) -> bool:
    """Whether a lemma stands at the margin of its file, outside any module, and no proof there opens it: what another
    crate defines can't be opened."""
    lines = read(place.path)
    at_margin = lines[place.line - 1].startswith((f"{place.name} ", f"pub {place.name} "))
    return at_margin and not any(line.startswith("unfolding ") and place.name in line.split() for line in lines)


def has_own_words(place: Place) -> bool:
    """Whether a statement has a name that its own file declares, which another file may declare otherwise."""
    lines = read(place.path)
    start = place.line - 1
    length = next((n for n, line in enumerate(lines[start + 1 :]) if not line.startswith(" ")), len(lines) - place.line)
    words = {word for line in lines[start : start + 1 + length] for word in WORD.findall(line)} - {place.name}
    return any(found[1] in words for line in lines if (found := DECLARED.match(line)))


class Ways:
    """Which files of a crate import which, those that are still to be written too."""

    def __init__(self) -> None:
        self.more: dict[str, set[str]] = {}

    def reach(self, path: str, other: str) -> bool:
        """Whether a file comes to import another."""
        todo, seen = [path], {path}
        while todo:
            one = todo.pop()
            for further in (imported(one) | self.more.get(one, set())) - seen:
                seen.add(further)
                todo.append(further)
        return other in seen

    def add(self, path: str, other: str) -> None:
        self.more.setdefault(path, set()).add(other)


def kept_of(places: list[Place], below: dict[str, set[str]], ways: Ways) -> Place | None:
    """The lemma that can stay: all others may import its file, and none of their files is imported by it."""
    for place in places:
        others = [other.path for other in places if other.path != place.path]
        are_above = all(place.crate in below[other.crate] for other in places)
        if others and are_above and not any(ways.reach(place.path, other) for other in others):
            return place
    return None


def grouped(paths: list[list[str]]) -> str:
    """Imports as one path, with braces where they part."""
    heads: dict[str, list[list[str]]] = {}
    for path in paths:
        heads.setdefault(path[0], []).append(path[1:])
    parts = [head if not any(rest) else f"{head}.{grouped([one for one in rest if one])}" for head, rest in heads.items()]
    return parts[0] if len(parts) == 1 and re.search("[. ]", parts[0]) else "{" + ", ".join(parts) + "}"


def named(line: str) -> list[list[str]]:
    """The paths of an import, the last part of each with the name that it gets."""
    found = USE.match(line)
    both = leaves(found[2]) if found else ()
    return [[*whole[:-1], whole[-1] if alias == whole[-1] else f"{whole[-1]} as {alias}"] for whole, alias in both]


def written(paths: list[list[str]]) -> str | None:
    """An import of these paths, None where there is none."""
    return f"use {grouped(paths)}" if paths else None


def importing(whole: tuple[str, ...]) -> list[str]:
    """The files that import this name."""
    return [path for path in proofs() if any(found == whole for _, found in imports(path))]


class Tree:
    """The files that change, as lists of lines; a line that goes is None."""

    def __init__(self) -> None:
        self.files: dict[str, list[str | None]] = {}
        # by a file and a module that it imports anew, the names
        self.added: dict[str, dict[tuple[str, ...], list[str]]] = {}

    def lines(self, path: str) -> list[str | None]:
        return self.files.setdefault(path, list(read(path)))

    def publish(self, kept: Place, others: list[Place]) -> None:
        """Lets other files name a lemma, those of other crates too."""
        self.open(kept.path, kept.line - 1)
        if any(other.crate != kept.crate for other in others):
            listing = os.path.join("crates", *kept.module[1:3], "Lib.antt")
            for number, line in enumerate(self.lines(listing)):
                if line == f"mod {kept.module[3]}":
                    self.open(listing, number)

    def open(self, path: str, number: int) -> None:
        """Marks a line of a file, from 0, as public."""
        lines = self.lines(path)
        line = lines[number]
        if line and not line.startswith("pub "):
            lines[number] = f"pub {line}"

    def drop(self, place: Place) -> None:
        lines = self.lines(place.path)
        for number in block(read(place.path), place):
            lines[number] = None

    def cite(self, path: str, kept: Place, old: str) -> None:
        """Has a file use the lemma that is kept, by its own name, where it used one of another name."""
        lines = self.lines(path)
        uses = [number for number, line in enumerate(lines) if line and USE.match(line)]
        if kept.name != old:
            word = re.compile(rf"(?<![\w'-]){re.escape(old)}(?![\w'-])")
            for number, line in enumerate(lines):
                if line and number not in uses:
                    lines[number] = word.sub(kept.name, line)
        whole, module = [*kept.module, kept.name], list(kept.module)
        for number in uses:
            paths = named(lines[number] or "")
            if any(one[: len(module)] == module and len(one) > len(module) for one in paths):
                lines[number] = written([*paths, *[whole] * (whole not in paths)])
                return
        self.added.setdefault(path, {}).setdefault(tuple(module), []).append(kept.name)

    def redirect(self, kept: Place, gone: Place) -> None:
        """Has all files that import a lemma which goes import the one that is kept."""
        whole = [*gone.module, gone.name]
        for path in importing(tuple(whole)):
            lines = self.lines(path)
            for number, line in enumerate(lines):
                if line and whole in named(line):
                    lines[number] = written([one for one in named(line) if one != whole])
            self.cite(path, kept, gone.name)

    def write(self) -> None:
        for path, lines in self.files.items():
            last = max((number for number, line in enumerate(lines) if line and USE.match(line)), default=0)
            for module, names in self.added.get(path, {}).items():
                more = written([[*module, name] for name in dict.fromkeys(names)])
                lines[last] = f"{lines[last]}\n{more}"
            with open(path, "w", encoding="utf-8") as file:
                file.writelines(f"{line}\n" for line in lines if line is not None)


def is_free(place: Place, name: str) -> bool:
    """Whether its file, and each that imports it, has no other use of a name."""
    word = re.compile(rf"(?<![\w'-]){re.escape(name)}(?![\w'-])")
    paths = [place.path, *importing((*place.module, place.name))]
    return place.name == name or not any(word.search(line) for path in paths for line in read(path))


def main(*words: str) -> int:
    if words not in ((), ("--write",)):
        raise Fault(f"{' '.join(words)}: not known; merge_lemmas.py --help has the words")
    read.cache_clear()
    imports.cache_clear()
    imported.cache_clear()
    below, ways, tree, gone = stands_on(), Ways(), Tree(), 0
    for found in repeated_lemmas.repeated():
        places = [place for place in (Place(*it) for it in found) if is_alone(place)]
        kept = kept_of(places, below, ways)
        fits = [place for place in places if kept and is_free(place, kept.name) and not has_own_words(place)]
        others = [place for place in fits if kept and place.path != kept.path]
        if kept is None or not others:
            continue
        print(f"{kept.path}:{kept.line}: {kept.name} in the place of {', '.join(f'{one.path}:{one.line}' for one in others)}")
        gone += len(others)
        tree.publish(kept, others)
        for place in others:
            ways.add(place.path, kept.path)
            tree.drop(place)
            tree.cite(place.path, kept, place.name)
            tree.redirect(kept, place)
    if words:
        tree.write()
    print(f"{gone} proofs {'went' if words else 'would go'}")
    return 0


if __name__ == "__main__":
    sys.exit(command.called(__doc__, main))
