"""Reads the files of definitions: what each declares, on which lines, and which other definitions it names."""

import os
import re
from collections.abc import Iterator
from dataclasses import dataclass, field
from pathlib import Path

NAME = r"[A-Za-z_][A-Za-z_0-9'-]*"
IMPORT = re.compile(r"^\s*(?:pub )?(?:unfoldable )?(?:ghost )?(?:pub )?use (Rattle\..*?);?$")
MODULE = re.compile(r"^(\s*)module (.*?)where$")
DECLARED = re.compile(
    rf"^(\s*)(?:(?:abbrev|unfoldable|pub|const) )*(record |data )?(?:pub )?({NAME})(?: .*?)? ?: "
)
WORD = re.compile(rf"{NAME}(?:\.{NAME})*")

# The crate, the file below its specs/ without `.antt`, and the name.
Key = tuple[str, str, str]


@dataclass
class Definition:
    """A definition: its file, the lines on which it stands (from 1, the last one included), and its text."""

    key: Key
    path: str
    first: int
    last: int
    text: str
    # the parameters that it shares with others of its file
    shared: str = ""
    cites: list[Key] = field(default_factory=list)

    @property
    def name(self) -> str:
        return self.key[2]

    @property
    def lines(self) -> int:
        """Its lines, without comments and empty ones."""
        return sum(1 for line in self.text.splitlines() if line.strip() and not line.strip().startswith("--"))


def leaves(path: str) -> Iterator[tuple[list[str], str]]:
    """The paths of an import, each with the name by which the file calls its last part."""
    path = path.strip()
    if path.endswith("}"):
        head, _, rest = path.partition("{")
        before = head.strip(".").split(".") if head else []
        for part in parts_of(rest[:-1]):
            for after, alias in leaves(part):
                yield before + after, alias
        return
    whole, _, alias = path.partition(" as ")
    yield whole.strip().split("."), (alias or whole.split(".")[-1]).strip()


def parts_of(inside: str) -> Iterator[str]:
    """The parts of a list in braces, which may have lists in braces."""
    depth, part = 0, ""
    for letter in inside:
        depth += (letter == "{") - (letter == "}")
        if letter == "," and not depth:
            yield part
            part = ""
        else:
            part += letter
    if part.strip():
        yield part


def imports_of(text: str) -> tuple[dict[str, Key], dict[str, tuple[str, str]]]:
    """What a file's imports call a definition, and what they call a whole file of definitions."""
    names: dict[str, Key] = {}
    files: dict[str, tuple[str, str]] = {}
    for line in text.splitlines():
        found = IMPORT.match(line)
        if not found:
            continue
        for path, alias in leaves(found[1].removeprefix("Rattle.")):
            if len(path) < 3 or path[1] != "specs" or path[2] == "declared":
                continue
            if os.path.exists(f"crates/{path[0]}/specs/{'/'.join(path[2:])}.antt"):
                files[alias] = (path[0], "/".join(path[2:]))
            elif len(path) > 3:
                names[alias] = (path[0], "/".join(path[2:-1]), path[-1])
    return names, files


def declared_in(crate: str, file: str) -> dict[str, Definition]:
    """The definitions of a file, by name. Fields and constructors are their record's or their type's."""
    path = f"crates/{crate}/specs/{file}.antt"
    found: dict[str, Definition] = {}
    shared: list[tuple[int, str]] = []
    now: Definition | None = None
    block = -1
    for number, line in enumerate(Path(path).read_text("utf-8").splitlines(), 1):
        if not line.strip() or line.strip().startswith("--"):
            continue
        indent = len(line) - len(line.lstrip())
        while shared and indent <= shared[-1][0] and not line.strip().startswith(")"):
            shared.pop()
        module, opened = MODULE.match(line), DECLARED.match(line)
        if module:
            shared.append((indent, module[2]))
            now, block = None, -1
        elif IMPORT.match(line) or line.startswith(("pub mod ", "mod ")):
            now, block = None, -1
        elif block >= 0 and indent > block:
            assert now is not None
            now.last, now.text = number, f"{now.text}\n{line}"
        elif opened and opened[3] not in ("use", "module", "unfolding") and not (now and now.name == opened[3]):
            parameters = "\n".join(text for _, text in shared)
            now = Definition((crate, file, opened[3]), path, number, number, line, parameters)
            found[opened[3]] = now
            block = indent if opened[2] else -1
        elif now is not None:
            now.last, now.text = number, f"{now.text}\n{line}"
    return found


def all_definitions() -> dict[Key, Definition]:
    """Every definition of the repository, each with those that it names. It is run at the top of the repository."""
    found: dict[Key, Definition] = {}
    for crate in sorted(os.listdir("crates")):
        top = Path("crates", crate, "specs")
        for path in sorted(top.rglob("*.antt")):
            if path.name != "Lib.antt":
                file = str(path.relative_to(top).with_suffix(""))
                found |= {it.key: it for it in declared_in(crate, file).values()}
    for key, it in found.items():
        names, whole_files = imports_of(Path(it.path).read_text("utf-8"))
        own = {other[2]: other for other in found if other[:2] == key[:2]}
        text = f"{it.shared}\n{it.text}"
        it.cites = [other for other in cited(text, {**names, **own}, whole_files) if other in found and other != key]
    return found


def cited(text: str, names: dict[str, Key], files: dict[str, tuple[str, str]]) -> list[Key]:
    """The definitions that a text names, each once, in the order of their first places."""
    found: dict[Key, None] = {}
    for line in text.splitlines():
        for word in WORD.findall(line.partition("-- ")[0]):
            first, _, rest = word.partition(".")
            if first in files and rest:
                found[(*files[first], rest.split(".")[0])] = None
            elif first in names:
                found[names[first]] = None
    return list(found)
