"""Reads the tables of a kernel's source that say which counters of an x86 or Arm core count which event.

The macros of the tables are expanded as the tree defines them, so each row has the numbers that the kernel compiles.
"""

import json
import os
import re
from dataclasses import dataclass

INTEL, PEBS, AMD = (f"arch/x86/events/{name}" for name in ("intel/core.c", "intel/ds.c", "amd/core.c"))
HEADERS = (
    "arch/x86/include/asm/perf_event.h", "arch/x86/events/perf_event_flags.h", "arch/x86/events/perf_event.h",
    "arch/x86/include/asm/intel-family.h",
)
SOURCES = (INTEL, PEBS, AMD, "arch/x86/events/core.c")
ARM = "arch/arm64/kernel/perf_event.c"
ARM_HEADERS = ("arch/arm64/include/asm/perf_event.h", "include/linux/perf/arm_pmuv3.h", "include/linux/perf/arm_pmu.h")
JSON = "tools/perf/pmu-events/arch"
# the index of a fixed counter, and of what is read out of the slots' register, in a mask of the kernel
FIRST_FIXED, FIRST_METRIC, END = 32, 48, 64
CALL = re.compile(r"\b([A-Za-z_]\w*)\s*\(")


@dataclass(frozen=True)
class Row:
    """A constraint: configs from `first` to `last`, compared in the bits of `compared`, have the counters of `mask`."""

    first: int
    last: int
    compared: int
    mask: int
    flags: frozenset[str]


@dataclass(frozen=True)
class ExtraRegister:
    """An event, compared in the bits of `compared`, whose config1 goes to a register of its core."""

    event: int
    compared: int
    register: str


class Missing(Exception):
    """What a tree does not have."""


def without_comments(text: str) -> str:
    return re.sub(r"/\*.*?\*/|//[^\n]*", " ", text, flags=re.S)


def arguments(text: str, at: int) -> tuple[list[str], int]:
    """The arguments of the call whose bracket opens at this index, and the index behind its end."""
    parts: list[str] = []
    depth, start = 0, at + 1
    for index in range(at, len(text)):
        if text[index] in "({":
            depth += 1
        elif text[index] in ")}":
            depth -= 1
            if depth == 0:
                return [part.strip() for part in [*parts, text[start:index]]], index + 1
        elif text[index] == "," and depth == 1:
            parts.append(text[start:index])
            start = index + 1
    raise Missing("a bracket that closes")


class Tree:
    """A kernel's source."""

    def __init__(self, folder: str) -> None:
        self.folder = folder
        self.texts: dict[str, str] = {}
        self.macros: dict[str, tuple[list[str] | None, str]] = {}
        for path in (*HEADERS, *SOURCES, ARM, *ARM_HEADERS):
            if os.path.exists(os.path.join(folder, path)):
                self.define(self.text(path))
        for name in ("BIT_ULL", "BIT"):
            self.macros.setdefault(name, (["n"], "(1<<(n))"))
        self.macros.setdefault("GENMASK_ULL", (["h", "l"], "((1<<((h)+1))-(1<<(l)))"))

    def text(self, path: str) -> str:
        """A file without its comments."""
        if path not in self.texts:
            try:
                with open(os.path.join(self.folder, path), encoding="utf-8", errors="replace") as file:
                    self.texts[path] = without_comments(file.read())
            except OSError as fault:
                raise Missing(f"{os.path.join(self.folder, path)}: {fault.strerror}") from None
        return self.texts[path]

    def version(self) -> str:
        """What the tree's Makefile calls itself, where it is there."""
        try:
            found = dict(re.findall(r"(?m)^(VERSION|PATCHLEVEL|SUBLEVEL) = (\d+)$", self.text("Makefile")))
            return "{VERSION}.{PATCHLEVEL}.{SUBLEVEL}".format_map(found)
        except (Missing, KeyError):
            return "of unknown version"

    def define(self, text: str) -> None:
        """Adds a file's macros and the constants of its enumerations that have a value."""
        joined = text.replace("\\\n", " ")
        for name, parameters, body in re.findall(r"(?m)^[ \t]*#[ \t]*define[ \t]+(\w+)(\([^)]*\))?[ \t]*(.*)$", joined):
            names = [part.strip() for part in parameters[1:-1].split(",")] if parameters else None
            self.macros.setdefault(name, (names, body.strip()))
        for name, value in re.findall(r"PERF_ARCH\((\w+),\s*(\w+)\)", text):
            self.macros.setdefault(f"PERF_X86_EVENT_{name}", (None, value))

    def expanded(self, text: str, stop: str = "") -> str:
        """A text with its macros expanded, up to calls of `stop`."""
        for _ in range(60):
            before = text
            text = re.sub(r"\b[A-Za-z_]\w*\b", lambda found: self.constant(found.group()), text)
            found = next((one for one in CALL.finditer(text) if one[1] != stop and self.is_call(one[1])), None)
            if found:
                given, end = arguments(text, found.end() - 1)
                names, body = self.macros[found[1]]
                for name, value in zip(names or [], given):
                    body = re.sub(rf"(?<![\w.]){re.escape(name)}\b", value.replace("\\", r"\\"), body)
                text = text[: found.start()] + body + text[end:]
            if text == before:
                break
        return text

    def constant(self, name: str) -> str:
        names, body = self.macros.get(name, ([], name))
        return f"({body})" if names is None and body else name

    def is_call(self, name: str) -> bool:
        return self.macros.get(name, (None, ""))[0] is not None

    def number(self, text: str) -> int:
        """The value of an expression of constants."""
        plain = re.sub(r"\b(0x[0-9a-fA-F]+|\d+)(?:[uU]?[lL]{0,2}|[lL]{1,2}[uU]?)\b", r"\1", self.expanded(text))
        if not re.fullmatch(r"[\s0-9a-fA-FxX()|&~<>+*-]+", plain):
            raise Missing(f"the value of {text.strip()!r}, which became {plain.strip()!r}")
        plain = " ".join(re.sub(r"\b0+(\d)", r"\1", plain).split())
        return int(eval(plain, {"__builtins__": {}})) & (1 << END) - 1

    def body(self, path: str, pattern: str) -> str:
        """What stands in the braces behind a pattern."""
        text = self.text(path)
        found = re.search(pattern, text)
        if not found:
            raise Missing(f"{pattern!r} in {path}")
        at = text.index("{", found.end() - 1)
        depth = 0
        for index in range(at, len(text)):
            depth += {"{": 1, "}": -1}.get(text[index], 0)
            if depth == 0:
                return text[at + 1 : index]
        raise Missing(f"the end of {pattern!r} in {path}")

    def constraints(self, name: str) -> list[Row]:
        """A table of constraints, in its order."""
        path = next((path for path in (INTEL, PEBS) if re.search(rf"\b{name}\[\]", self.text(path))), INTEL)
        body, rows, at = self.body(path, rf"\b{name}\[\][^={{;]*="), [], 0
        while found := CALL.search(body, at):
            _, at = arguments(body, found.end() - 1)
            rows.append(self.row(body[found.start() : at]))
        return rows

    def row(self, text: str) -> Row:
        """The row that a call of one of the macros makes."""
        stop = "__EVENT_CONSTRAINT_RANGE"
        whole = self.expanded(text, stop)
        found = re.search(rf"{stop}\s*\(", whole)
        if not found:
            raise Missing(f"a constraint in {text!r}")
        (first, last, mask, compared, _, overlaps, flags), _ = arguments(whole, found.end() - 1)
        excludes = self.number(flags) & self.number("PERF_X86_EVENT_EXCL")
        marks = {word for word, value in (("overlap", self.number(overlaps)), ("excl", excludes)) if value}
        code, end = self.number(first), self.number(last)
        return Row(code, end, self.number(compared), self.number(mask), frozenset(marks))

    def extra_registers(self, name: str) -> list[ExtraRegister]:
        """The events of a table that have a register for their config1."""
        body, found, at = self.body(INTEL, rf"\b{name}\[\][^={{;]*="), [], 0
        while call := CALL.search(body, at):
            _, at = arguments(body, call.end() - 1)
            whole = self.expanded(body[call.start() : at], "EVENT_EXTRA_REG")
            (event, register, compared, *_), _ = arguments(whole, whole.index("("))
            kind = "offcore_rsp" if "OFFCORE" in body[call.start() : at] else ""
            kind = kind or ("frontend" if "FRONTEND" in body[call.start() : at] else "ldlat")
            found.append(ExtraRegister(self.number(event), self.number(compared), kind))
        return found

    def cache(self, path: str, name: str) -> dict[str, int]:
        """A table of cache events: `L1D OP_READ RESULT_MISS` to a config. What is 0 or -1 is left out."""
        body = self.body(path, rf"\b{name}\s*(?:\[[^\]]*\]\s*)+=")
        place, found = ["", "", ""], {}
        for index, value in re.findall(r"C\(\s*(\w+)\s*\)\s*\]|=\s*([^,{}\[\]]+)", body):
            if index:
                place[0 if not index.startswith(("OP_", "RESULT_")) else 1 + index.startswith("RESULT_")] = index
            elif value.strip():
                number = self.number(value)
                if number not in (0, (1 << END) - 1):
                    found[" ".join(place)] = number
        return found

    def event_map(self, path: str, name: str) -> dict[str, int]:
        """A table of the general hardware events."""
        body = self.body(path, rf"\b{name}\s*\[[^\]]*\][^={{;]*=")
        pairs = re.findall(r"\[PERF_COUNT_HW_(\w+)\]\s*=\s*([^,]+),", body)
        return {event: self.number(value) for event, value in pairs}

    def json_events(self, folder: str) -> list[dict[str, str]]:
        """The events of a folder of perf's tables."""
        events = []
        for root, _, files in os.walk(os.path.join(self.folder, JSON, folder)):
            for name in sorted(files):
                if name.endswith(".json"):
                    with open(os.path.join(root, name), encoding="utf-8") as file:
                        events += json.load(file)
        return events


@dataclass
class Case:
    """What intel_pmu_init sets for some models: their names, the tables by field, and the whole text."""

    models: tuple[str, ...]
    text: str

    def table(self, field: str) -> str:
        """The last table that is given to a field, an empty word where none is."""
        found: list[str] = re.findall(rf"(?:x86_pmu\.|pmu->){field}\s*=\s*(\w+)", self.text)
        return found[-1] if found else ""

    def copied(self, field: str) -> str:
        found: list[str] = re.findall(rf"memcpy\((?:pmu->)?{field},\s*(\w+)", self.text)
        return found[-1] if found else ""


def intel_cases(tree: Tree) -> list[Case]:
    """The cases of the switch over models, each with the text of those that it falls through to."""
    body = tree.body(INTEL, r"__init int intel_pmu_init\(void\)\s*\{")
    start = body.index("switch (boot_cpu_data.x86_model)")
    body = body[start : body.index("default:", start)]
    parts = re.split(r"((?:\bcase\s+INTEL_\w+:\s*)+)", body)
    found, waiting = [], []
    for labels, text in zip(parts[1::2], parts[2::2]):
        waiting += re.findall(r"INTEL_\w+", labels)
        if "fallthrough;" in text or "break;" not in text:
            continue
        found.append(Case(tuple(waiting), text))
        waiting = []
    return found
