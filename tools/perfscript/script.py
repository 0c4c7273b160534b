"""The language of docs/SCRIPT.md: reads a script, and writes one."""

import re
from collections.abc import Iterator
from dataclasses import dataclass, field
from typing import NamedTuple, TypeAlias

from perfscript.faults import Fault
from perfscript.forms import DECLARATIONS, HEADERS, is_formed
from perfscript.limits import MOST_CPUS

ACT = re.compile(r"([pt])(\d)|s(\d{1,20})=(\d{1,20})", re.ASCII)
ACTS_A_LINE = 200

# an actor, and the number of the line among that actor's lines, from 0
Key: TypeAlias = tuple[str, int]


@dataclass(frozen=True)
class Line:
    """A line of a script: its place in the text, from 1, its first word, and the words behind it.

    A line under a processor or a tool has that actor, and its number among the actor's lines, from 0. A header
    `processor N` or `tool N` has the actor that it begins, and the number -1. Other lines have no actor.
    """

    place: int
    head: str
    words: tuple[str, ...]
    actor: str = ""
    number: int = -1

    @property
    def key(self) -> Key:
        return self.actor, self.number

    @property
    def name(self) -> str:
        """What a report calls the line: `t0.3`."""
        return f"{self.actor}.{self.number}"

    @property
    def text(self) -> str:
        return " ".join([self.head, *self.words])

    @property
    def is_group(self) -> bool:
        return "group" in self.words[1:]

    def given(self) -> dict[str, str]:
        """What the line gives as WORD=VALUE."""
        return dict(word.split("=", 1) for word in self.words if "=" in word)

    def slot(self) -> int:
        return int(self.words[0])


class Look(NamedTuple):
    """That the tail of a ring was seen at a place, in bytes from the start of the stream."""

    ring: int
    place: int


class Pmu(NamedTuple):
    """How many counters each of its processors has, and the mask of these processors."""

    counters: int
    cpus: int


class Kind(NamedTuple):
    """A declared kind: its PMU, and the mask of the counters that can count it."""

    pmu: int
    mask: int


class Reader(NamedTuple):
    """How often a reader looks at its ring, and how many records it takes at most in one look."""

    tries: int
    batch: int


Act: TypeAlias = Line | Look


def lines_of(text: str) -> list[Line]:
    """Takes a text apart. It need not be a script: each line comes out, whatever its words."""
    found: list[Line] = []
    actor, numbers = "", dict[str, int]()
    rows = text.split("\n")
    for place, row in enumerate(rows[:-1] if rows[-1] == "" else rows, 1):
        head, *words = row.split(" ")
        number = -1
        if head in HEADERS:
            actor = head[0] + " ".join(words)
            numbers[actor] = 0
        elif head in DECLARATIONS:
            actor = ""
        elif actor:
            number = numbers[actor]
            numbers[actor] += 1
        found.append(Line(place, head, tuple(words), actor, number))
    return found


class Script:
    """A script that the program takes. Where its text can't be read, the fault names the line."""

    def __init__(self, text: str) -> None:
        self.text, self.cpus = text, 1
        self.pmus: dict[int, Pmu] = {}
        self.kinds: dict[str, Kind] = {}
        self.tasks: list[int] = []
        self.rings: dict[int, int] = {}
        self.readers: dict[int, Reader] = {}
        self.lines: dict[str, list[Line]] = {}
        self.order: list[str] = []
        self.head: list[Line] = []
        self.version = "2" if text.startswith("perf 2\n") else "1"
        for line in lines_of(text):
            try:
                self._read(line)
            except (ValueError, IndexError, KeyError):
                raise Fault(f"script line {line.place}: not understood: {line.text[:80]}") from None
        self._check_order()

    def _read(self, line: Line) -> None:
        if line.head in HEADERS:
            if not ACT.fullmatch(line.actor):
                raise ValueError(line.actor)
            self.lines[line.actor] = []
        elif line.head != "order" and not is_formed([line.head, *line.words], self.version):
            raise ValueError(line.head)
        elif line.actor:
            self.lines[line.actor].append(line)
        elif line.head not in DECLARATIONS:
            raise ValueError(line.head)
        else:
            self._declare(line)
        if not line.actor and line.head not in ("reader", "order", "end"):
            self.head.append(line)

    def _declare(self, line: Line) -> None:
        """Takes a line that stands under no processor and no tool."""
        if line.head == "order":
            self.order += line.words
            return
        given, number = line.given(), int(line.words[0]) if line.head in ("pmu", "task", "ring", "reader") else 0
        if line.head == "machine":
            self.cpus = int(given["cpus"])
            if not 1 <= self.cpus <= MOST_CPUS:
                raise ValueError(self.cpus)
            if "counters" in given:
                self.pmus[0] = Pmu(int(given["counters"]), (1 << self.cpus) - 1)
        elif line.head == "pmu":
            self.pmus[number] = Pmu(int(given["counters"]), int(given["cpus"], 16))
        elif line.head == "kind":
            self.kinds[line.words[0]] = Kind(int(given.get("pmu", "0")), int(given["mask"], 16))
        elif line.head == "task":
            self.tasks.append(number)
        elif line.head == "ring":
            self.rings[number] = int(given["bytes"])
        elif line.head == "reader":
            self.readers[number] = Reader(int(given["tries"]), int(given["batch"]))

    def _check_order(self) -> None:
        done: dict[str, int] = {}
        for act in self.order:
            if not ACT.fullmatch(act):
                raise Fault(f"script: not an act: {act[:80]}")
            done[act] = done.get(act, 0) + 1
        for actor, count in done.items():
            lines = len(self.lines.get(actor, []))
            if actor[0] != "s" and count > lines:
                raise Fault(f"script: the order has {count} acts of {actor}, which has {lines} lines")

    def acts(self) -> Iterator[Act]:
        """The order: each act as the line that it does, or as a look at the tail of a ring."""
        done: dict[str, int] = {}
        for act in self.order:
            if act[0] == "s":
                ring, _, place = act[1:].partition("=")
                yield Look(int(ring), int(place))
            else:
                number = done.get(act, 0)
                done[act] = number + 1
                yield self.lines[act][number]

    def all_lines(self) -> list[Line]:
        """The lines under processors and tools."""
        return [line for lines in self.lines.values() for line in lines]

    def task_numbers(self) -> list[int]:
        """Each task that is declared or forked."""
        forked = [int(line.words[0]) for line in self.all_lines() if line.head == "fork"]
        return sorted(set(self.tasks) | set(forked))

    def counters_of(self, cpu: int) -> int:
        """How many counters a processor has."""
        return next((pmu.counters for pmu in self.pmus.values() if pmu.cpus >> cpu & 1), 0)


@dataclass
class Draft:
    """A script that is being written. `head` has the lines before the processors."""

    head: list[str] = field(default_factory=list)
    lines: dict[str, list[str]] = field(default_factory=dict)
    readers: list[str] = field(default_factory=list)
    order: list[str] = field(default_factory=list)

    @classmethod
    def of(cls, script: Script) -> "Draft":
        """A copy of a script, to which lines can be added."""
        lines = {actor: [line.text for line in own] for actor, own in script.lines.items()}
        readers = [f"reader {ring} tries={one.tries} batch={one.batch}" for ring, one in script.readers.items()]
        return cls([line.text for line in script.head], lines, readers, list(script.order))

    def add(self, actor: str, line: str) -> Key:
        """Adds a line, whose act comes later."""
        own = self.lines.setdefault(actor, [])
        own.append(line)
        return actor, len(own) - 1

    def act(self, actor: str, line: str) -> Key:
        """Adds a line that is done next."""
        self.order.append(actor)
        return self.add(actor, line)

    def look(self, ring: int, place: int) -> None:
        """The tail of a ring is seen at a place, in bytes, next."""
        self.order.append(f"s{ring}={place}")

    @property
    def count(self) -> int:
        """How many lines stand under processors and tools."""
        return sum(map(len, self.lines.values()))

    def text(self) -> str:
        """The script so far."""
        parts = list(self.head)
        for actor in sorted(self.lines):
            parts += [f"{'processor' if actor[0] == 'p' else 'tool'} {actor[1:]}", *self.lines[actor]]
        parts += self.readers
        for first in range(0, len(self.order), ACTS_A_LINE):
            parts.append("order " + " ".join(self.order[first : first + ACTS_A_LINE]))
        return "\n".join([*parts, "end"]) + "\n"
