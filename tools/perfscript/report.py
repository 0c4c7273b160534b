"""Reads what the program prints: the report of `replay` and `run`, and the table of `stat`."""

import re
from typing import NamedTuple

from perfscript.faults import Fault
from perfscript.script import Key, Line, Script

NAME = re.compile(r"([pt]\d)\.(\d{1,9})", re.ASCII)
WORD = re.compile(r"[0-9a-f]{16}", re.ASCII)


class Reply(NamedTuple):
    """What a line answered beside Ok: its place in the report, from 1, the line's first word, and the words."""

    place: int
    head: str
    words: list[str]


class Record:
    """A record: its words of 64 bits with the header first, whether the tail has passed it, its place in the report,
    and its end in bytes from the start of the stream."""

    def __init__(self, words: list[int], place: int | None = None, end: int = 0, is_taken: bool = False) -> None:
        self.words, self.place, self.end, self.is_taken = words, place, end, is_taken
        first = words[0]
        self.type, self.misc, self.size = first & 0xFFFFFFFF, first >> 32 & 0xFFFF, first >> 48

    @property
    def body(self) -> list[int]:
        """The words behind the header."""
        return self.words[1:]

    @property
    def is_whole(self) -> bool:
        return self.size == 8 * len(self.words)


class Ring:
    """The lines of one ring: head and last tail seen in bytes, how many records were lost, and how many of them no
    LOST record has stated yet."""

    def __init__(self, number: int, given: dict[str, str], place: int) -> None:
        self.number, self.place = number, place
        self.head, self.tail = int(given["head"]), int(given["tail"])
        self.lost, self.pending = int(given["lost"]), int(given["pending"])
        self.records: list[Record] = []

    @property
    def text(self) -> str:
        return f"head={self.head} tail={self.tail} lost={self.lost} pending={self.pending}"


class Report:
    """The order, the replies that are more than Ok by the keys of their lines, and the rings by their numbers."""

    def __init__(self, text: str) -> None:
        lines = text.split("\n")
        if len(lines) < 3 or lines[0].split(" ")[0] != "order" or lines[-2:] != ["end", ""]:
            raise Fault(f"not a report, which begins with a line `order` and ends with a line `end`: {text[:40]!r}")
        self.order: list[str] = lines[0].split(" ")[1:]
        self.replies: dict[Key, Reply] = {}
        self.rings: dict[int, Ring] = {}
        ring: Ring | None = None
        for place, line in enumerate(lines[1:-2], 2):
            try:
                ring = self._read(ring, place, line.split(" "))
            except (ValueError, IndexError, KeyError):
                raise Fault(f"report line {place}: not understood: {line[:80]}") from None

    def _read(self, ring: Ring | None, place: int, words: list[str]) -> Ring | None:
        named = NAME.fullmatch(words[0])
        if named:
            self._read_reply(place, (named[1], int(named[2])), words)
        elif words[0] == "ring":
            ring = Ring(int(words[1]), dict(word.split("=") for word in words[2:]), place)
            if ring.number in self.rings:
                raise ValueError(words[1])
            self.rings[ring.number] = ring
        elif words[0] in ("taken", "left") and ring and len(words) > 1 and all(map(WORD.fullmatch, words[1:])):
            end = (ring.records[-1].end if ring.records else 0) + 8 * (len(words) - 1)
            ring.records.append(Record([int(word, 16) for word in words[1:]], place, end, words[0] == "taken"))
        else:
            raise ValueError(words[0])
        return ring

    def _read_reply(self, place: int, key: Key, words: list[str]) -> None:
        head, *rest = words[1:]
        if key in self.replies:
            raise ValueError(key)
        if head == "read" and not (len(rest) == 1 and rest[0].startswith("E")):
            rest = [str(int(word)) for word in rest]
        self.replies[key] = Reply(place, head, rest)

    def check(self, script: Script) -> None:
        """Refuses a report that is not of this script: by its order, the lines that it answers, and its rings."""
        if self.order != script.order:
            raise Fault("the report's order is not the script's: it is of another script, or of a run by threads")
        heads = {act.key: act.head for act in script.acts() if isinstance(act, Line)}
        for (actor, number), reply in self.replies.items():
            if heads.get((actor, number)) != reply.head:
                raise Fault(f"report line {reply.place}: the order has no line {actor}.{number} {reply.head}")
        for ring in sorted(set(script.rings) ^ set(self.rings)):
            raise Fault(f"ring {ring} stands in the script or in the report alone")

    def answer(self, line: Line) -> list[str] | None:
        """The words of the answer of a line; None where it is a plain Ok."""
        return self.replies[line.key].words if line.key in self.replies else None

    def refusal(self, line: Line) -> str | None:
        """Why a line is refused; None where it is not."""
        words = self.answer(line)
        return words[0] if words and words[0].startswith("E") and line.head != "why" else None

    def place(self, line: Line) -> int | None:
        """The line of the report that answers a line; None for a plain Ok."""
        return self.replies[line.key].place if line.key in self.replies else None


class Row(NamedTuple):
    """A row of `stat`: what an event counts, how often that occurred, for how long the event was enabled and on a
    counter, and the estimate for the whole time: None where it never was on a counter or is in error."""

    name: str
    value: int
    enabled: int
    running: int
    estimate: int | None


def rows_of(table: str) -> dict[int, Row]:
    """The rows of a table of counts, by their slots."""
    lines = table.split("\n")
    if not lines[0].startswith("stat ") or lines[-2:] != ["end", ""]:
        raise Fault(f"not a table, which begins with a line `stat` and ends with a line `end`: {table[:40]!r}")
    found = {}
    for place, line in enumerate(lines[1:-2], 2):
        try:
            slot, name, value, enabled, running, estimate, _ = line.split()
            whole = None if estimate in ("-", "error") else int(estimate)
            found[int(slot)] = Row(name, int(value), int(enabled), int(running), whole)
        except ValueError:
            raise Fault(f"table line {place}: not understood: {line[:80]}") from None
    return found
