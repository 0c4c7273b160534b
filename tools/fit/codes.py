"""Rows of a machine's file: which counters count an event, by its config as perf_event_open(2) takes it."""

from __future__ import annotations

from collections.abc import Sequence
from dataclasses import dataclass

from fit.faults import BadInput

# the fields of a config on x86
EVENT, UMASK, EDGE, PIN, ANY, INVERT, COUNT_MASK = 0xFF, 0xFF00, 1 << 18, 1 << 19, 1 << 21, 1 << 23, 0xFF << 24
IN_TX, IN_TX_CHECKPOINTED, EVENT_ABOVE = 1 << 32, 1 << 33, 0xF << 32
RAW = EVENT | UMASK | EDGE | INVERT | COUNT_MASK
FLAGS = EDGE | PIN | ANY | INVERT | COUNT_MASK | IN_TX | IN_TX_CHECKPOINTED
# what a row compares, by its first word
COMPARED = {
    "event": EVENT,
    "umask": EVENT | UMASK,
    "bits": EVENT,
    "fixed": RAW | IN_TX | IN_TX_CHECKPOINTED,
    "event-plain": EVENT | FLAGS,
    "umask-plain": EVENT | UMASK | FLAGS,
    "plain": FLAGS,
    "low": EVENT,
    "wide": EVENT | EVENT_ABOVE,
    "wide-several": EVENT | EVENT_ABOVE,
    "wide-halves": EVENT | EVENT_ABOVE,
    "arm": 0xFFFF,
    "any": 0,
}
MARKS = ("excl", "overlap", "pair", "node")
NONE, ALL, METRIC = "none", "all", "m"


@dataclass(frozen=True)
class Counters:
    """The counters that may count an event: a mask, what else Linux knows, and which part of the slots' register."""

    mask: int
    marks: tuple[str, ...] = ()
    metric: int | None = None

    @property
    def is_none(self) -> bool:
        return not self.mask and self.metric is None


@dataclass(frozen=True)
class Row:
    """Configs from `first` to `last`, compared in what `kind` names, and their counters."""

    kind: str
    first: int
    last: int
    counters: Counters

    def holds(self, config: int) -> bool:
        """Whether the row is about this config."""
        compared = COMPARED[self.kind] | (self.first if self.kind == "bits" else 0)
        umask = config >> 8 & 0xFF
        if self.kind == "wide-several" and umask.bit_count() < 2:
            return False
        if self.kind == "wide-halves" and not (umask & 0xF and umask & 0xF0):
            return False
        return self.first <= config & compared <= self.last


def first_matching(rows: Sequence[Row], config: int) -> Counters | None:
    """The counters of the first row that is about a config, none where no row is."""
    return next((row.counters for row in rows if row.kind != "within" and row.holds(config)), None)


@dataclass(frozen=True)
class Register:
    """An event whose value, a term of config1, goes to a register of its core, and how many values it holds at once."""

    row: Row
    term: str
    values: int


def mask_of_words(text: str, general: int, fixed: int, where: str) -> Counters:
    """The counters of words as `all,f0`, `0-3`, `m2` or `none`."""
    mask, metric = 0, None
    for word in [] if text == NONE else text.split(","):
        kind = word[0] if word[0] in ("f", METRIC) else ""
        first, mark, last = word.removeprefix(kind).partition("-")
        if word == ALL:
            mask |= (1 << general) - 1
        elif not (first.isdigit() and (last.isdigit() or not mark)):
            raise BadInput(f"{where}: {word!r} names no counter, as 0-3, f1, all or none do")
        elif kind == METRIC:
            metric = int(first)
        else:
            count = fixed if kind else general
            if int(last or first) >= count:
                raise BadInput(f"{where}: {word!r} is beyond the {count} {'fixed' if kind else 'general'} counters")
            for number in range(int(first), int(last or first) + 1):
                mask |= 1 << number + (general if kind else 0)
    return Counters(mask, (), metric)


def rows_of(text: str, general: int, fixed: int, where: str) -> tuple[Row, ...]:
    """The rows of a block: `KIND CODE[-CODE] COUNTERS [MARKS]`, one a line."""
    rows = []
    for number, line in enumerate(text.splitlines(), 1):
        words = line.split("#")[0].split()
        if not words:
            continue
        place = f"{where}, line {number}"
        if words[:2] == ["any", "-"] or words[0] in ("any", "within"):
            words.insert(1, "0")
        if len(words) < 3 or words[0] not in (*COMPARED, "within"):
            raise BadInput(f"{place}: {line.strip()!r} has to be KIND CODE COUNTERS; kinds are {', '.join(COMPARED)}")
        first, last = codes_of(words[1], place)
        found = mask_of_words(words[2], general, fixed, place)
        for mark in words[3:]:
            if mark not in MARKS:
                raise BadInput(f"{place}: the mark {mark!r} is not known; {', '.join(MARKS)} are")
        rows.append(Row(words[0], first, last, Counters(found.mask, tuple(words[3:]), found.metric)))
    return tuple(rows)


def codes_of(text: str, place: str) -> tuple[int, int]:
    """The first and the last config of `48`, `01c0` or `03-0a`."""
    first, mark, last = text.partition("-")
    try:
        codes = int(first, 16), int(last if mark else first, 16)
    except ValueError:
        raise BadInput(f"{place}: {text!r} is no hexadecimal code and no range of them") from None
    if codes[0] > codes[1]:
        raise BadInput(f"{place}: the range {text} falls")
    return codes


def registers_of(text: str, where: str) -> tuple[Register, ...]:
    """The rows of a block: `KIND CODE TERM VALUES`, one a line."""
    found = []
    for number, line in enumerate(text.splitlines(), 1):
        words = line.split("#")[0].split()
        if not words:
            continue
        place = f"{where}, line {number}"
        if len(words) != 4 or words[0] not in COMPARED or not words[3].isdigit():
            raise BadInput(f"{place}: {line.strip()!r} has to be KIND CODE TERM VALUES")
        first, last = codes_of(words[1], place)
        found.append(Register(Row(words[0], first, last, Counters(0)), words[2], int(words[3])))
    return tuple(found)


def bits_of(text: str, where: str) -> tuple[str, tuple[int, ...]]:
    """The field and the bits of a format as `config:0-7,32-35`."""
    field, mark, places = text.partition(":")
    bits: list[int] = []
    for part in places.split(","):
        first, dash, last = part.partition("-")
        if field not in ("config", "config1", "config2") or not mark or not first.isdigit():
            raise BadInput(f"{where}: {text!r} is no format, as config:0-7,32-35 is one")
        bits += range(int(first), int(last or first) + 1)
    return field, tuple(bits)


def placed(value: int, bits: tuple[int, ...]) -> int:
    """A value with its bits at these places of a field."""
    return sum(1 << place for at, place in enumerate(bits) if value >> at & 1)
