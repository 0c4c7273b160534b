"""Reads what the program answered: the report of `replay`, and the table of `stat`."""

from __future__ import annotations

from dataclasses import dataclass
from typing import TYPE_CHECKING

from fit.faults import ProgramFault
from perfscript import Key, Reply, Report, rows_of
from perfscript.names import CAUSES

if TYPE_CHECKING:
    from fit.script import Question

REFUSALS = ("EASSIGN", "EPMU", "EDEVICE")


@dataclass(frozen=True)
class Cause:
    """Why a group is off: a word, as the report has it, and the slots that it names."""

    word: str
    slots: tuple[int, ...]

    @classmethod
    def of(cls, words: list[str]) -> Cause | None:
        """The cause in the words of an answer of `why`, none where the group is on or away."""
        words = words[1:] if words[:1] == ["error"] else words
        if words[:1] in (["on"], ["off"], ["away"]):
            return None
        if len(words) < 2 or words[0] not in CAUSES or not all(word.isdecimal() for word in words[1:]):
            raise ProgramFault(f"the program gave a cause that is not known: {' '.join(words)!r}")
        return cls(words[0], tuple(map(int, words[1:])))


@dataclass(frozen=True)
class Times:
    """For how long an event was enabled, and for how long it was on a counter."""

    enabled: int
    running: int


class Answers:
    """The answers to a script's questions, and the times of its slots."""

    def __init__(self) -> None:
        self.replies: dict[Key, Reply] = {}
        self.times: dict[int, Times] = {}

    def add(self, word: str, text: str) -> None:
        """Adds what the program printed for a word."""
        if word == "stat":
            self.times = {slot: Times(row.enabled, row.running) for slot, row in rows_of(text).items()}
        else:
            self.replies = Report(text).replies

    def words(self, question: Question) -> list[str]:
        """The words of an answer; none where it is a plain Ok."""
        return self.replies[question.key].words if question.key in self.replies else []

    def seats(self, question: Question) -> dict[int, int]:
        """The counter of each slot that is on."""
        words = self.words(question)
        try:
            return {int(slot): int(counter) for slot, counter in (word.split("=") for word in words)}
        except ValueError:
            raise ProgramFault(f"the program answered seats that can't be read: {' '.join(words)!r}") from None

    def refusal(self, question: Question) -> Cause | None:
        """Why an open was refused: the cause, or none where it was done."""
        words = self.words(question)
        if words and words[0] not in REFUSALS:
            raise ProgramFault(f"the program refused {question.line!r} with {' '.join(words)}")
        if not words:
            return None
        return Cause({"EASSIGN": "hall"}.get(words[0], "pmu"), tuple(map(int, words[1:])))
