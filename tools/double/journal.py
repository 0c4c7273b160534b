"""The journal of a session: a whole script with its order, which grows by what is done."""

from __future__ import annotations

from dataclasses import dataclass

from perfscript import Draft, Report
from perfscript.limits import MOST_LINES
from perfscript.script import Key

from double.backend import BackEnd, TooMuch

TOOL = "t0"
MOST_READS_AHEAD = 256


@dataclass
class Mark:
    """How far a journal had come."""

    lines: dict[str, int]
    order: int
    tasks: set[int]
    rings: dict[int, int]


class Journal:
    """The lines of one session. `processor` lines wait for the next question; a `call` asks at once."""

    def __init__(self, head: list[str], tasks: list[int], back_end: BackEnd) -> None:
        self.head, self.back_end = head, back_end
        self.tasks, self.rings = set(tasks), dict[int, int]()
        self.draft = Draft()
        self.reads: dict[str, list[str]] = {}
        self.last_reads: list[str] = []
        self.report: Report | None = None
        self.checked = self.mark()

    def mark(self) -> Mark:
        lengths = {actor: len(lines) for actor, lines in self.draft.lines.items()}
        return Mark(lengths, len(self.draft.order), set(self.tasks), dict(self.rings))

    def go_back(self, mark: Mark) -> None:
        """Takes away what was added since."""
        for actor, lines in self.draft.lines.items():
            del lines[mark.lines.get(actor, 0) :]
        del self.draft.order[mark.order :]
        self.tasks, self.rings = mark.tasks, mark.rings
        self.back_end.go_back(mark.order)

    def text(self) -> str:
        """The script so far."""
        return self.whole().text()

    def whole(self) -> Draft:
        """The script so far, with the tasks and rings in its head."""
        tasks = [f"task {number}" for number in sorted(self.tasks)]
        rings = [f"ring {number} bytes={size}" for number, size in sorted(self.rings.items())]
        self.draft.head = self.head + tasks + rings
        return self.draft

    def processor(self, actor: str, line: str) -> Key:
        """Adds a line of a processor."""
        self.forget()
        return self.draft.act(actor, line)

    def look(self, ring: int, place: int) -> None:
        self.forget()
        self.draft.look(ring, place)

    def forget(self) -> None:
        """What reads answered before holds no more."""
        if self.reads:
            self.last_reads = list(self.reads)
            self.reads = {}

    def ask(self) -> Report:
        """The report of the lines so far. Where they are too much, those since the last question are taken away."""
        if self.report is None or self.checked.order != len(self.draft.order):
            try:
                self.report = self.back_end.report(self.whole())
            except TooMuch:
                self.go_back(self.checked)
                raise
            self.checked = self.mark()
        return self.report

    def call(self, line: str) -> tuple[Key, list[str] | None]:
        """Adds a line of the tool, and gives its key and the words of its answer: None for a plain Ok."""
        if line.startswith("read "):
            return self.read(line)
        self.forget()
        key = self.draft.act(TOOL, line)
        return key, words_of(self.ask(), key)

    def read(self, line: str) -> tuple[Key, list[str] | None]:
        """A read that was asked for since something happened is not asked again, since reads change nothing."""
        if not self.back_end.is_asked_ahead:
            self.forget()
            key = self.draft.act(TOOL, line)
            return key, words_of(self.ask(), key)
        if line not in self.reads or not self.back_end.has_room_for_reads:
            self.ask_ahead([line, *(other for other in self.last_reads if other != line)])
        elif self.draft.count >= MOST_LINES:
            raise TooMuch("LIMIT")
        key = self.draft.act(TOOL, line)
        # its answer is known, so it stays where later lines are too much
        self.checked = self.mark()
        return key, self.reads[line]

    def ask_ahead(self, lines: list[str]) -> None:
        """Asks reads in one question, and takes their lines away again."""
        mark = self.mark()
        keys = [self.draft.act(TOOL, line) for line in lines[:MOST_READS_AHEAD]]
        try:
            self.report = self.back_end.report(self.whole())
        except TooMuch:
            self.go_back(mark if len(lines) > 1 else self.checked)
            if len(lines) == 1:
                raise
            self.ask_ahead(lines[:1])
            return
        self.go_back(mark)
        self.checked = self.mark()
        for line, key in zip(lines, keys):
            self.reads[line] = words_of(self.report, key) or []


def words_of(report: Report, key: Key) -> list[str] | None:
    return report.replies[key].words if key in report.replies else None
