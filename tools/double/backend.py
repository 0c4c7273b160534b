"""What answers a session's questions: replays of its script, or perf_live, line by line."""

from __future__ import annotations

import os
import re
from typing import Protocol

from perfscript import Draft, Fault, Live, Outcome, Program, Reply, Report
from perfscript.limits import MOST_BYTES, MOST_LINES
from perfscript.live import USUAL, live_at
from perfscript.program import Built

REFUSED = re.compile(r"perf_run: line (\d+): ([A-Z]+)$")
NOTHING = "order\nend\n"
# a script whose lines have more bytes than this may be too long as a whole
MOST_LIVE = MOST_BYTES // 2
# the bytes of the longest read and of its act
LONGEST_READ = len("read 255 size=18446744073709551615\n t0")


class TooMuch(Exception):
    """The program takes no script with the lines that were added last: the reason of docs/SCRIPT.md, or its note."""


class BackEnd(Protocol):
    """Answers about a script that grows by lines at the end of its order."""

    # whether several reads in one question are cheaper than one after the other
    is_asked_ahead: bool

    @property
    def has_room_for_reads(self) -> bool:
        """Whether the script that was asked last has room for as many reads as a script has lines."""

    def report(self, draft: Draft) -> Report:
        """The report of a script's own order. TooMuch where the program refuses the script."""

    def report_apart(self, draft: Draft) -> Report:
        """The report of another script."""

    def go_back(self, acts: int) -> None:
        """What the script had behind so many acts was taken away."""

    def close(self) -> None:
        """The session is over."""


class Replay:
    """Replays the whole script for each question."""

    is_asked_ahead = True

    def __init__(self, program: Program) -> None:
        self.program = program
        self.size = 0

    @property
    def has_room_for_reads(self) -> bool:
        return self.size + MOST_LINES * LONGEST_READ <= MOST_BYTES

    def report(self, draft: Draft) -> Report:
        text = draft.text()
        self.size = len(text)
        return self.report_of(text)

    def report_apart(self, draft: Draft) -> Report:
        return self.report_of(draft.text())

    def report_of(self, text: str) -> Report:
        outcome = call(self.program, "replay", text)
        if outcome.status == 0:
            return Report(outcome.out)
        if outcome.status == 1:
            refused = REFUSED.match(outcome.note)
            raise TooMuch(refused[2] if refused else outcome.note)
        raise Fault(f"{self.program.path} replay ended with status {outcome.status}: {outcome.note or 'no note'}")

    def go_back(self, acts: int) -> None:
        pass

    def close(self) -> None:
        pass


class LineByLine:
    """Asks perf_live for the lines that are new. A script that may weigh something, one with rings and a very long one
    are replayed, since perf_live has no rings and no such limits; so is all that the session asks from there on."""

    is_asked_ahead = False

    def __init__(self, path: str, program: Program) -> None:
        self.path, self.replay = path, Replay(program)
        self.live: Live | None = None
        self.head: list[str] = []
        self.done: dict[str, int] = {}
        self.acts = self.size = 0
        self.found = Report(NOTHING)

    @property
    def has_room_for_reads(self) -> bool:
        return self.replay.has_room_for_reads

    def report(self, draft: Draft) -> Report:
        if not self.is_asked_ahead and not self.is_live(draft):
            self.close()
            self.is_asked_ahead = True
        if self.is_asked_ahead:
            return self.replay.report(draft)
        if self.live is None or self.head != draft.head:
            self.restart(draft.head)
        for actor in draft.order[self.acts :]:
            self.ask(actor, draft.lines[actor][self.done.get(actor, 0)])
        return self.found

    def is_live(self, draft: Draft) -> bool:
        """Whether perf_live answers a script as a replay does. What was asked before is not looked at again."""
        if any(row.startswith("ring ") for row in draft.head):
            return False
        done, size = dict(self.done), self.size
        for actor in draft.order[self.acts :]:
            number = done.get(actor, 0)
            line = draft.lines[actor][number]
            done[actor] = number + 1
            size += size_of(line)
            if is_sampling(line):
                return False
        return size <= MOST_LIVE

    def restart(self, head: list[str]) -> None:
        """Begins again, with no line done."""
        self.close()
        self.live = Live("\n".join([*head, "end"]) + "\n", self.path, is_checked=False)
        self.live.__enter__()
        self.head = list(head)

    def ask(self, actor: str, line: str) -> None:
        """Does the next line, and keeps its answer."""
        assert self.live
        answer = self.live.line(actor, line)
        if not answer.is_taken:
            raise TooMuch(answer.reason or "LIMIT")
        number = self.done.get(actor, 0)
        if answer.words:
            self.found.replies[actor, number] = Reply(0, line.split(" ")[0], list(answer.words))
        self.done[actor] = number + 1
        self.acts += 1
        self.size += size_of(line)

    def report_apart(self, draft: Draft) -> Report:
        return self.replay.report(draft)

    def go_back(self, acts: int) -> None:
        if acts < self.acts:
            self.close()

    def close(self) -> None:
        if self.live:
            self.live.close()
        self.live, self.done, self.acts, self.size, self.found = None, {}, 0, 0, Report(NOTHING)


def size_of(line: str) -> int:
    """The bytes of a line and of its act in a script."""
    return len(line) + len("\n p0")


def is_sampling(line: str) -> bool:
    """Whether a line is an open, by bytes, that gives a period."""
    word = next((word for word in line.split(" ") if word.startswith("attr=")), "") if line[:5] == "open " else ""
    return any(bytes.fromhex(word[5:])[16:24])


def live_path() -> str | None:
    """Where perf_live lies: what PERF_LIVE names, or its usual place; None where it is not there."""
    return live_at() if os.environ.get("PERF_LIVE") or os.access(USUAL, os.X_OK) else None


def back_end(program: Program, live: str | None) -> BackEnd:
    """A session's back end: perf_live where a path is given."""
    if live:
        return LineByLine(live, program)
    return Replay(program)


def call(program: Program, words: str, text: str) -> Outcome:
    """A call of the program: of a built one without a pool or pipes, since a session makes many."""
    return spawned(program.path, words, text) if isinstance(program, Built) else program.call(words, text)


def spawned(path: str, words: str, text: str) -> Outcome:
    """The outcome of one process, with files in memory in the place of pipes."""
    files = [os.memfd_create(name) for name in ("in", "out", "note")]
    try:
        data = text.encode("latin-1")
        if os.write(files[0], data) != len(data):
            raise Fault(f"{path}: no room for a script of {len(data)} bytes")
        os.lseek(files[0], 0, os.SEEK_SET)
        places = [(os.POSIX_SPAWN_DUP2, file, number) for number, file in enumerate(files)]
        process = os.posix_spawn(path, [path, *words.split()], dict[str, str](), file_actions=places)
        status = os.waitstatus_to_exitcode(os.waitpid(process, 0)[1])
        out, note = (os.pread(file, os.fstat(file).st_size, 0).decode("latin-1") for file in files[1:])
    except OSError as fault:
        raise Fault(f"{path} does not start: {fault.strerror}; --program names another") from None
    finally:
        for file in files:
            os.close(file)
    return Outcome(status, out, note.strip())
