#!/usr/bin/env python3
"""Lets each call of the program's source, sink and notes fail in turn, and checks how the run ends.

    tools/maintain/failing_calls.py PROGRAM

PROGRAM is the built perf_run. `failing_calls.c` beside this file is compiled by `cc` and loaded into the program by
LD_PRELOAD. It stands before read(2), readv(2), write(2) and writev(2): a call on descriptor 0, 1 or 2 takes or gives at
most a piece of 1, 7 or 4,096 bytes, and the call of a given number fails with EIO. That number goes up from 0, one run
each, until no call failed. Interrupted calls (EINTR) are not tried.

- Where a read failed: status 2, nothing on standard output, the note of a read fault.
- Where a write failed: status 3, the note of a write fault, and on standard output a prefix of what is to be written.
- Where a write of the note failed: the status and the standard output are those of the same answer with its note whole,
  and of the note a prefix is written. Such answers are faults of reads and writes, refused texts and unknown words.
- Where none failed, all is as without the pieces: status 0, the whole output, no note.

Each word has its turn at each piece: `replay`, `run`, `stat`, `make N`, `make N script` and `attr`, and for the notes
the unknown words `make 0`. At one byte a piece the script is the smallest, at 7 it has 1,279 bytes, at 4,096 it is the made
one of 100 rounds, so a few thousand runs are enough. Under `run` the report depends on the threads. The smallest script
has three orders, and any front of one of their reports will do. At 7 and 4,096 bytes one tool has all lines there, and
the report is known.

The flush of standard output is no call of the system, so it can't fail here; top_tests lets it fail.

Prints a table: the words, the piece, and how many calls of each stream there were; each failed in a run of its
own. Ends with 1 where a run ended otherwise.
"""

import itertools
import sys
import tempfile
from collections.abc import Callable, Mapping, Sequence
from functools import partial
from typing import NamedTuple, TypeAlias

import preloaded
from perfscript import command, program_at
from perfscript.progress import each
from preloaded import Ended
from run_then_replay import with_order

READ_FAULT = (2, b"perf_run: read fault\n")
WRITE_FAULT = (3, b"perf_run: write fault\n")
USAGE = (5, b"perf_run: usage: run, replay, make N, make N script\n")
SMALLEST = "counts-and-reads/one-event-read.script"
LARGER = "counts-and-reads/six-inherited-events-on-four-counters.script"
ORDERS = ["order t0 t0 p0", "order t0 p0 t0", "order p0 t0 t0"]
TAB = ("texts-refused/tab-in-line.script", (1, b"perf_run: line 1: ASCII\n"))
LOOK = ("rings-and-records/look-inside-a-record.script", (1, b"perf_run: act 3: ring 0 last 0 head 48 given 8\n"))
REFUSED = {"replay": [TAB, LOOK], "stat": [TAB, LOOK], "run": [TAB]}
PIECES = [1, 7, 4096]
SOURCE, SINK, NOTES = 0, 1, 2
HEADS = ["Words", "Piece", "Reads", "Writes", "Writes of notes"]

# a status and a note
Answer: TypeAlias = tuple[int, bytes]


class Case(NamedTuple):
    """What the program is called with, and what it may write where all is well."""

    words: Sequence[str]
    text: bytes
    outs: Sequence[bytes]


class Noted(NamedTuple):
    """An answer with a note: the calls that have to fail for it, the text, and the status and the note."""

    settings: Mapping[str, int]
    text: bytes
    answer: Answer


def plain(program: str, words: Sequence[str], text: bytes) -> bytes:
    """What the program writes without any fault."""
    return program_at(program).outputs([(" ".join(words), text.decode())])[0].encode()


def one_tool(reads: int) -> bytes:
    """A script whose lines are all one tool's: an open, and a number of reads."""
    head = "perf 1\nmachine cpus=1 counters=1\nkind a mask=1\ntool 0\nopen 0 kind=a task=all cpu=0 format=3\n"
    return (head + "read 0\n" * reads + "order" + " t0" * (reads + 1) + "\nend\n").encode()


def replayed(program: str, text: bytes) -> list[Case]:
    """The scripts that are replayed and tabulated, with their outputs."""
    return [Case([word], text, [plain(program, [word], text)]) for word in ("replay", "stat")]


def run_by_threads(program: str, text: bytes, orders: Sequence[str]) -> list[Case]:
    """A script that is run, with the report of each of its orders."""
    texts = [with_order(text.decode(), order).encode() for order in orders]
    return [Case(["run"], text, [plain(program, ["replay"], ordered) for ordered in texts])]


def without_text(program: str, rounds: str) -> list[Case]:
    """The words for which no text is read, with their outputs."""
    all_words = [["make", rounds], ["make", rounds, "script"], preloaded.stored("words/attr.words").decode().split()]
    return [Case(words, b"", [plain(program, words, b"")]) for words in all_words]


def cases(program: str, piece: int) -> list[Case]:
    """The cases of a piece."""
    if piece == 1:
        text = preloaded.stored(SMALLEST)
        return replayed(program, text) + run_by_threads(program, text, ORDERS) + without_text(program, "1")
    text = preloaded.stored(LARGER) if piece == 7 else plain(program, ["make", "100", "script"], b"")
    tool = one_tool(100 if piece == 7 else 2000)
    order = tool.decode().split("\n")[-3]
    rounds = "3" if piece == 7 else "100"
    return replayed(program, text) + run_by_threads(program, tool, [order]) + without_text(program, rounds)


def is_right(ended: Ended, failed: bool, stream: int, outs: Sequence[bytes]) -> bool:
    """Whether a run ended as it has to where a call of the source or the sink failed, or none."""
    if not failed:
        return (ended.status, ended.note) == (0, b"") and ended.out in outs
    if stream == SOURCE:
        return (ended.status, ended.note, ended.out) == (*READ_FAULT, b"")
    return (ended.status, ended.note) == WRITE_FAULT and any(out.startswith(ended.out) for out in outs)


def is_note_right(ended: Ended, failed: bool, answer: Answer) -> bool:
    """Whether a run ended as it has to where a write of this answer's note failed, or none."""
    status, note = answer
    if (ended.status, ended.out) != (status, b""):
        return False
    return note.startswith(ended.note) and note != ended.note if failed else note == ended.note


def noted_answers(case: Case) -> list[Noted]:
    """The answers with a note that the words of a case have."""
    answers = [Noted({"FAIL_1": 0}, case.text, WRITE_FAULT)]
    if case.text:
        answers.append(Noted({"FAIL_0": 0}, case.text, READ_FAULT))
    return answers + [Noted({}, preloaded.stored(name), answer) for name, answer in REFUSED.get(case.words[0], [])]


class Trial:
    """Runs of one program at one piece, the faults found, and how many runs there were."""

    def __init__(self, program: str, library: str, piece: int) -> None:
        self.program, self.library, self.piece = program, library, piece
        self.faults: list[str] = []
        self.runs = 0

    def count(self, words: Sequence[str], text: bytes, settings: Mapping[str, int], stream: int,
              is_right: Callable[[Ended, bool], bool]) -> int:
        """How many calls of a stream there are: call 0, 1 and so on fails in a run of its own, up to a run in which
        none did. Each has to end right."""
        for number in itertools.count():
            fails = {"PIECE": self.piece, **settings, f"FAIL_{stream}": number}
            ended = preloaded.call(self.program, words, text, self.library, fails)
            failed = str(stream).encode() in ended.told
            self.runs += 1
            if not is_right(ended, failed):
                what = f"status {ended.status}, note {ended.note!r}, output {ended.out[:80]!r}, failed {ended.told!r}"
                self.faults.append(f"{' '.join(words)[:40]}, piece {self.piece}, stream {stream}: {what}")
            if not failed:
                break
        return number

    def failing(self, case: Case, stream: int) -> int:
        """How many calls of the source or the sink failed."""
        return self.count(case.words, case.text, {}, stream, partial(is_right, stream=stream, outs=case.outs))

    def failing_notes(self, words: Sequence[str], noted: Noted) -> int:
        """How many writes of a note failed."""
        return self.count(words, noted.text, noted.settings, NOTES, partial(is_note_right, answer=noted.answer))

    def row(self, case: Case) -> list[object]:
        """The row of a case."""
        notes = sum(self.failing_notes(case.words, noted) for noted in noted_answers(case))
        words = "attr BYTES" if case.words[0] == "attr" else " ".join(case.words)
        return [f"`{words}`", f"{self.piece:,}", self.failing(case, SOURCE), self.failing(case, SINK), notes]

    def rows(self) -> list[list[object]]:
        """The rows of the cases, and of words that are not known, which have a note alone."""
        notes = self.failing_notes(["make", "0"], Noted({}, b"", USAGE))
        found = [self.row(case) for case in cases(self.program, self.piece)]
        return [*found, ["`make 0`", f"{self.piece:,}", "-", "-", notes]]


def main(path: str) -> int:
    program, found = program_at(path).path, list[list[object]]()
    with tempfile.TemporaryDirectory() as folder:
        library = preloaded.library_of("failing_calls", folder)
        trials = [Trial(program, library, piece) for piece in PIECES]
        for trial in each("pieces", trials, len(PIECES)):
            found += trial.rows()
    faults = [fault for trial in trials for fault in trial.faults]
    return preloaded.printed(HEADS, found, faults, f"{sum(trial.runs for trial in trials)} runs, ")


if __name__ == "__main__":
    sys.exit(command.called(__doc__, main, 1, 1))
