"""Asks the program perf_live line by line, and compares its answers with one replay of all that was done."""

from __future__ import annotations

import os
import re
import select
import subprocess
import tempfile
from dataclasses import dataclass
from types import TracebackType

from perfscript.faults import Fault
from perfscript.program import REPOSITORY, Program, program_at
from perfscript.report import Report
from perfscript.script import Draft, Key

# `rt ci` and `rt run` leave the program here, once it is proved
USUAL = os.path.join(REPOSITORY, "crates", "perf_live", "out", "perf_live")
# how long an answer, or the end of the program, may take
SECONDS = 10.0
# a line that is never one: its answer shows that the head was taken
PROBE = "?"
WORDS = {"ok": r"( [0-9a-z=-]+)*", "refused": r" E[A-Z]+( \d+)*", "bad": r" [A-Z]+", "full": ""}
ANSWER = re.compile("|".join(word + rest for word, rest in WORDS.items()), re.ASCII)
FAULTY = re.compile(r"perf_run: line (\d+): ", re.ASCII)
TOO_LARGE = re.compile(r"perf_run: (line \d+: (WEIGHT|LIMIT)|script longer than \d+ bytes)", re.ASCII)


class LiveFault(Fault):
    """The program is not there, ended before its time, or does not answer."""


class TooLarge(Fault):
    """The lines that were taken are too long or too heavy for one script, so no replay can check their answers."""


class Uncertified(AssertionError):
    """An answer that was given is not the one of the replay."""


@dataclass(frozen=True)
class Answer:
    """The answer of a line: `ok`, `refused`, `bad` or `full`, and the words after it.

    The words are those that docs/REPORT.md has for the line, or the reason of a refusal or of a bad line.
    """

    verdict: str
    words: tuple[str, ...] = ()

    @property
    def is_ok(self) -> bool:
        """Whether the line was done."""
        return self.verdict == "ok"

    @property
    def is_taken(self) -> bool:
        """Whether the line counts as one of the session's lines, done or refused."""
        return self.verdict in ("ok", "refused")

    @property
    def reason(self) -> str | None:
        """Why the line was refused or is bad; None for `ok` and `full`."""
        return self.words[0] if self.verdict in ("refused", "bad") else None

    @property
    def numbers(self) -> list[int]:
        """The words of a read; empty where the line was not done."""
        return [int(word) for word in self.words] if self.is_ok else []

    @property
    def seats(self) -> dict[int, int]:
        """Of the answer of `seats`: the counter of each slot."""
        pairs = [word.partition("=") for word in self.words] if self.is_ok else []
        return {int(slot): int(counter) for slot, _, counter in pairs}

    def __str__(self) -> str:
        return " ".join([self.verdict, *self.words])


def live_at(path: str | None = None, option: str = "--program") -> str:
    """Where perf_live lies: the path given, else the variable PERF_LIVE, else its usual place. `option` is the word
    that a fault names where the path is none."""
    named = path or os.environ.get("PERF_LIVE")
    if named and not os.path.isfile(named):
        by = option if path else "PERF_LIVE"
        raise LiveFault(f"{by}: {named} is not a file; give the path of the built perf_live")
    if not named and not os.access(USUAL, os.X_OK):
        where = os.path.relpath(USUAL, REPOSITORY)
        raise LiveFault(f"no program: {where} is not there; give a built perf_live by --program or PERF_LIVE")
    return os.path.abspath(named or USUAL)


class Channel:
    """The process, and the lines that go to it and come from it. Each wait has the same limit, in seconds."""

    def __init__(self, path: str, seconds: float) -> None:
        self.path, self.seconds, self.rest = path, seconds, b""
        self.notes = tempfile.TemporaryFile()
        pipe = subprocess.PIPE
        try:
            self.process = subprocess.Popen([path], stdin=pipe, stdout=pipe, stderr=self.notes, bufsize=0)
        except OSError as fault:
            self.notes.close()
            raise LiveFault(f"{path} does not start: {fault.strerror}; --program or PERF_LIVE names another") from None
        assert self.process.stdin and self.process.stdout
        self.given, self.answers = self.process.stdin.fileno(), self.process.stdout.fileno()
        os.set_blocking(self.given, False)
        self.writable, self.readable = select.poll(), select.poll()
        self.writable.register(self.given, select.POLLOUT)
        self.readable.register(self.answers, select.POLLIN)

    def write(self, data: bytes, what: str) -> None:
        """Writes all of it; `what` is named where that fails."""
        while data:
            try:
                data = data[os.write(self.given, data) :]
            except BlockingIOError:
                self.wait_for(self.writable, f"does not read {what}")
            except BrokenPipeError:
                raise self.ended(what) from None

    def line(self, what: str) -> str:
        """The next line that the program writes, which answers what is named."""
        found, lf, self.rest = self.rest.partition(b"\n")
        while not lf:
            self.wait_for(self.readable, f"does not answer {what}")
            more = os.read(self.answers, 65536)
            if not more:
                raise self.ended(what)
            part, lf, self.rest = more.partition(b"\n")
            found += part
        return found.decode("latin-1")

    def wait_for(self, poll: select.poll, what: str) -> None:
        """Waits until a pipe can go on."""
        if not poll.poll(1000 * self.seconds):
            raise LiveFault(f"{self.path} {what}: nothing came for {self.seconds:g} seconds")

    def ended(self, what: str) -> LiveFault:
        """That the program ended too early, with its status and its note."""
        status, note = self.outcome()
        return LiveFault(f"{self.path} ended with status {status} before it answered {what}: {note or 'no note'}")

    def outcome(self) -> tuple[int, str]:
        """The status and the note of a program whose output has ended."""
        try:
            status = self.process.wait(self.seconds)
        except subprocess.TimeoutExpired:
            raise LiveFault(f"{self.path} closed its output and had not ended after {self.seconds:g} seconds") from None
        self.notes.seek(0)
        return status, " ".join(self.notes.read(1000).decode("latin-1").split())

    def finish(self) -> None:
        """Ends the input; the program has to say no more, and to end with status 0."""
        assert self.process.stdin
        self.process.stdin.close()
        self.wait_for(self.readable, "does not end at the end of its input")
        self.rest += os.read(self.answers, 65536)
        if self.rest:
            raise LiveFault(f"{self.path} wrote what answers no line: {self.rest[:80].decode('latin-1')!r}")
        status, note = self.outcome()
        if status:
            raise LiveFault(f"{self.path} ended with status {status}: {note or 'no note'}")

    def close(self) -> None:
        """Ends the process where it has not ended, and closes the pipes."""
        if self.process.poll() is None:
            self.process.kill()
            self.process.wait()
        for file in (self.process.stdin, self.process.stdout, self.notes):
            if file:
                file.close()


class Live:
    """A session of perf_live over a machine, whose head is a script of declarations alone:

        with Live("perf 1\\nmachine cpus=1 counters=1\\nkind cycles mask=1\\nend\\n") as live:
            live.tool(0, "open 0 kind=cycles task=all cpu=0 format=3")
            live.cpu(0, "work 100 user cycles=500")
            assert live.tool(0, "read 0").numbers == [500, 100, 100]

    `program` is the built perf_live, `replay` the built perf_run. At the end of the block the program is ended, and its
    answers are compared with those of one replay of the journal. Without `is_checked` there is no replay.
    """

    def __init__(
        self,
        head: str,
        program: str | None = None,
        replay: Program | None = None,
        seconds: float = SECONDS,
        is_checked: bool = True,
    ) -> None:
        self.path, self.head, self.seconds = live_at(program), checked_head(head), seconds
        self.replay = (replay or program_at()) if is_checked else None
        self.journal = Draft(self.head.split("\n")[:-2])
        self.answers: dict[Key, Answer] = {}
        self.channel: Channel | None = None

    def __enter__(self) -> Live:
        self.channel = Channel(self.path, self.seconds)
        try:
            self.channel.write(bytes_of(self.head), "the head")
            self.send(PROBE)
        except BaseException:
            self.close()
            raise
        return self

    def __exit__(self, kind: type[BaseException] | None, fault: BaseException | None, at: TracebackType | None) -> None:
        try:
            if kind is None and self.channel:
                self.channel.finish()
        finally:
            self.close()
        if kind is None and self.replay:
            certify(self.journal, self.answers, self.replay)

    def close(self) -> None:
        """Ends the process, and checks nothing."""
        if self.channel:
            self.channel.close()
        self.channel = None

    def tool(self, number: int, line: str) -> Answer:
        """Does a line of a tool."""
        return self.line(f"t{number}", line)

    def cpu(self, number: int, line: str) -> Answer:
        """Does a line of a processor."""
        return self.line(f"p{number}", line)

    def line(self, actor: str, line: str) -> Answer:
        """Does a line of an actor, `t0` or `p0`. The journal keeps a line that is taken."""
        answer = self.send(f"{actor} {line}")
        if answer.is_taken:
            self.answers[self.journal.act(actor, line)] = answer
        return answer

    def send(self, text: str) -> Answer:
        """Sends a line as it is, and gives its answer. The journal does not keep it."""
        if not self.channel:
            raise LiveFault("the session is over, or has not begun: ask within `with Live(..) as live`")
        if "\n" in text:
            raise LiveFault(f"a line feed stands within the line {text[:80]!r}")
        what = f"`{text[:80]}`" if text != PROBE else "the head"
        try:
            self.channel.write(bytes_of(text) + b"\n", what)
            said = self.channel.line(what)
            if self.channel.rest or not ANSWER.fullmatch(said):
                whole = f"{said}\n{self.channel.rest.decode('latin-1')}"
                raise LiveFault(f"{self.path} answered {what} by {whole[:80]!r}, which is not one answer")
        except LiveFault:
            self.close()
            raise
        verdict, *words = said.split(" ")
        return Answer(verdict, tuple(words))


def checked_head(head: str) -> str:
    """The head, which has to end with its only line `end`: the program would wait for that line."""
    rows = head.split("\n")
    if rows[-2:] != ["end", ""] or rows.count("end") != 1:
        raise LiveFault("the head has to end with a line `end`, and to have one such line")
    return head


def bytes_of(text: str) -> bytes:
    """The bytes of a text, which has a character for each."""
    try:
        return text.encode("latin-1")
    except UnicodeEncodeError as fault:
        wrong = text[fault.start]
        raise LiveFault(f"{wrong!r} is not one byte; each character of a line stands for one, of 0 to 255") from None


def certify(journal: Draft, answers: dict[Key, Answer], replay: Program) -> Report:
    """The report of a journal, which has to have each answer that was given.

    Of `seats` the slots alone are compared: where several choices of counters serve the same events, each is right.
    """
    text = journal.text()
    outcome = replay.call("replay", text)
    if TOO_LARGE.fullmatch(outcome.note):
        raise TooLarge(f"the {journal.count} lines of the session are no script: {outcome.note}")
    if outcome.status == 1:
        place = FAULTY.match(outcome.note)
        line = f", `{text.splitlines()[int(place[1]) - 1][:80]}`" if place else ""
        raise Uncertified(f"a line was taken that a script can't have: {outcome.note}{line}")
    if outcome.status:
        note = outcome.note or "no note"
        raise LiveFault(f"{replay.path} replay of the session ended with status {outcome.status}: {note}")
    report = Report(outcome.out)
    if report.order != journal.order:
        raise Uncertified("the report is of another order than the session's")
    for key, given in answers.items():
        line = journal.lines[key[0]][key[1]]
        if compared(line, given) != compared(line, answer_of(report, key)):
            wanted = answer_of(report, key)
            raise Uncertified(f"{key[0]}.{key[1]} `{line[:80]}` was answered `{given}`, and the replay has `{wanted}`")
    for key in report.replies.keys() - answers.keys():
        raise Uncertified(f"the replay answers {key[0]}.{key[1]}, for which the session has no answer")
    return report


def answer_of(report: Report, key: Key) -> Answer:
    """What a report answers, as the program says it line by line."""
    words = report.replies[key].words if key in report.replies else []
    is_refused = bool(words) and words[0].startswith("E")
    return Answer("refused" if is_refused else "ok", tuple(words))


def compared(line: str, answer: Answer) -> Answer:
    """What of an answer is compared: of `seats` the slots without their counters."""
    if answer.is_ok and line.startswith("seats "):
        return Answer(answer.verdict, tuple(word.partition("=")[0] for word in answer.words))
    return answer
