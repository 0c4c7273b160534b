"""Calls the program, perf_run: as it was built, or unproved through `rt try`."""

import os
import re
import shutil
import subprocess
import tempfile
from collections.abc import Callable, Sequence
from concurrent.futures import ThreadPoolExecutor
from pathlib import Path
from typing import NamedTuple, TypeVar

from perfscript.faults import Fault
from perfscript.progress import Progress, each
from perfscript.report import Report, Row, rows_of

REPOSITORY = os.path.normpath(os.path.join(os.path.dirname(os.path.abspath(__file__)), "..", ".."))
CRATE = os.path.join(REPOSITORY, "crates", "perf_run")
# `rt ci` and `rt run` leave the program here, once it is proved
USUAL = os.path.join(CRATE, "out", "perf_run")
# how long a call, or a try of all calls, may take
SECONDS, SECONDS_OF_TRY = 600, 1800

Read = TypeVar("Read")


class Outcome(NamedTuple):
    """How a call ended: its status, what it wrote to standard output, and its note on standard error, one line."""

    status: int
    out: str
    note: str


class Program:
    """The program. A call is words, as `replay` or `watch 0 5`, and the text on its standard input."""

    # where the program lies, what sort of program it is, and what there is to say about its answers
    path, kind, note = "", "", ""

    def outcomes(self, calls: Sequence[tuple[str, str]]) -> list[Outcome]:
        """How each call ends."""
        raise NotImplementedError

    def call(self, words: str, text: str = "") -> Outcome:
        return self.outcomes([(words, text)])[0]

    def outputs(self, calls: Sequence[tuple[str, str]]) -> list[str]:
        """What each call prints; a call that does not end with 0 is a fault."""
        found = self.outcomes(calls)
        for (words, _), outcome in zip(calls, found):
            if outcome.status:
                is_refused = outcome.note.startswith(("perf_run: line", "perf_run: act"))
                said = (outcome.note or "no note") + "; tools/explain.py says why" * is_refused
                raise Fault(f"{self.path} {words} ended with status {outcome.status}: {said}")
        return [outcome.out for outcome in found]

    def report(self, text: str) -> Report:
        """The report of a script's own order."""
        return self._read("replay", text, Report)

    def table(self, text: str) -> dict[int, Row]:
        """The rows of a script's table of counts, by their slots."""
        return self._read("stat", text, rows_of)

    def _read(self, word: str, text: str, read: Callable[[str], Read]) -> Read:
        printed = self.outputs([(word, text)])[0]
        try:
            return read(printed)
        except Fault as fault:
            raise Fault(f"{self.path} {word} printed what can't be read: {fault}") from None


class Built(Program):
    """A program that is there. Each call is a process of its own."""

    def __init__(self, path: str, kind: str = "a program that was given") -> None:
        self.path, self.kind = path, kind

    def outcomes(self, calls: Sequence[tuple[str, str]]) -> list[Outcome]:
        with ThreadPoolExecutor(os.cpu_count()) as pool:
            return list(each("perf_run", pool.map(self._outcome, calls), len(calls)))

    def _outcome(self, call: tuple[str, str]) -> Outcome:
        words, text = call
        try:
            done = subprocess.run(
                [self.path, *words.split()], input=text.encode("latin-1"), capture_output=True, timeout=SECONDS
            )
        except OSError as fault:
            raise Fault(f"{self.path} does not start: {fault.strerror}; --program names another") from None
        except subprocess.TimeoutExpired:
            raise Fault(f"{self.path} {words} had not ended after {SECONDS} seconds") from None
        return Outcome(done.returncode, done.stdout.decode("latin-1"), done.stderr.decode("latin-1").strip())


class Tried(Program):
    """The program as `rt try` compiles it. One try does all calls that are made together."""

    path, kind = "rt try", "a program that `rt try` built without proof"
    note = "note: the program ran through rt try, which proves nothing"

    def __init__(self, rt: str) -> None:
        self.rt = rt

    def outcomes(self, calls: Sequence[tuple[str, str]]) -> list[Outcome]:
        with tempfile.TemporaryDirectory(prefix="perfscript.") as folder:
            for number, (words, text) in enumerate(calls):
                Path(folder, f"c{number}").write_bytes(text.encode("latin-1"))
                Path(folder, f"c{number}.args").write_text("".join(word + "\n" for word in words.split()))
            out, said = self._try(folder)
        return outcomes_of_try(out, said, len(calls))

    def _try(self, folder: str) -> tuple[str, str]:
        """Runs `rt try`, and says meanwhile for how long."""
        pipe = subprocess.PIPE
        call = [self.rt, "try", "--cases", folder]
        try:
            process = subprocess.Popen(call, cwd=CRATE, stdin=subprocess.DEVNULL, stdout=pipe, stderr=pipe)
        except OSError as fault:
            raise Fault(f"{self.rt} does not start: {fault.strerror}; --program names a built perf_run") from None
        with process, Progress("rt try compiles perf_run without proof and runs it, a minute or more") as progress:
            for _ in range(SECONDS_OF_TRY):
                try:
                    out, said = process.communicate(timeout=1)
                    return out.decode("latin-1"), said.decode("latin-1")
                except subprocess.TimeoutExpired:
                    progress.step()
            process.kill()
        raise Fault(f"rt try had not ended after {SECONDS_OF_TRY} seconds; --program names a built perf_run")


def outcomes_of_try(out: str, said: str, count: int) -> list[Outcome]:
    """Each case's output stands below a line `== NAME`; its note stands on standard error before the case's line."""
    parts = re.split(r"(?m)^== (c\d+)\n", out)
    printed = dict(zip(parts[1::2], parts[2::2]))
    ended: dict[str, Outcome] = {}
    notes: list[str] = []
    for line in said.splitlines():
        case = re.match(r"case=(c\d+) run=ended status=(\d+)", line)
        if case:
            ended[case[1]] = Outcome(int(case[2]), printed.get(case[1], ""), "; ".join(notes))
            notes = []
        else:
            notes.append(line)
    if len(ended) < count:
        raise Fault(f"rt try: {' '.join(said.split())[-600:] or 'it said nothing'}")
    return [ended[f"c{number}"] for number in range(count)]


def program_at(path: str | None = None, option: str = "--program") -> Program:
    """The program of `--program PATH`, else that of the variable PERF_RUN, else the built one at its usual place, else
    `rt try`. `option` is the word that a fault names where the path is none."""
    named = os.environ.get("PERF_RUN") or None if path is None else path
    if named is not None:
        if not os.path.isfile(named):
            by = "PERF_RUN" if path is None else option
            raise Fault(f"{by}: {named} is not a file; give the path of the built perf_run")
        return Built(os.path.abspath(named))
    if os.access(USUAL, os.X_OK):
        return Built(USUAL, "the proved program")
    rt = shutil.which("rt")
    if rt is None or not os.path.isdir(CRATE):
        where = os.path.relpath(USUAL, REPOSITORY)
        raise Fault(f"no program: {where} is not there, and no rt could try it; give a built perf_run by {option} "
                    "or PERF_RUN")
    return Tried(rt)


def built_at(path: str | None = None, option: str = "--program") -> Built:
    """The same where the program is asked too often for `rt try`, which is refused."""
    program = program_at(path, option)
    if not isinstance(program, Built):
        what = f"give a built perf_run by {option} or PERF_RUN, or build it by `rt run` in crates/perf_run"
        raise Fault(f"rt try is too slow for so many questions; {what}")
    return program
