"""For tests of profilers: commands run in the double, and fail where an answer is not certified."""

from __future__ import annotations

import os
import tempfile
from collections.abc import Sequence
from dataclasses import dataclass
from types import TracebackType

from perfscript import Program, built_at
from perfscript.command import text_of

from double import truth
from double.backend import live_path
from double.broker import Broker
from double.certificate import certify
from double.run import Run
from double.scenario import read_scenario
from double.session import Session


class Uncertified(AssertionError):
    """A client was given an answer that the report of the session's journal does not have."""


@dataclass
class Result:
    """A command's status and output, and the sessions that it had."""

    status: int
    out: str
    err: str
    sessions: list[Session]
    program: Program

    def truth(self) -> list[truth.Row]:
        """What occurred beside what was counted: the rows of all sessions, one after the other."""
        return [row for session in self.sessions for row in truth.rows(session, self.program)]

    def journals(self) -> list[str]:
        """Each session as a script with its order."""
        return [session.journal.text() for session in self.sessions]


class Double:
    """The double of a scenario's file:

        with Double("x.scenario") as double:
            result = double.run(["perf", "stat", "-x,", "-e", "cycles", "sleep", "1"])

    `program` is the built perf_run, and `live` the built perf_live, "" for none: each answer is then a replay's.
    """

    def __init__(
        self,
        scenario: str,
        program: str | None = None,
        by_library: bool = False,
        is_real: bool = False,
        live: str | None = None,
    ) -> None:
        self.program = built_at(program)
        self.scenario = read_scenario(scenario, text_of(scenario), self.program)
        self.by_library, self.is_real = by_library, is_real
        self.live = live_path() if live is None else live

    def __enter__(self) -> "Double":
        return self

    def __exit__(self, kind: type[BaseException] | None, fault: BaseException | None, at: TracebackType | None) -> None:
        pass

    def run(self, words: Sequence[str], environment: dict[str, str] | None = None) -> Result:
        """Runs a command. Uncertified where an answer that it was given is not the report's."""
        broker = Broker(self.scenario, self.program, self.is_real, live=self.live)
        with tempfile.TemporaryFile() as out, tempfile.TemporaryFile() as err:
            with Run(broker, words, environment, self.by_library, (out.fileno(), err.fileno())) as run:
                run.serve()
            said, noted = (text_in(file.fileno()) for file in (out, err))
        if run.failure:
            raise Uncertified(run.failure)
        differs = certify(broker.sessions, self.program).differs
        if differs:
            raise Uncertified(str(differs))
        return Result(run.status, said, noted, broker.sessions, self.program)


def text_in(descriptor: int) -> str:
    return os.pread(descriptor, os.fstat(descriptor).st_size, 0).decode(errors="replace")
