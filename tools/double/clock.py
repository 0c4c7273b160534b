"""Virtual time: it passes when all threads of the command are asleep, and then only as far as the next happening."""

from __future__ import annotations

import itertools
import time
from collections.abc import Callable, Iterable
from dataclasses import dataclass, field

from double.calls import Call, ClientGone

PATIENCE = 10.0


@dataclass(order=True)
class Sleep:
    """A call that waits for a moment, in ns; `wake` answers it. A deadline of None waits for other things alone."""

    deadline: int
    turn: int
    call: Call = field(compare=False)
    wake: Callable[[], None] = field(compare=False)


class Clock:
    """The time in ns since the start, and the calls that wait for it."""

    def __init__(self, is_real: bool) -> None:
        self.is_real = is_real
        self.began = time.monotonic_ns()
        self.virtual = 0
        self.sleeps: list[Sleep] = []
        self.turns = itertools.count()

    @property
    def now(self) -> int:
        return time.monotonic_ns() - self.began if self.is_real else self.virtual

    def sleep(self, length: int, call: Call, wake: Callable[[], None]) -> Sleep:
        made = Sleep(self.now + length, next(self.turns), call, wake)
        self.sleeps.append(made)
        return made

    def drop(self, sleep: Sleep) -> None:
        if sleep in self.sleeps:
            self.sleeps.remove(sleep)

    def next(self) -> Sleep | None:
        """The sleep that ends first. Those whose client has gone are dropped."""
        while self.sleeps:
            first = min(self.sleeps)
            try:
                first.call.check()
                return first
            except ClientGone:
                self.sleeps.remove(first)
        return None


class Quiet:
    """Whether all threads sleep: by two looks at each, between which none has run."""

    def __init__(self) -> None:
        self.since = time.monotonic()

    def restart(self) -> None:
        self.since = time.monotonic()

    @property
    def has_lasted(self) -> bool:
        """Whether some thread has run for longer than this waits."""
        return time.monotonic() - self.since > PATIENCE

    @staticmethod
    def are_asleep(threads: Iterable[int]) -> bool:
        threads = list(threads)
        first = [look(tid) for tid in threads]
        return None not in first and first == [look(tid) for tid in threads]


def look(tid: int) -> tuple[str, str] | None:
    """How often a sleeping thread has slept; None where it runs. A thread that is gone does not run."""
    try:
        with open(f"/proc/{tid}/status", encoding="ascii", errors="replace") as file:
            lines = dict(line.split(":", 1) for line in file if ":" in line)
    except OSError:
        return "gone", ""
    state = lines.get("State", "").split()[0]
    if state in "SZTtX":
        return state, lines.get("voluntary_ctxt_switches", "").strip()
    return None
