"""Says on a terminal how far long work has come."""

import sys
import time
from collections.abc import Iterable, Iterator
from typing import TypeVar

Item = TypeVar("Item")


class Progress:
    """`what: n of N, S s` on standard error, from the first second on; nothing where that is not a terminal."""

    def __init__(self, what: str, total: int = 0) -> None:
        self.what, self.total, self.done = what, total, 0
        self.began = self.shown = time.monotonic()
        self.width = 0

    def __enter__(self) -> "Progress":
        return self

    def __exit__(self, *_: object) -> None:
        if self.width:
            sys.stderr.write("\r" + " " * self.width + "\r")
            sys.stderr.flush()

    def step(self, count: int = 1) -> None:
        """Counts what is done, and says so at most once a second."""
        self.done += count
        now = time.monotonic()
        if now - self.shown < 1 or not sys.stderr.isatty():
            return
        self.shown = now
        count_text = f"{self.done} of {self.total}, " if self.total else ""
        text = f"{self.what}: {count_text}{now - self.began:.0f} s"
        sys.stderr.write("\r" + text.ljust(self.width))
        sys.stderr.flush()
        self.width = len(text)


def each(what: str, items: Iterable[Item], total: int) -> Iterator[Item]:
    """The items, one after the other; says meanwhile how many of them are done."""
    with Progress(what, total) as progress:
        for item in items:
            yield item
            progress.step()
