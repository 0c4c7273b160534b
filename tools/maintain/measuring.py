"""What a run of the program costs."""

import subprocess
import tempfile
from collections.abc import Sequence
from functools import cache
from typing import IO, NamedTuple

import preloaded
from perfscript import Fault


class Cost(NamedTuple):
    """The seconds that a run took, its processor time in seconds, its page faults, and its peak memory in bytes."""

    seconds: float
    processor: float
    faults: int
    peak: int


@cache
def folder() -> tempfile.TemporaryDirectory[str]:
    """A folder that is removed when this process ends."""
    return tempfile.TemporaryDirectory(prefix="measuring.")


@cache
def starter() -> str:
    """The small program that starts what is measured, compiled once."""
    return preloaded.compiled("starter", folder().name, "-D_GNU_SOURCE")


def cost(program: str, words: Sequence[str], text: str = "", status: int = 0, note: str = "",
         out: int | IO[str] = subprocess.DEVNULL) -> Cost:
    """What a run costs that prints to `out`, and has to end with this status and this note."""
    with tempfile.TemporaryFile() as given, tempfile.TemporaryFile() as noted, tempfile.TemporaryFile("w+") as told:
        given.write(text.encode())
        given.seek(0)
        call = [starter(), str(told.fileno()), program, *words]
        subprocess.run(call, stdin=given, stdout=out, stderr=noted, pass_fds=[told.fileno()])
        noted.seek(0)
        told.seek(0)
        said, found = noted.read().decode(errors="replace").strip(), [int(number) for number in told.read().split()]
    if not found:
        raise Fault(f"{program} does not start: {said or 'no reason was given'}")
    took, ended, processor, faults, peak = found
    if (ended, said) != (status, note):
        was, wanted = (f"status {one}, {text or 'no note'}" for one, text in ((ended, said), (status, note)))
        raise Fault(f"{program} {' '.join(words)} ended with {was}; wanted: {wanted}")
    return Cost(took / 1e9, processor / 1e6, faults, peak * 1024)


def printed(program: str, words: Sequence[str], text: str) -> tuple[Cost, str]:
    """What a run costs that prints to a file, and what it prints."""
    with tempfile.TemporaryFile("w+") as out:
        taken = cost(program, words, text, out=out)
        out.seek(0)
        return taken, out.read()


def best(count: int, program: str, words: Sequence[str], text: str = "", status: int = 0,
         note: str = "") -> tuple[float, float]:
    """The fewest seconds of some runs, and the greatest peak of memory in MiB."""
    runs = [cost(program, words, text, status, note) for _ in range(count)]
    return min(run.seconds for run in runs), max(run.peak for run in runs) / 2**20
