"""Calls of the program with a C file of this folder loaded into it, before the C library (LD_PRELOAD)."""

import os
import shutil
import subprocess
import tempfile
from collections.abc import Mapping, Sequence
from pathlib import Path
from typing import NamedTuple

from packages import DATA
from perfscript import Fault

FOLDER = os.path.dirname(os.path.abspath(__file__))
SECONDS = 120


class Ended(NamedTuple):
    """How a call ended, and what the loaded file wrote to the descriptor that it is told: nothing where it let all
    pass. A call that does not end is ended, and has no status."""

    status: int | None
    out: bytes
    note: bytes
    told: bytes


def compiler() -> str | None:
    """The path of the C compiler, or None."""
    return shutil.which("cc")


def library_of(name: str, folder: str) -> str:
    """Compiles NAME.c of this folder, and gives the path of the library, in the folder given."""
    return compiled(name, folder, "-shared", "-fPIC")


def compiled(name: str, folder: str, *words: str) -> str:
    """The same of what these words of cc ask for."""
    cc = compiler()
    if cc is None:
        raise Fault("no C compiler: there is no command cc")
    made = os.path.join(folder, name)
    call = [cc, *words, "-O1", "-Wall", "-Wextra", "-o", made, os.path.join(FOLDER, name + ".c")]
    done = subprocess.run(call, capture_output=True, text=True)
    if done.returncode:
        raise Fault(f"cc refuses {name}.c: {' '.join(done.stderr.split())}")
    return made


def call(program: str, words: Sequence[str], text: bytes, library: str, settings: Mapping[str, object]) -> Ended:
    """Calls the program with a text as its input. The settings are the variables PRELOADED_NAME for the loaded file."""
    with tempfile.TemporaryFile() as source, tempfile.TemporaryFile() as told:
        source.write(text)
        source.seek(0)
        named = {f"PRELOADED_{name}": str(value) for name, value in [*settings.items(), ("TELL", told.fileno())]}
        variables = {**os.environ, "LD_PRELOAD": library, **named}
        try:
            done = subprocess.run([program, *words], stdin=source, capture_output=True, env=variables,
                                  pass_fds=[told.fileno()], timeout=SECONDS)
            status, out, note = done.returncode, done.stdout, done.stderr
        except subprocess.TimeoutExpired:
            status, out, note = None, b"", b""
        told.seek(0)
        return Ended(status, out, note, told.read())


def stored(name: str) -> bytes:
    """The bytes of a file of the worked cases."""
    return Path(DATA, name).read_bytes()


def printed(heads: Sequence[str], rows: Sequence[Sequence[object]], faults: Sequence[str], summary: str = "") -> int:
    """Prints a table as the documents have it, below it the faults and how many there are; gives the status."""
    for row in [heads, ["---"] * len(heads), *rows]:
        print("| " + " | ".join(map(str, row)) + " |")
    print("\n".join([*faults, f"{summary}{len(faults)} failures"]))
    return 1 if faults else 0
