"""Runs of the double for tests, the client in C, and what this machine allows."""

import os
import shutil
import subprocess
import sys
import tempfile
import unittest
from collections.abc import Sequence
from functools import cache

from double.build import NotHere, compiled
from perfscript.program import REPOSITORY
from perfscript.tests.support import PATH, ProgramTest

TOOLS = os.path.join(REPOSITORY, "tools")
DOUBLE = os.path.join(TOOLS, "double.py")
CLIENT = os.path.join(TOOLS, "double", "tests", "client.c")
SECONDS = 200
# the compiled clients; removed when the tests end
FOLDER = tempfile.TemporaryDirectory(prefix="double-client.")
PLAIN = "perf 1\nmachine cpus=1 counters=2\nkind cycles mask=3\nkind instructions mask=3\nend\n"


class Ended:
    """How a run of the double ended."""

    def __init__(self, done: subprocess.CompletedProcess[bytes]) -> None:
        self.status, self.out, self.err = done.returncode, done.stdout.decode(), done.stderr.decode()

    def rows(self) -> list[tuple[str, ...]]:
        """The lines of the client: its operations' numbers, and value, errno and words of each."""
        return [tuple(line.split(" ", 1)) for line in self.out.splitlines()]


@cache
def why_not(way: str = "notify") -> str | None:
    """Why no calls can be caught here; None where they can."""
    with tempfile.TemporaryDirectory() as folder:
        done = run_in(folder, PLAIN, ["true"], *(["--preload"] if way == "preload" else []))
    return done.err.strip() if done.status == 77 else None


def run_in(folder: str, scenario: str, command: list[str], *options: str) -> Ended:
    path = os.path.join(folder, "x.scenario")
    with open(path, "w", encoding="ascii") as file:
        file.write(scenario)
    call = [sys.executable, DOUBLE, "--program", PATH, *options, path, "--", *command]
    own = dict(os.environ, TMPDIR=folder)
    nothing = subprocess.DEVNULL
    return Ended(subprocess.run(call, capture_output=True, timeout=SECONDS, cwd=folder, stdin=nothing, env=own))


class DoubleTest(ProgramTest):
    """A test that runs commands in the double, in a folder of its own."""

    def setUp(self) -> None:
        super().setUp()
        if why_not():
            raise unittest.SkipTest(why_not() or "")
        self.folder = tempfile.mkdtemp(prefix="double-test.")
        self.addCleanup(shutil.rmtree, self.folder, ignore_errors=True)

    def double(self, scenario: str, command: list[str], *options: str) -> Ended:
        return run_in(self.folder, scenario, command, *options)

    def operations(self, text: str) -> str:
        """The file of operations for the client."""
        path = os.path.join(self.folder, "operations")
        with open(path, "w", encoding="ascii") as file:
            file.write(text)
        return path

    def client(self, scenario: str, text: str, *options: str, words: Sequence[str] = ()) -> Ended:
        """A run of the client in the double."""
        return self.double(scenario, [client(*words), self.operations(text)], *options)


@cache
def client(*words: str) -> str:
    """The path of the compiled client."""
    folder = os.path.join(FOLDER.name, "_".join(words).replace("-", "") or "plain")
    os.makedirs(folder, exist_ok=True)
    try:
        return compiled(CLIENT, folder, "-pthread", *words)
    except NotHere as why:
        raise unittest.SkipTest(str(why)) from None
