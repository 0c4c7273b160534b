"""The program under the tests, scripts that are programs, and calls of tools as a user makes them."""

import io
import os
import stat
import unittest
from collections.abc import Callable, Iterable
from contextlib import redirect_stderr, redirect_stdout
from typing import Any

from perfscript.program import REPOSITORY, USUAL, Built

NAMED = os.environ.get("PERF_RUN")
PATH = os.path.abspath(NAMED or USUAL)
HOW = "`rt ci` and `rt run` leave it there, or PERF_RUN names another"
LIVE_HOW = HOW.replace("PERF_RUN", "PERF_LIVE")
TOOLS = os.path.join(REPOSITORY, "tools")
DATA = os.path.join(REPOSITORY, "crates", "worked_cases", "data")
# stands for rt: runs the program on each case
RT = """#!/bin/sh
cd "$3"
for args in *.args; do
    echo "== ${args%.args}"
    "$PROGRAM" $(cat "$args") < "${args%.args}"
    echo "case=${args%.args} run=ended status=$? runners=1 races=unchecked proved=no" >&2
done
"""


def stored(name: str) -> str:
    """The text of a file of the worked cases."""
    with open(os.path.join(DATA, name), encoding="latin-1", newline="") as file:
        return file.read()


def program_file(folder: str, name: str, text: str) -> str:
    """A file that can be run."""
    path = os.path.join(folder, name)
    with open(path, "w") as file:
        file.write(text)
    os.chmod(path, os.stat(path).st_mode | stat.S_IXUSR)
    return path


def call_of(main: Callable[[list[str]], object], words: Iterable[str]) -> tuple[int, str, str]:
    """The exit status, standard output and standard error of a tool's main function."""
    out, err = io.StringIO(), io.StringIO()
    with redirect_stdout(out), redirect_stderr(err):
        try:
            status: Any = main(list(words))
        except SystemExit as ended:
            status = ended.code
    return status, out.getvalue(), err.getvalue()


class ProgramTest(unittest.TestCase):
    """A test that asks the program."""

    program: Built

    @classmethod
    def setUpClass(cls) -> None:
        if not os.access(PATH, os.X_OK):
            if NAMED:
                raise AssertionError(f"PERF_RUN names {PATH}, and no program is there")
            raise unittest.SkipTest(f"no program at {PATH}: {HOW}")
        cls.program = Built(PATH)
