"""Calls of the tool as a user makes them."""

import os

from fit import perf_tables
from fit.command import main
from perfscript.tests import support
from perfscript.tests.support import PATH, call_of


def has_perf() -> bool:
    """Whether the perf is there whose tables and outputs the tests know: 6.1, on x86."""
    path = perf_tables.perf_path()
    return bool(path) and os.uname().machine == "x86_64" and perf_tables.version_of(path).startswith("6.1.")


class ProgramTest(support.ProgramTest):
    """A test that asks the program."""

    def fit(self, *words: str) -> tuple[int, str, str]:
        """The exit status and what is printed."""
        return call("--program", PATH, *words)


def call(*words: str) -> tuple[int, str, str]:
    """The exit status, standard output and standard error of a call of the tool."""
    return call_of(main, words)
