"""The built program under the tests.

It is the one that the variable PERF_RUN names, and has to be there then; without the variable it is the one at its
usual place, and the tests that need it are skipped where it is not there.
"""

import os
import unittest

TOP = os.path.join(os.path.dirname(os.path.abspath(__file__)), "..", "..", "..")
NAMED = os.environ.get("PERF_RUN")
PATH = os.path.abspath(NAMED or os.path.join(TOP, "crates", "perf_run", "out", "perf_run"))


def require_program() -> None:
    """Fails where PERF_RUN names no program, and skips the tests where none was built."""
    if os.access(PATH, os.X_OK):
        return
    if NAMED:
        raise AssertionError(f"PERF_RUN names {PATH}, and no program is there")
    raise unittest.SkipTest(f"no program at {PATH}: `rt ci` and `rt run` leave it there, or PERF_RUN names another")
