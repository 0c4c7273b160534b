"""The test of a profiler that docs/DOUBLE.md shows."""

import contextlib
import os
import re
import shutil
import unittest
from unittest import mock

from double.tests.support import TOOLS, DoubleTest
from perfscript.program import REPOSITORY
from perfscript.tests.support import PATH


@unittest.skipUnless(shutil.which("perf"), "there is no perf: Debian has it as linux-perf")
class Page(DoubleTest):
    def test_the_test_of_a_profiler(self) -> None:
        with open(os.path.join(REPOSITORY, "docs", "DOUBLE.md"), encoding="utf-8") as file:
            found = re.search(r"(?m)^    from double import Double\n(?:(?:    .*)?\n)+", file.read())
        assert found
        code = "".join(f"{line[4:]}\n" for line in found[0].rstrip().splitlines())
        self.assertEqual(2, code.count("assert "))
        names: dict[str, object] = {}
        with mock.patch.dict(os.environ, PERF_RUN=PATH), contextlib.chdir(os.path.join(TOOLS, "double")):
            exec(code, names)


if __name__ == "__main__":
    unittest.main()
