"""The types of all tools, which mypy checks where it is there."""

import os
import shutil
import subprocess
import tempfile
import unittest

from perfscript.tests.support import TOOLS


@unittest.skipUnless(shutil.which("mypy"), "no mypy here: Debian has it as mypy")
class Types(unittest.TestCase):
    def checked(self, *words, cwd=TOOLS):
        """The status of mypy, and what it says."""
        config, cache = os.path.join(TOOLS, "pyproject.toml"), os.path.join(TOOLS, ".mypy_cache")
        call = ["mypy", "--config-file", config, "--cache-dir", cache, *words]
        done = subprocess.run(call, cwd=cwd, capture_output=True, text=True)
        return done.returncode, done.stdout + done.stderr

    def test_all_tools_are_typed(self):
        status, said = self.checked()
        self.assertEqual(0, status, said)
        self.assertRegex(said, r"^Success: no issues found in 1\d\d source files\n$")

    def test_a_function_without_types_is_refused(self):
        with tempfile.TemporaryDirectory() as folder:
            with open(os.path.join(folder, "untyped.py"), "w") as file:
                file.write("def twice(number):\n    return 2 * number\n")
            status, said = self.checked("untyped.py", cwd=folder)
        self.assertEqual(1, status, said)
        self.assertIn("Function is missing a type annotation", said)


if __name__ == "__main__":
    unittest.main()
