"""The examples in README.md, in docs/FIT.md and in examples.md beside this file are what the tool prints."""

import os
import re
import subprocess
import sys

from fit.tests.pages import examples
from fit.tests.support import ProgramTest, has_perf
from fit.tests.test_with_perf import why_not_here
from perfscript.program import REPOSITORY
from perfscript.tests.support import PATH, TOOLS

PAGES = {"README.md": 1, "docs/FIT.md": 6, "tools/fit/tests/examples.md": 17}
TIMES = re.compile(r"(?m)^ +[\d.]+ seconds (?:time elapsed|user|sys)\n")


def without_times(text: str) -> str:
    """What perf and the tool print, without perf's times, tabs, spaces at ends, and several empty lines at a time."""
    lines = [line.rstrip() for line in TIMES.sub("", text).expandtabs().splitlines()]
    return re.sub(r"\n\n+", "\n\n", "\n".join(lines)).strip() + "\n"


class Pages(ProgramTest):
    def test_examples(self) -> None:
        for page, count in PAGES.items():
            with open(os.path.join(REPOSITORY, page)) as file:
                found = examples(file.read())
            self.assertEqual(count, len(found), page)
            for words, wanted in found:
                if "--" in words and why_not_here():
                    print("skipped:", why_not_here(), "for", *words)
                    continue
                if "-M" in words and not has_perf():
                    print("skipped: metrics need perf 6.1, which is not there:", *words)
                    continue
                with self.subTest(page=page, words=words):
                    if "--" in words:
                        self.check_with_perf(words, wanted)
                        continue
                    status, out, err = self.fit(*words)
                    self.assertEqual((wanted, ""), (out, err))
                    self.assertEqual("can never be counted" in out or "never on" in out, bool(status))

    def check_with_perf(self, words: list[str], wanted: str) -> None:
        """perf writes to the same place as the tool does."""
        call = [sys.executable, os.path.join(TOOLS, "fit.py"), "--program", PATH, *words]
        pipe, none = subprocess.PIPE, subprocess.DEVNULL
        done = subprocess.run(call, stdout=pipe, stderr=subprocess.STDOUT, stdin=none, text=True)
        self.assertEqual((0, without_times(wanted)), (done.returncode, without_times(done.stdout)))
