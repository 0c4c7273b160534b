"""What happens where the program fails, or answers what it should not."""

import os
import tempfile
import unittest
from collections.abc import Sequence
from unittest import mock

from fit.answers import Answers, Cause
from fit.faults import ProgramFault
from fit.script import Question
from fit.tests.support import ProgramTest, call
from perfscript import program
from perfscript.tests.support import PATH, RT, program_file


class Failing(unittest.TestCase):
    """A program that can't be used ends the tool with status 2 and the reason."""

    def check(self, text: str, words: str) -> None:
        with tempfile.TemporaryDirectory() as folder:
            status, out, err = call("--program", program_file(folder, "fake", text), "--counters", "1", "-e", "cycles")
        self.assertEqual((2, "", 1), (status, out, err.count("\n")))
        self.assertIn(words, err)

    def test_failures(self) -> None:
        for text, words in [
            ("#!/bin/sh\necho 'perf_run: no memory' >&2; exit 4\n", "ended with status 4: perf_run: no memory"),
            ("#!/bin/sh\ncat >/dev/null; echo hello\n", "stat printed what can't be read: not a table"),
            ("#!/nonexistent/interpreter\n", "does not start: No such file or directory"),
        ]:
            with self.subTest(text=text):
                self.check(text, words)

    def test_answers(self) -> None:
        answers = Answers()
        answers.add("replay", "order t0\nt0.0 open EBUSY\nt0.1 why odd\nend\n")
        with self.assertRaisesRegex(ProgramFault, "refused 'open 0 kind=k0' with EBUSY"):
            answers.refusal(Question("open 0 kind=k0", ("t0", 0)))
        with self.assertRaisesRegex(ProgramFault, "a cause that is not known: 'odd'"):
            Cause.of(answers.words(Question("why 0", ("t0", 1))))


class Doubled(ProgramTest):
    """Where two rotations do not give the shares of one, the tool says so."""

    def test_other_shares(self) -> None:
        class Biased(program.Built):
            def outputs(self, calls: Sequence[tuple[str, str]]) -> list[str]:
                first, table, second = super().outputs(calls)
                return [first, table, second.replace("       2000 ", "       1000 ", 1)]

        with mock.patch("fit.command.program_at", lambda path: Biased(PATH)):
            status, out, err = call("--counters", "1", "-e", "cycles,branches")
        self.assertEqual((3, ""), (status, out))
        self.assertIn("the shares of cycles differ: 1000 of 2000 over one rotation, 1000 of 4000 over two", err)


class Tried(ProgramTest):
    """All calls go through one `rt try`; here a stand-in for rt runs the program on each case."""

    def test_same_answers(self) -> None:
        words = ("--counters", "2", "-e", "cycles,{branches,branches}")
        _, wanted, _ = self.fit(*words)
        with tempfile.TemporaryDirectory() as folder:
            program_file(folder, "rt", RT)
            path = folder + os.pathsep + os.environ["PATH"]
            at_rt = mock.patch.dict(os.environ, PATH=path, PROGRAM=PATH, PERF_RUN="")
            with mock.patch.object(program, "USUAL", "/nonexistent"), at_rt:
                status, out, err = call(*words)
        self.assertEqual((0, ""), (status, err))
        self.assertEqual(wanted + "note: the program ran through rt try, which proves nothing\n", out)


if __name__ == "__main__":
    unittest.main()
