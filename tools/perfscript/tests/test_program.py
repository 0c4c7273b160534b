"""How the program is found and called, and what is said where it fails or takes long."""

import io
import os
import tempfile
import time
import unittest
from unittest import mock

from perfscript import Fault, command, program
from perfscript.program import Built, Tried, built_at, outcomes_of_try, program_at
from perfscript.progress import Progress, each
from perfscript.tests.support import PATH, RT, ProgramTest, call_of, program_file

PRINTED = "== c0\nstat 0\nend\n== c1\n"
SAID = """\
case=c0 run=ended status=0 runners=1 races=unchecked proved=no
perf_run: line 1: FORM
case=c1 run=ended status=1 runners=1 races=unchecked proved=no
cases=2 ended=2 fault=0 differs=0 no-answer=0 proved=no
"""


class Terminal(io.StringIO):
    def isatty(self):
        return True


class Tries(ProgramTest):
    def test_outcomes(self):
        self.assertEqual([(0, "stat 0\nend\n", ""), (1, "", "perf_run: line 1: FORM")], outcomes_of_try(PRINTED, SAID, 2))

    def test_a_case_that_did_not_end_is_shown(self):
        for out, said, reason in (
            ("", "error: no such crate", "rt try: error: no such crate"),
            (PRINTED, SAID.replace("c1 run=ended", "c1 run=fault"), "c1 run=fault"),
            ("", "", "rt try: it said nothing"),
        ):
            with self.assertRaisesRegex(Fault, reason):
                outcomes_of_try(out, said, 2)

    def test_a_try_answers_as_the_program(self):
        calls = [("replay", "perf 1\n"), ("make 1", ""), ("stat", "perf 1\nmachine cpus=1 counters=1\nend\n")]
        with tempfile.TemporaryDirectory() as folder:
            rt = program_file(folder, "rt", RT)
            with mock.patch.dict(os.environ, PROGRAM=PATH):
                self.assertEqual(self.program.outcomes(calls), Tried(rt).outcomes(calls))


class Found(unittest.TestCase):
    def test_the_option_then_the_variable_then_the_usual_place_then_rt(self):
        with tempfile.TemporaryDirectory() as folder:
            path, other = program_file(folder, "perf_run", ""), program_file(folder, "other", "")
            with mock.patch.dict(os.environ, PERF_RUN=other), mock.patch.object(program, "USUAL", path):
                self.assertEqual((path, other), (program_at(path).path, program_at().path))
                self.assertEqual((path, other), (built_at(path).path, built_at().path))
            with mock.patch.dict(os.environ, PERF_RUN=""), mock.patch.object(program, "USUAL", path):
                self.assertEqual((path, Built), (program_at().path, type(program_at())))
            rt = program_file(folder, "rt", "")
            at_rt = mock.patch.dict(os.environ, PATH=folder, PERF_RUN="")
            with mock.patch.object(program, "USUAL", "/nonexistent"), at_rt:
                self.assertEqual((rt, Tried), (program_at().rt, type(program_at())))
                with self.assertRaisesRegex(Fault, "^rt try is too slow .* give a built perf_run by --replay or PERF_RUN"):
                    built_at(None, "--replay")

    def test_no_program(self):
        with self.assertRaisesRegex(Fault, "--program: /nonexistent/perf_run is not a file; give"):
            program_at("/nonexistent/perf_run")
        with self.assertRaisesRegex(Fault, "--replay:  is not a file; give"):
            program_at("", "--replay")
        with mock.patch.dict(os.environ, PERF_RUN="/nonexistent/perf_run"):
            with self.assertRaisesRegex(Fault, "PERF_RUN: /nonexistent/perf_run is not a file; give"):
                program_at(None, "--replay")
        nowhere = mock.patch.dict(os.environ, PATH="/nonexistent", PERF_RUN="")
        with mock.patch.object(program, "USUAL", "/nonexistent"), nowhere:
            with self.assertRaisesRegex(Fault, "no program: .* give a built perf_run by --program or PERF_RUN"):
                program_at()


class Failing(unittest.TestCase):
    def test_failures(self):
        for text, reason in (
            ("#!/bin/sh\necho 'perf_run: no memory' >&2; exit 4\n", "replay ended with status 4: perf_run: no memory"),
            ("#!/bin/sh\ncat >/dev/null; echo hello\n", "printed what can't be read: not a report"),
            ("#!/nonexistent/interpreter\n", "does not start: No such file or directory"),
        ):
            with tempfile.TemporaryDirectory() as folder, self.assertRaisesRegex(Fault, reason):
                Built(program_file(folder, "fake", text)).report("")


class Commands(unittest.TestCase):
    def ended(self, fault):
        def main():
            raise fault

        return call_of(lambda words: command.ended("tool", main), ())

    def test_what_ends_a_command_is_one_line(self):
        for fault, said in (
            (Fault("do this"), "tool: do this\n"),
            (FileNotFoundError(2, "No such file", "x"), "tool: x: No such file\n"),
            (BrokenPipeError(), ""),
        ):
            with mock.patch("os.dup2"):
                self.assertEqual((2, "", said), self.ended(fault))
        self.assertEqual((130, "", ""), self.ended(KeyboardInterrupt()))

    def test_words_that_are_not_known(self):
        parser = command.Parser("tool", "Does it.\n\nUsage: tool FILE\n\nDetails.")
        status, out, err = call_of(parser.parse_args, ["--odd"])
        self.assertEqual((2, "", "tool: unrecognized arguments: --odd; tool --help has the words\n"), (status, out, err))
        self.assertIn("usage: tool FILE\n\nDoes it.\n\nDetails.", call_of(parser.parse_args, ["--help"])[1])

    def test_files(self):
        with self.assertRaisesRegex(Fault, "^/nonexistent: No such file or directory$"):
            command.text_of("/nonexistent")


class LongWork(unittest.TestCase):
    def step_by_step(self):
        with Progress("cases", 3) as progress:
            for _ in range(3):
                progress.step()

    def each_item(self):
        self.assertEqual(["a", "b", "c"], list(each("cases", "abc", 3)))

    def said(self, stream, work):
        clock = iter([0.0, 0.5, 1.5, 4.0])
        with mock.patch("sys.stderr", stream), mock.patch.object(time, "monotonic", lambda: next(clock)):
            work()
        return stream.getvalue()

    def test_a_terminal_sees_how_far_it_is(self):
        wanted = "\rcases: 2 of 3, 2 s\rcases: 3 of 3, 4 s\r" + " " * 18 + "\r"
        for work in (self.step_by_step, self.each_item):
            self.assertEqual(wanted, self.said(Terminal(), work))

    def test_a_fault_within_an_item_clears_the_terminal(self):
        def work():
            for item in each("cases", "abc", 3):
                if item == "c":
                    raise Fault(item)

        with self.assertRaises(Fault):
            self.said(terminal := Terminal(), work)
        self.assertEqual("\rcases: 2 of 3, 2 s\r" + " " * 18 + "\r", terminal.getvalue())

    def test_nothing_where_there_is_no_terminal(self):
        for work in (self.step_by_step, self.each_item):
            self.assertEqual("", self.said(io.StringIO(), work))


if __name__ == "__main__":
    unittest.main()
