"""Tests of run_then_replay.py: of what it compares, and of scripts that the built program runs by threads."""

import glob
import os
import subprocess
import sys
import tempfile
import unittest

HERE = os.path.dirname(os.path.abspath(__file__))
sys.path += [HERE, os.path.join(HERE, ".."), os.path.join(HERE, "..", "..")]

import run_then_replay
from built import PATH, TOP, require_program
from perfscript import Program, program_at

CASES = os.path.join(TOP, "crates", "worked_cases", "data")
# 400 lines of work that write on a small ring, and a reader that tries for as long: hundreds of looks stand in the order
BUSY = (
    "perf 1\nmachine cpus=1 counters=1\nkind a mask=1\nring 0 bytes=256\nprocessor 0\n"
    + "work 1 user ip=5 a=3\n" * 400
    + "tool 0\nopen 0 kind=a task=all cpu=0 period=1 sample=1\nmap 0 0\nreader 0 tries=65536 batch=4\nend\n"
)
# a run prints one report, and a replay, whatever it is given, another one
ANOTHER = "#!/bin/sh\ncat > /dev/null\necho order p0\necho p0.0 $1\necho end\n"


class WhatIsCompared(unittest.TestCase):
    def test_an_order_takes_the_place_of_the_old_one(self) -> None:
        text = "perf 1\norder p0\norder p0\nend\n"
        self.assertEqual(run_then_replay.with_order(text, "order t0"), "perf 1\norder t0\nend\n")

    def test_counters_alone_are_left_out(self) -> None:
        self.assertEqual(run_then_replay.without_counters("t0.1 seats 0=1 2=0\nend\n"), "t0.1 seats 0 2\nend\n")
        self.assertEqual(run_then_replay.without_counters("t0.0 read 5=1\nt0.1 seats 3=1\n"), "t0.0 read 5=1\nt0.1 seats 3\n")

    def test_another_report_differs(self) -> None:
        with tempfile.TemporaryDirectory() as folder:
            path = os.path.join(folder, "program")
            with open(path, "w") as file:
                file.write(ANOTHER)
            os.chmod(path, 0o700)
            self.assertEqual(run_then_replay.differs(program_at(path), "perf 1\nend\n"), "the reports differ")


class OfTheProgram(unittest.TestCase):
    program: Program

    @classmethod
    def setUpClass(cls) -> None:
        require_program()
        cls.program = program_at(PATH)

    def check_run(self, text: str) -> None:
        """The run is done, and the replay of its order writes the same."""
        self.assertEqual(self.program.call("run", text).status, 0)
        self.assertIsNone(run_then_replay.differs(self.program, text))

    def check_cases(self, pattern: str, least: int) -> None:
        paths = glob.glob(os.path.join(CASES, pattern))
        self.assertGreaterEqual(len(paths), least)
        for path in paths:
            with self.subTest(path), open(path, encoding="utf-8") as file:
                self.check_run(file.read())

    def test_the_examples(self) -> None:
        self.check_cases("examples/*.script", 10)

    def test_events_that_may_have_other_counters(self) -> None:
        self.check_cases("groups-on-counters/*.script", 20)

    def test_a_ring_whose_reader_takes_meanwhile(self) -> None:
        self.check_run(BUSY)

    def test_a_made_script(self) -> None:
        made = subprocess.run([PATH, "make", "20", "script"], capture_output=True, check=True)
        self.check_run(made.stdout.decode())


if __name__ == "__main__":
    unittest.main()
