"""Tests of refused_memory.py and failing_calls.py: of what they judge, of the C files, and of the built program."""

import os
import sys
import tempfile
import unittest

HERE = os.path.dirname(os.path.abspath(__file__))
sys.path += [HERE, os.path.join(HERE, "..")]

import failing_calls
import preloaded
import refused_memory
from built import PATH, require_program

REPORT = b"order\nend\n"


def ended(status, out, note, told=b"!"):
    return preloaded.Ended(status, out, note, told)


class EndsOfRefusedMemory(unittest.TestCase):
    def ending(self, status, out, note):
        return refused_memory.ending(ended(status, out, note), lambda out: out == REPORT)

    def test_no_memory_or_done(self):
        self.assertEqual(self.ending(4, b"", b"perf_run: no memory\n"), "no memory")
        self.assertEqual(self.ending(0, REPORT, b""), "done")

    def test_no_other_way(self):
        self.assertIsNone(self.ending(4, b"", b"perf_run: no mem"))
        self.assertIsNone(self.ending(4, b"order\n", b"perf_run: no memory\n"))
        self.assertIsNone(self.ending(0, b"order\n", b""))
        self.assertIsNone(self.ending(-6, b"", b""))

    def counts(self, numbers, last):
        """Of a program that makes a number of requests and says each time that memory ran out, but at the end this."""
        refused = ended(4, b"", b"perf_run: no memory\n")
        return refused_memory.counts(lambda number: refused if number < numbers else last, 3, lambda out: out == REPORT)

    def test_numbers_end_where_nothing_is_refused(self):
        self.assertEqual(self.counts(2, ended(0, REPORT, b"", b"")), ([2, 6, 0], []))

    def test_memory_that_was_not_refused_does_not_run_out(self):
        found, faults = self.counts(2, ended(4, b"", b"perf_run: no memory\n", b""))
        self.assertEqual((found, len(faults)), ([2, 6, 0], 3))


class EndsOfFailingCalls(unittest.TestCase):
    def is_right(self, stream, *how, failed=True):
        return failing_calls.is_right(ended(*how), failed, stream, [REPORT])

    def test_a_read_that_failed(self):
        self.assertTrue(self.is_right(failing_calls.SOURCE, 2, b"", b"perf_run: read fault\n"))
        self.assertFalse(self.is_right(failing_calls.SOURCE, 2, b"o", b"perf_run: read fault\n"))
        self.assertFalse(self.is_right(failing_calls.SOURCE, 0, REPORT, b""))

    def test_a_write_that_failed(self):
        self.assertTrue(self.is_right(failing_calls.SINK, 3, b"orde", b"perf_run: write fault\n"))
        self.assertFalse(self.is_right(failing_calls.SINK, 3, b"oder", b"perf_run: write fault\n"))
        self.assertFalse(self.is_right(failing_calls.SINK, 3, b"orde", b""))

    def test_no_call_that_failed(self):
        self.assertTrue(self.is_right(failing_calls.SINK, 0, REPORT, b"", failed=False))
        self.assertFalse(self.is_right(failing_calls.SINK, 0, b"orde", b"", failed=False))

    def test_a_note_that_failed(self):
        is_right = lambda *how, failed: failing_calls.is_note_right(ended(*how), failed, failing_calls.USAGE)
        self.assertTrue(is_right(5, b"", b"perf_run: us", failed=True))
        self.assertFalse(is_right(5, b"", failing_calls.USAGE[1], failed=True))
        self.assertFalse(is_right(3, b"", b"perf_run: us", failed=True))
        self.assertTrue(is_right(5, b"", failing_calls.USAGE[1], failed=False))


class Preloaded(unittest.TestCase):
    """A test that loads a C file into a program."""

    @classmethod
    def setUpClass(cls):
        if preloaded.compiler() is None:
            raise unittest.SkipTest("no C compiler: there is no command cc")
        folder = tempfile.TemporaryDirectory()
        cls.addClassCleanup(folder.cleanup)
        cls.refusing = preloaded.library_of("refused_memory", folder.name)
        cls.failing = preloaded.library_of("failing_calls", folder.name)


class OfOtherPrograms(Preloaded):
    def copied(self, **settings):
        """How `dd` ends, which takes six bytes a call, with the input `abcdefgh`."""
        return preloaded.call("/bin/dd", ["bs=6", "status=none"], b"abcdefgh", self.failing, settings)

    def test_pieces(self):
        self.assertEqual(self.copied(PIECE=3), (0, b"abcdefgh", b"", b""))

    def test_a_write_fails(self):
        ended = self.copied(PIECE=3, FAIL_1=1)
        self.assertEqual((ended.status, ended.out, ended.told), (1, b"abc", b"1"))

    def test_a_read_fails_and_a_note_too(self):
        ended = self.copied(PIECE=3, FAIL_0=2, FAIL_2=0)
        self.assertEqual((ended.status, ended.out, ended.told[:1]), (1, b"abcdef", b"0"))

    def test_the_first_request_for_memory(self):
        ended = preloaded.call("/bin/dd", ["status=none"], b"", self.refusing, {"KIND": "program", "NUMBER": 0})
        self.assertEqual(ended.told, b"!")


class OfTheProgram(Preloaded):
    @classmethod
    def setUpClass(cls):
        require_program()
        super().setUpClass()

    def test_each_tenth_request_of_the_smallest_replay_is_refused(self):
        row, faults = refused_memory.row_of(PATH, self.refusing, list(refused_memory.CASES)[0], "replay", "program", 10)
        self.assertEqual(faults, [])
        self.assertGreater(row[4], 0)

    def test_each_call_of_the_smallest_replay_fails(self):
        trial = failing_calls.Trial(PATH, self.failing, 16)
        case = failing_calls.replayed(PATH, preloaded.stored(failing_calls.SMALLEST))[0]
        row = trial.row(case)
        self.assertEqual(trial.faults, [])
        self.assertEqual(row[2:4], [12, 3])


if __name__ == "__main__":
    unittest.main()
