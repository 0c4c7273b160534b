"""perf_live as a session's back end: it answers as a replay of the same script, and gives way to one."""

import unittest
from unittest import mock

from double import backend
from double.backend import LineByLine, Replay, TooMuch, live_path
from double.journal import Journal
from perfscript import Draft, Reply, Report
from perfscript.attributes import bytes_of
from perfscript.limits import MOST_LINES
from perfscript.tests.support import LIVE_HOW, ProgramTest

HEAD = ["perf 1", "machine cpus=1 counters=1", "kind cycles mask=1"]
OPEN = f"open 0 attr={bytes_of(0, 0, form=3).hex()} task=all cpu=0"
LINES = (
    ("t0", OPEN), ("p0", "work 100 user cycles=7"), ("t0", "read 0 size=24"), ("t0", "read 0 size=8"),
    ("t0", "read 1 size=8"), ("p0", "tick"), ("t0", "disable 0"), ("p0", "work 100 user cycles=7"),
    ("t0", "read 0 size=24"), ("t0", "close 0"),
)


class BackEnds(ProgramTest):
    def setUp(self):
        if not live_path():
            self.skipTest(f"no perf_live: {LIVE_HOW}")
        self.live, self.replay = LineByLine(live_path(), self.program), Replay(self.program)
        self.addCleanup(self.live.close)
        self.draft = Draft(list(HEAD))

    def assert_same(self):
        live, replay = (back.report(self.draft).replies for back in (self.live, self.replay))
        given, wanted = ({key: (one.head, one.words) for key, one in found.items()} for found in (live, replay))
        self.assertEqual(wanted, given)

    def test_each_question(self):
        for line in LINES:
            self.draft.act(*line)
            self.assert_same()
        self.assertFalse(self.live.is_asked_ahead)

    def test_many_lines_in_one_question(self):
        for line in LINES:
            self.draft.act(*line)
        self.assert_same()

    def test_lines_that_are_taken_away(self):
        for line in LINES[:3]:
            self.draft.act(*line)
        self.assert_same()
        self.draft.order.pop()
        self.draft.lines["t0"].pop()
        self.live.go_back(2)
        self.draft.act("t0", "read 7 size=8")
        self.assert_same()

    def test_a_head_that_grows(self):
        self.draft.act(*LINES[0])
        self.assert_same()
        self.draft.head.append("task 5")
        self.draft.act("t0", OPEN.replace("open 0", "open 1").replace("all", "5"))
        self.assert_same()

    def test_samples_and_rings_are_replayed(self):
        for way in ("samples", "rings"):
            with self.subTest(way=way):
                self.setUp()
                self.draft.act(*LINES[0])
                self.assert_same()
                if way == "rings":
                    self.draft.head.append("ring 0 bytes=4096")
                    self.draft.act("t0", "map 0 0")
                else:
                    self.draft.act("t0", f"open 1 attr={bytes_of(0, 0, period=5).hex()} task=all cpu=0")
                self.assert_same()
                self.assertTrue(self.live.is_asked_ahead)
                self.assertIsNone(self.live.live)

    def test_many_lines_that_are_long_are_replayed_at_once(self):
        self.draft.act(*LINES[0])
        with mock.patch.object(backend, "MOST_LIVE", 300):
            self.assert_same()
            self.assertFalse(self.live.is_asked_ahead)
            for _ in range(10):
                self.draft.act("p0", LINES[1][1])
            self.assert_same()
        self.assertTrue(self.live.is_asked_ahead)

    def test_what_is_too_much(self):
        for _ in range(MOST_LINES):
            self.draft.act("p0", "tick")
        self.live.report(self.draft)
        for line, reason in (("tick", "LIMIT"), ("work 1000000001 user", "RANGE")):
            self.draft.act("p0", line)
            with self.assertRaisesRegex(TooMuch, reason):
                self.live.report(self.draft)
            self.draft.order.pop()
            self.draft.lines["p0"].pop()


class Full:
    """A back end that takes so many lines, and answers each read with 7."""

    is_asked_ahead, has_room_for_reads = True, True

    def __init__(self, most):
        self.most, self.questions = most, 0

    def report(self, draft):
        self.questions += 1
        if draft.count > self.most:
            raise TooMuch("WEIGHT")
        report = Report(backend.NOTHING)
        report.replies = {("t0", number): Reply(0, "read", ["7"]) for number in range(len(draft.lines.get("t0", [])))}
        return report

    def go_back(self, acts):
        pass


class Journals(unittest.TestCase):
    """A journal keeps each line whose answer a client was given."""

    def setUp(self):
        self.full = Full(3)
        self.journal = Journal(list(HEAD), [], self.full)

    def test_a_read_stays_where_later_lines_are_too_much(self):
        key, words = self.journal.call("read 0 size=8")
        self.journal.call("read 0 size=8")
        for _ in range(2):
            self.journal.processor("p0", "tick")
        with self.assertRaises(TooMuch):
            self.journal.call("read 0 size=8")
        self.assertEqual((key, words), (("t0", 0), ["7"]))
        self.assertEqual(self.journal.draft.lines, {"t0": 2 * ["read 0 size=8"], "p0": []})

    def test_a_read_is_asked_again_where_the_text_may_be_full(self):
        for has_room, questions in ((True, 1), (False, 3)):
            self.setUp()
            self.full.has_room_for_reads = has_room
            for _ in range(3):
                self.journal.call("read 0 size=8")
            self.assertEqual(self.full.questions, questions)


if __name__ == "__main__":
    unittest.main()
