"""Brokers that answer wrongly are caught by the certificate."""

import os
import struct
import unittest
from unittest import mock

from double import Double, Uncertified, backend, journal, session
from double.certificate import LeftOut, left_out
from double.tests.support import PATH, DoubleTest, client
from double.tests.test_client import CYCLES
from perfscript import Report, Script
from perfscript.tests.support import LIVE_HOW

OPERATIONS = """\
o 0 0 0 0 0 3 0 0 -1 -1 0 128 0
s 1000
i 0 0x2401 0
s 1000
r 0 24
r 0 8
d 0
p 0 7
c 0
"""
SAMPLES = "o 0 0 0 10 7 0 0 0 -1 -1 0 128 0\nm 0 1 3 1\ns 3000\nM 0\nc 0\n"


class LeftOutMembers(unittest.TestCase):
    """Reads of a group leave out the members that the broker opened for itself, while they are open."""

    def test_places(self):
        attribute = struct.pack("<IIQQQQQIIQ", 4, 64, 0, 0, 0, 0xF, 0, 0, 0, 0).hex()
        lines = [f"open {slot} attr={attribute} task=all cpu=0{' leader=0' * (slot > 0)}" for slot in range(3)]
        lines.append(lines[2].replace("open 2", "open 3"))
        lines += ["read 0 size=72", "close 1", "read 0 size=72", "close 0", "read 2"]
        head = "perf 1\nmachine cpus=1 counters=2\nkind k0 mask=3\ntool 0\n"
        order = "order" + " t0" * len(lines)
        script = Script(head + "\n".join([*lines, order, "end\n"]))
        report = Report(f"{order}\nt0.3 open EASSIGN 0 1 2\nend\n")
        found = left_out(script, report, {1, 3})
        places = {key: one.places for key, one in found.items()}
        self.assertEqual({("t0", 4): (1,), ("t0", 6): (), ("t0", 8): ()}, places)
        group = found["t0", 4]
        self.assertEqual((LeftOut((1,), 3, 2), 16), (group, group.size))
        words = "3 10 11 7 1 8 2 9 3".split()
        self.assertEqual(("2 10 11 7 1 9 3".split(), words), (group.seen(words), found["t0", 6].seen(words)))


class WrongBrokers(DoubleTest):
    """Each is wrong in one thing, and gives the client an answer that looks right. Those that take a line out of the
    journal have replays as their back end: perf_live would be asked for the next lines without it."""

    def run_client(self, operations=OPERATIONS, live=None):
        path = os.path.join(self.folder, "x.scenario")
        with open(path, "w", encoding="ascii") as file:
            file.write(CYCLES)
        with Double(path, PATH, live=live) as double:
            return double.run([client(), self.operations(operations)])

    def assert_caught(self, *words, operations=OPERATIONS, live=None):
        with self.assertRaises(Uncertified) as caught:
            self.run_client(operations, live)
        for word in words:
            self.assertIn(word, str(caught.exception))

    def test_a_right_one_passes(self):
        result = self.run_client()
        self.assertEqual(result.out.splitlines()[4:], ["4 24 0 10 1000 1000", "5 -1 28", "6 0 0", "7 -1 22", "8 0 0"])
        row = result.truth()[0]
        self.assertEqual((row.name, row.occurred, row.counted, row.scaled), ("cycles", 10, 10, 10))
        self.assertIn("read 0 size=24", result.journals()[0])

    def test_an_event_of_the_client_is_left_out(self):
        right = session.Session.__post_init__

        def wrong(own):
            right(own)
            own.unseen = {0}

        with mock.patch.object(session.Session, "__post_init__", wrong):
            self.assert_caught("t0.0 open", "an answer to open of slot 0")

    def test_a_wrong_answer_of_perf_live(self):
        right = backend.LineByLine.ask

        def wrong(own, actor, line):
            right(own, actor, line)
            if line == "read 0 size=24":
                words = own.found.replies[actor, own.done[actor] - 1].words
                words[0] = str(int(words[0]) + 1)

        if not backend.live_path():
            self.skipTest(f"no perf_live: {LIVE_HOW}")
        with mock.patch.object(backend.LineByLine, "ask", wrong):
            self.assert_caught("t0.2 read")

    def test_one_word_of_a_read(self):
        right = session.Session.read

        def wrong(own, event, room):
            return [word + (place == 1) for place, word in enumerate(right(own, event, room))]

        with mock.patch.object(session.Session, "read", wrong):
            self.assert_caught("t0.2 read")

    def test_a_line_that_the_journal_lacks(self):
        right = journal.Journal.call

        def wrong(own, line):
            got = right(own, line)
            if line.startswith("disable"):
                own.draft.lines["t0"].pop()
                own.draft.order.pop()
            return got

        with mock.patch.object(journal.Journal, "call", wrong):
            self.assert_caught("an answer to ioctl of slot 0", live="")

    def test_a_processor_line_that_the_journal_lacks(self):
        right = journal.Journal.read

        def wrong(own, line):
            got = right(own, line)
            if own.draft.lines.get("p0", [])[-1:] == ["work 1000 user cycles=10 instructions=20 branches=5"]:
                place = len(own.draft.order) - 1 - own.draft.order[::-1].index("p0")
                own.draft.lines["p0"].pop()
                del own.draft.order[place]
            return got

        operations = OPERATIONS.replace("i 0 0x2401 0\n", "")
        with mock.patch.object(journal.Journal, "read", wrong):
            self.assert_caught("read", operations=operations, live="")

    def test_an_errno(self):
        right = session.errno_of
        with mock.patch.object(session, "errno_of", lambda reason, head: right(reason, head) + 1):
            self.assert_caught("(-29, b'')", "(-28, b'')")

    def test_an_id(self):
        right = session.Session.id_of
        with mock.patch.object(session.Session, "id_of", lambda own, event: right(own, event) + 1):
            self.assert_caught("id of slot 0")

    def test_a_word_of_a_record(self):
        from double.rings import MappedRing

        right = MappedRing.with_threads

        def wrong(own, record):
            words = right(own, record)
            words[-1] += 1
            return words

        self.assertIn(" 9:2:32", self.run_client(SAMPLES).out)
        with mock.patch.object(MappedRing, "with_threads", wrong):
            self.assert_caught("ring 0", operations=SAMPLES)
