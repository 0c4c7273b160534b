"""The program perf_live through its client, line by line; and what the client says of programs that fail."""

import os
import re
import shutil
import subprocess
import tempfile
import unittest
from unittest import mock

from perfscript import Script, live
from perfscript.limits import MOST_BYTES, MOST_LINES
from perfscript.live import USUAL, Answer, Live, LiveFault, TooLarge, Uncertified, answer_of, compared, live_at
from perfscript.program import REPOSITORY
from perfscript.report import Report
from perfscript.tests.random_sessions import compare
from perfscript.tests.support import LIVE_HOW, ProgramTest, program_file, stored

NAMED = os.environ.get("PERF_LIVE")
PATH = os.path.abspath(NAMED or USUAL)
HEAD = "perf 1\nmachine cpus=2 counters=1\nkind cycles mask=1\nkind misses mask=1\ntask 0\nend\n"
OPEN = "open 0 kind=cycles task=all cpu=0 format=3"
# how many cases the list has that print a report and declare no ring
CASES = 367
# random sessions of the tests; tools/maintain/live_sessions.py has 2,000
SEEDS = range(1, 101)
# an answer that is kept back longer than this fails a test
PATIENCE = 5.0
BAD = {
    "ASCII": ("t0 read \xe9", "t0 read 0\r", "t0\tread 0"),
    "FORM": ("", "t0", "t0 ", "read 0", "x0 read 0", "t0 reed 0", "t0  read 0", "t0 read 0 ", "t0 read 00",
             "t0 open 0 attr=0 task=all cpu=0"),
    "PLACE": ("t0 tick", "p0 read 0", "t0 task 1", "p0 end"),
    "RANGE": ("t0 read 256", "p0 work 1000000001 user", "t0 seats 2"),
    "ATTR": ("t0 open 0 attr=00 task=all cpu=0",),
    "NAME": ("t0 open 0 kind=odd task=all cpu=0", "p0 work 1 user cycles=1 cycles=1", "t0 map 0 0"),
}
HEADS = (
    ("", 1, "line 0: END"), ("perf 1\n", 1, "line 1: END"), ("perf 3\nend\n", 1, "line 1: FORM"),
    ("perf 1\nmachine cpus=9 counters=1\nend\n", 1, "line 2: RANGE"), ("perf 1\nend\n", 1, "line 2: PLACE"),
    ("perf 1\nmachine cpus=1 counters=1\nring 0 bytes=64\nend\n", 1, "line 3: PLACE"),
    ("perf 1\nmachine cpus=1 counters=1\nprocessor 0\nend\n", 1, "line 3: PLACE"),
    ("perf 1\nmachine cpus=1 counters=1\ntool 0\nend\n", 1, "line 3: PLACE"),
    ("perf 1\nmachine cpus=1 counters=1\nreader 0 tries=1 batch=1\nend\n", 1, "line 3: PLACE"),
    ("perf 1\nmachine cpus=1 counters=1\norder\nend\n", 1, "line 3: PLACE"),
    ("perf 1\n" + MOST_BYTES * "x", 1, f"script longer than {MOST_BYTES} bytes"),
)


def piped(text, *words):
    """What the program does with an input that is there from the start."""
    return subprocess.run([PATH, *words], input=text.encode("latin-1"), capture_output=True, timeout=60)


class LiveTest(ProgramTest):
    """A test that asks perf_live."""

    @classmethod
    def setUpClass(cls):
        super().setUpClass()
        if not os.access(PATH, os.X_OK):
            if NAMED:
                raise AssertionError(f"PERF_LIVE names {PATH}, and no program is there")
            raise unittest.SkipTest(f"no program at {PATH}: {LIVE_HOW}")

    def live(self, head=HEAD, **given):
        return Live(head, PATH, self.program, PATIENCE, **given)


class Sessions(LiveTest):
    def test_a_session(self):
        with self.live() as running:
            self.assertEqual("ok", str(running.tool(0, OPEN)))
            self.assertEqual("ok", str(running.tool(1, "open 1 kind=misses task=all cpu=0 format=3")))
            self.assertEqual("ok", str(running.cpu(0, "work 100 user cycles=500")))
            self.assertEqual([500, 100, 100], running.tool(0, "read 0").numbers)
            self.assertEqual("ok hall 0 1", str(running.tool(0, "why 1")))
            self.assertEqual({0: 0}, running.tool(0, "seats 0").seats)
            self.assertEqual("EBADF", running.tool(0, "read 7").reason)
            self.assertEqual("bad FORM", str(running.tool(0, "reed 7")))
        self.assertEqual((7, 7), (running.journal.count, len(running.answers)))

    def test_each_bad_line_has_its_reason_and_changes_nothing(self):
        with self.live() as running:
            running.tool(0, OPEN)
            for reason, lines in BAD.items():
                for line in lines:
                    self.assertEqual(f"bad {reason}", str(running.send(line)), repr(line))
            running.cpu(0, "work 100 user cycles=500")
            self.assertEqual([500, 100, 100], running.tool(0, "read 0").numbers)

    def test_a_long_line_is_taken_to_its_end(self):
        with self.live() as running:
            for size in (65_535, 65_536, 65_537, 1_000_000):
                self.assertEqual("bad FORM", str(running.send("t0 " + (size - 3) * "x")), size)
            self.assertTrue(running.tool(0, OPEN).is_ok)

    def test_lines_without_number_are_answered_full(self):
        with self.live() as running:
            for _ in range(MOST_LINES):
                running.cpu(0, "tick")
            said = [str(running.send(line)) for line in ("p0 tick", "t0 read 0", "p0 tock", "t0 map 0 0", "p0 tick")]
            self.assertEqual(["full", "full", "bad FORM", "bad NAME", "full"], said)
        self.assertEqual(MOST_LINES, running.journal.count)

    def test_a_tight_set_is_named(self):
        group = ["open 1 kind=cycles task=all cpu=0", "open 2 kind=misses task=all cpu=0 leader=1"]
        with self.live() as running:
            self.assertEqual(["ok", "refused EASSIGN 1 2"], [str(running.tool(0, line)) for line in group])


class Inputs(LiveTest):
    def test_an_input_from_a_file(self):
        done = piped(f"{HEAD}t0 {OPEN}\np0 work 100 user cycles=500\nt0 read 0\nt0 read")
        self.assertEqual((0, b"ok\nok\nok 500 100 100\nbad END\n", b""), (done.returncode, done.stdout, done.stderr))

    def test_heads_that_are_refused(self):
        for head, status, note in HEADS:
            done = piped(head)
            found = done.returncode, done.stdout, done.stderr.decode()
            self.assertEqual((status, b"", f"perf_live: {note}\n"), found, head[:80])
        with self.assertRaisesRegex(LiveFault, "status 1 before it answered the head: perf_live: line 1: FORM$"):
            with self.live("perf 3\nend\n"):
                pass

    def test_a_head_that_is_taken_prints_nothing(self):
        done = piped(HEAD)
        self.assertEqual((0, b"", b""), (done.returncode, done.stdout, done.stderr))

    def test_words(self):
        done = piped(HEAD, "replay")
        self.assertEqual((5, b"", b"perf_live: usage: no words\n"), (done.returncode, done.stdout, done.stderr))


class Cases(LiveTest):
    """The worked cases, done line by line in their order."""

    def test_each_case_without_a_ring_gives_the_replies_of_its_report(self):
        names = [line.split(" ")[1] for line in stored("cases").splitlines() if line.startswith("done ")]
        names = [name for name in names if not re.search(r"(?m)^ring ", stored(name + ".script"))]
        self.assertEqual(CASES, len(names))
        for name in names:
            with self.subTest(name=name):
                self.compare(Script(stored(name + ".script")), Report(stored(name + ".report")))

    def compare(self, script, report):
        head = "".join(line.text + "\n" for line in script.head if not line.actor) + "end\n"
        with self.live(head, is_checked=False) as running:
            for act in script.acts():
                given = running.line(act.actor, act.text)
                self.assertEqual(compared(act.text, answer_of(report, act.key)), compared(act.text, given), act.name)


class LockStep(LiveTest):
    def test_each_answer_comes_before_the_next_line_goes(self):
        """A line is sent only when the last is answered. An answer kept back for PATIENCE seconds is a fault."""
        with self.live() as running:
            for number in range(1000):
                self.assertEqual("ok", str(running.cpu(number % 2, "work 10 user cycles=5")))
                self.assertEqual("refused EBADF", str(running.tool(number % 4, "read 9")))


class Page(LiveTest):
    """What docs/LIVE.md shows."""

    def block(self, first):
        """The indented lines from this one on."""
        with open(os.path.join(REPOSITORY, "docs", "LIVE.md"), encoding="utf-8") as file:
            text = file.read()
        found = re.search(rf"(?m)^    {re.escape(first)}\n(?:(?:    .*)?\n)+", text)
        return [row[4:] for row in found[0].rstrip().split("\n")]

    def test_the_session_by_hand(self):
        rows = self.block("$ crates/perf_live/out/perf_live")[1:]
        given, wanted = ("".join(row + "\n" for row in rows if row.startswith("< ") == is_answer)
                         for is_answer in (False, True))
        done = piped(given)
        self.assertEqual((0, wanted.replace("< ", ""), b""), (done.returncode, done.stdout.decode(), done.stderr))

    def test_the_session_from_python(self):
        names = {}
        with mock.patch.dict(os.environ, PERF_LIVE=PATH, PERF_RUN=self.program.path):
            exec("\n".join(self.block("from perfscript import Live")), names)
        self.assertGreater(names["live"].journal.count, 10)


class RandomSessions(LiveTest):
    def test_sessions_with_lines_that_are_none(self):
        found = [compare(seed, PATH, self.program) for seed in SEEDS]
        self.assertEqual([], [one for one in found if one.fault])
        self.assertGreater(min(sum(one.taken for one in found), 10 * sum(one.bad for one in found)), 1000)


class StandIns(ProgramTest):
    """What the client says of programs that are not perf_live."""

    def setUp(self):
        self.folder = tempfile.mkdtemp()
        self.addCleanup(shutil.rmtree, self.folder)

    def session(self, text, lines=("p0 tick",), seconds=PATIENCE):
        path = program_file(self.folder, "stand-in", f"#!/bin/sh\n{text}\n")
        with Live(HEAD, path, self.program, seconds) as running:
            for line in lines:
                running.line(*line.split(" ", 1))

    def test_faults(self):
        begin = "while read -r line; do [ \"$line\" = end ] && break; done; read a; echo bad FORM; "
        for text, said in (
            ("echo 'sad' >&2; exit 4", "ended with status 4 before it answered the head: sad$"),
            ("exit 0", "ended with status 0 before it answered the head: no note"),
            ("cat", "answered the head by 'perf 1"),
            (begin + "exit 3", "ended with status 3 before it answered `p0 tick`: no note"),
            (begin + "read a; echo hello; cat", "answered `p0 tick` by 'hello"),
            (begin + "read a; echo ok; echo ok; cat", "wrote what answers no line|which is not one answer"),
            (begin + "read a; echo ok; cat >&2; echo ok", "wrote what answers no line: 'ok"),
            (begin + "read a; echo ok; read a; echo sad >&2; exit 3", "ended with status 3: sad$"),
        ):
            with self.subTest(text=text), self.assertRaisesRegex(LiveFault, said):
                self.session(text)

    def test_an_answer_that_is_kept_back(self):
        with self.assertRaisesRegex(LiveFault, "does not answer the head: nothing came for 0.2 seconds"):
            self.session("cat >/dev/null; echo ok", seconds=0.2)
        with self.assertRaisesRegex(LiveFault, "does not read the head: nothing came for 0.2 seconds"):
            path = program_file(self.folder, "asleep", "#!/bin/sh\nexec sleep 60\n")
            with Live(HEAD.replace("task 0\n", "task 0\n" * 100_000), path, self.program, 0.2):
                pass

    def test_a_wrong_answer_is_not_certified(self):
        always = "while read -r line; do [ \"$line\" = end ] && break; done; while read -r line; do echo {}; done"
        for answer, lines, said in (
            ("ok 7 100 100", (f"t0 {OPEN}",), "t0.0 `open 0 .*` was answered `ok 7 100 100`, and the replay has `ok`"),
            ("ok", ("t0 read 0",), "t0.0 `read 0` was answered `ok`, and the replay has `refused EBADF`"),
            ("ok", ("p0 tock",), "a line was taken that a script can't have: perf_run: line 7: FORM, `tock`"),
            ("ok", (f"t0 {OPEN}", "t0 seats 0"), "t0.1 `seats 0` was answered `ok`, and the replay has `ok 0=0`"),
        ):
            with self.subTest(lines=lines), self.assertRaisesRegex(Uncertified, said):
                self.session(always.format(answer), lines)

    def test_what_is_no_script_says_so(self):
        always = "while read -r line; do [ \"$line\" = end ] && break; done; while read -r line; do echo ok; done"
        many = 600 * (f"t0 open 0 attr={4096 * '00'} task=all cpu=0",)
        heavy = (f"t0 {OPEN.replace('format=3', 'period=1')}", "p0 work 1 user cycles=100000")
        for lines, said in ((many, "longer than 4194304 bytes"), (heavy, "WEIGHT")):
            with self.assertRaisesRegex(TooLarge, f"the {len(lines)} lines of the session are no script: .*{said}"):
                self.session(always, lines)

    def test_what_can_not_be_sent(self):
        for text, said in (("t0 a\nt0 b", "a line feed stands within"), ("t0 read \u0100", "is not one byte")):
            with self.assertRaisesRegex(LiveFault, said):
                self.session("echo bad FORM; cat >/dev/null", (text,))
        for head in ("", "perf 1\n", HEAD + "t0 read 0\n", HEAD + "end\n", "end"):
            with self.assertRaisesRegex(LiveFault, "the head has to end with a line `end`"):
                Live(head, "/bin/true", self.program)
        with self.assertRaisesRegex(LiveFault, "the session is over, or has not begun"):
            Live(HEAD, "/bin/true", self.program).tool(0, "read 0")

    def test_where_the_program_lies(self):
        path = program_file(self.folder, "perf_live", "#!/nonexistent/interpreter\n")
        with mock.patch.dict(os.environ, {"PERF_LIVE": path}):
            self.assertEqual((path, "/bin/true"), (live_at(), live_at("/bin/true")))
        with mock.patch.dict(os.environ, {"PERF_LIVE": "/nonexistent"}):
            with self.assertRaisesRegex(LiveFault, "PERF_LIVE: /nonexistent is not a file"):
                live_at()
        with self.assertRaisesRegex(LiveFault, "--program: /odd is not a file; give the path of the built perf_live"):
            live_at("/odd")
        with mock.patch.dict(os.environ), mock.patch.object(live, "USUAL", "/nonexistent"):
            os.environ.pop("PERF_LIVE", None)
            with self.assertRaisesRegex(LiveFault, "no program: .* give a built perf_live by --program or PERF_LIVE"):
                live_at()
        with self.assertRaisesRegex(LiveFault, "does not start: No such file or directory; --program or PERF_LIVE"):
            with Live(HEAD, path, self.program):
                pass

    def test_answers(self):
        self.assertEqual({3: 1}, Answer("ok", ("3=1",)).seats)
        self.assertEqual(([], None), (Answer("full").numbers, Answer("full").reason))
        same, other = Answer("ok", ("0=1", "3=0")), Answer("ok", ("0=2", "3=1"))
        self.assertEqual(compared("seats 0", same), compared("seats 0", other))
        self.assertNotEqual(compared("read 0", same), compared("read 0", other))


if __name__ == "__main__":
    unittest.main()
