"""The user's own perf on machines: what comes of lines that users type, and what the tool does with its words.

The variable PERF_LINES says which lines of perf_lines.toml are run: `all`, or every Nth of them. Without perf the tests
are skipped.
"""

import json
import os
import re
import subprocess
import sys
import unittest

from double.tests.support import why_not
from fit.perf_words import read_words
from fit.tests.perf_lines import Case, cases, come, faults, outcome
from fit.tests.support import ProgramTest, has_perf
from perfscript.tests.support import PATH, TOOLS

EVERY = os.environ.get("PERF_LINES", "10")
# weak groups of which perf takes some apart
METRICS = {"skylake": ("tma_backend_bound", "tma_retiring"), "icelake": ("IPC",), "zen3": ("ic_fetch_miss_ratio",)}


def has_event(line: str) -> bool:
    """Whether a line of perf's output is about an event."""
    return any(name in line for name in ("task-clock", "context-switches", "cycles", "dummy"))


def why_not_here() -> str:
    """Why these tests can't run, empty where they can."""
    return "perf 6.1 is not there, which these tests run" if not has_perf() else why_not() or ""


class PerfTest(ProgramTest):
    """A test that runs perf on a machine."""

    @classmethod
    def setUpClass(cls) -> None:
        super().setUpClass()
        if why_not_here():
            print("skipped:", why_not_here())
            raise unittest.SkipTest(why_not_here())


class Lines(PerfTest):
    """Lines that users type."""

    def check(self, case: Case) -> str:
        came = come(self.program, case)
        self.assertEqual([], faults(came))
        return outcome(came.done)

    def test_table(self) -> None:
        """What comes of each line is what the table has, what the search says, and what perf prints."""
        every = cases()
        machines = {case.machine for case in every}
        self.assertEqual(4, len(machines))
        for machine in machines:
            self.assertGreater(sum(case.machine == machine for case in every), 30)
        for case in every if EVERY == "all" else every[:: int(EVERY)]:
            with self.subTest(machine=case.machine, words=case.words):
                self.assertEqual(case.outcome, self.check(case))

    def test_weak_groups(self) -> None:
        """perf takes groups of metrics apart exactly where the search finds no assignment."""
        apart = 0
        for machine, metrics in METRICS.items():
            for metric in metrics:
                with self.subTest(machine=machine, metric=metric):
                    apart += "split" in self.check(Case(machine, f"-M {metric}", ""))
        self.assertGreater(apart, 0)


class Called(PerfTest):
    """Calls of the tool as a user makes them."""

    def called(self, *words: str) -> tuple[int, str]:
        """The exit status, and what perf and the tool printed, one after the other."""
        call = [sys.executable, os.path.join(TOOLS, "fit.py"), "--program", PATH, *words]
        pipe, none = subprocess.PIPE, subprocess.DEVNULL
        done = subprocess.run(call, stdout=pipe, stderr=subprocess.STDOUT, stdin=none, text=True)
        return done.returncode, done.stdout

    def test_output_of_perf_comes_first(self) -> None:
        words = ["-m", "skylake", "--", "perf", "stat", "-e", "cycles,r01c2", "--", "sh", "-c", "exit 3"]
        status, out = self.called(*words)
        self.assertEqual(3, status)
        self.assertRegex(out, r"(?s)Performance counter stats for 'sh -c exit 3'.*0 +cycles.*seconds time elapsed.*"
                              r"All events are on all the time\..*cycles +fixed counter 1\n +r01c2 +counter 0\n")

    def test_json_and_runs(self) -> None:
        events = "cycles,branches,branch-misses,cache-misses,cache-references,r01c2,r02c3,r04c4"
        words = ["-m", "zen", "--watchdog", "--repeat", "--json", "--", "perf", "stat", "-o", "/dev/null", "-e", events]
        status, out = self.called(*words)
        self.assertEqual(0, status, out)
        found = json.loads(out)
        self.assertTrue(all(group["waits"] for group in found["groups"]))
        self.assertEqual(2, len(found["repeat"]["runs"]))

    def test_group_beyond_the_program(self) -> None:
        """Nine members: neither refused nor taken apart, and perf has no count of it."""
        group = "{" + ",".join(f"r{code}" for code in range(10, 19)) + "}"
        for ending in ("", ":W"):
            status, out = self.called("-m", "icelake", "--", "perf", "stat", "-x;", "-e", f"cycles,{group}{ending}")
            self.assertEqual(0, status)
            self.assertIn(f"{group} is beyond this program:\n    it has 9 members, and the program takes 8.\n", out)
            self.assertEqual(9, len(re.findall(r"(?m)^<not counted>;;r1\d;0;100.00", out)), out)
            self.assertIn("0;;cycles;", out)
            self.assertNotIn("refused", out)

    def test_refused_member_as_perf_prints_it(self) -> None:
        """In each form of output perf prints for a group with a refused member what it prints here without the tool."""
        events = "{task-clock,context-switches,cycles:D},dummy"
        for form in ([], ["-x,"], ["-x;"], ["-j"]):
            perf = ["perf", "stat", *form, "-e", events, "true"]
            alone = subprocess.run(perf, capture_output=True, text=True, env=os.environ | {"LC_ALL": "C"})
            status, out = self.called("-m", "skylake", "--", *perf)
            wanted, found = ([re.sub(r"[\d.]+", "N", line) for line in text.splitlines() if has_event(line)]
                             for text in (alone.stderr, out.split("{task-clock,context-switches,cycles:D} can")[0]))
            self.assertEqual((alone.returncode, wanted), (status, found), form)
            marks = re.findall("<not counted>|<not supported>", "".join(found))
            self.assertEqual(["<not counted>", "<not counted>", "<not supported>"], marks, form)

    def test_refused_member_as_json(self) -> None:
        names = "cycles,instructions,branches,branch-misses,cache-references,cache-misses,r01c0"
        status, out = self.called("-m", "skylake", "--", "perf", "stat", "-j", "-e", "{" + names + "},ref-cycles")
        rows = [json.loads(line) for line in out.splitlines() if line.startswith('{"')]
        wanted = [*["<not counted>"] * 6, "<not supported>", "0.000000"]
        self.assertEqual((0, wanted), (status, [row["counter-value"] for row in rows]), out)
        self.assertEqual([*names.split(","), "ref-cycles"], [row["event"] for row in rows])

    def test_events_that_take_two_counters(self) -> None:
        """perf has a count of each member where the pairs fit, and of none where one of them is refused as a whole."""
        pair, five = "cpu/event=0x03,umask=0xff/", ["cycles", "instructions", "branches", "cache-misses", "r40"]
        for machine, members, is_refused in (
            ("zen", [pair, "cycles", "instructions"], False), ("zen3", [pair, pair, pair], False),
            ("zen", [pair, pair, pair, "cycles"], True), ("zen4", [*five, pair], True),
        ):
            text = "{" + ",".join(members) + "}"
            status, out = self.called("-m", machine, "--", "perf", "stat", "-x;", "-e", text)
            found = [line.split(";")[0] for line in out.splitlines() if line.count(";") > 3]
            wanted = ["0"] * len(members)
            if is_refused:
                wanted = ["<not counted>"] * (len(members) - 1) + ["<not supported>"]
            self.assertEqual((0, wanted), (status, found), out)

    def test_process_that_runs(self) -> None:
        words = ["-m", "nehalem", "--", "perf", "stat", "-p", str(os.getpid()), "-e", "cycles,r0140,r0141,r024e"]
        status, out = self.called(*words)
        self.assertEqual(0, status, out)
        self.assertIn("r0140, r0141 and r024e need 3 counters and have 2: counters 0 and 1", out)

    def test_sleeps_take_no_time(self) -> None:
        words = ["-m", "skylake", "--", "perf", "stat", "-I", "1000", "-e", "cycles", "sleep", "3.5"]
        status, out = self.called(*words)
        self.assertEqual(0, status)
        self.assertEqual(4, len(re.findall(r"(?m)^ +\d\.\d+ +0 +cycles", out)), out)

    def test_what_perf_refuses_itself(self) -> None:
        status, out = self.called("-m", "skylake", "--", "perf", "stat", "-e", "no_such_event", "true")
        self.assertEqual(129, status)
        self.assertIn("event syntax error: 'no_such_event'", out)
        self.assertTrue(out.endswith("perf opened no event, or said above why not.\n"))


@unittest.skipUnless(has_perf(), "perf 6.1 is not there, which these tests ask")
class Words(unittest.TestCase):
    """perf's words are taken apart as perf does it."""

    def test_commands(self) -> None:
        for words, command in (
            ("perf stat", ()), ("perf stat true", ("true",)), ("perf stat -a -- sleep 1", ("sleep", "1")),
            ("perf stat -ae cycles ls -l", ("ls", "-l")), ("perf stat -ecycles -d -dd x", ("x",)),
            ("perf stat --event=cycles --per-core y", ("y",)), ("perf stat --interval-p 10 z -a", ("z", "-a")),
            ("perf --no-pager stat -x , ls", ("ls",)), ("/usr/bin/perf stat -I1000 ls", ("ls",)), ("perf stat -e", ()),
        ):
            self.assertEqual(command, read_words(words.split()).command, words)

    def test_words_to_plan(self) -> None:
        call = read_words("perf stat -adx, -r 3 -o out --per-core -M IPC -C 0-2 -e cycles sleep 1".split())
        wanted = "perf stat -vv -a -d -M IPC -C 0-2 -e cycles -- true"
        self.assertEqual(wanted.split(), call.words_to_plan())
        self.assertEqual(["0-2"], call.values("cpu"))


if __name__ == "__main__":
    unittest.main()
