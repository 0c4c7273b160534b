"""Debian's perf in the double: its numbers are exact, and its samples are the scenario's."""

import os
import re
import shutil
import subprocess
import unittest

from double.tests.support import TOOLS, DoubleTest

PERF = shutil.which("perf")
CPUS = min(8, os.cpu_count() or 1)
on_all_processors = unittest.skipIf((os.cpu_count() or 1) > 8, "perf opens events on each processor: a machine has 8 at most")
HEAD = f"""\
perf 1
machine cpus={CPUS} counters=2
kind cycles mask=3
kind instructions mask=3
kind branches mask=1
kind branch-misses mask=3
task 0
"""
TASK = HEAD + """\
@exec
p0 switch self
p0 work 500 user cycles=1000 instructions=2000 branches=10
@sleep 100000000
p0 work 1000 user cycles=2000 instructions=3000 branches=100
p0 tick
end
"""
ALL = HEAD + "@sleep 100000000\n" + "".join(f"p{cpu} work 1000 user cycles={cpu + 1}00 instructions=7\n" for cpu in range(CPUS)) + "end\n"
SAMPLES = HEAD + """\
@exec
p0 switch self
@sleep 10000000
p0 work 1000000 user ip=401000 cycles=2000000
p0 work 500000 kernel ip=ffffffff81000000 cycles=500000
end
"""


@unittest.skipUnless(PERF, "there is no perf: Debian has it as linux-perf")
class Perf(DoubleTest):
    """What perf prints."""

    def perf(self, scenario, *words, status=0, options=()):
        done = self.double(scenario, [PERF, *words], *options)
        self.assertEqual(done.status, status, done.err)
        self.assertNotIn("NOT CERTIFIED", done.err)
        return done

    def stat(self, scenario, *words):
        """The rows of `perf stat -x,`: event and value, with the processor before them where it is given."""
        done = self.perf(scenario, "stat", "-x,", *words)
        rows = [line.split(",") for line in (done.out + done.err).splitlines() if "," in line and not line.startswith("double")]
        return rows

    def counts(self, scenario, *words):
        return [(row[2], row[0], row[4]) for row in self.stat(scenario, *words)]

    def test_four_events_on_two_counters(self):
        """The example of docs/DOUBLE.md: four counts and four shares."""
        with open(os.path.join(TOOLS, "double", "four-groups.scenario"), encoding="ascii") as file:
            scenario = file.read()
        words = "-C", "0", "-e", "cycles,instructions,branches,branch-misses", "sleep", "1"
        done = self.perf(scenario, "stat", *words, options=("--truth",))
        said = re.findall(r"(\d+) +([a-z-]+) .*\( *(\d+\.\d+%)\)", done.err)
        self.assertEqual(
            said,
            [("240000", "cycles", "50.00%"), ("360000", "instructions", "50.00%"), ("50000", "branches", "50.00%"),
             ("700", "branch-misses", "50.00%")],
        )
        self.assertIn("  0 cycles                                  240000         120000         240000", done.err)

    def test_a_command(self):
        found = self.counts(TASK, "-e", "cycles,branches", "sleep", "0.3")
        self.assertEqual(found, [("cycles", "7000", "100.00"), ("branches", "310", "100.00")])

    @on_all_processors
    def test_a_processor_and_all_of_them(self):
        self.assertEqual(self.counts(ALL, "-C", "0", "-e", "cycles", "sleep", "0.2"), [("cycles", "200", "100.00")])
        rows = self.stat(ALL, "-a", "-A", "-e", "cycles", "sleep", "0.2")
        self.assertEqual([(row[0], row[1]) for row in rows], [(f"CPU{cpu}", str(200 * (cpu + 1))) for cpu in range(CPUS)])

    def test_a_process_that_runs(self):
        scenario = HEAD + "@start\np0 switch 0\n@sleep 100000000\np0 work 1000 user cycles=2000\nend\n"
        words = ["sh", "-c", f"sleep 0.5 & {PERF} stat -x, -e cycles -p $! sleep 0.2; wait"]
        done = self.double(scenario, words)
        self.assertEqual(done.status, 0, done.err)
        self.assertIn("4000,,cycles,2000,100.00", done.err)

    def test_intervals(self):
        rows = self.stat(ALL, "-I", "100", "-C", "0", "-e", "cycles", "sleep", "0.3")
        self.assertEqual([row[1] for row in rows], ["100", "100", "100"])

    def test_runs_that_are_repeated(self):
        done = self.perf(TASK, "stat", "-r", "3", "-e", "cycles", "sleep", "0.1")
        self.assertRegex(done.err, r"3000 +cycles")

    def test_a_group_of_which_one_is_refused(self):
        found = self.counts(TASK, "-e", "{branches,cycles,instructions}", "-e", "cycles", "sleep", "0.2")
        self.assertEqual([(name, value) for name, value, _ in found],
                         [("branches", "<not counted>"), ("cycles", "<not counted>"),
                          ("instructions", "<not supported>"), ("cycles", "5000")])

    def test_a_pinned_event_in_error(self):
        found = self.counts(TASK, "-e", "branches:D,branches:D", "sleep", "0.1")
        self.assertEqual([value for _, value, _ in found], ["110", "<not counted>"])

    def test_an_inherited_count(self):
        scenario = TASK.replace("p0 work 500 user cycles=1000 instructions=2000 branches=10\n", "")
        found = self.counts(scenario, "-e", "cycles", "sh", "-c", "sleep 0.2; sleep 0.1; true")
        self.assertEqual(found, [("cycles", "6000", "100.00")])

    def test_modes(self):
        scenario = SAMPLES.replace("10000000", "100000000")
        found = self.counts(scenario, "-e", "cycles:u,cycles:k", "sleep", "0.1")
        self.assertEqual([value for _, value, _ in found], ["2000000", "500000"])

    @on_all_processors
    def test_samples(self):
        path = os.path.join(self.folder, "perf.data")
        self.perf(SAMPLES, "record", "-o", path, "-m", "16", "-e", "cycles", "-c", "1000000", "sleep", "0.1")
        report = self.report(path)
        self.assertIn("Total Lost Samples: 0", report)
        self.assertIn("Samples: 25  of event 'cycles'", report)
        self.assertRegex(report, r"80.00% .*0x0000000000401000")

    @on_all_processors
    def test_samples_that_are_lost(self):
        path = os.path.join(self.folder, "perf.data")
        self.perf(SAMPLES, "record", "-o", path, "-m", "1", "-e", "cycles", "-c", "10000", "sleep", "0.02")
        lost = int(re.search(r"Total Lost Samples: (\d+)", self.report(path))[1])
        written = int(re.search(r"# Samples: (\d+)", self.report(path))[1])
        self.assertGreater(lost, 0)
        self.assertEqual(lost + written, 500)

    def report(self, path):
        done = subprocess.run([PERF, "report", "-i", path, "--stdio"], capture_output=True, text=True, timeout=60)
        return done.stdout
