"""Tests on the running kernel. Where no event can be opened they are skipped."""

import contextlib
import io
import os
import shutil
import tempfile
import unittest

from on_linux import kernel, main, task
from on_linux.tests import recorded

ERRNO = kernel.probe(0)
REASON = f"no event can be opened here: {ERRNO}" if ERRNO else None if shutil.which("cc") else "there is no cc here"
HEAD = "order t0 t0 t0 p0 p0 t0 p0 t0"
SCRIPT = f"""perf 1
machine cpus=1 counters=16
kind faults mask=ffff
task 0
ring 0 bytes=65536
processor 0
switch 0
work 10 user faults=7
work 10 kernel faults=5
tool 0
open 0 kind=faults task=0 cpu=any format=17
open 1 kind=faults task=9 cpu=any
open 2 kind=faults task=0 cpu=any leader=0 format=3 flags=exclude_user
read 0
read 2
{HEAD}
end
"""
REPORT = f"""{HEAD}
t0.1 open ESRCH
t0.3 read 7 10 10 1 0
t0.4 read 5 20 20
ring 0 head=0 tail=0 lost=0 pending=0
end
"""


def called(script, report):
    """The status and the output of the tool, for a script and its report."""
    with tempfile.TemporaryDirectory() as folder:
        paths = [os.path.join(folder, name) for name in ("a.script", "a.report")]
        for path, text in zip(paths, (script, report)):
            with open(path, "w", encoding="ascii") as file:
                file.write(text)
        out, err = io.StringIO(), io.StringIO()
        with contextlib.redirect_stdout(out), contextlib.redirect_stderr(err):
            status = main.main(["--report", paths[1], paths[0]])
        return status, out.getvalue(), err.getvalue()


@unittest.skipIf(REASON, REASON)
class Running(unittest.TestCase):
    def test_same(self):
        status, out, _ = called(SCRIPT, REPORT)
        self.assertIn("a.script: same", out)
        self.assertEqual(status, 0)

    def altered(self, old, new, wanted):
        self.assertIn(old, REPORT)
        status, out, _ = called(SCRIPT, REPORT.replace(old, new))
        self.assertEqual(status, 1)
        self.assertIn(wanted, out)

    def test_a_count(self):
        self.altered(
            "read 7 10",
            "read 8 10",
            (
                "t0.3 read 0, word 1 (value), line 3 of the report: the report has `8`, Linux `7`: differs, of no known"
                " cause; rule: "
            ),
        )

    def test_an_errno(self):
        self.altered(
            "open ESRCH",
            "open EBADF",
            (
                "t0.1 open 1 kind=faults task=9 cpu=any, line 2 of the report: the report has `EBADF`, Linux `ESRCH`:"
                " differs"
            ),
        )

    def test_a_mode(self):
        self.altered(
            "read 5 20",
            "read 12 20",
            "t0.4 read 2, word 1 (value), line 4 of the report: the report has `12`, Linux `5`",
        )

    def test_a_full_ring(self):
        if kernel.PAGE != 4096:
            self.skipTest("the ring of this script is a page of 4096 bytes")
        self.assertEqual(called(recorded.SCRIPT, recorded.report())[0], 0)
        pair = f"2 {1:016x} {2:016x}"
        status, out, _ = called(recorded.SCRIPT, recorded.report().replace(pair, pair[:-1] + "3"))
        self.assertEqual(status, 1)
        self.assertIn("ring 0, record 57, line 63 of the report", out)
        self.assertIn("rule: a record that fits is written, else lost, and `PERF_RECORD_LOST` tells how many were", out)

    def test_texts_that_are_no_script_or_report(self):
        status, _, err = called(SCRIPT.replace("order t0", "order x0"), REPORT)
        self.assertEqual((status, err), (2, "on_linux: script: not an act: x0\n"))
        status, _, err = called(SCRIPT, REPORT.replace("head=0", "head=no"))
        self.assertEqual(
            (status, err), (2, "on_linux: report line 5: not understood: ring 0 head=no tail=0 lost=0 pending=0\n")
        )

    def test_the_task_takes_no_other_fault(self):
        text = SCRIPT.replace("faults=7", "faults=0").replace("faults=5", "faults=0")
        self.assertEqual(called(text, REPORT.replace("read 7", "read 0").replace("read 5", "read 0"))[0], 0)


@unittest.skipIf(REASON, REASON)
class Helpers(unittest.TestCase):
    def test_touches_forks_and_exits(self):
        with task.compiled() as helper:
            tasks = task.Tasks(helper, [0, 1])
            tasks.start(0, min(os.sched_getaffinity(0)))
            tasks.tasks[0].touch(True, 3)
            tasks.fork(0, 1)
            tasks.tasks[1].touch(False, 2)
            processes = tasks.process(0), tasks.process(1)
            self.assertNotEqual(processes[0], processes[1])
            self.assertTrue(all(task.is_asleep(process) for process in processes))
            tasks.exit(1)
            self.assertEqual(tasks.process(1), processes[1])
            tasks.end()
            self.assertTrue(os.path.exists(helper))
        self.assertFalse(os.path.exists(os.path.dirname(helper)))

    def test_a_task_that_has_gone_is_ended_too(self):
        with task.compiled() as helper:
            tasks = task.Tasks(helper, [0, 1])
            tasks.start(0, min(os.sched_getaffinity(0)))
            tasks.fork(0, 1)
            one, other = tasks.tasks[0], tasks.tasks[1]
            other.kill()
            one.kill()
            tasks.end()
            self.assertEqual((tasks.tasks, one.child.returncode), ({}, -9))

    def test_descriptors(self):
        with self.assertRaises(kernel.Refused) as raised:
            kernel.command(kernel.FIRST_DESCRIPTOR, kernel.ENABLE)
        self.assertEqual(raised.exception.name, "EBADF")


if __name__ == "__main__":
    unittest.main()
