"""Scripts are read and written, and reports and tables are read."""

import unittest

from perfscript import Draft, Fault, Kind, Line, Look, Pmu, Reader, Report, Script, lines_of, rows_of
from perfscript.tests.support import ProgramTest, stored

TEXT = """perf 1
machine cpus=2 counters=16
kind faults mask=ffff
task 0
ring 0 bytes=4096
processor 0
switch 0
work 10 user ip=5 faults=7
fork 1
processor 1
tool 0
open 0 kind=faults task=0 cpu=0 period=3 sample=203 format=1f
map 0 0
read 0
reader 0 tries=5 batch=2
order t0 t0 p0 p0
order s0=0 p0 t0
end
"""
REPORT = """order t0 t0 p0 p0 s0=0 p0 t0
t0.2 read 2 10 10 7 1 0
ring 0 head=48 tail=0 lost=2 pending=1
left 0018000200000009 0000000000000005 0000000100000001
taken 0018000000000002 0000000000000001 0000000000000001
end
"""


class Texts(unittest.TestCase):
    def test_any_text_is_taken_apart(self):
        for text, wanted in (
            ("", []),
            ("a  b", [(1, "a", ("", "b"), "", -1)]),
            ("tool x\nread\nend\nread\n", [(1, "tool", ("x",), "tx", -1), (2, "read", (), "tx", 0),
                                          (3, "end", (), "", -1), (4, "read", (), "", -1)]),
            ("\n", [(1, "", (), "", -1)]),
        ):
            found = [(line.place, line.head, line.words, line.actor, line.number) for line in lines_of(text)]
            self.assertEqual(wanted, found, text)

    def test_parts(self):
        script = Script(TEXT)
        self.assertEqual((2, {0: Pmu(16, 3)}, {"faults": Kind(0, 0xFFFF)}), (script.cpus, script.pmus, script.kinds))
        self.assertEqual(([0], {0: 4096}, {0: Reader(5, 2)}), (script.tasks, script.rings, script.readers))
        self.assertEqual([0, 1], script.task_numbers())
        acts = list(script.acts())
        self.assertEqual(Look(0, 0), acts[4])
        self.assertEqual(["t0.0", "t0.1", "p0.0", "p0.1", "p0.2", "t0.2"],
                         [act.name for act in acts if isinstance(act, Line)])
        self.assertEqual((14, ("t0", 2), 0), (acts[6].place, acts[6].key, acts[6].slot()))
        self.assertEqual([16, 16, 0], [script.counters_of(cpu) for cpu in (0, 1, 2)])

    def test_two_pmus(self):
        script = Script("perf 2\nmachine cpus=2\npmu 0 counters=2 cpus=1\npmu 1 counters=3 cpus=2\nkind a pmu=1 mask=3\nend\n")
        self.assertEqual([2, 3, 0], [script.counters_of(cpu) for cpu in (0, 1, 2)])
        self.assertEqual({"a": Kind(1, 3)}, script.kinds)

    def test_faults_have_their_line(self):
        for text, reason in (
            ("perf 1\nmachine cpus=x counters=1\nend\n", "script line 2: not understood: machine cpus=x counters=1"),
            ("perf 1\nmachine cpus=99999999 counters=1\n", "script line 2: not understood: machine cpus=99999999 count"),
            ("perf 1\nread 0\nend\n", "script line 2: not understood: read 0"),
            ("tool x\nend\n", "script line 1: not understood: tool x"),
            ("tool 0\nopen x\nend\n", "script line 2: not understood: open x"),
            ("tool 0\nrun 0\nend\n", "script line 2: not understood: run 0"),
            ("processor 0\nwork 1 user a=x\nend\n", "script line 2: not understood: work 1 user a=x"),
            ("tool 0\nread 0\norder t0 t0\nend\n", "script: the order has 2 acts of t0, which has 1 lines"),
            ("order x1\nend\n", "script: not an act: x1"),
            ("order s0\nend\n", "script: not an act: s0"),
        ):
            with self.assertRaises(Fault) as raised:
                Script(text)
            self.assertTrue(str(raised.exception).startswith(reason), raised.exception)


class Drafts(ProgramTest):
    def test_a_draft_grows_line_by_line(self):
        draft = Draft(["perf 1", "machine cpus=1 counters=1", "kind a mask=1", "ring 0 bytes=64"])
        self.assertEqual(("t0", 0), draft.act("t0", "open 0 kind=a task=all cpu=0 format=3"))
        self.assertEqual(("p0", 0), draft.act("p0", "work 10 user a=5"))
        draft.look(0, 0)
        self.assertEqual(("t0", 1), draft.add("t0", "read 0"))
        draft.order.append("t0")
        self.assertEqual(3, draft.count)
        self.assertEqual(["5", "10", "10"], self.program.report(draft.text()).replies["t0", 1].words)
        row = self.program.table(draft.text())[0]
        self.assertEqual(("a", 5, 10, 10, 5), row)

    def test_what_was_read_is_written_again(self):
        names = [line.split(" ")[1] for line in stored("cases").splitlines() if line.startswith("done ")]
        again = [Draft.of(Script(stored(name + ".script"))).text() for name in names[::7]]
        for name, after in zip(names[::7], self.program.outputs([("replay", text) for text in again])):
            self.assertEqual(stored(name + ".report"), after, name)


class Reports(unittest.TestCase):
    def test_replies_and_rings(self):
        report, script = Report(REPORT), Script(TEXT)
        report.check(script)
        read, ring = script.lines["t0"][2], report.rings[0]
        self.assertEqual((["2", "10", "10", "7", "1", "0"], None, 2),
                         (report.answer(read), report.refusal(read), report.place(read)))
        self.assertEqual((48, 0, 2, 1, 3), (ring.head, ring.tail, ring.lost, ring.pending, ring.place))
        one, other = ring.records
        self.assertEqual((9, 2, 24, [5, 0x100000001], 24, False, 4),
                         (one.type, one.misc, one.size, one.body, one.end, one.is_taken, one.place))
        self.assertEqual((2, 48, True, True), (other.type, other.end, other.is_taken, other.is_whole))

    def test_every_report_of_the_worked_cases_is_read(self):
        for line in stored("cases").splitlines():
            if line.startswith("done "):
                name = line.split(" ")[1]
                Report(stored(name + ".report")).check(Script(stored(name + ".script")))

    def test_refusals(self):
        report = Report("order t0\nt0.0 open ESRCH\nend\n")
        self.assertEqual("ESRCH", report.refusal(Script(TEXT).lines["t0"][0]))

    def test_faults_have_their_line(self):
        for text in ("ring 0 head=x tail=0 lost=0 pending=0", "left 00", "what", "t0.0 read x", "t0.0", "ring 0 head=0"):
            with self.assertRaisesRegex(Fault, "report line 2: not understood: "):
                Report(f"order\n{text}\nend\n")
        for text in ("", "order\n", "order\nend", "stat 0\nend\n"):
            with self.assertRaisesRegex(Fault, "not a report"):
                Report(text)

    def test_reports_of_other_scripts(self):
        for old, new, reason in (
            ("order t0 t0", "order t0", "the report's order is not the script's"),
            ("t0.2 read", "t0.9 read", "report line 2: the order has no line t0.9 read"),
            ("t0.2 read", "t0.1 read", "report line 2: the order has no line t0.1 read"),
            ("ring 0 ", "ring 1 ", "ring 0 stands in the script or in the report alone"),
        ):
            with self.assertRaisesRegex(Fault, reason):
                Report(REPORT.replace(old, new)).check(Script(TEXT))

    def test_tables(self):
        rows = rows_of("stat 2\n  0 a  5 10 0 - 0.00%\n 12 b 5 0 0 error -\nend\n")
        self.assertEqual({0: ("a", 5, 10, 0, None), 12: ("b", 5, 0, 0, None)}, rows)
        for text in ("", "order\nend\n", "stat 1\n 0 a\nend\n"):
            with self.assertRaises(Fault):
                rows_of(text)


if __name__ == "__main__":
    unittest.main()
