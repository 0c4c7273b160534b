"""Tests of decoding records and of the tables."""

import struct
import tempfile
import unittest
import unittest.mock
from pathlib import Path

from on_linux import cases, documents, kernel, records, rules, table, verdicts
from on_linux.cases import Case, all_cases
from on_linux.compare import Check
from perfscript import Fault, Script
from perfscript.attributes import Attribute


def header(kind, misc, size):
    return struct.pack("=IHH", kind, misc, size)


class Streams(unittest.TestCase):
    def test_records_of_a_stream(self):
        data = header(9, 2, 16) + struct.pack("=Q", 5) + header(2, 0, 24) + struct.pack("=QQ", 7, 3)
        found = records.of_stream(data)
        self.assertEqual(
            [(one.type, one.misc, one.size, one.body, one.end) for one in found],
            [(9, 2, 16, [5], 16), (2, 0, 24, [7, 3], 40)],
        )
        self.assertEqual(records.fields(found[1], ["id", "lost"]), {"id": 7, "lost": 3})
        self.assertIsNone(records.fields(found[1], ["id"]))

    def test_no_record(self):
        for data in (header(9, 2, 0), header(9, 2, 12) + bytes(4), header(9, 2, 32) + bytes(8)):
            with self.assertRaises(Fault):
                records.of_stream(data)

    def test_halves(self):
        self.assertEqual(records.halves(struct.unpack("=Q", struct.pack("=II", 3, 4))[0]), (3, 4))


class Bytes(unittest.TestCase):
    def test_page_faults_stand_for_a_hardware_kind(self):
        head = "perf 1\nmachine cpus=1 counters=1\nkind a mask=1\ntool 0\n"
        wanted = kernel.bytes_of(1, kernel.PAGE_FAULTS, 3, 0x203, 0x1F, 1 << 1)
        given = kernel.bytes_of(4, 0, 3, 0x203, 0x1F, 1 << 1, size=64)
        for words in ("kind=a task=0 cpu=0 period=3 sample=203 format=1f flags=inherit", f"attr={given.hex()} task=0 cpu=0"):
            line = Script(f"{head}open 0 {words}\nend\n").lines["t0"][0]
            self.assertEqual(wanted, kernel.bytes_for(Attribute(line, ["a"])))


class Lists(unittest.TestCase):
    def test_cases(self):
        cases = all_cases()
        names = [(case.group, case.name) for case in cases]
        self.assertGreaterEqual(len(cases), 150)
        self.assertEqual(len(set(names)), len(names))
        self.assertEqual(
            len({case.text for case in cases if case.name.startswith("sample-") and "layouts" in case.group}), 256
        )
        for case in cases:
            script = Script(case.text)
            left = {actor: len(lines) - script.order.count(actor) for actor, lines in script.lines.items()}
            self.assertEqual(set(left.values()) - {0}, set(), case.name)

    def test_each_file_of_cases_is_read(self):
        written = {path.stem: len(list(cases.of_file(path.stem))) for path in cases.FOLDER.glob("*.toml")}
        self.assertGreaterEqual(min(written.values()), 2)
        found = {(case.group, case.name) for case in all_cases()}
        for file in written:
            self.assertEqual(set(), {(case.group, case.name) for case in cases.of_file(file)} - found, file)

    def test_a_case_of_a_file(self):
        head = 'group = "g"\nrings = 1\nopens = "open 0 kind=faults task=0 cpu=any"\n'
        own = '[cases.a]\np0 = "switch 0; work 10 user faults=2*full32-2"\nt0 = "map 0 0\\nread 0"\norder = "t0*2 p0*2"\n'
        with tempfile.TemporaryDirectory() as folder, unittest.mock.patch.object(cases, "FOLDER", Path(folder)):
            Path(folder, "file.toml").write_text(head + own)
            [case] = cases.of_file("file")
            self.assertEqual(("g", "a", (), ()), (case.group, case.name, case.options, case.shows))
            script, hits = Script(case.text), 2 * ((kernel.PAGE - 1) // 32) - 2
            self.assertEqual(["switch 0", f"work 10 user faults={hits}"], [line.text for line in script.lines["p0"]])
            self.assertEqual({0: kernel.PAGE}, script.rings)
            self.assertEqual("t0 t0 p0 p0 t0".split(), script.order)
            Path(folder, "file.toml").write_text(head + own.replace("order", "ordre"))
            with self.assertRaisesRegex(Fault, "file.toml: a: a case has no ordre$"):
                list(cases.of_file("file"))

    def test_rows_of_cases_are_in_the_document(self):
        known = documents.known_rows()
        self.assertEqual([row for case in all_cases() for row in case.shows if row not in known], [])

    def test_rows_that_a_software_event_can_show_have_a_case(self):
        shown = {row for case in all_cases() for row in case.shows}
        self.assertEqual(
            [row.name for row in documents.known_rows().values() if "seen" in row.known_from and row.name not in shown],
            [],
        )


class Tables(unittest.TestCase):
    def setUp(self):
        self.known = documents.rows(
            "| `here` | does | not | why | source of 6.1; seen on 6.18.44 |\n## Where the stand-in differs\n| `there` |"
            " a | b | source of 6.1 |\n"
        )
        same, differs = Check("a", "rule", True), Check("b", "rule", False, "1", "2", "here", 3)
        stand_in = Check("c", "other", False, "1", "2", "there", 4)
        self.found = [
            verdicts.Verdict(Case("g", "one", ""), verdicts.SAME, (), (), [same]),
            verdicts.Verdict(Case("g", "two", "", (), ("here",)), verdicts.DOCUMENTED, ("here",), (), [differs]),
            verdicts.Verdict(Case("h", "three", "", (), ("there",)), verdicts.UNKNOWN, (), ("what | why",), [stand_in]),
        ]

    def test_text(self):
        text = table.text(self.found, self.known)
        for line in (
            "| g | 2 | 1 | 1 | 0 | 0 | 0 |",
            "| all | 3 | 1 | 1 | 0 | 0 | 1 |",
            "| two | `here` |",
            "| h: three | what \\| why |",
            "Rows that are known from sources alone: `there`.",
        ):
            self.assertIn(line, text.splitlines())
        self.assertEqual(
            table.summary(self.found),
            (
                "3 cases: 1 same, 1 differ as documented, 0 not comparable, 0 not permitted, 1 differ and no cause is"
                " known"
            ),
        )

    def test_page(self):
        head = "| Group of cases | Cases | Not the same |\n| --- | --- | --- |\n"
        rows = "| g | 2 | 1 |\n| h | 1 | 1 |\n| all | 3 | 2 |"
        self.assertEqual(table.page(self.found, self.known), head + rows)
        seen = "Rows that were seen before and that this run does not show: `here`."
        self.assertEqual(table.page([], self.known), f"{head}| all | 0 | 0 |\n\n{seen}")

    def test_column_of_rules(self):
        cells = table.of_rules(self.found, self.known, ["rule", "other", "third"], "6.18.44")
        self.assertEqual(
            cells, {"rule": "seen on 6.18.44; differs: `here`", "other": "not comparable", "third": "not comparable"}
        )
        page = (
            "front\n| Rule | Code | Linux | Case |\n|---|---|---|---|\n| rule | x |  | `c/d` |\n| new | y |  |"
            " `e/f` |\n"
        )
        self.assertEqual(
            documents.with_column(page, cells), page.replace("| x |  |", "| x | seen on 6.18.44; differs: `here` |")
        )
        with self.assertRaises(Fault):
            documents.with_column(page.replace("Linux", "Other"), cells)

    def test_a_part_of_a_rule_has_its_own_rows_alone(self):
        parts = {"all of it": ("rule", ("here",)), "none of it": ("rule", ("there",))}
        with unittest.mock.patch.dict(rules.PARTS, parts):
            cells = table.of_rules(self.found, self.known, list(parts), "6.18.44")
        self.assertEqual(
            cells, {"all of it": "seen on 6.18.44; differs: `here`", "none of it": "seen on 6.18.44"}
        )

    def test_column_has_rows_of_sources(self):
        known = documents.rows("| `rotation` | does | not | why | source of 6.1 |\n")
        turns = rules.OF_SOURCE_ROWS["rotation"]
        cells = table.of_rules([], known, [turns], "6.18.44")
        self.assertEqual(cells, {turns: "not comparable; differs by its source: `rotation`"})

    def test_wrapped(self):
        text = "x" * 115 + " `rt try` " + "y" * 10
        self.assertEqual(table.wrapped(text), ["x" * 115, "`rt try` " + "y" * 10])

    def test_last_run(self):
        self.assertEqual(documents.with_last_run("a\n## The last run\n\nold\n", "new"), "a\n## The last run\n\nnew\n")

    def test_cases_show_what_they_are_made_for(self):
        def judged(shows, rows, known_from):
            known = documents.rows(f"| `here` | does | not | why | {known_from} |\n")
            verdict = verdicts.Verdict(
                Case("g", "n", "", (), shows), verdicts.DOCUMENTED if rows else verdicts.SAME, rows
            )
            return verdicts.judged(verdict, known).word

        here = f"seen on {verdicts.version()}"
        self.assertEqual(judged(("here",), ("here",), here), verdicts.DOCUMENTED)
        self.assertEqual(judged(("here",), (), here), verdicts.UNKNOWN)
        self.assertEqual(judged(("here",), (), "source of 2.6"), verdicts.SAME)
        self.assertEqual(judged((), ("here",), here), verdicts.UNKNOWN)
        self.assertEqual(judged(None, ("here",), here), verdicts.DOCUMENTED)


if __name__ == "__main__":
    unittest.main()
