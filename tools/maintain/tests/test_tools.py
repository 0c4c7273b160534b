"""Tests of the tools that keep the repository: python3 -m unittest discover -s tools/maintain/tests"""

import os
import subprocess
import sys
import tempfile
import unittest

TOOLS = os.path.join(os.path.dirname(os.path.abspath(__file__)), "..")
sys.path.append(TOOLS)

import cited_definitions
import compare_benchmark
import definition_lines
import measuring
import missing_answers
import preloaded
import replay_benchmark
import script_terms
from perfscript import Fault, Script
from perfscript.limits import MOST_BYTES, MOST_LINES


class CitedDefinitions(unittest.TestCase):
    def test_a_head_is_the_first_sentence_of_a_file(self):
        text = "-- inner\n-- What a page is, after mmap(2) of\n-- perf_event_open(2). The rest is own.\nuse Rattle\n"
        self.assertEqual(cited_definitions.head(text), "What a page is, after mmap(2) of perf_event_open(2).")

    def test_a_file_may_say_nothing(self):
        self.assertEqual(cited_definitions.head("-- believed\nuse Rattle\n"), "")

    def test_each_cited_file_says_what_it_defines(self):
        top = os.path.abspath(os.path.join(TOOLS, "..", ".."))
        tool = [sys.executable, os.path.abspath(os.path.join(TOOLS, "cited_definitions.py"))]
        run = subprocess.run(tool, cwd=top, capture_output=True, text=True)
        self.assertEqual((run.returncode, run.stderr), (0, ""))
        self.assertIn("crates/perf_top/specs/Outcome.antt: What a call of the program does and leaves.\n", run.stdout)
        # which is imported by a list in a list
        self.assertIn("crates/line_input/specs/Bytes.antt: What a call that takes a byte took.\n", run.stdout)


class DefinitionLines(unittest.TestCase):
    def line_of(self, text, name):
        with tempfile.TemporaryDirectory() as folder:
            path = os.path.join(folder, "file")
            with open(path, "w") as file:
                file.write(text)
            return definition_lines.line_of(path, name)

    def test_a_definition_is_found_where_its_type_stands(self):
        self.assertEqual(self.line_of("-- rules\nabbrev pub judge : A\njudge a = b\n", "judge"), 2)

    def test_a_name_that_begins_alike_is_another_one(self):
        self.assertIsNone(self.line_of("pub judged : A\n", "judge"))

    def test_a_method_is_found_by_its_last_part(self):
        self.assertEqual(self.line_of("impl Seats {\n    pub fn try_add(&mut self)\n", "Seats::try_add"), 2)

    def test_no_file_no_line(self):
        self.assertIsNone(definition_lines.line_of("no/such/file", "judge"))

    def test_the_pages_name_the_lines_at_which_definitions_stand(self):
        top = os.path.join(TOOLS, "..", "..")
        check = [sys.executable, os.path.abspath(os.path.join(TOOLS, "definition_lines.py")), "--check"]
        run = subprocess.run(check, cwd=top, capture_output=True, text=True)
        self.assertEqual((run.returncode, run.stderr), (0, ""))


class Terms(unittest.TestCase):
    def test_the_theorems_that_stand_are_those_that_are_written(self):
        listed = script_terms.listed()
        self.assertEqual({"answers", "reports"}, set(listed))
        for folder, files in listed.items():
            there = os.path.join(script_terms.PROOFS, folder)
            with tempfile.TemporaryDirectory() as out:
                for file, cases in files.items():
                    script_terms.write_files(out, folder, file, cases)
                wanted = {file for file in os.listdir(there) if script_terms.is_written(os.path.join(there, file))}
                self.assertEqual(wanted, set(os.listdir(out)))
                self.assertGreater(len(wanted), 1)
                for file in wanted:
                    self.assertEqual(script_terms_text(there, file), script_terms_text(out, file), file)


def script_terms_text(folder, file):
    with open(os.path.join(folder, file), encoding="utf-8") as text:
        return text.read()


class Benchmarks(unittest.TestCase):
    def test_what_is_measured_is_scripts_whose_orders_are_whole(self):
        drafts = [replay_benchmark.small(), replay_benchmark.large(), replay_benchmark.copies(2)]
        drafts += [replay_benchmark.sampling(), replay_benchmark.counting(5)]
        drafts += [compare_benchmark.refused_reads(), compare_benchmark.group_reads(), compare_benchmark.turning()]
        for draft in [*drafts, replay_benchmark.stored("tasks-and-copies/copies-full")]:
            script = Script(draft.text())
            done = sum(act[0] != "s" for act in script.order)
            self.assertEqual(len(script.all_lines()), done)
            self.assertLessEqual(done, MOST_LINES)

    def test_a_text_of_work_lines_is_one_act_short(self):
        text = compare_benchmark.work_lines()
        self.assertLessEqual(len(text), MOST_BYTES)
        script = Script(text)
        self.assertEqual(len(script.all_lines()) - 1, len(script.order))

    def test_ratios(self):
        runs = [measuring.Cost(3.0, 0.010, 50, 2**20), measuring.Cost(1.0, 0.030, 70, 2**21)]
        costs = compare_benchmark.costs_of([*runs, measuring.Cost(2.0, 0.020, 60, 2**20)])
        self.assertEqual((0.020, 2.0, 2**21, 60), costs)
        half = compare_benchmark.Costs(0.010, 1.0, 2**20, 60)
        task = compare_benchmark.Task("a task", ["replay"], "")
        self.assertRegex(compare_benchmark.row(task, costs, half), r"^a task +20\.00 ms +10\.00 ms +0\.50 +2\.0 MiB +1\.0 MiB +0\.50$")

    @unittest.skipUnless(preloaded.compiler(), "no C compiler: there is no command cc")
    def test_a_run_that_ends_otherwise_is_a_fault(self):
        with self.assertRaisesRegex(Fault, "/bin/false replay ended with status 1, no note; wanted: status 0, no note"):
            measuring.cost("/bin/false", ["replay"])
        with self.assertRaisesRegex(Fault, "^/bin/sh -c kill -9 .* ended with status -9, no note; wanted: status 0, no note"):
            measuring.cost("/bin/sh", ["-c", "kill -9 $$"])
        with self.assertRaisesRegex(Fault, "^/nonexistent does not start: No such file or directory$"):
            measuring.cost("/nonexistent", [])

    @unittest.skipUnless(preloaded.compiler(), "no C compiler: there is no command cc")
    def test_what_a_run_costs_is_its_own(self):
        small = measuring.cost("/bin/false", [], status=1)
        # less than a Python takes, which starts it
        self.assertTrue(0 < small.peak < 2**23, small)
        fill = measuring.cost(sys.executable, ["-c", "bytearray(2**26)"])
        self.assertGreater(fill.peak, 2**26)
        self.assertGreater(fill.seconds, fill.processor / 2)
        self.assertGreater(fill.faults, small.faults)


class Answers(unittest.TestCase):
    USE = "use Rattle.attr_bytes.proofs.kinds.kind_of.Goals as goal"
    SAID = f"""fn attr_bytes::kinds::kind_of: no proof: expected answers in ./proofs/kinds/kind_of/Answers.antt
help: write ./proofs/kinds/kind_of/Answers.antt with these lines, and check again: each hole's goal is what is left
    use Rattle.std.proofs.Common.{{rules, length}}
    {USE}

    -- src/kinds.rt:10:1
    pub returns-in-0 : goal.returns-in-0
    returns-in-0 c = ?

    -- src/kinds.rt:10:1
    pub takes : goal.takes
    takes c κs = ?
note: `returns-in-0` of proofs/kinds/kind_of/Answers.antt must prove: false
"""

    def goal(self, name="returns-in-0", given="c"):
        return missing_answers.Goal(name, f"goal.{name}", given, self.USE)

    def test_goals_are_read_with_their_file(self):
        goals = [self.goal(), self.goal("takes", "c κs")]
        self.assertEqual(missing_answers.offered(self.SAID), [("proofs/kinds/kind_of/Answers.antt", goals)])

    def test_goals_are_read_for_a_file_that_is_there(self):
        said = self.SAID.replace("help: write ./", "help: add these lines to ./")
        said = said.replace("Answers.antt with these lines, and", "Answers.antt, leaving out each name, and")
        self.assertIn("help: add these lines to ./proofs/kinds/kind_of/Answers.antt, leaving out", said)
        self.assertEqual(missing_answers.offered(said), missing_answers.offered(self.SAID))

    def test_a_check_that_offers_nothing_has_no_goals(self):
        self.assertEqual(missing_answers.offered("logic=proved functions=18\n"), [])

    def test_refused_answers_are_read_by_file_and_name(self):
        said = "./proofs/a/Answers.antt:5:13: error: `returns`: `search`: no proof of `p`\nsrc/a.rt:1:1: error: `b`\n"
        self.assertEqual(missing_answers.refused(said), {("proofs/a/Answers.antt", "returns")})

    def test_a_first_answer_makes_the_file(self):
        uses = f"use Rattle.std.proofs.Common.{{rules}}\n{self.USE}\n"
        wanted = uses + "\npub takes : goal.takes\ntakes c κs = search rules\n"
        self.assertEqual(missing_answers.with_answers(None, [(self.goal("takes", "c κs"), 0)]), wanted)

    def test_an_answer_goes_behind_those_that_are_there(self):
        text = f"use Rattle.std.proofs.Common.{{rules, length}}\n{self.USE}\n\npub a : goal.a\na c = length\n"
        wanted = text + "\npub returns-in-0 : goal.returns-in-0\nreturns-in-0 c = search rules\n"
        self.assertEqual(missing_answers.with_answers(text, [(self.goal(), 0)]), wanted)


if __name__ == "__main__":
    unittest.main()
