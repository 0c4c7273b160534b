"""Refused texts, and what explain.py says of each: which word is at fault, and what to write."""

import io
import os
import tempfile
import unittest
from concurrent.futures import ThreadPoolExecutor
from unittest import mock

import explain
from perfscript.forms import FORMS
from perfscript.script import lines_of
from perfscript.tests.support import PATH, ProgramTest, call_of, stored

BASE = """perf 1
machine cpus=2 counters=4
kind cycles mask=f
kind misses mask=3
task 0
ring 0 bytes=64
processor 0
switch 0
work 10 user ip=4a cycles=5 misses=1
tick
fork 1
exit
processor 1
switch idle
tool 0
open 0 kind=cycles task=0 cpu=any period=5 sample=1 format=3 flags=disabled,inherit
open 1 attr=01000000400000000900000000000000 task=0 cpu=0
enable 0 group
disable 0
reset 0
period 0 7
read 0 size=8
map 0 0
output 1 0
why 0
seats 0
close 0
reader 0 tries=1 batch=1
order p0 p0 p0 p0 p0 p1 t0 t0 t0 t0 t0 t0 t0 t0 t0 t0 t0 t0
end
"""
BASE = BASE.replace("0900000000000000 task", "0900000000000000" + "00" * 48 + " task")
PMUS = """perf 2
machine cpus=2
pmu 0 counters=2 cpus=1
pmu 1 counters=2 cpus=2
kind cycles pmu=1 mask=3
end
"""
# a script, what is taken out, what is put there, the reason of the note, and the sentence
REFUSED = (
    (BASE, "perf 1\n", "perf 3\n",
     "FORM",
     "line 1, word 2: `3`: it is not one of the words here; write 1 or 2"),
    (BASE, "machine cpus=2 counters=4", "machine cpus=9 counters=4",
     "RANGE",
     "line 2, word 2: `cpus=9` is out of range; cpus is 1 to 8"),
    (BASE, "machine cpus=2 counters=4", "machine counters=4 cpus=2",
     "FORM",
     "line 2, word 2: `cpus=CPUS` is missing before `counters=4`; write `cpus=CPUS` there"),
    (BASE, "kind misses mask=3", "kind cycles mask=3",
     "NAME",
     "line 4, word 2: `cycles` is declared before, in line 3; give it another name"),
    (BASE, "kind misses mask=3", "kind task-clock mask=3",
     "NAME",
     "line 4, word 2: `task-clock` is reserved: no declared kind may be called so; give it another name"),
    (BASE, "kind misses mask=3", "kind misses mask=3f",
     "RANGE",
     "line 4, word 3: `mask=3f` is not a mask of counters 0 to 3; write 1 to f"),
    (BASE, "mask=f", "mask=F",
     "FORM",
     "line 3, word 3: `mask=F`: it is not a hexadecimal number; write at most 16 digits 0-9a-f in lower case, without 0x"),
    (BASE, "task 0\n", "task 64\n",
     "RANGE",
     "line 5, word 2: `64` is out of range; `task TASK` is 0 to 63"),
    (BASE, "task 0\n", "task 0\ntask 0\n",
     "RANGE",
     "line 6, word 2: `0` stands behind 0; numbers of `task` lines rise: write 1 or more, or move the line"),
    (BASE, "ring 0 bytes=64", "ring 0 bytes=96",
     "RANGE",
     "line 6, word 3: `bytes=96` is not a power of two; write 64 or 128"),
    (BASE, "ring 0 bytes=64", "ring 0 byte=64",
     "FORM",
     "line 6, word 3: `byte=64` stands where `bytes=SIZE` is wanted; write `bytes=SIZE`"),
    (BASE, "processor 1", "processor 2",
     "RANGE",
     "line 13, word 2: `2` is out of range; `processor CPU` is 0 to 1"),
    (BASE, "switch 0", "switch",
     "FORM",
     "line 8, word 2: `idle|TASK` is missing at the end of the line; write `idle|TASK` there"),
    (BASE, "switch idle", "swich idle",
     "FORM",
     "line 14, word 1: `swich` is the first word of no line; is `switch` meant?"),
    (BASE, "misses=1", "branches=1",
     "NAME",
     "line 9, word 6: the kind `branches` is not declared; declare it by a `kind` line, or name another; there is `cycles`, `misses`"),
    (BASE, "misses=1", "cycles=1",
     "NAME",
     "line 9, word 6: `cycles` stands twice in the line; write each kind once, with all its occurrences"),
    (BASE, "cycles=5 misses=1", "misses=1 ip=4",
     "NAME",
     "line 9, word 6: `ip` stands behind a kind or twice, and no kind is called so; write it once, before the kinds"),
    (BASE, "work 10 user", "work 10 guest",
     "FORM",
     "line 9, word 3: `guest`: it is not one of the words here; write user or kernel"),
    (BASE, "cycles=5", "cycles=1000000001",
     "RANGE",
     "line 9, word 5: `cycles=1000000001` is out of range; how often a kind occurred is 0 to 1000000000"),
    (BASE, "tick", "tick 1",
     "FORM",
     "line 10, word 2: `1` is one word more than the line has; take it away"),
    (BASE, "fork 1", "fork 01",
     "FORM",
     "line 11, word 2: `01`: it has leading zeros; write 1"),
    (BASE, "exit\n", "exit \n",
     "FORM",
     "line 12, word 2: a space too many stands in the line; write one space between two words, and no other"),
    (BASE, "tool 0", "tool 4",
     "RANGE",
     "line 15, word 2: `4` is out of range; `tool TOOL` is 0 to 3"),
    (BASE, "period=5 sample=1 format=3", "sample=1 format=3 leader=0",
     "FORM",
     "line 16, word 8: `leader=0` stands behind `format=3`; move it; the order is kind task cpu leader period sample format flags"),
    (BASE, "kind=cycles", "kind=cycle",
     "NAME",
     "line 16, word 3: the kind `cycle` is not declared; declare it by a `kind` line, or name another; is `cycles` meant?"),
    (BASE, "open 0 kind", "open kind",
     "FORM",
     "line 16, word 2: `SLOT` is missing before `kind=cycles`; write `SLOT` there"),
    (BASE, "cpu=any", "cpu=2",
     "RANGE",
     "line 16, word 5: `cpu=2` is out of range; cpu is 0 to 1"),
    (BASE, "flags=disabled,inherit", "flags=inherit,disabled",
     "FORM",
     "line 16, word 9: `flags=inherit,disabled`: its flags stand twice or in another order; write flags=disabled,inherit"),
    (BASE, "flags=disabled,inherit", "flags=disabled,inheritt",
     "FORM",
     "line 16, word 9: `flags=disabled,inheritt`: `inheritt` is not a flag; is `inherit` meant?"),
    (BASE, "task=0 cpu=any", "cpu=any",
     "FORM",
     "line 16, word 4: `task=all|TASK` is missing before `cpu=any`; write `task=all|TASK` there"),
    (BASE, "sample=1", "sample=0x1",
     "FORM",
     "line 16, word 7: `sample=0x1`: it is not a hexadecimal number; write at most 16 digits 0-9a-f in lower case, without 0x"),
    (BASE, "attr=01", "attr=02",
     "ATTR",
     "line 17, word 3: the bytes are no attribute, ECLASS: its type, bytes 0 to 3, is not 0, 1 or 4; write 0 or 4 for a declared kind, 1 for a software kind"),
    (BASE, "attr=010000004000000009", "attr=010000004000000008",
     "NAME",
     "line 17, word 3: type and config of the bytes name no kind of 2 declared ones; config, bytes 8 to 15, is a declared kind's number from 0; with type 1 it is 1, 3, 4 or 9"),
    (BASE, "attr=01", "attr=1",
     "FORM",
     "line 17, word 3: `attr=1000000400000000900000000000000000000000000000000000000`: the bytes are not 1 to 4096 pairs of digits; write two lower-case hexadecimal digits for each byte"),
    (BASE, "enable 0 group", "enable 0 grup",
     "FORM",
     "line 18, word 3: `grup` is one word more than the line has; take it away"),
    (BASE, "disable 0", "disable 256",
     "RANGE",
     "line 19, word 2: `256` is out of range; `disable SLOT` is 0 to 255"),
    (BASE, "reset 0", "reset",
     "FORM",
     "line 20, word 2: `SLOT` is missing at the end of the line; write `SLOT` there"),
    (BASE, "period 0 7", "period 0 -7",
     "FORM",
     "line 21, word 3: `-7`: it is not a decimal number; write at most 20 digits"),
    (BASE, "read 0 size=8", "read 0 8",
     "FORM",
     "line 22, word 3: `8` is one word more than the line has; take it away; there is `size`"),
    (BASE, "map 0 0", "map 0 1",
     "NAME",
     "line 23, word 3: ring 1 is not declared; declare it by a `ring` line, or name another; there is `0`"),
    (BASE, "output 1 0", "output 1",
     "FORM",
     "line 24, word 3: `SLOT` is missing at the end of the line; write `SLOT` there"),
    (BASE, "why 0", "why  0",
     "FORM",
     "line 25, word 2: a space too many stands in the line; write one space between two words, and no other"),
    (BASE, "seats 0", "seats 2",
     "RANGE",
     "line 26, word 2: `2` is out of range; `seats CPU` is 0 to 1"),
    (BASE, "close 0", "close zero",
     "FORM",
     "line 27, word 2: `zero`: it is not a decimal number; write at most 20 digits"),
    (BASE, "reader 0 tries=1 batch=1", "reader 0 tries=1 batch=2000",
     "RANGE",
     "line 28, word 4: `batch=2000` is out of range; batch is 1 to 1024"),
    (BASE, "reader 0 tries=1 batch=1", "reader 3 tries=1 batch=1",
     "NAME",
     "line 28, word 2: ring 3 is not declared; declare it by a `ring` line, or name another; there is `0`"),
    (BASE, "order p0", "order q0",
     "FORM",
     "line 29, word 2: `q0`: it is not an act; write pN, tN or sR=PLACE, with decimal numbers without leading zeros"),
    (BASE, "order p0", "order p2 p0",
     "NAME",
     "line 29, word 2: `p2` names processor 2, which has no lines; give it lines, or name another; there is `p0`, `p1`, `t0`"),
    (BASE, "order p0", "order s0=8 p0",
     "perf_run: act 0: ring 0 last 0 head 0 given 8",
     "line 29, word 2: act 0, `s0=8`, is not where a record ends that was written by then; write a place of 0"),
    (BASE, "order p0 p0", "order p0",
     "ORDER",
     "line 30, word 1: the order is not whole; processor 0 has 5 lines, 8 to 12 of the text, and the order 4 acts `p0`: write 1 more"),
    (BASE, "order p0 p0", "order p0 p0 p0",
     "ORDER",
     "line 30, word 1: the order is not whole; processor 0 has 5 lines, 8 to 12 of the text, and the order 6 acts `p0`: write 1 fewer"),
    (BASE, "end\n", "end\n\n",
     "END",
     "line 31, word 1: the line stands behind `end`, which is line 30; take it away, or move `end` behind it"),
    (BASE, "end\n", "end",
     "END",
     "line 30, word 1: the line is not ended by a line feed; end the text with one"),
    (BASE, "end\n", "",
     "END",
     "behind line 29: the text ends without `end`; write a line `end` behind its last line"),
    (BASE, "tick\n", "tick\t\n",
     "ASCII",
     "line 10, word 1: byte 5 of the word is a tab, which no script has; write ASCII and spaces"),
    (BASE, "tick\n", "tick\r\n",
     "ASCII",
     "line 10, word 1: byte 5 of the word is a carriage return, which no script has; end lines with line feeds alone"),
    (BASE, "tool 0\n", "tool 0\ntick\n",
     "PLACE",
     "line 16, word 1: `tick` stands behind `tool 0`, line 15; move it before that line; the order is perf, machine, pmu, kind, task, ring, processor, tool, reader, order, end"),
    (BASE, "ring 0 bytes=64\n", "ring 0 bytes=64\ntask 1\n",
     "PLACE",
     "line 7, word 1: `task` stands behind `ring 0 bytes=64`, line 6; move it before that line; the order is perf, machine, pmu, kind, task, ring, processor, tool, reader, order, end"),
    (BASE, "processor 0\n", "open 2 kind=cycles task=0 cpu=0\nprocessor 0\n",
     "PLACE",
     "line 7, word 1: `open` stands under no `tool` line; write `tool N` before it"),
    (BASE, "cycles=5", "cycles=1000000",
     "WEIGHT",
     "line 30, word 1: it weighs 200001: 1 sampling open and 1000001 occurrences, by 5, the least period that a line gives; the most is 65536: raise the least period, or give fewer occurrences"),
    (PMUS, "machine cpus=2", "machine cpus=2 counters=1",
     "FORM",
     "line 2, word 3: `counters=1` is one word more than the line has; take it away; there is `cpus`"),
    (PMUS, "pmu 1 counters=2 cpus=2", "pmu 1 counters=2 cpus=3",
     "RANGE",
     "line 4, word 4: `cpus=3` has a processor of PMU 0; name each processor in one `pmu` line"),
    (PMUS, "pmu 1 counters=2 cpus=2\n", "",
     "PLACE",
     "line 4, word 1: processor 1 is in the mask of no `pmu` line; write a `pmu` line with it before `kind`"),
    (PMUS, "pmu 1", "pmu 2",
     "RANGE",
     "line 4, word 2: `2` is not the next number; PMUs are numbered from 0: write 1"),
    (PMUS, "kind cycles pmu=1 mask=3", "kind cycles mask=3",
     "FORM",
     "line 5, word 3: `pmu=PMU` is missing before `mask=3`; write `pmu=PMU` there"),
    (PMUS, "kind cycles pmu=1 mask=3", "kind cycles pmu=2 mask=3",
     "RANGE",
     "line 5, word 3: `pmu=2` is not declared; there is `0`, `1`"),
)
# a line, a wrong one, what the sentence says to write, and the line so written
MENDED = (
    ("fork 1", "fork 01", "write 1", "fork 1"),
    ("flags=disabled,inherit", "flags=inherit,disabled", "write flags=disabled,inherit", "flags=disabled,inherit"),
    ("ring 0 bytes=64", "ring 0 bytes=96", "write 64 or 128", "ring 0 bytes=128"),
    ("switch idle", "swich idle", "is `switch` meant?", "switch idle"),
    ("period=5 sample=1", "period=05 sample=1", "write 5", "period=5 sample=1"),
)


class Explained(ProgramTest):
    def explained(self, text):
        return explain.explained(self.program, "x", text)

    def all_explained(self, texts):
        """What there is to say of each text, and its status; the texts are explained side by side."""
        with ThreadPoolExecutor(os.cpu_count()) as pool:
            return list(pool.map(self.explained, texts))

    def test_each_refused_text(self):
        texts = [base.replace(old, new, 1) for base, old, new, _, _ in REFUSED]
        outcomes = self.program.outcomes([("replay", text) for text in texts])
        for row, (said, status), outcome in zip(REFUSED, self.all_explained(texts), outcomes):
            base, old, new, reason, sentence = row
            with self.subTest(old=old, new=new):
                self.assertIn(old, base)
                self.assertEqual(1, status)
                self.assertEqual(outcome.note, said[0])
                self.assertTrue(said[0].endswith(": " + reason) or said[0] == reason, said[0])
                self.assertEqual(sentence, said[1])

    def test_the_table_has_each_reason_and_each_form(self):
        reasons = {reason for _, _, _, reason, _ in REFUSED}
        self.assertLessEqual(set(explain.REASONS) - {"LIMIT"}, reasons)
        heads = set()
        for base, old, new, reason, sentence in REFUSED:
            place = int(sentence.split(",")[0].split(" ")[-1]) if sentence.startswith("line ") else 0
            line = lines_of(base)[place - 1] if 0 < place <= len(lines_of(base)) else None
            heads |= {line.head} if line else set()
        self.assertEqual(set(), {text.split(" ")[0] for _, text in FORMS} - heads)

    def test_limits(self):
        text = BASE.replace("kind misses mask=3\n", "".join(f"kind k{number} mask=1\n" for number in range(17)))
        self.assertEqual("line 19, word 1: it is kind number 17; declare at most 16 kinds", self.explained(text)[0][1])
        text = BASE.replace("tick\n", "tick\n" * 16380)
        self.assertIn("it is line number 16385 under processors and tools; write at most 16384", self.explained(text)[0][1])

    def test_what_is_to_be_written_is_a_script(self):
        for right, wrong, sentence, mended in MENDED:
            said, _ = self.explained(BASE.replace(right, wrong, 1))
            self.assertTrue(said[1].endswith("; " + sentence), said[1])
            self.assertEqual(0, self.program.call("replay", BASE.replace(right, mended, 1)).status)

    def test_a_mark_stands_below_the_word(self):
        said, _ = self.explained(BASE.replace("misses=1", "branches=1", 1))
        self.assertEqual("    work 10 user ip=4a cycles=5 branches=1", said[2])
        self.assertEqual("branches=1", said[2][said[3].index("^"):])
        self.assertEqual("the form is: work AMOUNT user|kernel [ip=ADDRESS] [KIND=N ..]", said[4])
        long = BASE.replace("order p0", "order" + " p0" * 5000 + " q0" + " p0" * 5000)
        said, _ = self.explained(long)
        self.assertLess(max(map(len, said)), 200)
        self.assertEqual("q0", said[2][said[3].index("^"):][:2])

    def test_each_refused_worked_case_is_explained(self):
        """Of 382 texts that are refused, the note is word for word, and there is a reason for each."""
        refused = [line.split(" ", 2)[1:] for line in stored("cases").splitlines() if line.startswith("refused ")]
        self.assertGreater(len(refused), 300)
        texts = [stored(name + ".script") for name, _ in refused]
        for (name, note), (said, status) in zip(refused, self.all_explained(texts)):
            self.assertEqual((note, 1), (said[0], status), name)
            self.assertNotIn("can't see why", said[1], name)

    def test_a_look_names_the_places_of_records(self):
        said, _ = self.explained(stored("rings-and-records/look-inside-a-record.script"))
        self.assertTrue(said[1].endswith("is not where a record ends that was written by then; write a place of 0, 16, 32, 48"))
        for place in (0, 16, 32, 48):
            text = stored("rings-and-records/look-inside-a-record.script").replace("s0=8", f"s0={place}")
            self.assertEqual(0, self.program.call("replay", text).status, place)

    def test_no_verdict_of_its_own(self):
        """A program that refuses what is right, or for a reason that does not hold, is not believed to be explained."""
        case = explain.Case(self.program, BASE, 10)
        for reason in ("ASCII", "FORM", "RANGE", "WEIGHT", "ODD"):
            self.assertIn(f"can't see why; docs/SCRIPT.md says what the reason {reason} is", explain.of_line(case, reason)[0])

    def test_the_command(self):
        with tempfile.TemporaryDirectory() as folder:
            path = os.path.join(folder, "a.script")
            for text, status, said in ((BASE, 0, "the program does this script"), ("x\n", 1, "perf_run: line 1: FORM\nline 1, ")):
                with open(path, "w") as file:
                    file.write(text)
                found = call_of(explain.main, ["--program", PATH, path])
                self.assertEqual((status, ""), (found[0], found[2]))
                self.assertIn(said, found[1])
        with mock.patch("sys.stdin", mock.Mock(buffer=io.BytesIO("perf 1\nmäch\n".encode()))):
            status, out, _ = call_of(explain.main, ["--program", PATH])
        self.assertEqual(1, status)
        self.assertIn("line 2, word 1: byte 2 of the word is the byte 0xc3, which no script has", out)


if __name__ == "__main__":
    unittest.main()
