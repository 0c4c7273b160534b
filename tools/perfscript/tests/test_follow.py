"""Attributes of `open` lines, and what a script and its report say of events, copies and rings."""

import unittest

from perfscript import Fault, Report, Script
from perfscript.attributes import Attribute, bytes_of
from perfscript.follow import Follow

TEXT = """perf 1
machine cpus=2 counters=16
kind faults mask=ffff
task 0
ring 0 bytes=4096
processor 0
switch 0
work 10 user ip=5 faults=7
fork 1
processor 1
switch 1
exit
tool 0
open 0 kind=faults task=0 cpu=0 period=3 sample=203 format=1f flags=inherit,sample_id_all
open 1 kind=faults task=0 cpu=0 leader=0 flags=inherit
map 0 0
read 0
close 0
order t0 t0 t0 p0 p0 s0=0 p0 t0 p1 p1 t0
end
"""
REPORT = """order t0 t0 t0 p0 p0 s0=0 p0 t0 p1 p1 t0
t0.3 read 2 10 10 7 1 0 7 2 0
ring 0 head=24 tail=0 lost=0 pending=0
left 0018000200000009 0000000000000005 0000000100000001
end
"""


class Attributes(unittest.TestCase):
    def test_attribute_of_words_and_of_bytes(self):
        script = Script(TEXT)
        words = Attribute(script.lines["t0"][0], script.kinds)
        self.assertEqual(
            (words.period, words.sample, words.format, words.has("inherit"), words.has("pinned")),
            (3, 0x203, 0x1F, True, False),
        )
        self.assertEqual(words.field_names(), ["IP", "TID", "STREAM_ID"])
        self.assertEqual(words.trailer_names(), ["TID", "STREAM_ID"])
        given = bytes_of(0, 0, words.period, words.sample, words.format, words.flags)
        text = TEXT.replace(
            "kind=faults task=0 cpu=0 period=3 sample=203 format=1f flags=inherit,sample_id_all",
            f"attr={given.hex()} task=0 cpu=0",
        )
        other = Attribute(Script(text).lines["t0"][0], script.kinds)
        fields = [(one.kind, one.period, one.sample, one.format, one.flags) for one in (words, other)]
        self.assertEqual(fields[0], fields[1])
        for given, kinds, kind in (("010000000000000009", [], "dummy"), ("040000000000000001", ["a", "b"], "b")):
            line = Script(f"perf 1\ntool 0\nopen 0 attr={given} task=0 cpu=0\nend\n").lines["t0"][0]
            self.assertEqual((kind, 0), (Attribute(line, kinds).kind, Attribute(line, kinds).period))
        for given in ("kind=x", "attr=010000000000000002", "attr=040000000000000001"):
            line = Script(f"perf 1\ntool 0\nopen 0 {given} task=0 cpu=0\nend\n").lines["t0"][0]
            with self.assertRaisesRegex(Fault, "script line 3: its kind is not declared: open 0 "):
                Attribute(line, ["a"])

    def test_words_of_formats(self):
        line = Script(TEXT).lines["t0"][0]
        attribute = Attribute(line, {"faults": 1})
        names = [name for name, _ in attribute.word_names(2)]
        self.assertEqual(names, ["nr", "enabled", "running", "value", "id", "lost", "value", "id", "lost"])
        attribute.format = 0x17
        self.assertEqual([name for name, _ in attribute.word_names(2)], ["value", "enabled", "running", "id", "lost"])


class Following(unittest.TestCase):
    def follow(self, count):
        script = Script(TEXT)
        follow = Follow(script, Report(REPORT))
        for act in list(script.acts())[:count]:
            if not isinstance(act, tuple):
                follow.step(act)
        return follow

    def test_ids_of_copies(self):
        follow = self.follow(7)
        self.assertEqual([(copy.id, copy.slot, copy.task) for copy in follow.copies], [(3, 0, 1), (4, 1, 1)])
        self.assertEqual([event.slot for event in follow.group(1)], [0, 1])

    def test_exit_folds_and_close_frees(self):
        follow = self.follow(11)
        self.assertEqual((follow.copies, sorted(event.slot for event in follow.folded)), ([], [0, 1]))
        self.assertEqual((follow.slots.get(0), [event.slot for event in follow.group(1)]), (None, [1]))
        self.assertEqual([event.slot for event in follow.writers[0]], [0])

    def test_a_line_that_can_not_be_done_is_a_fault(self):
        for old, new in (("map 0 0", "map 7 0"), ("switch 0", "switch idle"), ("map 0 0", "output 0 1")):
            with self.assertRaisesRegex(Fault, "the report has no refusal of .*, which can't be done there"):
                Follow(Script(TEXT.replace(old, new)), Report(REPORT)).run()


if __name__ == "__main__":
    unittest.main()
