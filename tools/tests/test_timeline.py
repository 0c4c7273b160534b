"""The picture: its bars, its sums and its causes are the program's answers."""

import re
import unittest
from xml.etree import ElementTree

import timeline
from perfscript import Draft, Fault, Script
from perfscript.tests.support import ProgramTest, stored

HEAD = ["perf 1", "machine cpus=2 counters=1", "kind cycles mask=1"]


def drawn(text):
    """What the texts and the titles of a picture say."""
    root = ElementTree.fromstring(text)
    name = "{http://www.w3.org/2000/svg}"
    return [one.text for one in root.iter(name + "text")], [one.text for one in root.iter(name + "title")]


class Causes(unittest.TestCase):
    def test_each_cause_names_its_events(self):
        for cause, words in (
            ("hall 1 0", "too few counters for events 0 and 1"),
            ("hall 2 10 1", "too few counters for events 1, 2 and 10"),
            ("hall 3", "no counter for event 3"),
            ("earlier 4", "behind event 4, which was refused"),
            ("exclusive 5", "event 5 is exclusive"),
            ("exclusive-self 6", "is exclusive, and event 6 is on"),
            ("error hall 0 1", "in error: too few counters for events 0 and 1"),
            ("error", "in error"),
        ):
            self.assertEqual(words, timeline.in_words(cause))


class Pictures(ProgramTest):
    def picture(self, script):
        return timeline.picture_of(self.program, script)

    def two_processors(self, length, rounds=1):
        """Events 0 to 2 on processor 0, of which 1 and 2 are a group, and event 3 on processor 1, pinned."""
        draft = Draft([*HEAD[:1], "machine cpus=2 counters=2", "kind cycles mask=3"])
        for line in ("open 0 kind=cycles task=all cpu=0", "open 1 kind=cycles task=all cpu=0",
                     "open 2 kind=cycles task=all cpu=0 leader=1", "open 3 kind=cycles task=all cpu=1 flags=pinned"):
            draft.act("t0", line)
        for _ in range(rounds):
            for cpu in (0, 1):
                draft.act(f"p{cpu}", f"work {length} user")
                draft.act(f"p{cpu}", "tick")
        return Script(draft.text())

    def test_sums_are_those_of_stat(self):
        """Each event's row ends with the running time, the enabled time and the share of its row of `stat`."""
        for name in ("multiplexing", "group-read", "moved-to-another-counter"):
            text = stored(f"examples/{name}.script")
            table = self.program.outputs([("stat", text)])[0].splitlines()[1:-1]
            texts, _ = drawn(self.picture(Script(text)))
            for row in table:
                slot, kind, _, enabled, running, _, share = row.split()
                sums = texts[texts.index(f"event {slot} {kind}"):]
                found = next(text for text in sums if " of " in text)
                self.assertEqual(f"{int(running):,} of {int(enabled):,}: {share}", found, (name, row))

    def test_two_processors_and_a_group(self):
        texts, titles = drawn(self.picture(self.two_processors(1000, 2)))
        names = [text for text in texts if re.match("processor|event ", text)]
        self.assertEqual(
            [*(f"processor 0, counter {n}" for n in (0, 1)), *(f"event {n} cycles" for n in (0, 1, 2)),
             *(f"processor 1, counter {n}" for n in (0, 1)), "event 3 cycles"], names)
        self.assertIn("event 1 cycles: too few counters for events 0, 1 and 2, 0 to 1,000", titles)
        self.assertIn("event 3 cycles: on, 0 to 1,000", titles)
        self.assertIn("2,000 of 2,000: 100.00%", texts)
        self.assertIn("1,000 of 2,000: 50.00%", texts)

    def test_a_cause_without_room_stands_in_the_list(self):
        texts, titles = drawn(self.picture(self.two_processors(10, 100)))
        cause = "too few counters for events 0, 1 and 2"
        self.assertIn(f"event 1 cycles: {cause}, 0 to 10", titles)
        self.assertNotIn(cause, texts)
        listed = [text for text in texts if text.startswith("[")]
        self.assertTrue(any(text.startswith(f"[1] event 0 cycles: {cause} (processor 0, 10 to 20;") and
                            text.endswith("and 47 more)") for text in listed), listed)

    def test_the_list_names_a_stretch_once_for_events_of_one_name(self):
        class Alike(timeline.Labels):
            def title(self, event):
                return "cycles"

        script = self.two_processors(10, 100)
        texts, _ = drawn(timeline.picture_of(self.program, script, Alike(script)))
        listed = next(text for text in texts if text.startswith("[1] cycles: too few"))
        # each of the 100 stretches has events off, and two of them where the group is
        self.assertIn("(processor 0, 10 to 20; processor 0, 30 to 40; processor 0, 50 to 60 and 97 more)", listed)

    def test_a_stretch_that_is_wide_enough_has_its_cause(self):
        texts, _ = drawn(self.picture(self.two_processors(1000, 2)))
        self.assertIn("too few counters for events 0, 1 and 2", texts)
        self.assertFalse([text for text in texts if text.startswith("[")])

    def test_what_can_not_be_drawn(self):
        four = Script("\n".join([*HEAD, "tool 0", "tool 1", "tool 2", "tool 3", "end", ""]))
        with self.assertRaisesRegex(Fault, "all four tools have lines"):
            timeline.with_questions(four)
        with self.assertRaisesRegex(Fault, "the picture would ask in .* lines, and the program takes 16384"):
            timeline.with_questions(many())


def many():
    """A script of so many events and stretches that no picture can ask about them."""
    draft = Draft(HEAD)
    for slot in range(200):
        draft.act("t0", f"open {slot} kind=cycles task=all cpu=0")
    for _ in range(100):
        draft.act("p0", "work 1 user")
    return Script(draft.text())


if __name__ == "__main__":
    unittest.main()
