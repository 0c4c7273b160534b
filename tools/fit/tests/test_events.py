"""Lists of events are read as perf reads them, and what is refused is refused at its place."""

import unittest
from unittest import mock

from fit import perf_tables
from fit.events import cache_event, modes_left_out, read_lists
from fit.faults import BadInput
from fit.tests.support import call


def shape(*texts: str) -> list[tuple[list[tuple[str, str]], str]]:
    """The names of each group with their own modifiers, and the modifiers behind its brace."""
    return [([(event.name, event.modifiers) for event in group.events], group.modifiers) for group in read_lists(texts)]


class Reading(unittest.TestCase):
    def test_commas_and_braces(self) -> None:
        wanted = [([("cycles", "")], ""), ([("instructions", ""), ("branches", "k")], "u"), ([("cs", "")], "")]
        self.assertEqual(wanted, shape("cycles,{instructions,branches:k}:u,cs"))

    def test_several_options_follow_each_other(self) -> None:
        self.assertEqual(shape("cycles,branches"), shape("cycles", "branches"))

    def test_spaces_are_skipped(self) -> None:
        self.assertEqual(shape("{cycles,branches},cs"), shape(" { cycles , branches } , cs "))

    def test_pmu(self) -> None:
        [group] = read_lists([" cpu/event=0x3c,umask=0x00/uD , cs"])[:1]
        [event] = group.events
        self.assertEqual(("slashed", "cpu", "uD"), (event.form, event.pmu, event.modifiers))
        self.assertEqual("event=0x3c,umask=0x00", event.terms)

    def test_forms(self) -> None:
        for text, form, name, modifiers in [
            ("r01c2:pp", "raw", "r01c2", "pp"),
            ("4:0x3c:u", "numeric", "4:0x3c:u", "u"),
            ("sched:sched_switch", "tracepoint", "sched:sched_switch", ""),
            ("mem:0x1000/8:rw:u", "breakpoint", "mem:0x1000/8:rw:u", "u"),
            ("L1-dcache-load-misses:uk", "name", "L1-dcache-load-misses", "uk"),
            ("cycles/name=c,period=3/e", "name", "cycles", "e"),
            ("mem_load_retired.l1_miss:P", "name", "mem_load_retired.l1_miss", "P"),
        ]:
            [group] = read_lists([text])
            [event] = group.events
            self.assertEqual((form, name, modifiers), (event.form, event.name, event.modifiers), text)

    def test_named_group(self) -> None:
        self.assertEqual(shape("{cycles,cs}:W"), shape("mine {cycles,cs}:W"))

    def test_cache_names(self) -> None:
        for text, wanted in {
            "L1-dcache": "L1-dcache-loads", "l1d-misses": "L1-dcache-load-misses",
            "LLC-store-misses": "LLC-store-misses",
            "dTLB-write-miss": "dTLB-store-misses", "L1-dcache-prefetch": "L1-dcache-prefetches",
            "branch-load-misses": "branch-load-misses", "node-prefetch-misses": "node-prefetch-misses",
            "L1-icache-stores": None, "iTLB-prefetch": None, "LLC-loads-misses-misses": None, "branch-misses": None,
            "branches": None, "LLC-misses-loads": None, "l1dx": None,
        }.items():
            self.assertEqual(wanted, cache_event(text), text)

    def test_names_of_perf_for_the_same_event(self) -> None:
        groups = read_lists(["cpu-cycles,branch-instructions,cs,migrations"])
        kinds = [group.events[0].kind for group in groups]
        self.assertEqual(["cycles", "branches", "context-switches", "cpu-migrations"], kinds)

    def test_modes(self) -> None:
        wanted = {
            ("", ""): (False, False), ("u", ""): (False, True), ("k", ""): (True, False), ("uk", ""): (False, False),
            ("", "u"): (False, True), ("u", "k"): (False, False), ("k", "k"): (True, False),
            ("uk", "u"): (False, False),
            ("D", "u"): (False, True), ("h", ""): (True, True), ("h", "u"): (False, True), ("uh", ""): (False, True),
        }
        for modifiers, left_out in wanted.items():
            self.assertEqual(left_out, modes_left_out(*modifiers), modifiers)


class Refused(unittest.TestCase):
    def check(self, text: str, character: int, words: str) -> None:
        with self.assertRaises(BadInput) as caught:
            read_lists(["cs", text])
        first, shown, mark = str(caught.exception).split("\n")
        self.assertTrue(first.startswith(f"-e number 2, character {character}: "), first)
        self.assertIn(words, first)
        self.assertEqual((f"    {text}", character + 4), (shown, mark.index("^") + 1))

    def test_places(self) -> None:
        for text, character, words in [
            ("", 1, "an event is missing"),
            ("cycles,", 8, "an event is missing"),
            ("cycles,,cs", 8, "an event is missing"),
            ("{cycles", 8, "} is missing"),
            ("{cycles,{cs}}", 9, "an event is missing"),
            ("cycles}", 7, "a comma has to stand here"),
            ("{cycles}u", 9, "a comma has to stand here"),
            ("cycles:U", 8, "'U' is not known"),
            ("cycles:pppp", 11, "p stands more than three times"),
            ("cpu/event=1/:u", 13, "no colon stands between a slash and modifiers"),
            ("cycles/event=1/", 8, "the term 'event' is not known here"),
            ("{cycles,cs}:", 12, "modifiers have to stand behind the colon"),
            ("cycles:uku", 10, "'u' stands twice"),
            ("{cycles,cs}:uu", 14, "'u' stands twice"),
            ("cycles/", 1, "is no event"),
        ]:
            with self.subTest(text=text):
                self.check(text, character, words)

    def test_unknown_event(self) -> None:
        with mock.patch.object(perf_tables, "perf_path", lambda: None):
            status, out, err = call("-m", "zen", "-e", "cycles,{cs,foo:u}")
        self.assertEqual((2, ""), (status, out))
        self.assertTrue(err.startswith("fit.py: -e, character 12: 'foo' is no name in the file of zen, and "), err)
        self.assertIn("type its code, as rUUEE or cpu/event=0xEE,umask=0xUU/", err)

    def test_terms(self) -> None:
        for text, character, words in [
            ("cpu/event=0x3c,foo=1/", 16, "the term 'foo' is not known on skylake"),
            ("cpu/event=0x1ff/", 5, "the value is too big: the term has 8 bits"),
            ("cpu/event=cycles/", 5, "the value 'cycles' has to be a number"),
            ("cpu/event=1,,umask=1/", 13, "a term is missing here"),
        ]:
            status, out, err = call("-m", "skylake", "-e", text)
            self.assertEqual((2, ""), (status, out), text)
            self.assertIn(f"-e, character {character}: {words}", err)

    def test_unknown_pmu(self) -> None:
        status, _, err = call("-m", "zen", "-e", "cs,arm/cycles/")
        self.assertEqual(2, status)
        self.assertIn("character 4: no PMU is called 'arm'; there is cpu", err)


if __name__ == "__main__":
    unittest.main()
