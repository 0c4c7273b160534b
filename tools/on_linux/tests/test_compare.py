"""Tests of the comparison: an altered answer is named with its line and its rule."""

import unittest

from on_linux import differences, documents, rings, rules
from on_linux.doing import Answer
from on_linux.tests import recorded
from perfscript import Script


class Fake:
    """What has just the given fields."""

    def __init__(self, **fields):
        self.__dict__.update(fields)


class Altered(unittest.TestCase):
    def check(self, old, new, about, rule, line):
        text = recorded.report()
        self.assertIn(old, text)
        found = recorded.differing(text.replace(old, new, 1))
        self.assertEqual(
            [(check.about, check.rule, check.place, check.row) for check in found][:1], [(about, rule, line, None)]
        )
        self.assertIn(f"line {line} of the report", found[0].text)
        self.assertIn(rule, found[0].text)

    def test_the_report_itself_is_the_same(self):
        result = recorded.comparison(recorded.report())
        self.assertEqual([check.text for check in result.checks if not check.is_same], [])
        self.assertEqual(len(result.skipped), 1)
        seen = {check.rule for check in result.checks}
        wanted = {
            rules.OPENS,
            rules.MAP,
            rules.FORMAT,
            rules.TIMES,
            rules.LOST_COUNT,
            rules.NO_SPACE,
            rules.FULL,
            rules.TRAILER,
            rules.LAYOUT,
            rules.SAMPLES,
        }
        self.assertLessEqual(wanted, seen)

    def test_order_of_words(self):
        self.check("read 58 10 10 1 2", "read 1 10 10 58 2", "t0.3 read 0, word 1 (value)", rules.PLACES, 3)

    def test_errno(self):
        self.check("open ESRCH", "open EBADF", "t0.1 open 1 kind=faults task=7 cpu=any", rules.OPENS, 2)
        self.check("read ENOSPC", "read EBADF", "t0.4 read 0 size=8", rules.FORMAT, 4)

    def test_leaders_come_first_only_where_the_task_or_the_place_is_wrong(self):
        comparison = recorded.comparison(recorded.report())
        table = (
            ("task=7 cpu=any", "ESRCH", "leader-before-task"),
            ("task=0 cpu=any", "ESRCH", None),
            ("task=all cpu=any", "ENOPLACE", "leader-before-place"),
            ("task=0 cpu=any", "ENOPLACE", None),
        )
        for where, refusal, row in table:
            text = recorded.SCRIPT.replace("open 1 kind=faults task=7 cpu=any", f"open 1 kind=faults {where} leader=9")
            line = Script(text).lines["t0"][1]
            self.assertEqual(differences.of_open(comparison, line, refusal, Answer(errno="EBADF")), row, where)

    def test_an_open_that_was_not_refused(self):
        found = recorded.differing(recorded.report().replace("t0.1 open ESRCH\n", ""))
        self.assertEqual(
            [(check.about, check.said, check.seen) for check in found][0],
            ("t0.1 open 1 kind=faults task=7 cpu=any", "Ok", "ESRCH"),
        )

    def test_lost_counts(self):
        self.check("read 58 10 10 1 2", "read 58 10 10 1 3", "t0.3 read 0, word 5 (lost)", rules.LOST_COUNT, 3)
        self.check(f"2 {1:016x} {2:016x}", f"2 {1:016x} {3:016x}", "ring 0, record 57", rules.FULL, 63)
        self.check("lost=2 pending=0", "lost=3 pending=1", "ring 0, lost and pending", rules.LOST_COUNT, 6)

    def test_number_of_words(self):
        self.check("read 58 10 10 1 2", "read 58 10 10 1", "t0.3 read 0", rules.FORMAT, 3)

    def test_times(self):
        self.check("read 58 10 10 1 2", "read 58 0 0 1 2", "t0.3 read 0, word 2 (enabled)", rules.TIMES, 3)
        self.check("read 58 10 10 1 2", "read 58 10 5 1 2", "t0.3 read 0, enabled and running", rules.TIMES, 3)

    def test_fields_of_records(self):
        thread = f"{5:016x} 0000000100000001 {20:016x}"
        self.check(thread, thread.replace("100000001", "200000002"), "ring 0, record 58", rules.LAYOUT, 64)
        trailer = f"{2:016x} 0000000100000001 {20:016x}"
        self.check(trailer, trailer.replace("100000001", "200000002"), "ring 0, record 57", rules.TRAILER, 63)

    def test_heads_and_tails(self):
        self.check("head=4176", "head=4248", "ring 0, head", rules.FULL, 6)
        self.check("tail=144", "tail=72", "ring 0, tail", rules.FULL, 6)

    def test_a_record_that_the_kernel_lacks(self):
        text = recorded.report()
        last = f"left {recorded.sample(20)}\n"
        found = recorded.differing(text.replace(last, last + last))
        self.assertEqual(
            (found[0].about, found[0].said, found[0].seen), ("ring 0, number of records", "59 records", "58 records")
        )


class Kernels(unittest.TestCase):
    """What a kernel may answer that the report does not have."""

    def differing(self, change):
        doing = recorded.Doing()
        change(doing)
        return recorded.differing(recorded.report(), doing)

    def test_times_that_fall(self):
        def change(doing):
            doing.rings[0].data = doing.rings[0].data[:-72] + recorded.encoded([9 | 2 << 32 | 72 << 48], -6)

        self.assertEqual([check.about for check in self.differing(change)], ["ring 0, times"])

    def test_an_id_of_no_event(self):
        def change(doing):
            doing.answers["t0.3"] = Answer(words=[58, 4321, 4321, 77, 2])

        found = self.differing(change)
        self.assertEqual(
            [(check.about, check.seen) for check in found],
            [("t0.3 read 0, word 4 (id)", "77, which is of no event that the report has open")],
        )

    def test_not_permitted(self):
        doing = recorded.Doing()
        doing.answers["t0.2"] = Answer(errno="EPERM")
        self.assertEqual(recorded.comparison(recorded.report(), doing).not_permitted, ["t0.2 map 0 0: EPERM"])

    def test_an_address_of_the_other_mode(self):
        side = rings.seen_side(recorded.Doing())
        self.assertTrue(side.is_plausible(rings.USER, 0x401000))
        self.assertFalse(side.is_plausible(rings.KERNEL, 0x401000))
        self.assertFalse(side.is_plausible(rings.USER, 0xFFFFFFFF81000000))
        self.assertFalse(side.is_plausible(rings.USER, 0))


class Rows(unittest.TestCase):
    def test_software_period(self):
        state = differences.SoftwarePeriod(10)
        state.occur(5)
        state.restart(20)
        state.occur(1)
        self.assertEqual(state.sent, 1)
        state.occur(9)
        self.assertEqual(state.sent, 2)
        state.occur(19)
        self.assertEqual(state.sent, 2)
        state.occur(1)
        self.assertEqual(state.sent, 3)

    def test_other_records_are_lost_only_where_sums_and_places_agree(self):
        def explains(said, seen, writers=2, lost=3, counts=(1, 2)):
            events = [Fake(id=n + 1, slot=n, is_open=True, attribute=Fake(period=2)) for n in range(writers)]
            doing = Fake(lost=dict(enumerate(counts)))
            comparison = Fake(follow=Fake(writers={0: events}), report=Fake(rings={0: Fake(lost=lost)}), doing=doing)
            return differences.loses_others(comparison, 0, said, seen)

        def sample(event, mode=2):
            return {"type": "SAMPLE", "mode": mode, "size": 24, "IDENTIFIER": event}

        one, two = sample(1), sample(2)
        self.assertTrue(explains([one, one, one], [one, two, one]))
        self.assertFalse(explains([one, one], [one, two], writers=1))
        self.assertFalse(explains([one, one], [one, two], lost=0))
        self.assertFalse(explains([one, one], [one, two], counts=(1, 1)))
        self.assertFalse(explains([one, one], [one, two, one]))
        self.assertFalse(explains([one, one], [one, sample(2, 1)]))
        self.assertFalse(explains([one, one], [one, sample(7)]))
        self.assertFalse(explains([one, one], [one, {**two, "odd": [1]}]))

    def test_rows_of_rings_are_in_the_document(self):
        known = documents.known_rows()
        self.assertEqual([name for name, _ in differences.RING_ROWS if name not in known], [])
        self.assertTrue(known["ids-at-one-occurrence"].is_of_stand_in)
        self.assertFalse(known["record-order"].is_of_stand_in)
        self.assertEqual(known["group-size"].versions, {"6.1", "6.18"})

    def test_rows_of_sources_are_in_the_document_and_were_not_seen(self):
        known = documents.known_rows()
        alone = {name for name, row in known.items() if "seen" not in row.known_from}
        self.assertEqual(set(rules.OF_SOURCE_ROWS), alone)

    def test_rules_are_in_the_document(self):
        names = documents.rule_names(documents.RULES.read_text("utf-8"))
        named = [value for name, value in vars(rules).items() if isinstance(value, str) and name.isupper()]
        self.assertIn(rules.OPENS, named)
        named += [*rules.OF_SOURCE_ROWS.values(), *rules.PARTS, *(whole for whole, _ in rules.PARTS.values())]
        self.assertEqual([rule for rule in named if rule not in names], [])

    def test_rows_of_parts_are_in_the_document(self):
        rows = [row for _, own in rules.PARTS.values() for row in own]
        self.assertEqual([row for row in rows if row not in documents.known_rows()], [])


if __name__ == "__main__":
    unittest.main()
