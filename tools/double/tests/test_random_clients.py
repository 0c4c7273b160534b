"""A sample of the random clients; tools/maintain/double_clients.py does as many as it is told."""

import os
import unittest

from double import Double
from double.backend import live_path
from double.tests.random_clients import SCENARIO, Program
from double.tests.support import PATH, DoubleTest, client, why_not
from perfscript.tests.support import LIVE_HOW

SEEDS = range(1, 11)


class RandomClients(DoubleTest):
    """Each journal is certified. Both ways of catching give the same answers, and so do both back ends."""

    def setUp(self):
        super().setUp()
        self.path = os.path.join(self.folder, "random.scenario")
        with open(self.path, "w", encoding="ascii") as file:
            file.write(SCENARIO)

    def run_by(self, by_library, text, live=None):
        with Double(self.path, PATH, by_library, live=live) as double:
            result = double.run([client(), self.operations(text)])
        return result.status, result.out, result.journals()

    def test_both_ways_give_the_same_answers(self):
        if why_not("preload"):
            self.skipTest(why_not("preload"))
        for seed in SEEDS:
            with self.subTest(seed=seed):
                text = Program(seed).text
                self.assertEqual(self.run_by(False, text), self.run_by(True, text), text)

    def test_both_back_ends_give_the_same_answers(self):
        if not live_path():
            self.skipTest(f"no perf_live: {LIVE_HOW}")
        for seed in SEEDS:
            with self.subTest(seed=seed):
                text = Program(seed).text
                self.assertEqual(self.run_by(False, text, ""), self.run_by(False, text), text)


if __name__ == "__main__":
    unittest.main()
