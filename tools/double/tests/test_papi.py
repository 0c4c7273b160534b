"""PAPI 7.0 in the double: its estimates are low, as docs/DOUBLE.md says."""

import ctypes
import os
import sys
import unittest

from double import Double
from double.tests.support import PATH, TOOLS, DoubleTest

FOLDER = os.path.join(TOOLS, "double")


def has_papi():
    try:
        return ctypes.CDLL("libpapi.so.7.0") is not None
    except OSError:
        return False


@unittest.skipUnless(has_papi(), "there is no libpapi 7.0: Debian has it as libpapi7.0")
class Papi(DoubleTest):
    """The example of docs/DOUBLE.md."""

    def test_a_multiplexed_count(self):
        with Double(os.path.join(FOLDER, "papi-scaling.scenario"), PATH) as double:
            result = double.run([sys.executable, os.path.join(FOLDER, "papi_scaling.py")])
        if result.status == 1 and "another version" in result.err:
            self.skipTest(result.err.strip())
        self.assertEqual((result.status, result.out), (0, "299520000 24990000\n"), result.err)
        rows = [(row.name, row.occurred, row.counted, row.scaled) for row in result.truth()[-2:]]
        self.assertEqual(
            rows, [("cycles", 300000000, 96000000, 300000000), ("instructions", 25000000, 17000000, 25000000)]
        )
