"""Tables of a kernel are read as its macros say: a small tree that is written here, and a real one where it is named.

The variable KERNEL_TREE names the folder of a kernel's source, which check_machines.py then compares in a minute or
more; without it that test is skipped.
"""

import os
import subprocess
import sys
import tempfile
import unittest

from perfscript.program import REPOSITORY

sys.path.append(os.path.join(REPOSITORY, "tools", "maintain"))

import check_machines
import kernel_tables

HEADER = """
#define EVENTSEL_EVENT 0x000000FFULL  /* the event */
#define EVENTSEL_UMASK 0x0000FF00ULL
#define PERF_X86_EVENT_EXCL 0x40
#define __EVENT_CONSTRAINT_RANGE(c, e, n, m, w, o, f) { .code = (c), .size = (e) - (c) }
#define __EVENT_CONSTRAINT(c, n, m, w, o, f) \\
    __EVENT_CONSTRAINT_RANGE(c, c, n, m, w, o, f)
#define EVENT_CONSTRAINT(c, n, m) __EVENT_CONSTRAINT(c, n, m, HWEIGHT(n), 0, 0)
#define CODE(c, n) EVENT_CONSTRAINT(c, n, EVENTSEL_EVENT)
#define CODES(c, e, n) __EVENT_CONSTRAINT_RANGE(c, e, n, EVENTSEL_EVENT, HWEIGHT(n), 1, 0)
#define BOTH(c, n) __EVENT_CONSTRAINT(c, n, EVENTSEL_EVENT|EVENTSEL_UMASK, HWEIGHT(n), 0, PERF_X86_EVENT_EXCL)
#define FIXED(c, n) EVENT_CONSTRAINT(c, (1ULL << (32+n)), EVENTSEL_EVENT)
"""
SOURCE = """
static struct event_constraint tiny_constraints[] = {
    CODE(0x48, 0x4), /* one counter */
    CODES(0x03, 0x0a, 0xf),
    BOTH(0x01c0, 0x2),
    FIXED(0x00c0, 1),
    EVENT_CONSTRAINT_END
};
static const u64 tiny_cache[A][B][C] = {
 [ C(L1D) ] = { [ C(OP_READ) ] = { [ C(RESULT_ACCESS) ] = 0x81d0, [ C(RESULT_MISS) ] = -1, },
                [ C(OP_WRITE) ] = { [ C(RESULT_ACCESS) ] = 0, [ C(RESULT_MISS) ] = BIT(3) | 1, }, },
};
static const u64 tiny_map[N] = { [PERF_COUNT_HW_CPU_CYCLES] = 0x3c, [PERF_COUNT_HW_BUS_CYCLES] = 0x013c, };
"""


def tree_in(folder, header=HEADER, source=SOURCE):
    """A tree with a header of macros and the tables of one file."""
    for path, text in (("arch/x86/events/perf_event.h", header), (kernel_tables.INTEL, source), (kernel_tables.PEBS, "")):
        os.makedirs(os.path.join(folder, os.path.dirname(path)), exist_ok=True)
        with open(os.path.join(folder, path), "w") as file:
            file.write(text)
    return kernel_tables.Tree(folder)


class Tables(unittest.TestCase):
    def setUp(self):
        self.folder = tempfile.TemporaryDirectory()
        self.addCleanup(self.folder.cleanup)
        self.tree = tree_in(self.folder.name)

    def test_constraints(self):
        rows = self.tree.constraints("tiny_constraints")
        found = [(row.first, row.last, row.compared, row.mask, set(row.flags)) for row in rows]
        self.assertEqual(
            [
                (0x48, 0x48, 0xFF, 4, set()), (3, 0xA, 0xFF, 0xF, {"overlap"}), (0x1C0, 0x1C0, 0xFFFF, 2, {"excl"}),
                (0xC0, 0xC0, 0xFF, 1 << 33, set()),
            ],
            found,
        )

    def test_cache_and_map(self):
        wanted = {"L1D OP_READ RESULT_ACCESS": 0x81D0, "L1D OP_WRITE RESULT_MISS": 9}
        self.assertEqual(wanted, self.tree.cache(kernel_tables.INTEL, "tiny_cache"))
        self.assertEqual({"CPU_CYCLES": 0x3C, "BUS_CYCLES": 0x13C}, self.tree.event_map(kernel_tables.INTEL, "tiny_map"))

    def test_what_is_missing(self):
        for ask in (
            lambda: self.tree.constraints("other_constraints"), lambda: self.tree.number("UNKNOWN | 1"),
            lambda: self.tree.text("arch/none.c"),
        ):
            with self.assertRaises(kernel_tables.Missing):
                ask()

    def test_a_row_that_differs_is_found(self):
        """The comparison can fail: a machine's row beside another table."""
        from fit import machines

        check = check_machines.Check(self.tree, machines.load("nehalem"))
        check.machine.kernel["rows"] = "tiny_constraints"
        self.addCleanup(check.machine.kernel.__setitem__, "rows", "intel_nehalem_event_constraints")
        check.rows("rows", check.machine.rows, "configs")
        self.assertIn("rows 48: the kernel has (4, None, False), the file (3, None, False)", check.faults)
        self.assertIn("DIFFERS", check.line())


TREE = os.environ.get("KERNEL_TREE")


@unittest.skipUnless(TREE, "KERNEL_TREE names no source of a kernel")
class Real(unittest.TestCase):
    def test_no_difference(self):
        tool = os.path.join(REPOSITORY, "tools", "maintain", "check_machines.py")
        done = subprocess.run([sys.executable, tool, TREE], capture_output=True, text=True)
        self.assertEqual((0, ""), (done.returncode, done.stderr), done.stdout)
        self.assertIn("machines, 0 differences", done.stdout)


if __name__ == "__main__":
    unittest.main()
