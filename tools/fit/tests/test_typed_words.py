"""Words that users type behind -e and as options: each is answered, or refused as perf refuses it."""

import os
import tempfile
import unittest
from unittest import mock

from fit import machines
from fit.tests.support import ProgramTest, has_perf

SKYLAKE = ("-m", "skylake")
ON, TAKES_SAMPLES = "All events are on all the time.", "an event with p takes samples, and perf stat takes none"
NO_COUNTER, NO_EVENT = "no counter needed", "Linux has no event for"
NO_TASK = "for whole processors, and not for a task; perf stat -a asks for them so"
# words behind -e on skylake, the exit status, and what is printed
TYPED = (
    ("page-faults", 0, NO_COUNTER), ("cpu-clock", 0, NO_COUNTER), ("faults", 0, NO_COUNTER),
    ("sched:sched_switch", 0, NO_COUNTER), ("power/energy-pkg/", 0, NO_COUNTER), ("msr/tsc/", 0, NO_COUNTER),
    ("uncore_imc/cas_count_read/", 0, NO_COUNTER), ("power/energy-pkg/,cycles", 1, NO_TASK),
    ("bus-cycles", 0, ON), ("L1-dcache-loads", 0, ON),
    ("LLC-loads", 0, ON), ("dTLB-load-misses", 0, ON), ("r01c2", 0, ON), ("cpu/r3c/", 0, ON),
    ("cpu/event=0x3c,umask=0x0/", 0, ON), ("cycles:P", 0, ON), ("cycles:h", 0, ON), ("cycles:G", 0, ON),
    ("cycles:S", 0, ON), ("{cycles,instructions}:W", 0, ON), ("mem-loads", 0, ON),
    ("cycles:p", 1, TAKES_SAMPLES), ("cycles:pp", 1, TAKES_SAMPLES), ("stalled-cycles-frontend", 1, NO_EVENT),
)
# the same, of names that perf's own tables say
LOOKED_UP = (
    ("inst_retired.any", 0, ON), ("mem_load_retired.l1_miss", 0, ON), ("l1d_pend_miss.pending_cycles", 0, ON),
    ("mem_trans_retired.load_latency_gt_4", 0, ON),
    ("mem_trans_retired.load_latency", 2, "knows no event 'mem_trans_retired.load_latency' on skylake"),
    ("cpu/cycles/", 2, "knows no event 'cycles' on skylake"),
)


class TypedWords(ProgramTest):
    def check(self, words: tuple[str, ...], status: int, said: str) -> None:
        with self.subTest(words=words):
            ended, out, err = self.fit(*words)
            self.assertEqual((status, True), (ended, said in " ".join((out + err).split())), out + err)

    def test_words(self) -> None:
        for word, status, said in TYPED:
            self.check((*SKYLAKE, "-e", word), status, said)

    def test_options(self) -> None:
        """perf's default list and -d, an event with p that is sampled, and a mask of what needs no counter."""
        self.check(SKYLAKE, 0, "page-faults no counter needed")
        self.check((*SKYLAKE, "-d"), 0, "8 of the 12 groups are on part of the time.")
        for word in ("power/energy-pkg/", "uncore_imc/cas_count_read/", "{power/energy-pkg/,power/energy-cores/}"):
            self.check((*SKYLAKE, "-a", "-e", word), 0, NO_COUNTER)
        self.check((*SKYLAKE, "--sampling", "-e", "cycles:pp"), 0, ON)
        self.check((*SKYLAKE, "--mask", "page-faults=f", "-e", "page-faults"), 2, "needs no counter, so it has no mask")

    @unittest.skipUnless(has_perf(), "perf 6.1 is not there, whose tables have these names")
    def test_names_of_perfs_tables(self) -> None:
        for word, status, said in LOOKED_UP:
            self.check((*SKYLAKE, "-e", word), status, said)
        self.check((*SKYLAKE, "-M", "IPC"), 0, ON)
        self.check(("-m", "zen", "-e", "retired_sse_avx_flops"), 2, "knows no event 'retired_sse_avx_flops' on zen")
        self.check(("-m", "zen", "-e", "fp_ret_sse_avx_ops.all"), 0, "counter 0 and counter 1")

    @unittest.skipUnless(has_perf(), "perf 6.1 is not there, whose tables have these names")
    def test_names_of_this_computers_tables(self) -> None:
        """Cascade Lake has the counters of Skylake, and events of its own."""
        name = "mem_load_l3_miss_retired.local_dram"
        self.check((*SKYLAKE, "-e", name), 2, f"knows no event '{name}' on skylake")
        with tempfile.TemporaryDirectory() as folder:
            path = os.path.join(folder, "cpuinfo")
            with open(path, "w") as file:
                file.write("vendor_id\t: GenuineIntel\ncpu family\t: 6\nmodel\t: 85\nstepping\t: 7\n")
            with mock.patch.object(machines, "CPUINFO", path):
                self.check(("-m", "auto", "-e", name), 0, ON)


if __name__ == "__main__":
    unittest.main()
