"""What events are read as is what perf reads them as: the same texts are taken, with the same configs.

perf sees a stand-in of each machine's PMU. Without perf these tests are skipped.
"""

import os
import subprocess
import tempfile
import unittest
from concurrent.futures import ThreadPoolExecutor
from typing import TypeAlias

from fit import machines, perf_tables
from fit.events import HARDWARE, Typed, read_lists
from fit.faults import BadInput
from fit.meanings import Meanings
from fit.plan import machine_called
from fit.tests.support import ProgramTest, has_perf

# config and config1, or a word, and how precise the event is
Read: TypeAlias = tuple[str | tuple[int, int], int]
WHERE = "perf 6.1 is not there, which these tests ask"
# on all machines of x86
COMMON = """
cycles cpu-cycles instructions branches branch-misses cache-references cache-misses bus-cycles ref-cycles cycles:u
cycles:k cycles:h cycles:uk cycles:uu cycles:ukhGHIDSeW cycles:U cycles:pp cycles:ppp cycles:pppp cycles:P cycles:b
stalled-cycles-frontend idle-cycles-backend L1-dcache L1-dcache-loads L1-dcache-misses l1d-loads-misses l1-d-write
L1-icache-stores L1-icache-prefetch iTLB-load-misses iTLB-stores LLC LLC-loads:u L2-refs LLC-loads-misses-misses
dTLB-store-misses d-tlb-access branch-load-misses bpu-miss btb node-stores node-prefetches-misses r3c r01c2:u r0x3c R3c
rfffffffffffffffff r3cu cpu/r3c/ 4:0x3c 0x4:60:u 0:1 3:0x10002 cpu/event=0x3c/ cpu/event=0x3c,umask=0x1/u
cpu/event=60,cmask=2,inv/ cpu/event=0x3c/:u cpu/event=0x1ff/ cpu/umask=0x100/ cpu/event=cycles/ cpu/foo=1/
cpu/event=0x3c,edge/pp cpu/config=0x1c2/ cpu/config1=3,event=0xb7,umask=1/ cpu/period=1000,event=0x3c/ cpu/cycles/
cpu/cpu-cycles/ cpu/instructions/ cpu/branches/ cpu/branch-misses/ cpu/ref-cycles/ cpu// cpu cpu/event/ cycles/name=x/u
cycles/foo=1/ CPU/event=1/ task-clock cs context-switches faults page-faults dummy:u bpf-output cpu-clock//
task-clock/period=3/u mem:0x1000 mem:0x1000/8:rw:u sched:sched_switch duration_time user_time no-such-event
cycles_not cpu/no_such_event/ {cycles,cs} {cycles,cs}:u {cycles,cs}:W {cycles,{cs}} cycles,,cs
mine{cycles,cs} {cycles,branches:D} {cycles:e,branches} cycles,instructions cpu/percore,event=0x3c/
""".split()
OWN = {
    "skylake": """inst_retired.any INST_RETIRED.ANY:u mem_load_retired.l1_miss mem_load_retired.l1_miss:pp mem-loads
mem-stores cpu/mem-loads,ldlat=30/P cpu/mem-loads/ topdown-total-slots topdown-recovery-bubbles topdown-retiring slots
cycles-t tx-abort
offcore_response.demand_data_rd.l3_hit.any_snoop frontend_retired.dsb_miss cpu/inst_retired.any,cmask=1/
cpu/event=0x3c,any=1/ cpu/event=0xc0,umask=0x01,in_tx/ cpu/event=0xcd,umask=1,ldlat=0x10000/ l1d_pend_miss.pending
cpu/event=0xc6,umask=1,frontend=0x15/ inst_retired.a* fp_arith_inst_retired.scalar_double""".split(),
    "icelake": """slots topdown-retiring topdown-be-bound topdown-heavy-ops {slots,topdown-retiring}
mem_load_retired.l1_miss inst_retired.prec_dist cpu/event=0x3c,any=1/ mem-loads tx-capacity-read cpu/event=0,umask=4/
topdown.slots""".split(),
    "haswell": """mem_load_uops_retired.l1_miss l1d_pend_miss.pending cycle_activity.cycles_l1d_pending mem-stores
el-abort uops_executed_port.port_0 cpu/event=0xd1,umask=8/pp idq.empty""".split(),
    "zen3": """fp_ret_sse_avx_ops.all retired_sse_avx_flops ex_ret_instr cpu/event=0x1c0/ cpu/event=0x1000/ r100000087
ls_dispatch.ld_dispatch cpu/event=3,umask=0xff/ topdown-retiring mem-loads cpu/event=0x3c,any=1/ cycles:p""".split(),
    "sapphirerapids": """slots topdown-heavy-ops topdown-mem-bound mem-loads-aux mem_load_retired.l1_miss
ocr.demand_data_rd.dram {slots,topdown-fetch-lat}""".split(),
    "nehalem": """mem-loads l1d_pend_miss.pending_cycles offcore_response.any_data.any_cache_dram stalled-cycles-backend
mem_load_retired.l1d_hit cpu/mem-loads,ldlat=7/ topdown-retiring""".split(),
}


def read_here(machine: machines.Machine, text: str) -> list[Read] | None:
    """The type, config, config1 and precision of each event as the tool reads them, none where it refuses the text."""
    found = []
    try:
        with Meanings() as meanings:
            for group in read_lists([text]):
                for event in group.events:
                    found.append(attribute_here(meanings, event, machine))
    except BadInput:
        return None
    return found


def attribute_here(meanings: Meanings, event: Typed, machine: machines.Machine) -> Read:
    """What perf should ask for; a type alone where no counter of a core is asked for."""
    if event.needs_no_counter:
        return ("none", event.precise)
    if event.form == "slashed":
        machine_called(event, [machine])
    config, config1, refused = meanings.config(event, machine)
    return ("refused" if refused else (config, config1), event.precise)


def read_by_perf(machine: machines.Machine, tables: perf_tables.Tables, text: str) -> list[Read] | None:
    """The same as perf reads them: a hardware or cache event by what the machine's file says of it."""
    attributes = tables.attributes(text)
    return None if attributes is None else [of_attribute(machine, one) for one in attributes]


def of_attribute(machine: machines.Machine, one: perf_tables.Attribute) -> Read:
    if one.type == 4:
        return ((one.config, one.config1), one.precise)
    if one.type == 0:
        name = HARDWARE[one.config]
        return ((machine.hardware[name], 0) if name in machine.hardware else "refused", one.precise)
    if one.type == 3:
        cache, operation, result = one.config & 0xFF, one.config >> 8 & 0xFF, one.config >> 16
        names = ("L1-dcache", "L1-icache", "LLC", "dTLB", "iTLB", "branch", "node")
        word = ("load", "store", "prefetch")[operation]
        ending = "-misses" if result else "es" if operation == 2 else "s"
        return (machine.cache.get(f"{names[cache]}-{word}{ending}", "refused"), one.precise)
    return ("none", one.precise)


@unittest.skipUnless(has_perf(), WHERE)
class SameAsPerf(unittest.TestCase):
    def check(self, name: str, texts: list[str]) -> int:
        machine = machines.load(name)
        taken = 0
        with perf_tables.Tables(machine) as tables:
            with ThreadPoolExecutor(os.cpu_count()) as pool:
                list(pool.map(tables.attributes, texts))
            for text in texts:
                with self.subTest(machine=name, text=text):
                    wanted = read_by_perf(machine, tables, text)
                    # a group whose leader's open fails ends perf before it opens the others
                    found = read_here(machine, text)
                    self.assertEqual(wanted is None, found is None, (wanted, found))
                    self.assertEqual(wanted, (found or [])[: len(wanted)] if wanted else None)
                    taken += wanted is not None
        return taken

    def test_texts(self) -> None:
        for name, own in OWN.items():
            texts = own + COMMON * (name in ("skylake", "zen3"))
            self.assertGreater(self.check(name, texts), len(texts) // 2)


class WhatPerfPrints(ProgramTest):
    """Each event of a group of which an open was refused is not counted: perf itself, with software events."""

    LIST = "{task-clock,context-switches,cycles:D},page-faults"

    def printed(self, *words: str) -> list[tuple[str, str]]:
        """What perf prints for each event: its mark and its name."""
        done = subprocess.run(["perf", "stat", *words, "-e", self.LIST, "true"], capture_output=True, text=True)
        rows = [line.split(",") for line in done.stderr.splitlines() if ",," in line or ",msec," in line]
        return [(row[0] if row[0].startswith("<") else "", row[2]) for row in rows]

    @unittest.skipUnless(has_perf(), WHERE)
    def test_group_with_a_refused_open(self) -> None:
        wanted = self.printed("-x,")
        self.assertEqual(["<not counted>", "<not counted>", "<not supported>", ""], [mark for mark, _ in wanted])
        status, out, _ = self.fit("-m", "skylake", "-e", self.LIST)
        self.assertEqual(1, status)
        rows = [line.split() for line in out.split("event  ")[1].splitlines()[1:] if line.strip()]
        found = [(f"{row[0]} {row[1]}", row[2]) if row[0] == "<not" else ("", row[0]) for row in rows]
        self.assertEqual(wanted, found)
        self.assertIn("perf prints <not counted> for the others too, though they run.", out)


if __name__ == "__main__":
    unittest.main()
