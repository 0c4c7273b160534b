#!/usr/bin/env python3
"""Compares the files of tools/fit/machines/ with a kernel's source.

Usage: check_machines.py KERNEL_TREE    the folder of a kernel's source, as Debian's linux-source-6.1 has it

Each line says what was compared of a machine and how much of it is as in the kernel; what differs is printed below it,
and the status is 1. The family 15h of AMD, whose table is a function, is compared where `cc` compiles that function.
"""

from __future__ import annotations

import os
import re
import subprocess
import sys
import tempfile
from collections.abc import Iterable, Iterator
from dataclasses import dataclass, field
from typing import Any

sys.path.insert(0, os.path.join(os.path.dirname(os.path.abspath(__file__)), ".."))

from fit import machines  # noqa: E402
from fit.codes import Counters, Row, first_matching  # noqa: E402
from fit.events import cache_event  # noqa: E402
from fit.machines import Machine  # noqa: E402
from fit.stand_in import spans  # noqa: E402
import kernel_tables as kernel  # noqa: E402
from kernel_tables import Missing, Tree  # noqa: E402
from perfscript import Fault, command  # noqa: E402

# models of the kernel's switch that no file has, by name
LEFT_OUT = ("INTEL_FAM6_CORE_YONAH",)
# how an event is asked beside its code: with a count mask, inverted, on edges, of both threads
FLAGS = (1 << 24, 1 << 24 | 1 << 23, 1 << 18, 1 << 21, 0x10800000)
HARDWARE = {
    "cycles": "CPU_CYCLES", "instructions": "INSTRUCTIONS", "cache-references": "CACHE_REFERENCES",
    "cache-misses": "CACHE_MISSES", "branches": "BRANCH_INSTRUCTIONS", "branch-misses": "BRANCH_MISSES",
    "bus-cycles": "BUS_CYCLES", "ref-cycles": "REF_CPU_CYCLES", "stalled-cycles-frontend": "STALLED_CYCLES_FRONTEND",
    "stalled-cycles-backend": "STALLED_CYCLES_BACKEND",
}
CACHES = {
    "L1D": "L1-dcache", "L1I": "L1-icache", "LL": "LLC", "DTLB": "dTLB", "ITLB": "iTLB", "BPU": "branch",
    "NODE": "node",
}
MOST_SHOWN = 8
FAMILY_15H = """
typedef unsigned long long u64;
struct hw_perf_event {{ u64 config; }};
struct perf_event {{ struct hw_perf_event hw; }};
struct cpu_hw_events {{ int none; }};
struct event_constraint {{ u64 mask; int overlap; }};
#define EVENT_CONSTRAINT(c, n, m) {{ n, 0 }}
#define EVENT_CONSTRAINT_OVERLAP(c, n, m) {{ n, 1 }}
#define ARCH_PERFMON_EVENTSEL_UMASK 0xff00ULL
#define hweight_long __builtin_popcountl
static struct event_constraint emptyconstraint;
static inline unsigned int amd_get_event_code(struct hw_perf_event *hwc)
{{ return ((hwc->config >> 24) & 0x0f00) | (hwc->config & 0x00ff); }}
{defines}
{constraints}
{function}
#include <stdio.h>
int main(void)
{{
    for (u64 code = 0; code < 0x1000; code++)
        for (u64 umask = 0; umask < 0x100; umask++) {{
            struct perf_event event = {{{{ (code & 0xff) | (umask << 8) | ((code >> 8) << 32) }}}};
            struct event_constraint *found = amd_get_event_constraints_f15h(0, 0, &event);
            printf("%llx %llx %d\\n", event.hw.config, found->mask, found->overlap);
        }}
}}
"""


@dataclass
class Check:
    """What was compared of a machine, and what differs."""

    tree: Tree
    machine: Machine
    done: list[str] = field(default_factory=list)
    faults: list[str] = field(default_factory=list)

    def equal(self, what: str, wanted: Any, found: Any) -> None:
        if wanted != found:
            self.faults.append(f"{what}: the kernel has {shown(wanted)}, the file {shown(found)}")

    def rows(self, key: str, own: tuple[Row, ...], general: str) -> None:
        """Each code with each umask, alone and with flags, has the counters of the kernel's table."""
        table = self.tree.constraints(self.machine.kernel[key])
        count = 0
        for config in configs(table):
            # in the table of precise events no row means that there are no counters, or that the other table holds
            wanted = next((row for row in table if row.first <= config & row.compared <= row.last), None)
            found = first_matching(own, config)
            self.equal(f"{key} {config:x}", counters_of(wanted, self.machine, key), plain_counters(found))
            count += 1
        self.done.append(f"{count:,} {general}")

    def extra(self) -> None:
        table = self.tree.extra_registers(self.machine.kernel["extra"])
        own = [(register.row.first, register.term) for register in self.machine.extra]
        self.equal("extra", [(one.event, one.register) for one in table], own)
        self.done.append(f"{len(own)} registers")

    def cache(self, path: str, patches: dict[str, int | None]) -> None:
        """The cache events, with what intel_pmu_init changes after it copies the table."""
        table: dict[str, Any] = self.tree.cache(path, self.machine.kernel["cache"]) | patches
        extra = {}
        if "cache_extra" in self.machine.kernel:
            extra = self.tree.cache(path, self.machine.kernel["cache_extra"])
        wanted = {cache_name(key): value for key, value in table.items() if value is not None}
        self.equal("cache", wanted, {name: config for name, (config, _) in self.machine.cache.items()})
        # the four values that Broadwell sets otherwise are not in a table
        skipped = {"LLC-load-misses", "LLC-store-misses", "node-loads", "node-stores"} if self.is_broadwell else set()
        for key, value in extra.items():
            name = cache_name(key)
            if name in self.machine.cache and name not in skipped:
                self.equal(f"the register of {name}", value, self.machine.cache[name][1])
        self.done.append(f"{len(wanted)} cache events")

    @property
    def is_broadwell(self) -> bool:
        return self.machine.name == "broadwell"

    def hardware(self, table: dict[str, int]) -> None:
        wanted = {name: table[key] for name, key in HARDWARE.items() if table.get(key)}
        self.equal("hardware", wanted, self.machine.hardware)
        self.done.append(f"{len(wanted)} general names")

    def names(self) -> None:
        """The names and formats that the kernel's files below /sys have."""
        attributes = sysfs_attributes(self.tree)
        own = {name: text for name, text in self.machine.names.items() if "." not in name}
        for name, text in own.items():
            if text.replace(",any=1", "") not in {one.replace(",any=1", "") for one in attributes.get(name, set())}:
                self.equal(f"the name {name}", attributes.get(name), text)
        formats = sysfs_formats(self.tree)
        for term, (where, bits) in self.machine.terms.items():
            if f"{where}:{spans(bits)}" not in formats.get(term, set()):
                self.equal(f"the term {term}", formats.get(term), f"{where}:{spans(bits)}")
        self.done.append(f"{len(own)} names, {len(self.machine.terms)} terms")

    def line(self) -> str:
        return f"{self.machine.name}: {', '.join(self.done)}: {'as in the kernel' if not self.faults else 'DIFFERS'}"


def shown(value: Any) -> str:
    if isinstance(value, int):
        return f"{value:x}"
    if isinstance(value, dict):
        return str({key: shown(one) for key, one in value.items()})
    return str(value)


def configs(rows: Iterable[kernel.Row]) -> Iterator[int]:
    """Every event and umask, and with flags every event and each umask that a row names, none and all."""
    yield from range(0x10000)
    umasks = {0, 0xFF00, *(row.first & 0xFF00 for row in rows)}
    for flags in FLAGS:
        for event in range(0x100):
            yield from (event | umask | flags for umask in umasks)


def counters_of(row: kernel.Row | None, machine: Machine, key: str) -> tuple[int, int | None, bool] | None:
    """A row's counters: the mask, the part of slots, and whether it excludes. An event with a fixed counter may be on
    any general one too, where its code is not a made-up one: there the kernel widens the row."""
    if row is None:
        return None
    general, fixed = row.mask & (1 << machine.general) - 1, row.mask >> kernel.FIRST_FIXED & 0xFFFF
    metric = (row.mask >> kernel.FIRST_METRIC).bit_length() - 1 if row.mask >> kernel.FIRST_METRIC else None
    if key == "rows" and fixed and row.first & 0xFF:
        general = machine.all_general
    return general | fixed << machine.general, metric, "excl" in row.flags


def plain_counters(found: Counters | None) -> tuple[int, int | None, bool] | None:
    return None if found is None else (found.mask, found.metric, "excl" in found.marks)


def cache_name(key: str) -> str:
    cache, operation, result = key.split()
    word = {"OP_READ": "loads", "OP_WRITE": "stores", "OP_PREFETCH": "prefetches"}[operation]
    if result == "RESULT_MISS":
        word = {"loads": "load", "stores": "store", "prefetches": "prefetch"}[word] + "-misses"
    return cache_event(f"{CACHES[cache]}-{word}") or f"{CACHES[cache]}-{word}"


def sysfs_attributes(tree: Tree) -> dict[str, set[str]]:
    """The names that the kernel gives events, each with its texts."""
    found: dict[str, set[str]] = {}
    text = tree.text(kernel.INTEL)
    pattern = r"EVENT_ATTR_STR(?:_HT|_HYBRID)?\(\s*([\w.-]+),\s*\w+,\s*((?:\"[^\"]*\",?\s*)+)"
    for name, texts in re.findall(pattern, text):
        for one in re.findall(r'"([^"]*)"', texts):
            found.setdefault(name, set()).update(one.split(";"))
    for name, texts in re.findall(r"event_attr_td_(\w+)\.event_str(?:_no)?(?:_?ht)?\s*=\s*(\"[^\"]*\")", text):
        found.setdefault("topdown-" + name.replace("_", "-"), set()).add(texts.strip('"'))
    return found


def sysfs_formats(tree: Tree) -> dict[str, set[str]]:
    found: dict[str, set[str]] = {}
    for path in (kernel.INTEL, kernel.AMD):
        for name, text in re.findall(r'PMU_FORMAT_ATTR\((\w+),\s*"([^"]+)"\s*\)', tree.text(path)):
            found.setdefault(name, set()).add(text.strip())
    return found


def check_intel(tree: Tree, machine: Machine, cases: list[kernel.Case]) -> Check:
    """A machine whose tables intel_pmu_init chooses."""
    check = Check(tree, machine)
    check.rows("rows", machine.rows, "configs")
    if "precise_rows" in machine.kernel:
        check.rows("precise_rows", machine.precise_rows, "precise ones")
    if "extra" in machine.kernel:
        check.extra()
    models = {int(identity.split("-")[2], 16) for identity in machine.models}
    case = next(case for case in cases if models & {tree.number(label) for label in case.models})
    check.equal("models", {tree.number(label) for label in case.models}, models)
    text = case.text
    if machine.pmu.startswith("cpu_"):
        text = text.split("hybrid_pmu[X86_HYBRID_PMU_")[1 if machine.pmu == "cpu_core" else 2]
    part = kernel.Case(case.models, text)
    tables = {
        "rows": part.table("event_constraints"), "precise_rows": part.table("pebs_constraints"),
        "extra": extra_table(part), "cache": part.copied("hw_cache_event_ids"),
        "cache_extra": part.copied("hw_cache_extra_regs"),
    }
    check.equal("tables", {key: name for key, name in tables.items() if name}, machine.kernel)
    check.cache(kernel.INTEL, cache_patches(tree, text))
    check.hardware(tree.event_map(kernel.INTEL, "intel_perfmon_event_map") | stalled(text))
    check.names()
    check_counts(check)
    return check


def extra_table(case: kernel.Case) -> str:
    """The table of registers of a case; where servers have another, the file has that of the others."""
    names: list[str] = re.findall(r"extra_regs\s*=\s*(intel_\w+)", case.text)
    return names[-1] if names else ""


def cache_patches(tree: Tree, text: str) -> dict[str, int | None]:
    """What a case changes in the table of cache events."""
    found: dict[str, int | None] = {}
    pattern = r"hw_cache_event_ids\[C\((\w+)\)\]\[C\((\w+)\)\]\[C\((\w+)\)\]\s*=\s*([^;]+);"
    for cache, operation, result, value in re.findall(pattern, text):
        number = tree.number(value) if value.strip() != "-1" else None
        found[f"{cache} {operation} {result}"] = number
    return found


def stalled(text: str) -> dict[str, int]:
    """The general names that a case sets."""
    found = {}
    for name, terms in re.findall(r"PERF_COUNT_HW_(STALLED_\w+)\]\s*=\s*X86_CONFIG\(([^)]*)\)", text):
        values = {key: int(value, 0) for key, value in re.findall(r"\.(\w+)\s*=\s*(\w+)", terms)}
        config = values.get("event", 0) | values.get("umask", 0) << 8 | values.get("cmask", 0) << 24
        found[name] = config | values.get("inv", 0) << 23
    return found


def check_counts(check: Check) -> None:
    """The numbers of general counters are what Intel's tables name: with two threads a core, and with one."""
    folder = JSON_OF.get(check.machine.name)
    events = [event for event in check.tree.json_events(f"x86/{folder}") if "Unit" not in event] if folder else []
    for key, wanted in (("Counter", check.machine.general), ("CounterHTOff", check.machine.general_alone)):
        numbers = {int(one) for event in events for one in event.get(key, "").split(",") if one.strip().isdigit()}
        if wanted and numbers:
            check.equal(f"general counters by {key}", max(numbers) + 1, wanted)
            check.done.append(f"general counters by {key}")
    check.done += [text] if (text := same_as_json(check)) else []


def same_as_json(check: Check) -> str:
    """How many events of Intel's own table have the counters that the machine's rows give their code. Intel and Linux
    differ in some: Linux has general counters for what also has a fixed one, and masks of its own."""
    folder = JSON_OF.get(check.machine.name)
    same = count = 0
    for event in check.tree.json_events(f"x86/{folder}") if folder else []:
        numbers = event.get("Counter", "")
        code = event.get("EventCode", "")
        if "Unit" in event or not re.fullmatch(r"\d(,\d)*", numbers) or not re.fullmatch(r"0x[0-9A-Fa-f]+", code):
            continue
        config = int(code, 16) & 0xFF | int(event.get("UMask", "0"), 16) << 8
        config |= int(event.get("CounterMask", "0"), 0) << 24
        config |= int(event.get("Invert", "0")) << 23 | int(event.get("EdgeDetect", "0")) << 18
        wanted = sum(1 << int(number) for number in numbers.split(","))
        count += 1
        same += wanted == check.machine.counters_for(config).mask & check.machine.all_general
    return f"{same:,} of {count:,} events of Intel's table" if count else ""


# folders whose Counter numbers general counters alone
JSON_OF = {
    "sandybridge": "sandybridge", "ivybridge": "ivybridge", "haswell": "haswell", "broadwell": "broadwell",
    "skylake": "skylake", "icelake": "icelake", "goldmont": "goldmont", "silvermont": "silvermont",
    "bonnell": "bonnell", "westmere": "westmereep-dp", "knightslanding": "knightslanding",
}


def check_amd(tree: Tree, machine: Machine) -> Check:
    """A machine of AMD: what its tables say, and family 15h's function where it can be compiled."""
    check = Check(tree, machine)
    check.cache(kernel.AMD, {})
    check.hardware(tree.event_map(kernel.AMD, machine.kernel["hardware"]))
    check.names()
    core = machine.general == tree.number("AMD64_NUM_COUNTERS_CORE")
    check.equal("general counters", machine.general, tree.number(f"AMD64_NUM_COUNTERS{'_CORE' if core else ''}"))
    check.done.append("general counters")
    if machine.source.endswith("_f15h"):
        check_family_15h(check)
    elif any("pair" in row.counters.marks for row in machine.rows):
        function = tree.body(kernel.AMD, r"amd_is_pair_event_code\([^)]*\)\s*\{")
        codes = [int(code, 16) for code in re.findall(r"case (0x\w+):\s*return true", function)]
        check.equal("pairs", codes, [row.first for row in machine.rows if "pair" in row.counters.marks])
        check.done.append("codes of pairs")
    return check


def check_family_15h(check: Check) -> None:
    """Every code and umask, by the kernel's own function."""
    text = check.tree.text(kernel.AMD)
    defines = "\n".join(re.findall(r"(?m)^#define AMD_EVENT_\w+\s+.*$", text))
    constraints = "\n".join(re.findall(r"static struct event_constraint amd_f15_\w+\s*=\s*[^;]+;", text))
    name = "amd_get_event_constraints_f15h"
    parameters = "struct cpu_hw_events *cpuc, int idx, struct perf_event *event"
    function = f"static struct event_constraint *{name}({parameters})"
    function += "{" + check.tree.body(kernel.AMD, rf"{name}\([^)]*\)\s*\{{") + "}"
    program = FAMILY_15H.format(defines=defines, constraints=constraints, function=function)
    lines = output_of(program)
    if lines is None:
        check.done.append("no function of rows, since no cc compiles it")
        return
    for line in lines:
        config, mask, overlap = line.split()
        found = check.machine.counters_for(int(config, 16))
        wanted = (int(mask, 16), overlap == "1")
        check.equal(f"r{config}", wanted, (found.mask, "overlap" in found.marks))
    check.done.append(f"{len(lines):,} configs")


def output_of(program: str) -> list[str] | None:
    """The lines that a C program prints, none where it does not compile."""
    with tempfile.TemporaryDirectory() as folder:
        source, built = os.path.join(folder, "rows.c"), os.path.join(folder, "rows")
        with open(source, "w", encoding="utf-8") as file:
            file.write(program)
        try:
            done = subprocess.run(["cc", "-w", "-O1", "-o", built, source], capture_output=True, text=True)
        except OSError:
            return None
        if done.returncode:
            print(done.stderr, file=sys.stderr)
            return None
        return subprocess.run([built], capture_output=True, text=True, check=True).stdout.splitlines()


def check_arm(tree: Tree, machine: Machine, codes: dict[str, int]) -> Check:
    """A core of Arm: its names are those of perf's tables, and the general names those of the driver."""
    check = Check(tree, machine)
    events = tree.json_events(machine.kernel["json"])
    listed = {event["ArchStdEvent"].lower() for event in events if event.get("ArchStdEvent", "").lower() in codes}
    own = {name: int(text.partition("=")[2], 16) for name, text in machine.names.items()}
    check.equal("names", {name: codes[name] for name in listed}, {name: own.get(name) for name in listed})
    beyond = {name for name in own if own[name] not in {codes[one] for one in listed}}
    if beyond and "taken to be" not in machine.note:
        check.equal("names beyond perf's tables", set(), beyond)
    for name, code in own.items():
        wanted = machine.all_general | (1 << machine.general if code == 0x11 else 0)
        check.equal(f"the counters of {name}", wanted, machine.counters_for(code).mask)
    check.done.append(f"{len(listed)} names of perf's tables")
    kept = set(own.values())
    table = {key: value for key, value in tree.event_map(kernel.ARM, "armv8_pmuv3_perf_map").items() if value in kept}
    check.hardware(table)
    cache = tree.cache(kernel.ARM, "armv8_pmuv3_perf_cache_map")
    wanted_cache = {cache_name(key): value for key, value in cache.items() if value in kept}
    check.equal("cache", wanted_cache, {name: config for name, (config, _) in machine.cache.items()})
    check.done.append(f"{len(wanted_cache)} cache events")
    return check


def arm_codes(tree: Tree) -> dict[str, int]:
    """The names of Arm's architecture in perf's tables."""
    found: dict[str, int] = {}
    for event in tree.json_events("arm64"):
        if "EventName" in event and "EventCode" in event:
            found.setdefault(event["EventName"].lower(), int(event["EventCode"], 16))
    return found


def checks(tree: Tree) -> Iterable[Check]:
    """All machines that have a file."""
    cases = [case for case in kernel.intel_cases(tree) if not set(case.models) & set(LEFT_OUT)]
    codes = arm_codes(tree)
    for name in machines.names():
        machine = machines.load(name)
        if "json" in machine.kernel:
            yield check_arm(tree, machine, codes)
        elif "hardware" in machine.kernel:
            yield check_amd(tree, machine)
        else:
            yield check_intel(tree, machine, cases)


def missing_models(tree: Tree) -> list[str]:
    """The models of the kernel's switch that no file has."""
    every = [identity for name in machines.names() for identity in machines.load(name).models]
    own = {identity.split("-")[2] for identity in every if identity.startswith("GenuineIntel-6-")}
    labels = [label for case in kernel.intel_cases(tree) for label in case.models if label not in LEFT_OUT]
    return [label for label in labels if f"{tree.number(label):02X}" not in own]


def main(folder: str) -> int:
    """Prints a line for each machine. Answers the exit status."""
    tree = Tree(folder)
    try:
        found, labels = list(checks(tree)), missing_models(tree)
    except Missing as fault:
        raise Fault(f"{folder}: the tree does not have {fault}") from None
    print(f"Linux {tree.version()}")
    for check in found:
        print(check.line())
        for one in check.faults[:MOST_SHOWN]:
            print(f"    {one}")
        if len(check.faults) > MOST_SHOWN:
            print(f"    and {len(check.faults) - MOST_SHOWN} more")
    for label in labels:
        print(f"{label} is in no file")
    faults = sum(len(check.faults) for check in found) + len(labels)
    print(f"{len(found)} machines, {faults} differences; left out by name: {', '.join(LEFT_OUT)}, p4, p6, knc, zhaoxin")
    return 1 if faults else 0


if __name__ == "__main__":
    sys.exit(command.called(__doc__, main, 1, 1))
