"""A stand-in of /sys, /proc and tracefs, in which a perf of any computer finds the PMUs of a machine.

perf looks into the folders that SYSFS_PATH, PROC_PATH and TRACEFS_PATH name, and PERF_CPUID says which processor it is
on.
"""

from __future__ import annotations

import os
import tempfile
from collections.abc import Iterable

from fit.machines import Machine

SYSFS_NAMES = {"cycles": "cpu-cycles", "branches": "branch-instructions"}
DEVICES = ("bus", "event_source", "devices")
OTHER_TYPE = 10
# PMUs beside a core's, by the vendor: what perf needs to know to read their events, not what they count
X86_FORMAT = {"event": "config:0-7", "umask": "config:8-15", "edge": "config:18", "inv": "config:23"}
ENERGY = ("energy-cores", "energy-pkg", "energy-ram", "energy-gpu", "energy-psys")
OTHERS: dict[str, dict[str, tuple[dict[str, str], tuple[str, ...]]]] = {
    "GenuineIntel": {
        "msr": ({"event": "config:0-63"}, ("tsc", "aperf", "mperf", "pperf", "smi")),
        "power": ({"event": "config:0-7"}, ENERGY),
        "cstate_core": ({"event": "config:0-63"}, ("c1-residency", "c3-residency", "c6-residency", "c7-residency")),
        "cstate_pkg": ({"event": "config:0-63"}, tuple(f"c{n}-residency" for n in (2, 3, 6, 7, 8, 9, 10))),
        "uncore_imc": ({"event": "config:0-7"}, ("data_reads", "data_writes")),
        "uncore_arb": (X86_FORMAT | {"cmask": "config:24-28"}, ()),
        "uncore_cbox_0": (X86_FORMAT | {"cmask": "config:24-28"}, ()),
    },
    "AuthenticAMD": {
        "msr": ({"event": "config:0-63"}, ("tsc", "aperf", "mperf", "irperf")),
        "power": ({"event": "config:0-7"}, ENERGY),
        "amd_l3": ({"event": "config:0-7", "umask": "config:8-15"}, ()),
        "amd_df": ({"event": "config:0-7,32-35,59-60", "umask": "config:8-15"}, ()),
    },
}
# of these there is one a computer, so perf opens an event once and not on each processor
OF_ALL = ("power", "cstate_", "uncore_", "amd_")
TRACEPOINT = """\
name: {name}
ID: {number}
format:
\tfield:unsigned short common_type;\toffset:0;\tsize:2;\tsigned:0;
\tfield:int common_pid;\toffset:4;\tsize:4;\tsigned:1;

\tfield:int number;\toffset:8;\tsize:4;\tsigned:1;

print fmt: ""
"""


def others_of(machine: Machine) -> dict[int, str]:
    """The PMUs beside the core's, by their types."""
    return dict(enumerate(OTHERS.get(machine.identity.partition("-")[0], {}), OTHER_TYPE + 10))


def sysfs_files(machine: Machine) -> dict[str, str]:
    """The files of the machine's PMU below /sys/bus/event_source/devices."""
    files = {"type": "4"}
    for name, (where, bits) in machine.terms.items():
        files[f"format/{name}"] = f"{where}:{spans(bits)}"
    terms = {name: bits for name, (where, bits) in machine.terms.items() if where == "config"}
    for name, config in machine.hardware.items():
        words = []
        for term, bits in terms.items():
            value = sum(1 << at for at, place in enumerate(bits) if config >> place & 1)
            if value or term in ("event", "umask"):
                words.append(f"{term}={value:#04x}")
        files[f"events/{SYSFS_NAMES.get(name, name)}"] = ",".join(words)
    for name, text in machine.names.items():
        if "." not in name:
            files[f"events/{name}"] = text
    if machine.pmu.startswith("cpu_"):
        files["cpus"] = "0"
    return files


def spans(bits: tuple[int, ...]) -> str:
    """Bits as a format has them: `0-7,32-35`."""
    parts: list[list[int]] = []
    for bit in bits:
        if parts and parts[-1][1] == bit - 1:
            parts[-1][1] = bit
        else:
            parts.append([bit, bit])
    return ",".join(str(first) if first == last else f"{first}-{last}" for first, last in parts)


class StandIn:
    """The folder of a machine's stand-in: it is there as long as this is used with `with`."""

    def __init__(self, machine: Machine, has_watchdog: bool = False) -> None:
        self.machine, self.has_watchdog = machine, has_watchdog
        self.folder = tempfile.TemporaryDirectory(prefix="fit-sys-")
        # what leads perf to the processors of the stand-in
        self.library = ""

    def make(self, processes: Iterable[str] = ()) -> None:
        """Writes what perf needs to read events of the core, and of these processes."""
        self.write_processors(2)
        self.write_pmu(self.machine.pmu, sysfs_files(self.machine))
        if self.machine.pmu.startswith("cpu_"):
            other = "cpu_atom" if self.machine.pmu == "cpu_core" else "cpu_core"
            self.write_pmu(other, {"type": str(OTHER_TYPE), "cpus": "1", "format/event": "config:0-7"})
        self.link_proc(set(processes))

    def close(self) -> None:
        self.folder.cleanup()

    @property
    def environment(self) -> dict[str, str]:
        """The variables that lead perf here."""
        own = {"SYSFS_PATH": self.folder.name, "PROC_PATH": self.path("proc"), "LC_ALL": "C"}
        if os.path.exists(self.path("tracing")):
            own["TRACEFS_PATH"] = self.path("tracing")
        if self.library:
            own["LD_PRELOAD"] = " ".join(filter(None, (self.library, os.environ.get("LD_PRELOAD"))))
        return os.environ | own | {"PERF_CPUID": self.machine.identity}

    def write_processors(self, count: int) -> None:
        """So many processors: pairs of them are threads of a core, unless hyperthreading is off."""
        every = "0" if count == 1 else f"0-{count - 1}"
        files = dict.fromkeys(("possible", "present", "online"), every)
        files["smt/active"] = str(int(not self.machine.is_alone))
        for cpu in range(count):
            first, last = (cpu, cpu) if self.machine.is_alone else (cpu - cpu % 2, min(cpu | 1, count - 1))
            own = str(first) if first == last else f"{first}-{last}"
            for name in ("core_cpus_list", "thread_siblings_list"):
                files[f"cpu{cpu}/topology/{name}"] = own
            for name in ("die_cpus_list", "package_cpus_list", "core_siblings_list"):
                files[f"cpu{cpu}/topology/{name}"] = every
            files |= {f"cpu{cpu}/topology/physical_package_id": "0", f"cpu{cpu}/topology/die_id": "0"}
            files[f"cpu{cpu}/topology/core_id"] = str(cpu if self.machine.is_alone else cpu // 2)
        self.write(("devices", "system", "cpu"), files)

    def write_others(self) -> None:
        """PMUs beside the core's, whose events need no counter of a core."""
        for number, pmu in others_of(self.machine).items():
            formats, events = OTHERS[self.machine.identity.partition("-")[0]][pmu]
            files = {"type": str(number)} | {f"format/{name}": text for name, text in formats.items()}
            files |= {f"events/{event}": f"event={place:#x}" for place, event in enumerate(events, 1)}
            if pmu.startswith(OF_ALL):
                files["cpumask"] = "0"
            self.write_pmu(pmu, files)
        self.write(("devices", "cpu"), {"freeze_on_smi": "0"})

    def write_tracepoints(self, names: Iterable[tuple[str, str]]) -> None:
        """Tracepoints by their systems and names."""
        for number, (system, name) in enumerate(sorted(set(names)), 1):
            files = {"id": str(number), "format": TRACEPOINT.format(name=name, number=number).rstrip("\n")}
            self.write(("tracing", "events", system, name), files)

    def link_proc(self, processes: set[str]) -> None:
        """The /proc of here, where the watchdog is as it is on the machine."""
        for folder, own in (("", ("sys",)), ("sys", ("kernel",)), ("sys/kernel", ("nmi_watchdog",))):
            os.makedirs(self.path("proc", folder), exist_ok=True)
            for name in os.listdir(os.path.join("/proc", folder)):
                if name not in own and (name in processes or not name.isdigit()):
                    os.symlink(os.path.join("/proc", folder, name), self.path("proc", folder, name))
        self.write(("proc", "sys", "kernel"), {"nmi_watchdog": str(int(self.has_watchdog))})

    def write_pmu(self, pmu: str, files: dict[str, str]) -> None:
        self.write((*DEVICES, pmu), files)

    def write(self, folders: tuple[str, ...], files: dict[str, str]) -> None:
        for name, text in files.items():
            path = self.path(*folders, name)
            os.makedirs(os.path.dirname(path), exist_ok=True)
            with open(path, "w", encoding="utf-8") as file:
                file.write(text + "\n")

    def path(self, *names: str) -> str:
        return os.path.join(self.folder.name, *names)
