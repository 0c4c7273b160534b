"""Asks the perf that is here what a name of its tables stands for on a machine.

perf sees a stand-in of `/sys` with that machine's PMU, and PERF_CPUID says which processor it is. It prints the
attribute of each event that it opens, also where the open fails.
"""

from __future__ import annotations

import os
import re
import shutil
import subprocess
from functools import cache
from typing import NamedTuple

from fit.events import HARDWARE, SAME_AS
from fit.faults import BadInput
from fit.machines import Machine
from fit.stand_in import StandIn

SECONDS = 60


class Attribute(NamedTuple):
    """What perf asks the kernel for."""

    type: int
    config: int
    config1: int
    precise: int


@cache
def perf_path() -> str | None:
    """Where perf is, none where it is not there or does not start."""
    path = shutil.which("perf")
    return path if path and version_of(path) else None


@cache
def version_of(path: str) -> str:
    """The version that this perf says, empty where it says none."""
    try:
        done = subprocess.run([path, "--version"], capture_output=True, text=True, timeout=SECONDS)
    except (OSError, subprocess.TimeoutExpired):
        return ""
    return done.stdout.strip().removeprefix("perf version ") if done.returncode == 0 else ""


def has_tables(machine: Machine) -> bool:
    """Whether perf may have tables of the machine: of x86 on x86, of Arm on Arm."""
    is_arm = machine.identity.startswith("0x")
    return bool(machine.identity) and is_arm == (os.uname().machine in ("aarch64", "arm64"))


class Tables(StandIn):
    """perf's tables of one machine. The stand-in is there as long as this is used with `with`."""

    def __init__(self, machine: Machine, has_watchdog: bool = False) -> None:
        super().__init__(machine, has_watchdog)
        self.found: dict[str, list[Attribute] | None] = {}

    def __enter__(self) -> Tables:
        self.make()
        return self

    def __exit__(self, *_: object) -> None:
        self.close()

    def attributes(self, text: str) -> list[Attribute] | None:
        """What each event of this text asks for, none where perf refuses the text."""
        if text not in self.found:
            self.found[text] = self.ask(text)
        return self.found[text]

    def ask(self, text: str) -> list[Attribute] | None:
        return attributes_of(self.said(["stat", "-vv", "-e", text, "--", "true"])[1])

    def metric_groups(self, names: str) -> list[str]:
        """The lists of events that perf makes of metrics, as it would read them behind -e."""
        _, said = self.said(["stat", "-vv", "-M", names, "--", "true"])
        missing = re.search(r"(?m)^Cannot find metric or group `(.*)'$", said)
        found = re.findall(r"(?m)^Parsing metric events '(.*)'$", said)
        if missing or not found:
            what = repr(missing[1]) if missing else f"in {names!r}"
            where = f"{self.machine.name} ({self.machine.identity})"
            raise BadInput(f"-M: perf {version_of(perf_path() or '')} knows no metric and no group {what} on {where}")
        return found

    def metric_names(self) -> list[str]:
        """The names of all metrics that perf has for the machine."""
        out, _ = self.said(["list", "--raw-dump", "metric"])
        return sorted(set(out.split()))

    def said(self, words: list[str]) -> tuple[str, str]:
        """What perf prints for these words, on both of its outputs; nothing where it is not there."""
        path = perf_path()
        try:
            how = {"capture_output": True, "text": True, "errors": "replace", "timeout": SECONDS}
            how["env"] = self.environment
            done = subprocess.run([path or "perf", *words], **how)  # type: ignore[call-overload]
        except (OSError, subprocess.TimeoutExpired):
            return "", ""
        return done.stdout, done.stderr


def attributes_of(printed: str) -> list[Attribute] | None:
    """The attributes in what `perf stat -vv` printed, none where it opened nothing."""
    found = []
    for block in re.split(r"(?m)^perf_event_attr:\n", printed)[1:]:
        values = dict.fromkeys(("type", "config", "config1", "precise_ip"), 0)
        for line in block.splitlines():
            if not line.startswith("  "):
                break
            words = line.replace("{ bp_addr, config1 }", "config1").split()
            if words[0] in values:
                values[words[0]] = int(words[-1], 0)
        found.append(Attribute(values["type"], values["config"], values["config1"], values["precise_ip"]))
    return found or None


def general_names() -> set[str]:
    """The names of hardware events that perf knows on all machines."""
    return {*HARDWARE, *SAME_AS}
