"""What `--list` prints: the machines with their models, or what given ones know."""

from __future__ import annotations

import textwrap
from collections.abc import Sequence

from fit import machines as kinds_of_core
from fit.events import SOFTWARE, TOOL_EVENTS
from fit.machines import Machine

WIDTH = 112


def listing(found: Sequence[Machine] | None) -> list[str]:
    """The lines of all machines, or of those that are given."""
    if found is None:
        return [line for name in kinds_of_core.names() for line in lines_of_machine(kinds_of_core.load(name))]
    lines = [line for machine in found for line in details(machine)]
    return lines + wrapped("no counter needed: ", ", ".join((*SOFTWARE, *TOOL_EVENTS)) + ", tracepoints, other PMUs")


def wrapped(mark: str, text: str) -> list[str]:
    lines = textwrap.wrap(text, WIDTH - len(mark), break_on_hyphens=False)
    return [(mark if not at else " " * len(mark)) + line for at, line in enumerate(lines)]


def lines_of_machine(machine: Machine) -> list[str]:
    """A machine by its name, with its models."""
    models = ", ".join(dict.fromkeys(machine.models.values())) or machine.source
    return wrapped(f"{machine.name:<16} ", models)


def details(machine: Machine) -> list[str]:
    """A machine's counters, where they are from, and its events by name."""
    counters = machine.counters_of((1 << machine.counters) - 1)
    lines = [f"{machine.name}: {counters}", f"    rows: {machine.source}"]
    lines += [f"    number of counters: {machine.numbers}"] if machine.numbers else []
    if machine.general_alone:
        lines.append(f"    with --ht=off: {machine.general_alone} general counters")
    lines += wrapped("    ", machine.note) if machine.note else []
    for identity, model in machine.models.items():
        lines.append(f"    {identity}: {model}")
    named = {**{name: machine.counters_for(config).mask for name, config in machine.hardware.items()}, **machine.masks}
    named |= {name: machine.counters_for(config).mask for name, (config, _) in machine.cache.items()}
    width = max(map(len, named))
    lines += [f"  {event:<{width}}  {machine.counters_of(mask)}" for event, mask in named.items()]
    return lines + (wrapped("  other names: ", ", ".join(machine.names)) if machine.names else [])
