"""Puts the program's causes into sentences with perf's names."""

from __future__ import annotations

from collections.abc import Mapping

from fit.answers import Cause
from fit.faults import ProgramFault
from fit.plan import Reason
from fit.script import Script
from perfscript.command import listed


def reason_of(cause: Cause, script: Script, causes: Mapping[int, Cause | None]) -> Reason:
    """The reason of a cause. `causes`: those of all leaders in the same round, for a group that waits for another."""
    if cause.word == "hall":
        slots = sorted(cause.slots)
        return Reason("hall", tuple(map(script.name_of, slots)), hall(slots, script))
    if cause.word == "pmu":
        sentence = "its events are of different kinds of core, and a group has counters of one"
        return Reason("pmu", (), sentence)
    other = script.text_of_group(cause.slots[0])
    if cause.word == "exclusive":
        return Reason("exclusive", (other,), f"{other} is exclusive and on")
    if cause.word == "exclusive-self":
        return Reason("exclusive-self", (other,), f"it is exclusive, and {other} is on")
    cause_of_other = causes.get(cause.slots[0])
    if not cause_of_other:
        raise ProgramFault(f"the program says that a group waits for {other}, and not why that waits")
    rest = reason_of(cause_of_other, script, causes)
    return Reason("earlier", (other,), f"waits for {other}: {rest.sentence}")


def hall(slots: list[int], script: Script) -> str:
    """The sentence of a tight set, in the list's order: these events have fewer counters together than they are."""
    names, machine = [script.name_of(slot) for slot in slots], script.slots[slots[0]].machine
    if machine is None:
        raise ProgramFault(f"the program names {names[0]}, which needs no counter, in a cause")
    mask = 0
    for slot in slots:
        mask |= script.slots[slot].mask
    counters, count = machine.counters_of(mask), mask.bit_count()
    if len(slots) == 2 and count == 1:
        return f"{counted(names)} both need {counters}"
    return f"{counted(names)} need {len(slots)} counters and have {count}: {counters}"


def counted(names: list[str]) -> str:
    """The names in a phrase, each once, with how often it stands there."""
    words = []
    for name in dict.fromkeys(names):
        count = names.count(name)
        words.append(name if count == 1 else f"{name} ({count} times)")
    return listed(words)
