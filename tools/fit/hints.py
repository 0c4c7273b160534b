"""What Linux knows and a mask can't say, in sentences that stand below the answer."""

from __future__ import annotations

from collections.abc import Iterable
from dataclasses import replace

from fit.answering import Answer
from fit.linux_search import Wish, linux_finds
from fit.machines import Machine
from fit.plan import Event, Group, Member, Plan
from perfscript.command import listed

TFA_COUNTER = 3


def hints_of(answer: Answer, is_alone: bool) -> list[str]:
    """All sentences, each once. `is_alone` says that hyperthreading is off."""
    plan = answer.plan
    found = [*plan.notes, *registers(plan)]
    if not is_alone:
        found += exclusive_counters(plan)
    found += north_bridge(plan)
    found += force_abort(answer)
    found += missed(answer)
    return list(dict.fromkeys(found))


def counted(plan: Plan) -> list[Event]:
    """The events that a core's counters count and Linux opens."""
    return [event for group in plan.groups for event in group.events if event.machine and not event.refused]


def registers(plan: Plan) -> list[str]:
    """Which registers beside the counters have fewer values than the events want."""
    found = []
    for group in plan.groups:
        for term, values, most in wanted_values(group.events):
            if values > most:
                found.append(
                    f"{group.text} needs {values} values of {most} in the register that {term} writes: "
                    "Linux refuses the open of the event that is one too many"
                )
    if not found:
        for term, values, most in wanted_values(counted(plan)):
            if values > most:
                found.append(
                    f"the list needs {values} values of {most} in the register that {term} writes: where that many "
                    "would be on, Linux takes turns, and the shares above do not have that"
                )
    return found


def wanted_values(events: Iterable[Event]) -> list[tuple[str, int, int]]:
    """For each register of a core how many different values events want, and how many it holds."""
    values: dict[tuple[str, str], set[int]] = {}
    most: dict[tuple[str, str], int] = {}
    for event in events:
        if event.machine and event.need.term:
            key = event.machine.name, event.need.term
            values.setdefault(key, set()).add(event.need.value)
            most[key] = event.need.values
    return [(key[1], len(found), most[key]) for key, found in values.items()]


def exclusive_counters(plan: Plan) -> list[str]:
    """Where two threads share a core, some events keep half of the general counters free on Sandy Bridge to Haswell."""
    events = [event for event in counted(plan) if "excl" in event.need.counters.marks]
    if not events:
        return []
    names = listed(list(dict.fromkeys(event.name for event in events)))
    machine = events[0].machine
    assert machine
    half = machine.general // 2
    return [
        f"with two threads a core Linux uses at most {half} of the {machine.general} general counters while {names} "
        f"{'count' if len(events) > 1 else 'counts'} (a fault of these cores); the shares above do not have that"
    ]


def north_bridge(plan: Plan) -> list[str]:
    events = [event.name for event in counted(plan) if "node" in event.need.counters.marks]
    if not events:
        return []
    names = list(dict.fromkeys(events))
    verb = "count" if len(names) > 1 else "counts"
    return [f"{listed(names)} {verb} on the north bridge, whose counters all cores share"]


def force_abort(answer: Answer) -> list[str]:
    """Skylake's counter 3 is left out where TSX force abort is turned off: whether what was on could do without."""
    for members in on_together(answer):
        machine = next((member.machine for member in members if member.machine), None)
        if machine is None or "allow_tsx_force_abort" not in machine.note:
            continue
        wishes = [replace(wish, mask=wish.mask & ~(1 << TFA_COUNTER)) for wish in wishes_of(members)]
        if not linux_finds(wishes, machine):
            left_out = "where allow_tsx_force_abort is 0, Linux leaves counter 3 out"
            return [f"{left_out}, and the shares above do not have that"]
    return []


def on_together(answer: Answer) -> list[list[Member]]:
    """What was on together on a kind of core, each set once."""
    found = []
    script = answer.script
    for context in script.contexts if script else ():
        for slots in sorted(context.on):
            members = [script.slots[slot] for slot in slots] if script else []
            for machine in dict.fromkeys(member.machine for member in members if member.machine):
                found.append([member for member in members if member.machine is machine])
    return found


def missed(answer: Answer) -> list[str]:
    """Where an assignment is there and Linux's own search misses it: in a group, or among what was on together."""
    found = []
    for finding in answer.findings:
        machine = finding.group.machine
        if machine and is_searched(machine) and finding.group.is_asked:
            found += missed_in_group(finding.group, machine, {*finding.refused})
    for members in [] if found else on_together(answer):
        found += missed_together(members)
    return found


def is_searched(machine: Machine) -> bool:
    """Whether Linux searches there at all: on Arm it takes the first counter that is free."""
    return not machine.identity.startswith("0x")


def missed_in_group(group: Group, machine: Machine, refused: set[int]) -> list[str]:
    """A group whose members all have a counter, of which Linux's search misses one."""
    members = [member for member in group.members if member.place not in refused]
    for count in range(2, len(members) + 1):
        if not linux_finds(wishes_of(members[:count]), machine):
            name = members[count - 1].name
            missed_there = f"in {group.text} Linux's search misses the assignment that is there"
            return [f"{missed_there}, and refuses the open of {name}"]
    return []


def wishes_of(members: Iterable[Member]) -> list[Wish]:
    """What members ask Linux for."""
    found = []
    for member in members:
        if member.mask and not member.is_second:
            event = member.event
            goes_back = event is not None and "overlap" in event.need.counters.marks
            found.append(Wish(member.mask, event is not None and event.is_pair, goes_back))
    return found


def missed_together(members: list[Member]) -> list[str]:
    """A set that was on together here and that Linux's search misses."""
    machine = members[0].machine
    if machine is None or not is_searched(machine) or linux_finds(wishes_of(members), machine):
        return []
    names = listed([member.name for member in members if not member.is_second])
    return [f"{names} are on together here, and Linux's search misses that assignment"]
