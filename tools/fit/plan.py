"""Puts a list of events on machines: which groups are opened, on which kind of core, and in which contexts."""

from __future__ import annotations

import re
from collections.abc import Iterable, Mapping, Sequence
from dataclasses import dataclass, field, replace
from functools import cached_property

from fit.events import Typed, TypedGroup, modes_left_out
from fit.faults import BadInput
from fit.machines import Machine
from fit.meanings import NOTHING, Meanings, Need
from fit.stand_in import OF_ALL
from perfscript.command import listed
from perfscript.limits import MOST_KINDS, MOST_MEMBERS, MOST_SLOTS
from perfscript.names import SOFTWARE_NAMES

# flags that only a leader may have, and their modifiers
LEADERS = {"pinned": "D", "exclusive": "e"}
# other PMUs whose events may stand in a group with those of a core
IN_ANY_GROUP = ("msr", "kprobe", "uprobe", "breakpoint", "tracepoint", "software")


@dataclass(frozen=True)
class Reason:
    """A cause with perf's names: a word for it, the events or the group that it names, and a sentence."""

    word: str
    names: tuple[str, ...]
    sentence: str


@dataclass(frozen=True)
class Event:
    """An event of a group. `machine` is the kind of core that counts it, none where no core's counter does; `kind` is
    what it counts there for the program. `refused` says why its open is refused whatever else is on. `number` is its
    place among all events of perf, where perf itself opened it. `alone` are the flags of a sibling that it may have
    where it is opened by itself."""

    name: str
    kind: str
    machine: Machine | None
    flags: tuple[str, ...]
    need: Need = NOTHING
    refused: Reason | None = None
    number: int = -1
    alone: tuple[str, ...] = ()

    @property
    def mask(self) -> int:
        return self.need.counters.mask if self.machine else 0

    @property
    def is_pair(self) -> bool:
        """Whether it takes two counters that are neighbours."""
        return self.machine is not None and "pair" in self.need.counters.marks


@dataclass(frozen=True)
class Member:
    """What the program opens: an event of a group by its place, or the second counter of a pair. The watchdog's has no
    event."""

    place: int
    name: str
    kind: str
    machine: Machine | None
    mask: int
    flags: tuple[str, ...]
    event: Event | None = None
    is_second: bool = False


@dataclass(frozen=True)
class Group:
    """A leader and its siblings. It is numbered by its place in the list, from 1. `beyond` says why the program can't
    be asked, where its number of members is not why."""

    number: int
    text: str
    events: tuple[Event, ...]
    is_pinned: bool
    is_exclusive: bool
    is_weak: bool = False
    beyond: str = ""

    @cached_property
    def machine(self) -> Machine | None:
        """The kind of core whose counters it needs: that of its first hardware event. A software group needs none."""
        return next((event.machine for event in self.events if event.machine), None)

    @property
    def is_hardware(self) -> bool:
        return self.machine is not None

    @property
    def turns(self) -> bool:
        """Whether it can be one of the groups that take turns."""
        return any(member.mask for member in self.members) and not self.is_pinned

    @cached_property
    def members(self) -> tuple[Member, ...]:
        """What the program opens, in order: all events but those that are refused whatever else is on."""
        found = []
        for place, event in enumerate(self.events):
            if event.refused:
                continue
            is_core = bool(event.mask)
            # for a software event that the program does not know, which needs no counter either, it opens a dummy
            kind = "" if is_core else event.kind if event.kind in SOFTWARE_NAMES.values() else "dummy"
            machine = event.machine if is_core else None
            found.append(Member(place, event.name, kind, machine, event.mask, event.flags, event))
            if event.is_pair:
                name = f"the second counter of {event.name}"
                flags = tuple(flag for flag in event.flags if flag.startswith("exclude"))
                found.append(Member(place, name, "", machine, event.mask << 1, flags, event, True))
        return tuple(found)

    @property
    def is_stopped(self) -> bool:
        """Whether its leader's open is refused, where perf stat ends with an error if it has more members."""
        return self.events[0].refused is not None and len(self.events) > 1

    @property
    def is_beyond(self) -> bool:
        """Whether the program can't be asked, as where it has too many members."""
        return bool(self.beyond) or len(self.members) > MOST_MEMBERS

    @property
    def is_asked(self) -> bool:
        return not self.is_stopped and not self.is_beyond and bool(self.members)


@dataclass(frozen=True)
class Plan:
    """The machines, the groups, and where they are opened: on a task, or on each of some processors."""

    machines: tuple[Machine, ...]
    groups: tuple[Group, ...]
    processors: tuple[int, ...]
    has_watchdog: bool
    notes: tuple[str, ...] = ()

    @property
    def is_task(self) -> bool:
        return not self.processors

    @property
    def asked(self) -> tuple[Group, ...]:
        """The groups that the program is asked about."""
        return tuple(group for group in self.groups if group.is_asked)

    @property
    def watched(self) -> list[int]:
        """The processors that have the watchdog's event."""
        everywhere = [processor for machine in self.machines for processor in machine.processors]
        return sorted(everywhere) if self.has_watchdog else []

    def groups_on(self, processor: int) -> list[Group]:
        """The groups that are opened on a processor: those of its kind of core, and software groups."""
        machine = self.machine_of(processor)
        return [group for group in self.asked if group.machine in (machine, None)]

    def machine_of(self, processor: int) -> Machine:
        return next(machine for machine in self.machines if processor in machine.processors)


@dataclass
class Planning:
    """The groups of a list as they are put on machines."""

    machines: Sequence[Machine]
    present: Sequence[Machine]
    meanings: Meanings
    is_task: bool = True
    notes: list[str] = field(default_factory=list)

    def groups(self, typed_groups: Iterable[TypedGroup]) -> tuple[Group, ...]:
        found: list[Group] = []
        for typed in typed_groups:
            typed = replace(typed, events=tuple(map(self.named, typed.events)))
            for part in self.parts(typed):
                for machine in self.machines_of(part):
                    found.append(self.group_of(len(found) + 1, part, machine))
        return tuple(found)

    def named(self, event: Typed) -> Typed:
        """The event; where what stands before its slash is no PMU, it is an event's name, and terms follow."""
        called = [word for machine in self.machines for word in (machine.pmu, machine.name)]
        if event.form != "slashed" or event.is_other or event.pmu in called:
            return event
        start = event.start - len(event.pmu) - 1
        return replace(event, form="aliased", pmu="", name=event.pmu, start=start)

    def parts(self, typed: TypedGroup) -> list[TypedGroup]:
        """The group, or its events one by one where perf takes it apart since another PMU than the core's is in it."""
        others = {event.pmu for event in typed.events if event.is_other and not event.pmu.startswith(IN_ANY_GROUP)}
        if not others or (len(others) == 1 and all(event.is_other for event in typed.events)):
            return [typed]
        texts = listed([event.text for event in typed.events])
        self.notes.append(f"perf takes the group of {texts} apart: their PMUs have other processors")
        return [TypedGroup((event,), typed.modifiers, False) for event in typed.events]

    def machines_of(self, typed: TypedGroup) -> Sequence[Machine | None]:
        """The machines on which a group is opened: the one that it names, or each that knows all of its events."""
        counted = [event for event in typed.events if not event.needs_no_counter]
        named = [event for event in counted if event.form == "slashed"]
        for event in named:
            machine = machine_called(event, self.machines)
            if machine not in self.present:
                raise event.refuse(f"no processor that -C names is a {machine.name}")
        if named:
            return [machine_called(named[0], self.machines)]
        if not counted:
            return [None]
        found, faults = [], []
        for machine in self.present:
            try:
                for event in counted:
                    self.meanings.need(event, machine)
                found.append(machine)
            except BadInput as fault:
                faults.append(fault)
        if not found:
            raise faults[0]
        return found

    def group_of(self, number: int, typed: TypedGroup, machine: Machine | None) -> Group:
        """The group that is opened on this machine."""
        typed = led_by_slots(typed, machine)
        events = with_rules([self.event_of(event, typed, machine) for event in typed.events])
        letters = typed.events[0].modifiers + typed.modifiers
        text = events[0].name
        if typed.has_braces:
            text = "{" + ",".join(event.name for event in events) + "}" + ":" * bool(typed.modifiers) + typed.modifiers
        is_weak = typed.has_braces and "W" in typed.modifiers
        return Group(number, text, tuple(events), "D" in letters, "e" in letters, is_weak)

    def event_of(self, event: Typed, typed: TypedGroup, machine: Machine | None) -> Event:
        """The event as it is opened. With several kinds of core one without a PMU is called by it, as perf does."""
        is_leader = event is typed.events[0]
        letters = event.modifiers + (typed.modifiers if is_leader else "")
        flags = [word for word, letter in LEADERS.items() if is_leader and letter in letters]
        leaves_user, leaves_kernel = modes_left_out(event.modifiers, typed.modifiers)
        flags += ["exclude_user"] * leaves_user + ["exclude_kernel"] * leaves_kernel
        alone = tuple(word for word, letter in LEADERS.items() if not is_leader and letter in event.modifiers)
        if event.needs_no_counter:
            is_refused = is_of_all(event) and self.is_task
            need = Need(is_core=False, refused=not_of_a_task(event.pmu)) if is_refused else NOTHING
            refused = refused_event(event.text, need, alone)
            return Event(shown(event.text), event.kind, None, tuple(flags), need, refused, alone=alone)
        own = machine_called(event, self.machines) if event.form == "slashed" else machine
        assert own
        need = self.meanings.need(event, own, typed.modifiers)
        name = shown(event.text)
        if len(self.machines) > 1 and event.form != "slashed":
            name = f"{own.pmu}/{event.name}/{event.modifiers}"
        refused = refused_event(event.text, need, alone)
        return Event(name, event.kind, own if need.is_core else None, tuple(flags), need, refused, alone=alone)


def shown(text: str) -> str:
    """An event as perf calls it: without the mark of the metric that it is of."""
    text = re.sub(r",?metric-id=[^,/]*", "", text)
    return text.removesuffix("//").replace("/,", "/")


def led_by_slots(typed: TypedGroup, machine: Machine | None) -> TypedGroup:
    """The group as perf orders it: slots first, where parts of it follow."""
    if machine is None or "slots" not in machine.names:
        return typed
    slots, has_parts = None, False
    for event in typed.events:
        text = shown(event.text).lower()
        slots = event if "slots" in text else slots
        has_parts = has_parts or "topdown" in text
        if slots and has_parts:
            return replace(typed, events=(slots, *(other for other in typed.events if other is not slots)))
    return typed


def plan_of(
    typed_groups: Sequence[TypedGroup], machines: Sequence[Machine], processors: Sequence[int], has_watchdog: bool,
    meanings: Meanings | None = None,
) -> Plan:
    """The plan of a list, once each event is known and the limits of the program are kept."""
    check_processors(processors, machines)
    present = [machine for machine in machines if not processors or set(processors) & set(machine.processors)]
    is_task = not processors and not are_of_all(typed_groups)
    planning = Planning(machines, present, meanings or Meanings(), is_task)
    groups = planning.groups(typed_groups)
    for machine in machines if has_watchdog else ():
        if not machine.watchdog:
            raise BadInput(f"--watchdog: Linux opens no watchdog's event on {machine.name}")
    plan = Plan(tuple(machines), groups, tuple(processors), has_watchdog, tuple(planning.notes))
    check_limits(plan)
    return plan


def check_processors(processors: Sequence[int], machines: Sequence[Machine]) -> None:
    for processor in processors:
        if not any(processor in machine.processors for machine in machines):
            raise BadInput(f"-C: processor {processor} is of no machine that -m gives")


def machine_called(event: Typed, machines: Sequence[Machine]) -> Machine:
    """The machine whose PMU, or which itself, has the name before the slash."""
    for machine in machines:
        if event.pmu in (machine.pmu, machine.name):
            return machine
    known = listed([machine.pmu for machine in machines])
    raise event.source.refuse(f"no PMU is called {event.pmu!r}; there is {known}", event.start - len(event.pmu) - 1)


def are_of_all(groups: Iterable[TypedGroup]) -> bool:
    """Whether each event of a list is of a PMU that counts for whole processors: then perf asks for these by itself
    (`setup_system_wide`, tools/perf/builtin-stat.c)."""
    return all(is_of_all(event) or event.text == "duration_time" for group in groups for event in group.events)


def is_of_all(event: Typed) -> bool:
    return event.is_other and event.pmu.startswith(OF_ALL)


def not_of_a_task(pmu: str) -> str:
    """Why Linux refuses an event of a PMU that counts for all tasks of a processor, where it is for one task."""
    return f"Linux counts events of {pmu} for whole processors, and not for a task; perf stat -a asks for them so"


def refused_event(text: str, need: Need, alone: Sequence[str]) -> Reason | None:
    """Why Linux refuses an event by its code, or a sibling that is pinned or exclusive by its own modifiers."""
    if need.refused:
        return Reason("linux", (), need.refused)
    for word in alone:
        where = f"put {LEADERS[word]} at the leader or behind the brace"
        return Reason("linux", (), f"{text} is no leader, so it can't be {word}; {where}")
    return None


def with_rules(events: list[Event]) -> list[Event]:
    """The events with what Linux refuses for the sake of the group."""
    found: list[Event] = []
    for event in events:
        if event.machine and event.need.counters.metric is not None and not event.refused:
            leader = events[0].need if event is not events[0] else None
            reason = refused_part(event.name, event.need, leader, [other.need for other in found])
            event = replace(event, refused=Reason("linux", (), reason)) if reason else event
        found.append(event)
    return found


def refused_part(name: str, need: Need, leader: Need | None, others: Sequence[Need]) -> str:
    """Why Linux refuses an event that is read out of the slots' register, empty where it does not: slots has to be its
    leader, and none of the others in the group may be the same part."""
    if leader is None or not leader.is_slots:
        return f"{name} is a part of slots, so its group has to begin with slots"
    if any(other.counters.metric == need.counters.metric for other in others):
        return f"{name} stands in its group twice, and slots has one value for it"
    return ""


def without(plan: Plan, refused: Mapping[tuple[int, int], Reason]) -> Plan:
    """The plan in which these events, by the numbers of their groups and their places, are refused."""
    groups = []
    for group in plan.groups:
        events = list(group.events)
        for place in range(len(events)):
            if (group.number, place) in refused:
                events[place] = replace(events[place], refused=refused[group.number, place])
        groups.append(replace(group, events=tuple(events)))
    return replace(plan, groups=tuple(groups))


def split(plan: Plan, reasons: Mapping[int, Reason]) -> Plan:
    """The plan in which these weak groups are taken apart, and their events stand behind all others, as perf has it."""
    kept = [group for group in plan.groups if group.number not in reasons]
    notes = list(plan.notes)
    for group in plan.groups:
        if group.number not in reasons:
            continue
        names = listed([event.name for event in group.events])
        notes.append(f"perf takes the weak group of {names} apart: {reasons[group.number].sentence}")
        members = [opened_again(event) for event in group.events]
        together = tuple(event for event in members if stays_with_slots(event, group))
        parts = [together] if together else []
        parts += [(event,) for event in members if event not in together]
        for events in parts:
            text = events[0].name if len(events) == 1 else "{" + ",".join(event.name for event in events) + "}"
            flags = events[0].flags
            kept.append(Group(0, text, tuple(with_rules(list(events))), "pinned" in flags, "exclusive" in flags))
    numbered = tuple(replace(group, number=number) for number, group in enumerate(kept, 1))
    return replace(plan, groups=numbered, notes=tuple(notes))


def opened_again(event: Event) -> Event:
    """The event as perf opens it by itself: what was refused for the sake of its group is not refused there."""
    refused = refused_event(event.name, event.need, ())
    return replace(event, refused=refused, flags=(*event.alone, *event.flags), alone=())


def stays_with_slots(event: Event, group: Group) -> bool:
    """Whether perf leaves the event in the group of slots: what has slots or topdown in its name."""
    machine = group.machine
    if machine is None or "slots" not in machine.names:
        return False
    return any(word in event.name.lower() for word in ("slots", "topdown"))


def check_limits(plan: Plan) -> None:
    """Refuses what the program has no room for."""
    kinds = len(kinds_of(plan))
    if kinds > MOST_KINDS:
        watchdog = ", with the watchdog's," * plan.has_watchdog
        what = f"{kinds} kinds of hardware event{watchdog} that differ in their counters"
        raise BadInput(f"limit: there are {what}; the program takes {MOST_KINDS}")
    slots = slots_of(plan)
    if slots > MOST_SLOTS:
        watchdog = ", the watchdog's among them" * plan.has_watchdog
        raise BadInput(f"limit: {slots} events would be opened{watchdog}; the program takes {MOST_SLOTS}")


def slots_of(plan: Plan) -> int:
    """How many events are opened."""
    places: Sequence[Sequence[Group]] = [plan.asked]
    if not plan.is_task:
        places = [plan.groups_on(processor) for processor in plan.processors]
    return len(plan.watched) + sum(len(group.members) for groups in places for group in groups)


def watchdog_mask(machine: Machine) -> int:
    """The counters of the watchdog's event."""
    if machine.watchdog in machine.masks:
        return machine.masks[machine.watchdog]
    return machine.counters_for(machine.hardware[machine.watchdog]).mask


def kinds_of(plan: Plan) -> list[tuple[str, int]]:
    """The kinds of hardware event that the script declares: a PMU and a mask each. Events of equal masks are one."""
    kinds = [(machine.pmu, watchdog_mask(machine)) for machine in plan.machines if plan.has_watchdog]
    for group in plan.asked:
        kinds += [(member.machine.pmu, member.mask) for member in group.members if member.machine]
    return list(dict.fromkeys(kinds))
