"""Writes the script that opens the events, goes through one rotation, and asks in each round who is on, and why not.

A script has one or more contexts, one after the other: tasks, each on a processor of each kind of core in turn, or
processors. In a context with N flexible hardware groups of a kind of core a rotation there is N rounds of `work` and
`tick`: each tick puts the first of them last. On each kind of core a task works for the same time.
"""

from __future__ import annotations

from collections.abc import Sequence
from dataclasses import dataclass, field
from math import lcm

from fit.plan import Group, Member, Plan, kinds_of, watchdog_mask
from perfscript import Draft, Key
from perfscript.limits import MOST_LINES, MOST_SLOTS, MOST_TASKS

LENGTH = 1000
TOOL = "t0"


@dataclass
class Question:
    """A line, and its key in the report: its actor and its number."""

    line: str
    key: Key


@dataclass
class Round:
    """A stretch of work: who is on there is asked by `seats`, why each leader is on or off by `why`."""

    processor: int
    first: int | None
    seats: Question
    why: dict[int, Question] = field(default_factory=dict)


@dataclass
class Opened:
    """A group in a context: the slots of what is opened of it, and the questions that are the opens."""

    group: Group
    slots: list[int]
    opens: list[Question] = field(default_factory=list)

    @property
    def leader(self) -> int:
        return self.slots[0]


@dataclass
class Context:
    """Where groups are opened: a task, or a processor. Its stays are the processors on which it is, one by one.

    `on` are the slots that were on together in some round, as the answers say.
    """

    task: int | None
    processor: int | None
    opened: list[Opened]
    stays: list[int]
    rounds: list[Round] = field(default_factory=list)
    on: set[tuple[int, ...]] = field(default_factory=set)


@dataclass
class Script:
    """A script's text, what each of its slots is, and where the answers will stand.

    `times` is how many rotations it goes through, and `asks` whether it asks in their rounds.
    """

    plan: Plan
    times: int = 1
    asks: bool = True
    slots: dict[int, Member] = field(default_factory=dict)
    contexts: list[Context] = field(default_factory=list)
    watchdogs: dict[int, int] = field(default_factory=dict)
    draft: Draft = field(default_factory=Draft)

    def __post_init__(self) -> None:
        self.kinds = {kind: f"k{number}" for number, kind in enumerate(kinds_of(self.plan))}
        self.cpus = max(processor for machine in self.plan.machines for processor in machine.processors) + 1

    def act(self, actor: str, line: str) -> Question:
        """Adds a line, which is done now. Answers it as a question."""
        return Question(line, self.draft.act(actor, line))

    def open(self, member: Member, slot: int, place: str, leader: int) -> Question:
        """Opens a member in a slot, at a place: `task=0 cpu=any`."""
        kind = self.kinds[member.machine.pmu, member.mask] if member.machine else member.kind
        words = [f"open {slot} kind={kind} {place}"]
        words += [f"leader={leader}"] if leader != slot else []
        words += ["format=3"]
        words += ["flags=" + ",".join(member.flags)] if member.flags else []
        self.slots[slot] = member
        return self.act(TOOL, " ".join(words))

    def head(self) -> list[str]:
        """The machine, its PMUs, the kinds and the tasks."""
        lines = ["perf 2", f"machine cpus={self.cpus}"]
        for number, machine in enumerate(self.plan.machines):
            cpus = sum(1 << processor for processor in machine.processors)
            lines.append(f"pmu {number} counters={machine.counters} cpus={cpus:x}")
        pmus = {machine.pmu: (number, machine) for number, machine in enumerate(self.plan.machines)}
        for (pmu, mask), word in self.kinds.items():
            number, machine = pmus[pmu]
            lines.append(f"kind {word} pmu={number} mask={machine.asked_mask(mask):x}")
        return lines + [f"task {context.task}" for context in self.contexts if context.task is not None]

    def text(self) -> str:
        """The script, as the program reads it."""
        self.draft.head = self.head()
        return self.draft.text()

    def name_of(self, slot: int) -> str:
        """What perf calls the event of a slot."""
        return "the watchdog's cycles" if slot in self.watchdogs else self.slots[slot].name

    def text_of_group(self, leader: int) -> str:
        """What the group of this leader's slot is called."""
        if leader in self.watchdogs:
            return self.name_of(leader)
        return next(one.group.text for context in self.contexts for one in context.opened if one.leader == leader)


def scripts_of(
    plan: Plan, candidates: Sequence[Sequence[Group]], times: int = 1, asks: bool = True
) -> list[tuple[Script, list[Context]]]:
    """The script of each of some lists of groups, and the contexts that the list has there for itself.

    Lists share a script while it has room. On processors each has a script, since a processor is one context.
    """
    found, script = [], None
    for groups in candidates:
        size = sum(len(group.members) for group in groups)
        if script is None or not plan.is_task or not has_room(script, groups, size):
            script = Script(plan, times, asks)
            open_watchdogs(script)
        first = len(script.contexts)
        for context in contexts_of(script, groups):
            script.contexts.append(context)
            run_context(script, context)
        found.append((script, script.contexts[first:]))
    return found


def has_room(script: Script, groups: Sequence[Group], size: int) -> bool:
    """Whether a further task with these groups fits into a script."""
    rounds = script.times * len(groups) * len(script.plan.machines)
    lines = size + rounds * (3 + len(groups)) + 4 * len(script.plan.machines) + script.draft.count
    return len(script.contexts) < MOST_TASKS and len(script.slots) + size <= MOST_SLOTS and lines <= MOST_LINES


def open_watchdogs(script: Script) -> None:
    """On each processor a pinned event of its own comes first, as Linux's watchdog has it."""
    for processor in script.plan.watched:
        machine = script.plan.machine_of(processor)
        slot = len(script.slots)
        member = Member(0, machine.watchdog, "", machine, watchdog_mask(machine), ("pinned",))
        script.watchdogs[slot] = processor
        script.open(member, slot, f"task=all cpu={processor}", slot)


def contexts_of(script: Script, groups: Sequence[Group]) -> list[Context]:
    """The contexts of a list of groups: one task, or each processor of the plan."""
    plan = script.plan
    if plan.is_task:
        stays = [machine.processors[0] for machine in plan.machines]
        return [context_of(script, groups, len(script.contexts), None, stays)]
    found = []
    for processor in plan.processors:
        here = [group for group in plan.groups_on(processor) if group in groups]
        found.append(context_of(script, here, None, processor, [processor]))
    return found


def context_of(
    script: Script, groups: Sequence[Group], task: int | None, processor: int | None, stays: list[int]
) -> Context:
    """A context whose groups have the next slots."""
    slot, opened = len(script.slots), []
    for group in groups:
        opened.append(Opened(group, list(range(slot, slot + len(group.members)))))
        slot += len(group.members)
    for one in opened:
        script.slots.update(zip(one.slots, one.group.members))
    return Context(task, processor, opened, stays)


def run_context(script: Script, context: Context) -> None:
    """Opens the groups of each stay while the context is there, and then works through a rotation, or several."""
    for number, processor in enumerate(context.stays):
        come(script, context, processor)
        machine = script.plan.machine_of(processor)
        for one in context.opened:
            if one.group.machine == machine or (one.group.machine is None and number == 0):
                open_group(script, context, one)
        if len(context.stays) > 1:
            leave(script, context, processor)
    together = lcm(*(rounds_on(script, context, processor) for processor in context.stays))
    for processor in context.stays:
        if len(context.stays) > 1:
            come(script, context, processor)
        count = rounds_on(script, context, processor)
        for number in range(script.times * count):
            run_round(script, context, processor, number, LENGTH * together // count)
        leave(script, context, processor)


def come(script: Script, context: Context, processor: int) -> None:
    if context.task is not None:
        script.act(f"p{processor}", f"switch {context.task}")


def leave(script: Script, context: Context, processor: int) -> None:
    if context.task is not None:
        script.act(f"p{processor}", "switch idle")


def open_group(script: Script, context: Context, one: Opened) -> None:
    """Opens the members of a group, the leader first."""
    place = f"task={context.task} cpu=any" if context.task is not None else f"task=all cpu={context.processor}"
    for slot, member in zip(one.slots, one.group.members):
        one.opens.append(script.open(member, slot, place, one.leader))


def turning(script: Script, context: Context, processor: int) -> list[Opened]:
    """The groups of a context that can take turns on a processor, in order."""
    machine = script.plan.machine_of(processor)
    return [one for one in context.opened if one.group.turns and one.group.machine == machine]


def rounds_on(script: Script, context: Context, processor: int) -> int:
    """How many rounds are a rotation there."""
    return max(1, len(turning(script, context, processor)))


def run_round(script: Script, context: Context, processor: int, number: int, length: int) -> None:
    """Asks, works and ticks.

    What is on at the start are the first flexible groups, at most one for each counter. So each group waits for the
    first time, if it ever does, in a round up to the number of counters: until then each leader is asked. Later the one
    that stands first is.
    """
    turns = turning(script, context, processor)
    first = turns[number % len(turns)].leader if turns else None
    if script.asks:
        one_round = Round(processor, first, script.act(TOOL, f"seats {processor}"))
        leaders = [one.leader for one in context.opened]
        if number > script.plan.machine_of(processor).counters:
            leaders = [] if first is None else [first]
        for leader in leaders:
            one_round.why[leader] = script.act(TOOL, f"why {leader}")
        context.rounds.append(one_round)
    script.act(f"p{processor}", f"work {length} user")
    script.act(f"p{processor}", "tick")
