"""Follows a script by the answers of a report: which events are open, which copies live, and which id each of them has.

Ids are drawn from one counter that begins at 1: at each open that succeeds, and at a fork for each copy. A fork copies
the pinned groups first and then the flexible ones, each leader before its siblings.
"""

from typing import Optional

from perfscript.attributes import Attribute
from perfscript.faults import Fault
from perfscript.report import Report
from perfscript.script import Line, Script

# the lines that change which events are open, where they count and where they write
STEPS = ("open", "close", "enable", "disable", "reset", "period", "map", "output", "switch", "fork", "exit")


class Event:
    """An event that was opened, or a copy of one."""

    def __init__(
        self, number: int, slot: int, attribute: Attribute, task: int | None, original: Optional["Event"] = None
    ) -> None:
        self.id, self.slot, self.attribute, self.task, self.original = number, slot, attribute, task, original
        self.state_is_ready = not attribute.has("disabled")
        self.period = attribute.period
        # what was done to an original
        self.is_open, self.is_mapped, self.is_redirected = True, False, False
        self.ring: int | None = None
        self.commands: list[str] = []
        # its group is other than that of its copies; its leader was off when it was closed
        self.changed_since_fork, self.is_freed_while_off = False, False
        # a member of its group was closed while mapped; that was its leader, which was off
        self.has_kept_member, self.is_kept_off = False, False


class Context:
    """The groups of a task or of a processor, each a list of events with the leader first."""

    def __init__(self) -> None:
        self.pinned: list[list[Event]] = []
        self.flexible: list[list[Event]] = []

    def groups(self) -> list[list[Event]]:
        return self.pinned + self.flexible

    def add_group(self, group: list[Event]) -> None:
        (self.pinned if group[0].attribute.has("pinned") else self.flexible).append(group)

    def group_of(self, event: Event) -> list[Event]:
        return next(group for group in self.groups() if event in group)

    def remove(self, event: Event) -> None:
        """Takes an event away. The siblings of a leader become flexible groups of their own."""
        group = self.group_of(event)
        if group[0] is not event:
            group.remove(event)
            return
        (self.pinned if group in self.pinned else self.flexible).remove(group)
        self.flexible += [[sibling] for sibling in group[1:]]


class Follow:
    """The state of a script's run, line by line."""

    def __init__(self, script: Script, report: Report) -> None:
        self.script, self.report = script, report
        self.next_id = 1
        # the open events by their slots
        self.slots: dict[int, Event] = {}
        self.contexts: dict[tuple[str, int | str], Context] = {}
        self.copies: list[Event] = []
        self.originals: list[Event] = []
        self.all_copies: list[Event] = []
        # the id of the event that a line opened, by the line's name
        self.opened: dict[str, int] = {}
        self.tasks, self.exited = set(script.tasks), set[int]()
        self.running: dict[str, int] = {}
        # the originals that a copy's sums were added to, and for each ring the events that have written to it
        self.folded: set[Event] = set()
        self.writers: dict[int, list[Event]] = {}

    def run(self) -> "Follow":
        """Does the whole order."""
        for act in self.script.acts():
            if isinstance(act, Line):
                self.step(act)
        return self

    def context(self, name: tuple[str, int | str]) -> Context:
        return self.contexts.setdefault(name, Context())

    def context_of(self, event: Event) -> Context:
        if event.task is None:
            return self.context(("cpu", event.attribute.cpu))
        return self.context(("task", event.task))

    def group(self, slot: int) -> list[Event]:
        event = self.slots[slot]
        return self.context_of(event).group_of(event)

    def live_copies(self, event: Event) -> list[Event]:
        return [copy for copy in self.copies if copy.original is event]

    def step(self, line: Line) -> None:
        """Does a line, unless the report says that it is refused."""
        if self.report.refusal(line) is not None or line.head not in STEPS:
            return
        try:
            getattr(self, line.head)(line)
        except (KeyError, ValueError, IndexError, StopIteration):
            raise Fault(f"the report has no refusal of {line.name} {line.text}, which can't be done there") from None

    def open(self, line: Line) -> None:
        attribute = Attribute(line, self.script.kinds)
        task = None if attribute.task == "all" else int(attribute.task)
        event = Event(self.next_id, line.slot(), attribute, task)
        self.opened[line.name] = event.id
        self.next_id += 1
        self.slots[event.slot] = event
        self.originals.append(event)
        if attribute.leader is None:
            self.context_of(event).add_group([event])
        else:
            leader = self.slots[attribute.leader]
            self.context_of(event).group_of(leader).append(event)
            self.mark_changed(leader)

    def mark_changed(self, leader: Event) -> None:
        """The group of this leader is other than its copies' groups, if it has any."""
        if self.live_copies(leader):
            leader.changed_since_fork = True

    def close(self, line: Line) -> None:
        event = self.slots.pop(line.slot())
        group = self.context_of(event).group_of(event)
        if group[0] is not event:
            self.mark_changed(group[0])
        for sibling in group[1:] if group[0] is event and not event.state_is_ready else []:
            sibling.is_freed_while_off = True
        for member in group if event.is_mapped else []:
            member.has_kept_member = True
            member.is_kept_off = group[0] is event and not event.state_is_ready
        for gone in [event, *self.live_copies(event)]:
            self.context_of(gone).remove(gone)
        self.copies = [copy for copy in self.copies if copy.original is not event]
        event.is_open = False

    def enable(self, line: Line) -> None:
        event = self.slots[line.slot()]
        reached = self.group(event.slot) if line.is_group else [event]
        for member in list(reached):
            member.commands.append(line.head)
            if line.head != "reset":
                for one in [member, *self.live_copies(member)]:
                    one.state_is_ready = line.head == "enable"

    disable = reset = enable

    def period(self, line: Line) -> None:
        event = self.slots[line.slot()]
        event.period = int(line.words[1])
        event.commands.append("period")

    def map(self, line: Line) -> None:
        event, ring = self.slots[line.slot()], int(line.words[1])
        event.ring, event.is_mapped = ring, True
        self.writers.setdefault(ring, []).append(event)

    def output(self, line: Line) -> None:
        event, ring = self.slots[line.slot()], self.slots[int(line.words[1])].ring
        event.ring, event.is_redirected = ring, True
        if ring is None:
            raise KeyError(line.words[1])
        self.writers.setdefault(ring, []).append(event)

    def switch(self, line: Line) -> None:
        if line.words[0] == "idle":
            self.running.pop(line.actor, None)
        else:
            self.running[line.actor] = int(line.words[0])

    def fork(self, line: Line) -> None:
        child, parent = int(line.words[0]), self.running[line.actor]
        self.tasks.add(child)
        target = self.context(("task", child))
        for group in self.context(("task", parent)).groups():
            if group[0].attribute.has("inherit"):
                target.add_group([self.copy_of(event, child) for event in group])

    def copy_of(self, event: Event, child: int) -> Event:
        original = event.original or event
        copy = Event(self.next_id, event.slot, original.attribute, child, original)
        copy.state_is_ready, copy.period = event.state_is_ready, original.period
        self.next_id += 1
        self.copies.append(copy)
        self.all_copies.append(copy)
        return copy

    def exit(self, line: Line) -> None:
        task = self.running.pop(line.actor)
        self.exited.add(task)
        for copy in [copy for copy in self.copies if copy.task == task]:
            self.folded.add(copy.original or copy)
            self.context_of(copy).remove(copy)
            self.copies.remove(copy)
