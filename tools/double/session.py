"""A session: the events that are open on one simulated machine, from the first open to the last close."""

from __future__ import annotations

import errno
import os
from collections.abc import Callable
from dataclasses import dataclass, field

from perfscript import Draft, Fault, Line, Report, Script
from perfscript.limits import MOST_LINES, MOST_RINGS, MOST_SLOTS, MOST_TASKS
from perfscript.script import Key

from double.attributes import Attribute
from double.backend import BackEnd, TooMuch
from double.errnos import errno_of
from double.journal import TOOL, Journal, words_of
from double.rings import MappedRing, group_of, have_one_layout
from double.scenario import Block, Scenario

NO_TASK = MOST_TASKS - 1


class Refusal(Exception):
    """A call is refused: the errno, the reason in words where the broker gives it, and the journal's line, if any."""

    def __init__(self, error: int, why: str = "", key: Key | None = None, is_limit: bool = False) -> None:
        super().__init__(why)
        self.error, self.why, self.key, self.is_limit = error, why, key, is_limit


@dataclass(eq=False)
class Event:
    """An open event: its slot, what was asked for, the file that its descriptors lead to, and the line of its open."""

    session: Session
    slot: int
    attribute: Attribute
    task: int | None
    leader: int | None
    file: int
    holders: int = 0
    pages: int = 0
    ring: MappedRing | None = None
    exec_tid: int | None = None
    counted: set[int] = field(default_factory=set)
    key: Key | None = None

    @property
    def hangs_up(self) -> bool:
        """Whether all tasks that it counted, or that inherited it, have exited."""
        return self.task is not None and not self.counted


@dataclass
class Sent:
    """An answer that a client was given: the call as it came, what it returned, and the journal's line for it.

    `result` is the value returned, or a negative errno; `out` the bytes that were written to the client.
    """

    what: str
    key: Key | None
    slot: int
    result: int
    given: tuple[int, ...] = ()
    attribute: bytes = b""
    out: bytes = b""


@dataclass(eq=False)
class Session:
    """The journal of a machine, its events by slot, and which thread is which task."""

    scenario: Scenario
    back_end: BackEnd
    say: Callable[[str], None]
    number: int = 0
    events: dict[int, Event] = field(default_factory=dict)
    all_events: dict[int, Event] = field(default_factory=dict)
    sent: list[Sent] = field(default_factory=list)
    tasks: dict[int, int] = field(default_factory=dict)
    threads: dict[int, int] = field(default_factory=dict)
    processes: dict[int, int] = field(default_factory=dict)
    running: dict[str, int | None] = field(default_factory=dict)
    next_slot: int = 0
    next_ring: int = 0

    def __post_init__(self) -> None:
        self.journal = Journal(self.scenario.head, self.scenario.tasks, self.back_end)
        self.waiting: list[tuple[Key, str, int]] = []
        self.told: set[str] = set()
        # lines of the tool that no call of a client asked for, as a report names them
        self.own_lines: set[str] = set()
        # slots of group members that no client opened, which its reads leave out
        self.unseen: set[int] = set()
        self.fresh = list(self.scenario.tasks)
        self.is_full = False
        self.since = 0

    # tasks

    def task_of(self, tid: int) -> int:
        """The task that a thread is, which becomes one where it was none."""
        if tid in self.tasks:
            return self.tasks[tid]
        number = self.fresh.pop(0) if self.fresh else self.unused_task()
        self.journal.tasks.add(number)
        self.name_task(tid, number)
        return number

    def unused_task(self) -> int:
        taken = self.journal.tasks | set(self.threads)
        for number in range(NO_TASK):
            if number not in taken:
                return number
        raise Refusal(errno.ENOMEM, f"the session has {NO_TASK} tasks, which is the most", is_limit=True)

    def name_task(self, tid: int, number: int) -> None:
        self.tasks[tid], self.threads[number] = number, tid
        self.processes[number] = group_of(tid)

    # lines

    def call(self, line: str) -> tuple[Key, list[str] | None]:
        """Does a line of the tool. A refusal by the program's rules is a Refusal with its key."""
        if self.is_full:
            raise Refusal(errno.ENOSPC, "the session is full", is_limit=True)
        try:
            key, words = self.journal.call(line)
        except TooMuch as reason:
            if self.waiting:
                self.fill_up(str(reason))
            why = f"`{line[:60]}` would pass a limit of a script ({reason})"
            raise Refusal(errno.ENOSPC, why, is_limit=True) from None
        self.settle()
        if words and words[0].startswith("E"):
            raise Refusal(errno_of(words[0], line.split()[0]), words[0], key)
        return key, words

    def own_call(self, line: str) -> None:
        """A line of the tool that the broker does by itself."""
        try:
            self.call(line)
        finally:
            self.own_lines.add(f"{TOOL}.{self.last_key()[1]}")

    def block(self, block: Block, tid: int | None) -> None:
        """Does the lines of a block; `self` is the task of the thread, and such a line is left out where it is none."""
        for step in block.steps:
            text = step.text
            if text == "switch self":
                if tid is None or tid not in self.tasks:
                    continue
                text = f"switch {self.tasks[tid]}"
            self.processor(step.actor, text, step.place)

    def processor(self, actor: str, text: str, place: int = 0) -> None:
        """Adds a line of a processor, before which each ring's tail is looked at."""
        if not self.is_full and self.journal.draft.count >= MOST_LINES:
            self.fill_up("LIMIT")
        if self.is_full:
            return
        for ring in self.rings():
            tail = ring.look()
            if tail is not None:
                self.journal.look(ring.number, tail)
        self.waiting.append((self.journal.processor(actor, text), text, place))
        if self.rings():
            self.bring_up_to_date()

    def bring_up_to_date(self) -> bool:
        """Asks for what is waiting. Where that passes a limit the session takes no more lines."""
        try:
            self.journal.ask()
        except TooMuch as reason:
            self.fill_up(str(reason))
            return False
        self.settle()
        return True

    def fill_up(self, reason: str) -> None:
        self.waiting = []
        self.is_full = True
        self.say(f"session {self.number}: the scenario's next lines would pass a limit of a script ({reason}); "
                 "calls on its events are refused from here on")

    def settle(self) -> None:
        """What the last report says of processors' lines and rings."""
        report = self.journal.report
        assert report
        waiting, self.waiting = self.waiting, []
        for key, text, place in waiting:
            words = words_of(report, key)
            if words and words[0].startswith("E"):
                self.tell_refused(text, place, words[0])
            elif text.startswith("switch "):
                to = text.split()[1]
                self.running[key[0]] = None if to == "idle" else int(to)
            elif text == "exit":
                self.running[key[0]] = None
        for ring in self.rings():
            ring.take(report.rings[ring.number])

    def tell_refused(self, text: str, place: int, reason: str) -> None:
        where = f"line {place} of the scenario" if place else "a line of the broker"
        if text not in self.told:
            self.told.add(text)
            self.say(f"{where}, `{text}`, was refused: {reason}")

    def report(self) -> Report | None:
        """The report of all that was done, where no limit was passed."""
        return self.journal.report if self.bring_up_to_date() else None

    def rings(self) -> list[MappedRing]:
        return [event.ring for event in self.all_events.values() if event.ring and event.ring.slot == event.slot]

    # events

    def open(self, attribute: Attribute, tid: int | None, cpu: int, leader: Event | int | None) -> Event:
        """Opens an event of a thread, or of all where it is None. A leader that is no event is a slot not in use."""
        if self.next_slot >= MOST_SLOTS:
            raise Refusal(errno.EMFILE, f"the session has opened {MOST_SLOTS} events, which is the most", is_limit=True)
        task = None if tid is None else NO_TASK if tid < 0 else self.task_of(tid)
        slot, group = self.next_slot, leader.slot if isinstance(leader, Event) else leader
        words = [f"open {slot} attr={attribute.sent.hex()}", f"task={'all' if task is None else task}",
                 f"cpu={'any' if cpu < 0 else cpu}", *([] if group is None else [f"leader={group}"])]
        key, _ = self.call(" ".join(words))
        self.next_slot += 1
        file = os.memfd_create("double-event")
        counted = set() if task is None else {task}
        event = Event(self, slot, attribute, task, group, file, counted=counted, key=key)
        self.events[slot] = self.all_events[slot] = event
        if attribute.is_enabled_on_exec and tid is not None:
            event.exec_tid = tid
        return event

    def last_key(self) -> Key:
        return TOOL, len(self.journal.draft.lines[TOOL]) - 1

    def free_slot(self) -> int:
        """A slot in which no event is open, for a descriptor that leads to none."""
        for slot in range(MOST_SLOTS - 1, -1, -1):
            if slot not in self.events and slot != self.next_slot:
                return slot
        raise Refusal(errno.EBADF, "the descriptor leads to no event")

    def close(self, event: Event) -> None:
        """Closes an event, whose last descriptor is gone. The answer is asked for when the next question comes."""
        if not self.is_full:
            self.journal.forget()
            self.journal.draft.act(TOOL, f"close {event.slot}")
            self.sent.append(Sent("close", self.last_key(), event.slot, 0))
        del self.events[event.slot]
        os.close(event.file)

    def read(self, event: Event, room: int) -> list[int]:
        """The words of a read."""
        _, words = self.call(f"read {event.slot} size={room}")
        return [int(word) for word in words or []]

    def id_of(self, event: Event) -> int:
        """The id of an event: what a dummy event that is opened right behind it draws, less 1."""
        return id_by_probe(self.journal.text(), event.slot, self.back_end)

    def map(self, event: Event, pages: int) -> None:
        """Maps an event's ring of so many pages."""
        if self.next_ring >= MOST_RINGS:
            raise Refusal(errno.ENOMEM, f"the session has mapped {MOST_RINGS} rings, which is the most", is_limit=True)
        size = pages * 4096
        number = self.next_ring
        self.journal.rings[number] = size
        try:
            self.call(f"map {event.slot} {number}")
        except Refusal as refusal:
            if refusal.key is None:
                self.journal.rings.pop(number, None)
            else:
                self.next_ring += 1
            raise
        self.next_ring += 1
        event.ring = MappedRing(self, event, number, size)

    def output(self, event: Event, target: Event | int) -> None:
        slot = target.slot if isinstance(target, Event) else target
        if isinstance(target, Event) and not have_one_layout(event.attribute, target.attribute):
            raise Refusal(errno.EINVAL, "PERF_EVENT_IOC_SET_OUTPUT between events whose samples have other fields")
        self.call(f"output {event.slot} {slot}")
        assert isinstance(target, Event)
        event.ring = target.ring

    # tasks that come and go

    def cpu_of(self, task: int) -> str | None:
        """The processor on which a task is."""
        if self.waiting:
            self.bring_up_to_date()
        return next((cpu for cpu, on in self.running.items() if on == task), None)

    def on_processor(self, task: int, line: str) -> None:
        """Does a line of the processor on which a task is; one that is on none is put on one for that line."""
        cpu = self.cpu_of(task)
        if cpu:
            self.processor(cpu, line)
            return
        all_cpus = [f"p{number}" for number in range(self.scenario.cpus)]
        cpu = next((one for one in all_cpus if self.running.get(one) is None), all_cpus[0])
        before = self.running.get(cpu)
        self.processor(cpu, f"switch {task}")
        self.processor(cpu, line)
        if line != "exit" or before is not None:
            self.processor(cpu, "switch idle" if before is None else f"switch {before}")

    def fork(self, parent: int) -> int | None:
        """The task that a counted thread forks, or None where nothing is inherited."""
        task = self.tasks.get(parent)
        if task is None or self.is_full or not any(event.attribute.inherits for event in self.events.values()):
            return None
        number = self.unused_task()
        self.threads[number] = 0
        self.on_processor(task, f"fork {number}")
        key = next(key for key, text, _ in reversed(self.waiting) if text.startswith("fork")) if self.waiting else None
        report = self.report()
        words = words_of(report, key) if report and key else None
        if words and words[0].startswith("E"):
            del self.threads[number]
            raise Refusal(errno_of(words[0], "fork"), f"a fork is refused: {words[0]}")
        for event in self.events.values():
            if event.attribute.inherits and task in event.counted:
                event.counted.add(number)
        return number

    def exit(self, tid: int) -> None:
        """A thread that is a task exits."""
        task = self.tasks.pop(tid, None)
        if task is None:
            return
        for event in self.events.values():
            event.counted.discard(task)
        self.on_processor(task, "exit")

    def exec(self, tid: int) -> None:
        """A thread execs: what is to be enabled then is enabled."""
        for event in list(self.events.values()):
            if event.exec_tid == tid:
                event.exec_tid = None
                try:
                    self.own_call(f"enable {event.slot}")
                except Refusal as refusal:
                    self.say(f"enable_on_exec of slot {event.slot} is refused: {refusal.why}")


def id_by_probe(text: str, slot: int, back_end: BackEnd) -> int:
    """The id of the event that a journal opened in a slot: the journal up to that open, and a probe behind it."""
    script = Script(text)
    draft = Draft([line.text for line in script.head])
    # refused opens of the same slot may stand before the one that was done
    opened = [line for line in script.lines[TOOL] if line.head == "open" and line.slot() == slot][-1]
    for act in script.acts():
        if isinstance(act, Line):
            draft.act(act.actor, act.text)
        else:
            draft.look(act.ring, act.place)
        if act is opened:
            break
    place = " ".join(word for word in opened.words if word.startswith(("task=", "cpu=")))
    probe = MOST_SLOTS - 1 if slot != MOST_SLOTS - 1 else slot - 1
    draft.act(TOOL, f"open {probe} kind=dummy {place} format=4")
    key = draft.act(TOOL, f"read {probe}")
    words = words_of(back_end.report_apart(draft), key)
    if not words or len(words) != 2:
        raise Fault(f"the id of slot {slot} can't be asked for: {words}")
    return int(words[1]) - 1
