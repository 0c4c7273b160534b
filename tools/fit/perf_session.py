"""A session of the double on a machine of tools/fit/machines: perf's opens, the watchdog, and whole rotations.

The events that perf opens become kinds of the program by their counters. At each exec, and before each sleep ends,
every task and every processor with events works through one rotation, so each share that perf gets is a rotation's.
"""

from __future__ import annotations

import errno
import os
from collections.abc import Callable
from dataclasses import dataclass, field

from double.attributes import Attribute
from double.broker import Broker
from double.clock import Sleep
from double.journal import TOOL
from double.session import Event, Refusal, Session
from fit.core_events import (
    CoreAttribute, CoreTranslator, error_of, for_a_task, kinds_of, scenario_of, watchdog_line,
)
from fit.machines import Machine
from fit.meanings import Meanings
from fit.plan import Reason, refused_part
from fit.stand_in import others_of
from perfscript import Draft, Program, Report
from perfscript.limits import MOST_LINES, MOST_MEMBERS
from perfscript.names import ENABLED, FORMAT_GROUP, FORMAT_ID, FORMAT_LOST, RUNNING

LENGTH = 1000
# how many rotations a session has at most, and up to how many lines: so perf has room and takes little time
MOST_ROTATIONS, MOST_FOR_ROTATIONS = 50, MOST_LINES // 2
# a thread, or -1 for all; a processor, or -1 for each
Place = tuple[int, int]


@dataclass(eq=False)
class Attempt:
    """An open that perf tried. `slot` is that of the event that came of it, `refused` says why none did."""

    attribute: CoreAttribute
    raw: bytes
    place: Place
    leader: Attempt | None
    is_again: bool
    slot: int | None = None
    refused: Reason | None = None
    is_open: bool = False

    @property
    def is_counted(self) -> bool:
        return self.slot is not None and self.attribute.is_counted and self.attribute.name != "dummy"


# takes note of an attempt, and says whether its group is beyond the program
Watch = Callable[[Attempt], bool]


@dataclass(eq=False)
class NotedSession(Session):
    """A session that takes note of each open that perf tries."""

    attempts: list[Attempt] = field(default_factory=list)
    by_slot: dict[int, Attempt] = field(default_factory=dict)
    # the events behind which a group goes on whose leader has as many members as the program takes, by its slot
    next_leaders: dict[int, list[Event]] = field(default_factory=dict)
    # by an event's slot that of a sibling that perf does not know of, as of the second counter of a pair
    seconds: dict[int, int] = field(default_factory=dict)
    has_closed: bool = False
    rotations: int = 0
    machine: Machine = field(kw_only=True)

    def noted(self, attribute: Attribute, tid: int | None, cpu: int, leader: Event | int | None) -> Attempt:
        assert isinstance(attribute, CoreAttribute)
        group = self.by_slot.get(leader.slot) if isinstance(leader, Event) else None
        place = -1 if tid is None else tid, cpu
        if tid is not None:
            attribute = for_a_task(attribute, others_of(self.machine))
        self.attempts.append(Attempt(attribute, attribute.given, place, group, self.has_closed))
        return self.attempts[-1]

    def done(self, attempt: Attempt, leader: Event | int | None) -> Event:
        """Opens an event as its attempt says."""
        (tid, cpu), room = attempt.place, self.leader_with_room(leader)
        try:
            event = super().open(attempt.attribute, None if tid == -1 else tid, cpu, room)
        except Refusal as refusal:
            attempt.refused = Reason("program", (), refusal.why)
            raise
        attempt.slot, attempt.is_open = event.slot, True
        self.by_slot[event.slot] = attempt
        return event

    def leader_with_room(self, leader: Event | int | None) -> Event | int | None:
        """The leader, or where its group is as large as the program takes another one, which counts nothing."""
        if not isinstance(leader, Event):
            return leader
        own = self.by_slot[leader.slot]
        members = [slot for slot, one in self.by_slot.items() if one is own or one.leader is own]
        count = len(members) + sum(slot in self.seconds for slot in members)
        if count < MOST_MEMBERS:
            return leader
        further = self.next_leaders.setdefault(leader.slot, [])
        if len(further) <= (count - MOST_MEMBERS) // (MOST_MEMBERS - 1):
            further.append(self.further_leader(leader))
        return further[-1]

    def further_leader(self, leader: Event) -> Event:
        own, slot = self.by_slot[leader.slot], self.next_slot
        self.own_open(f"open {slot} attr={own.attribute.as_dummy().sent.hex()} {self.words_of(own.place)}")
        return Event(self, slot, leader.attribute, leader.task, None, -1)

    def words_of(self, place: Place) -> str:
        """Where an event is opened, as a line says it."""
        tid, cpu = place
        return f"task={'all' if tid < 0 else self.task_of(tid)} cpu={'any' if cpu < 0 else cpu}"

    def own_open(self, line: str) -> None:
        self.own_call(line)
        self.next_slot += 1

    def close(self, event: Event) -> None:
        super().close(event)
        second = self.seconds.get(event.slot)
        if second is not None and not self.is_full:
            self.journal.draft.act(TOOL, f"close {second}")
            self.own_lines.add(f"{TOOL}.{self.last_key()[1]}")
        self.by_slot[event.slot].is_open = False
        self.has_closed = True

    def fork(self, parent: int) -> int | None:
        """Children are not followed: their events would have the same counters."""
        return None

    def rotate(self) -> None:
        """What happens at an exec, and before a sleep ends."""


class WantedSession(NotedSession):
    """A session in which nothing is refused and no event takes a counter: so perf shows what it wants."""

    def open(self, attribute: Attribute, tid: int | None, cpu: int, leader: Event | int | None) -> Event:
        attempt = self.noted(attribute, tid, cpu, leader)
        attempt.attribute = attempt.attribute.as_dummy()
        return self.done(attempt, leader)

    def read(self, event: Event, room: int) -> list[int]:
        """The words of a read where nothing has occurred, with all members of a group that perf wants."""
        own = self.by_slot[event.slot]
        form = own.attribute.format
        members = [own, *(one for one in self.by_slot.values() if one.leader is own)] if form & FORMAT_GROUP else [own]
        words = [len(members)] if form & FORMAT_GROUP else [0]
        words += [1] * (bool(form & ENABLED) + bool(form & RUNNING))
        for one in members:
            words += [0] if form & FORMAT_GROUP else []
            words += [(one.slot or 0) + 1] if form & FORMAT_ID else []
            words += [0] if form & FORMAT_LOST else []
        return words

    def id_of(self, event: Event) -> int:
        return event.slot + 1


@dataclass(eq=False)
class CoreSession(NotedSession):
    """The events that are open on a machine, as perf opened them. `watch` is told of each attempt; the events of a
    group that it calls beyond the program take no counter."""

    has_watchdog: bool = field(kw_only=True)
    watch: Watch = field(kw_only=True)

    def __post_init__(self) -> None:
        super().__post_init__()
        for processor in self.machine.processors if self.has_watchdog else ():
            self.own_open(watchdog_line(self.machine, self.next_slot, processor))

    def open(self, attribute: Attribute, tid: int | None, cpu: int, leader: Event | int | None) -> Event:
        attempt = self.noted(attribute, tid, cpu, leader)
        is_beyond = self.watch(attempt)
        self.refuse_by_code(attempt)
        if attempt.attribute.need.is_core and (is_beyond or not attempt.attribute.is_counted):
            attempt.attribute = attempt.attribute.as_dummy()
        event, own = self.done(attempt, leader), attempt.attribute
        if attempt.is_counted and "pair" in own.need.counters.marks:
            self.open_pair(event, attempt, own.second(kinds_of(self.machine)[own.need.counters.mask << 1]))
        elif is_beyond and attempt.leader is None:
            # so perf finds a member too many when it reads the group, and counts none
            self.open_second(attempt, own.second(None))
        return event

    def open_pair(self, event: Event, attempt: Attempt, sent: bytes) -> None:
        """Opens the second counter of an event, which perf's reads leave out. Where it has none Linux refuses the event
        as a whole."""
        try:
            self.open_second(attempt, sent)
        except Refusal as refusal:
            self.take_back(event)
            attempt.refused, attempt.slot, attempt.is_open = Reason("program", (), refusal.why), None, False
            raise Refusal(refusal.error, refusal.why) from None
        self.unseen.add(self.seconds[event.slot])

    def take_back(self, event: Event) -> None:
        """Closes an event that perf does not get: the lines of its open and its close are the session's own."""
        assert event.key
        self.own_call(f"close {event.slot}")
        self.own_lines.add(f"{TOOL}.{event.key[1]}")
        del self.events[event.slot], self.all_events[event.slot], self.by_slot[event.slot]
        os.close(event.file)

    def read(self, event: Event, room: int) -> list[int]:
        """The words of a read, without those of the second counters of pairs."""
        form, own = event.attribute.format, self.by_slot[event.slot]
        own = own.leader or own
        slots = [slot for slot, one in self.by_slot.items() if one.is_open and (one is own or one.leader is own)]
        members = sorted([*slots, *(self.seconds[slot] for slot in slots if slot in self.seconds)])
        left_out = [place for place, slot in enumerate(members) if slot in self.unseen]
        if not form & FORMAT_GROUP or not left_out:
            return super().read(event, room)
        front = 1 + bool(form & ENABLED) + bool(form & RUNNING)
        each = 1 + bool(form & FORMAT_ID) + bool(form & FORMAT_LOST)
        words = super().read(event, room + 8 * each * len(left_out))
        kept = [word for at, word in enumerate(words[front:]) if at // each not in left_out]
        return [words[0] - len(left_out), *words[1:front], *kept]

    def refuse_by_code(self, attempt: Attempt) -> None:
        """Refuses what Linux refuses whatever else is open: by the event's code, or as a part of slots."""
        need = attempt.attribute.need
        reason, error = need.refused, error_of(need)
        if not reason and need.counters.metric is not None:
            leader = attempt.leader
            siblings = [one for one in self.by_slot.values() if leader and one.leader is leader and one.is_open]
            others = [one.attribute.need for one in siblings]
            reason, error = refused_part("it", need, leader.attribute.need if leader else None, others), errno.EINVAL
        if reason:
            attempt.refused = Reason("linux", (), reason)
            raise Refusal(error, reason)

    def open_second(self, attempt: Attempt, sent: bytes) -> None:
        """Opens a sibling that perf does not know of."""
        leader, slot = (attempt.leader or attempt).slot, self.next_slot
        assert leader is not None and attempt.slot is not None
        self.own_open(f"open {slot} attr={sent.hex()} {self.words_of(attempt.place)} leader={leader}")
        self.seconds[attempt.slot] = slot

    def exec(self, tid: int) -> None:
        super().exec(tid)
        self.rotate()

    def rotate(self) -> None:
        """One rotation of each task and of each processor that has events."""
        rounds: dict[Place, int] = {}
        for attempt in self.by_slot.values():
            if attempt.is_open and attempt.leader is None:
                rounds[attempt.place] = rounds.get(attempt.place, 0) + self.turns(attempt)
        lines = self.journal.draft.count + sum(2 * max(1, count) + 2 for count in rounds.values())
        if self.rotations >= MOST_ROTATIONS or lines > MOST_FOR_ROTATIONS:
            self.say(f"the limit is {self.rotations} rotations here: from now on nothing runs, and perf counts nothing")
            return
        self.rotations += 1
        for place, count in rounds.items():
            self.rotate_at(place, max(1, count))

    def rotate_at(self, place: Place, rounds: int) -> None:
        tid, cpu = place
        actor = f"p{max(cpu, 0)}"
        if tid >= 0 and tid not in self.tasks:
            return
        if tid >= 0:
            self.processor(actor, f"switch {self.tasks[tid]}")
        for _ in range(rounds):
            self.processor(actor, f"work {LENGTH} user")
            self.processor(actor, "tick")
        if tid >= 0:
            self.processor(actor, "switch idle")

    def turns(self, leader: Attempt) -> bool:
        """Whether a group is one of those that take turns."""
        members = [one for one in self.by_slot.values() if one.is_open and (one is leader or one.leader is leader)]
        return "pinned" not in leader.attribute.asked.words and any(one.is_counted for one in members)


class Agreeing:
    """A back end that agrees to all."""

    is_asked_ahead = False
    has_room_for_reads = True

    def report(self, draft: Draft) -> Report:
        return Report("order\nend\n")

    report_apart = report

    def go_back(self, acts: int) -> None:
        pass

    def close(self) -> None:
        pass


class PerfBroker(Broker):
    """The broker of perf on a machine. With a `new_watch` it makes CoreSessions, without one WantedSessions."""

    def __init__(
        self, program: Program, meanings: Meanings, machine: Machine, has_watchdog: bool = False,
        new_watch: Callable[[], Watch] | None = None,
    ) -> None:
        scenario = scenario_of(machine)
        super().__init__(scenario, program)
        self.translator = translator = CoreTranslator(scenario, program, self.note)
        translator.machine, translator.meanings, translator.is_checked = machine, meanings, new_watch is not None
        if new_watch is None:
            self.make_back_end = Agreeing
            self.make_session = lambda *given: WantedSession(*given, machine=machine)
            return
        watch = new_watch
        self.make_session = lambda *given: CoreSession(
            *given, machine=machine, has_watchdog=has_watchdog, watch=watch()
        )

    def say(self, text: str) -> None:
        """What is printed: that a limit is passed. What Linux refuses stands below perf's output."""
        if "limit" in text or "the most" in text:
            super().say(text)

    def close_event(self, event: Event | None) -> None:
        """A session goes on where perf closes all that it opened before anything has happened, to open it otherwise."""
        if event and isinstance(event.session, NotedSession) and not event.session.rotations:
            event.session.close(event)
        else:
            super().close_event(event)

    def wake(self, sleep: Sleep) -> None:
        if isinstance(self.session, NotedSession):
            self.session.rotate()
        super().wake(sleep)

    def noted_sessions(self) -> list[NotedSession]:
        return [session for session in self.sessions if isinstance(session, NotedSession)]
