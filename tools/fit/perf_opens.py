"""The events that perf wants to open, in its own order and by its own names, and what became of each."""

from __future__ import annotations

import re
from collections.abc import Sequence
from dataclasses import dataclass, field

from fit.machines import Machine
from fit.perf_session import Attempt, NotedSession, Place
from fit.plan import LEADERS, Event, Group, Plan, refused_event, with_rules
from perfscript.limits import MOST_MEMBERS
from perfscript.names import SOFTWARE, SOFTWARE_NAMES

# what `perf stat -vv` prints of each event that it reads: name, processor, value and times
READ = re.compile(r"^(.*): (-?\d+): \d+ \d+ \d+$", re.MULTILINE)
# and of the sum over its processors
SUM = re.compile(r"^(.*): \d+ \d+ \d+$", re.MULTILINE)


@dataclass(eq=False)
class Wish:
    """An event that perf wants: its name, how it is opened where nothing is refused, and its group's leader."""

    number: int
    name: str
    attempt: Attempt
    leader: Wish | None
    group: list[Wish] = field(default_factory=list)

    @property
    def beyond(self) -> str:
        """Why its group can't be opened here as perf opens it, empty where it can."""
        pairs = sum("pair" in wish.attempt.attribute.need.counters.marks for wish in self.group)
        count = len(self.group) + pairs
        among = f", {pairs} second counter{'s' * (pairs > 1)} among them" * bool(pairs)
        return f"it has {count} members{among}, and the program takes {MOST_MEMBERS}" * (count > MOST_MEMBERS)


def wishes_of(session: NotedSession | None, printed: str) -> list[Wish]:
    """The events of one place, as perf opened them where nothing was refused, with the names that it printed."""
    attempts = attempts_of_most(session.attempts if session else [])
    names = names_in(printed, len(attempts))
    sums = [line[1] for line in SUM.finditer(printed) if not READ.match(line[0])]
    if not names and 0 < len(sums) < len(attempts):
        # an event of one a computer is opened again for the processor that it is on
        attempts, names = attempts[: len(sums)], sums
    found: dict[Attempt, Wish] = {}
    for number, attempt in enumerate(attempts):
        leader = found.get(attempt.leader) if attempt.leader else None
        name = names[number] if names else attempt.attribute.asked.text
        found[attempt] = Wish(number, name, attempt, leader)
    for wish in found.values():
        (wish.leader or wish).group.append(wish)
        wish.group = (wish.leader or wish).group
    return list(found.values())


def attempts_of_most(attempts: Sequence[Attempt]) -> list[Attempt]:
    """The attempts of the place that has most of them: events of one a computer stand on one processor alone."""
    places: dict[Place, list[Attempt]] = {}
    for attempt in attempts:
        places.setdefault(attempt.place, []).append(attempt)
    return max(places.values(), key=len, default=[])


def names_in(printed: str, count: int) -> list[str]:
    """The names of so many events in their order; none where perf printed another number of them."""
    by_processor: dict[str, list[str]] = {}
    for name, processor in READ.findall(printed):
        by_processor.setdefault(processor, []).append(name)
    for processor, names in by_processor.items():
        # of a task each event is printed once for each thread
        step = len(names) // count if count and processor == "-1" else 1
        if step and len(names[::step]) == count:
            return names[::step]
    return []


@dataclass(eq=False)
class Matching:
    """Which wish each attempt at one place is for.

    perf goes through its events in order, and tries one again with other bits where it is refused. Where a sibling of a
    weak group is refused it leaves the rest of the group out, and opens all of them one by one in a second pass.
    """

    wishes: list[Wish]
    attempts: dict[Wish, list[Attempt]] = field(default_factory=dict)
    at: int = -1
    last: Attempt | None = None

    def wish_of(self, attempt: Attempt) -> Wish | None:
        """The wish of the next attempt, none where perf does not do what it did where nothing was refused."""
        if self.last and attempt.is_again and not self.last.is_again:
            self.at = -1
        found = self.same_again(attempt) or self.next_one(attempt) or self.elsewhere(attempt)
        self.last = attempt
        if found:
            self.at = found.number
            self.attempts.setdefault(found, []).append(attempt)
        return found

    def same_again(self, attempt: Attempt) -> Wish | None:
        if self.at < 0 or self.last is None or not self.last.refused:
            return None
        kept = attempt.attribute.asked.kept
        following = self.wishes[self.at + 1 : self.at + 2]
        is_next = self.last.raw == attempt.raw and [one.attempt.attribute.asked.kept for one in following] == [kept]
        return self.wishes[self.at] if kept == self.last.attribute.asked.kept and not is_next else None

    def next_one(self, attempt: Attempt) -> Wish | None:
        for wish in self.wishes[self.at + 1 :]:
            if attempt.is_again and (not self.is_broken(wish) or self.goes_on(wish)):
                continue
            if wish.attempt.attribute.asked.kept == attempt.attribute.asked.kept:
                return wish
            if not self.is_broken(wish):
                return None
        return None

    def elsewhere(self, attempt: Attempt) -> Wish | None:
        """The wish for an event of one a computer, which perf opens again."""
        kept = attempt.attribute.asked.kept
        is_core = attempt.attribute.need.is_core
        return next((one for one in self.wishes if one.attempt.attribute.asked.kept == kept and not is_core), None)

    def is_broken(self, wish: Wish) -> bool:
        """Whether a sibling of its group was refused."""
        return any(attempt.refused for one in wish.group[1:] for attempt in self.attempts.get(one, []))

    def goes_on(self, wish: Wish) -> bool:
        """Whether perf went on with the group behind a refused sibling: then it is not weak."""
        tried = [one for one in wish.group if any(not attempt.is_again for attempt in self.attempts.get(one, []))]
        return any(attempt.refused for one in tried[1:-1] for attempt in self.attempts[one] if not attempt.is_again)


class Opens:
    """What became of each wish: all places have their own opens, and `most` is the place with most of them."""

    def __init__(self, wishes: list[Wish]) -> None:
        self.wishes = wishes
        self.places: dict[Place, Matching] = {}
        self.is_other = False

    def is_beyond(self, attempt: Attempt) -> bool:
        """Takes note of an attempt, and says whether it is of a group that is too large for the program."""
        wish = self.places.setdefault(attempt.place, Matching(self.wishes)).wish_of(attempt)
        self.is_other |= wish is None
        return wish is not None and bool(wish.beyond)

    @property
    def last(self) -> dict[Wish, Attempt]:
        """The last attempt for each wish, at the place that has most of them."""
        most = max(self.places.values(), key=lambda place: len(place.attempts), default=Matching([]))
        return {wish: attempts[-1] for wish, attempts in most.attempts.items()}

    @property
    def processors(self) -> tuple[int, ...]:
        """The processors on which perf opened events of all tasks; none where it opened them on tasks."""
        return tuple(sorted({cpu for tid, cpu in self.places if tid < 0 and cpu >= 0}))


def plan_of(opens: Opens, machine: Machine, has_watchdog: bool) -> Plan:
    """The groups that perf opened or tried to open, before it takes any apart."""
    groups: list[Group] = []
    last = opens.last
    for wish in opens.wishes:
        tried = [one for one in wish.group if one in last]
        if wish.leader or wish not in last:
            continue
        events = tuple(with_rules([event_of(one, last[one], machine) for one in tried]))
        flags = events[0].flags
        is_weak = len(tried) > 1 and any(last[one].is_again for one in tried)
        text = events[0].name if len(wish.group) == 1 else "{" + ",".join(event.name for event in events) + "}"
        is_pinned, is_exclusive = "pinned" in flags, "exclusive" in flags
        groups.append(Group(len(groups) + 1, text, events, is_pinned, is_exclusive, is_weak, wish.beyond))
    return Plan((machine,), tuple(groups), opens.processors, has_watchdog)


def event_of(wish: Wish, attempt: Attempt, machine: Machine) -> Event:
    """The event as it was opened at last."""
    asked, need = attempt.attribute.asked, attempt.attribute.need
    alone = tuple(word for word in asked.words if wish.leader and word in LEADERS)
    flags = tuple(word for word in asked.words if word not in alone)
    kind = SOFTWARE_NAMES.get(asked.config, "") if asked.type == SOFTWARE else ""
    refused = refused_event(wish.name, need, alone)
    return Event(wish.name, kind, machine if need.is_core else None, flags, need, refused, wish.number, alone)
