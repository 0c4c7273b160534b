"""What occurred beside what was counted, and who waited for whom: further replays of a session's journal.

The truth comes from the program too: the same lines on a machine with so many counters that no event waits.
"""

from __future__ import annotations

import struct
from dataclasses import dataclass

from perfscript import Draft, Line, Program, Report, Script
from perfscript.limits import MOST_COUNTERS, MOST_LINES
from perfscript.names import FLAGS, FORMAT_GROUP, SOFTWARE, SOFTWARE_NAMES
from perfscript.script import Key

from double.session import Session

WIDEST = {"counters": str(MOST_COUNTERS), "mask": f"{(1 << MOST_COUNTERS) - 1:x}"}


@dataclass(frozen=True)
class Opened:
    """An event of a journal: its slot, kind and place, and the slot of its group's leader."""

    slot: int
    name: str
    flags: int
    format: int
    place: str
    leader: int

    @property
    def is_hardware(self) -> bool:
        return self.name not in SOFTWARE_NAMES.values()

    def is_of(self, actor: str, running: str) -> bool:
        """Whether the work of a processor is its own, where this task is on it: of tasks that inherit, any is."""
        task, cpu = (word.partition("=")[2] for word in self.place.split())
        if cpu not in ("any", actor[1:]):
            return False
        return task in ("all", running) or bool(self.flags >> FLAGS["inherit"] & 1) and running != "idle"

    def line(self, name: str, without: str = "") -> str:
        """The open of this event in a journal of counts alone."""
        left_out = (without, "sample_id_all")
        words = [word for word, bit in FLAGS.items() if self.flags >> bit & 1 and word not in left_out]
        leader = f" leader={self.leader}" if self.leader != self.slot else ""
        flags = f" flags={','.join(words)}" if words else ""
        return f"open {self.slot} kind={name} {self.place}{leader} format=3{flags}"


@dataclass(frozen=True)
class Row:
    """What an event was found to have at its last read, or at its end where no client read it."""

    slot: int
    name: str
    occurred: int
    counted: int
    enabled: int
    running: int

    @property
    def scaled(self) -> int | None:
        return self.counted * self.enabled // self.running if self.running else None


class Counts:
    """A journal's lines again, with each event read alone where the client read it, and before it is closed."""

    def __init__(self, script: Script, report: Report) -> None:
        self.script, self.report = script, report
        self.kinds = list(script.kinds)
        self.events = {line.slot(): self.opened(line) for line in script.lines.get("t0", []) if self.is_open(line)}

    def is_open(self, line: Line) -> bool:
        return line.head == "open" and self.report.refusal(line) is None

    def opened(self, line: Line) -> Opened:
        words = line.given()
        of_type, _, config, _, _, read_format, flags = struct.unpack("<IIQQQQQ", bytes.fromhex(words["attr"])[:48])
        name = SOFTWARE_NAMES[config] if of_type == SOFTWARE else self.kinds[config]
        place = f"task={words['task']} cpu={words['cpu']}"
        return Opened(line.slot(), name, flags, read_format, place, int(words.get("leader", line.slot())))

    def batches(self) -> list[set[int]]:
        """Groups taken together so that a processor has counters for all."""
        found: list[set[int]] = [set()]
        used = 0
        for leader in dict.fromkeys(event.leader for event in self.events.values()):
            members = {event.slot for event in self.events.values() if event.leader == leader}
            wanted = sum(self.events[slot].is_hardware for slot in members)
            if used + wanted > MOST_COUNTERS:
                found.append(set())
                used = 0
            found[-1] |= members
            used += wanted
        return found

    def wide_head(self) -> list[str]:
        return [widened(line) for line in self.script.head if line.head != "ring"]

    def draft(self, head: list[str], batch: set[int] | None) -> tuple[Draft, dict[int, Key]]:
        """The lines on a machine, and each event's read that counts. Events outside of the batch count nothing."""
        made, last, read = Draft(head), dict[int, Key](), set[int]()
        open_now: set[int] = set()
        for act in self.script.acts():
            if not isinstance(act, Line) or self.report.refusal(act) and act.head != "read":
                continue
            if act.head in ("map", "output", "period"):
                continue
            if act.head == "open":
                event = self.events[act.slot()]
                is_in = batch is None or event.slot in batch
                made.act("t0", event.line(event.name if is_in else "dummy", "" if batch is None else "exclusive"))
                open_now.add(event.slot)
            elif act.head == "read":
                for slot in self.read_by(act.slot(), open_now):
                    last[slot] = made.act("t0", f"read {slot}")
                    read.add(slot)
            elif act.head == "close":
                if act.slot() not in read:
                    last[act.slot()] = made.act("t0", f"read {act.slot()}")
                open_now.discard(act.slot())
                made.act("t0", act.text)
            else:
                made.act(act.actor, act.text)
        for slot in open_now - read:
            last[slot] = made.act("t0", f"read {slot}")
        return made, last

    def read_by(self, slot: int, open_now: set[int]) -> list[int]:
        """The events that a read of one counts as read: its group's with PERF_FORMAT_GROUP."""
        event = self.events[slot]
        if not event.format & FORMAT_GROUP:
            return [slot]
        return [other for other in sorted(open_now) if self.events[other].leader == event.leader]


def widened(line: Line) -> str:
    """A line of a head, with as many counters as a machine may have, each for every kind."""
    words = []
    for word in line.text.split():
        name = word.split("=")[0]
        words.append(f"{name}={WIDEST[name]}" if name in WIDEST else word)
    return " ".join(words)


def rows(session: Session, program: Program) -> list[Row]:
    """The truth of each event of a session."""
    text = session.journal.text()
    script = Script(text)
    counts = Counts(script, program.report(text))
    if not counts.events:
        return []
    as_was, places = counts.draft([line.text for line in script.head if line.head != "ring"], None)
    real = program.report(as_was.text())
    found = []
    for batch in counts.batches():
        wide, wide_places = counts.draft(counts.wide_head(), batch)
        truth = program.report(wide.text())
        for slot in sorted(batch):
            true_words, words = words_at(truth, wide_places[slot]), words_at(real, places[slot])
            found.append(Row(slot, counts.events[slot].name, true_words[0], *words))
    return sorted(found, key=lambda row: row.slot)


def words_at(report: Report, key: Key) -> tuple[int, int, int]:
    """Count and times of a read; none where the event was in error."""
    words = report.replies[key].words if key in report.replies else []
    return (int(words[0]), int(words[1]), int(words[2])) if len(words) == 3 else (0, 0, 0)


def truth_lines(session: Session, program: Program) -> list[str]:
    """The table of a session's events."""
    found = rows(session, program)
    if not found:
        return []
    lines = [f"truth of session {session.number}: occurred while enabled, counted, and what scaling gives"]
    for row in found:
        scaled = "-" if row.scaled is None else str(row.scaled)
        lines.append(f"{row.slot:3} {row.name:31} {row.occurred:>14} {row.counted:>14} {scaled:>14}")
    return lines


def why_lines(session: Session, program: Program) -> list[str]:
    """For how long each event was on, off, or waited for whom: the answer of `why` before each stretch of work."""
    text = session.journal.text()
    script = Script(text)
    report = program.report(text)
    counts = Counts(script, report)
    lines = [f"waits of session {session.number}, in units of work"] if counts.events else []
    works = sum(line.head == "work" for line in script.all_lines())
    room = (MOST_LINES - len(script.all_lines())) // max(works, 1)
    slots = sorted(counts.events)
    if slots and not room:
        return [*lines, "the journal leaves no room for the questions"]
    for first in range(0, len(slots), max(room, 1)):
        for slot, waits in asked_why(counts, slots[first : first + room], program).items():
            told = ", ".join(f"{cause} {length}" for cause, length in waits.items())
            lines.append(f"{slot:3} {counts.events[slot].name:31} {told or 'no work was done'}")
    return lines


def asked_why(counts: Counts, slots: list[int], program: Program) -> dict[int, dict[str, int]]:
    """By slot, for how many units of work of its processor each answer held."""
    draft = Draft([line.text for line in counts.script.head])
    open_now: set[int] = set()
    running: dict[str, str] = {}
    asked: list[tuple[Key, int, int]] = []
    for act in counts.script.acts():
        if not isinstance(act, Line):
            draft.look(act.ring, act.place)
            continue
        refused = counts.report.refusal(act) is not None
        if act.head == "work":
            for slot in slots:
                if slot in open_now and counts.events[slot].is_of(act.actor, running.get(act.actor, "idle")):
                    asked.append((draft.act("t1", f"why {slot}"), slot, int(act.words[0])))
        elif act.head in ("switch", "exit") and not refused:
            running[act.actor] = act.words[0] if act.words else "idle"
        elif act.head == "open" and not refused:
            open_now.add(act.slot())
        elif act.head == "close":
            open_now.discard(act.slot())
        draft.act(act.actor, act.text)
    answers = program.report(draft.text())
    found: dict[int, dict[str, int]] = {slot: {} for slot in slots}
    for key, slot, length in asked:
        cause = " ".join(answers.replies[key].words)
        found[slot][cause] = found[slot].get(cause, 0) + length
    return found
