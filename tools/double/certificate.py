"""Holds each answer that clients were given against one replay of the journal.

This stands on the report and the journal's text alone. It shares no code with what answered the calls: it has its own
table of errnos, its own reading of what a call asks for, and its own making of bytes.
"""

from __future__ import annotations

import struct
from dataclasses import dataclass

from perfscript import Fault, Line, Program, Report, Script

from double.session import Sent, Session

EPERM, ESRCH, EAGAIN, E2BIG, EBADF, EBUSY, EINVAL, EMFILE, ENOENT, ENOSPC = 1, 3, 11, 7, 9, 16, 22, 24, 2, 28
NUMBERS = {
    "EATTRPERIOD": EINVAL, "ESAMPLEBITS": EINVAL, "EFORMATBITS": EINVAL, "ENOPLACE": EINVAL, "ESOFTPERIOD": EINVAL,
    "EEXIST": EMFILE, "ESRCH": ESRCH, "EBADF": EBADF, "ELEADER": EINVAL, "ECONTEXT": EINVAL, "EFLAGS": EINVAL,
    "EINHERIT": EINVAL, "EGROUP": E2BIG, "EASSIGN": EINVAL, "EPMU": EINVAL, "EDEVICE": ENOENT, "EBUSY": EBUSY,
    "EIDLE": EAGAIN, "EAGAIN": EAGAIN, "ENOSAMPLE": EINVAL, "EPERIOD": EINVAL, "ENOSPC": ENOSPC, "ESELF": EINVAL,
    "ECPU": EINVAL, "EMAPPED": EINVAL, "ENORING": EINVAL,
}
# requests of ioctl by the word of their line
REQUESTS = {0x2400: "enable", 0x2401: "disable", 0x2403: "reset", 0x40082404: "period", 0x2405: "output"}
# the bits of flags that stand in a line as they were given; the others are dropped or the broker's
KEPT = 0x14007F
DUMMY = (1, 9)


@dataclass(frozen=True)
class Differs:
    """The first answer of a session that is not what the report says."""

    session: int
    what: str
    given: str
    wanted: str

    def __str__(self) -> str:
        said = f"the client was given {self.given}, and the report has {self.wanted}"
        return f"session {self.session}: {self.what}: {said}"


@dataclass(frozen=True)
class Certified:
    """How many answers of how many sessions were compared, their reports, and what differs."""

    sessions: int
    answers: int
    reports: dict[int, Report]
    differs: Differs | None = None


def certify(sessions: list[Session], program: Program) -> Certified:
    """Replays each session's journal once, and compares every answer."""
    count, reports = 0, dict[int, Report]()
    for session in sessions:
        text = session.journal.text()
        outcome = program.call("replay", text)
        if outcome.status:
            what = Differs(session.number, "the journal", "answers", f"no report: {outcome.note}")
            return Certified(len(sessions), count, reports, what)
        reports[session.number] = Report(outcome.out)
        differs, compared = Comparison(session, text, reports[session.number], program).first()
        count += compared
        if differs:
            return Certified(len(sessions), count, reports, differs)
    return Certified(len(sessions), count, reports)


class Comparison:
    """One session's answers and report."""

    def __init__(self, session: Session, text: str, report: Report, program: Program) -> None:
        self.session, self.report, self.program = session, report, program
        self.script = Script(text)
        report.check(self.script)
        self.lines = {line.key: line for line in self.script.all_lines()}
        self.left_out = left_out(self.script, report, session.unseen) if session.unseen else {}
        self.answered: set[tuple[str, int]] = set()

    def first(self) -> tuple[Differs | None, int]:
        for place, sent in enumerate(self.session.sent):
            differs = self.compare(sent)
            if differs:
                return differs, place
        extra = [line.name for key, line in self.lines.items() if key[0] == "t0" and key not in self.answered]
        if extra and not self.session.own_lines.issuperset(extra):
            return self.differs("the journal", "no answer", f"lines {' '.join(extra)} that no call asked for"), 0
        return self.rings(), len(self.session.sent)

    def differs(self, what: str, given: object, wanted: object) -> Differs:
        return Differs(self.session.number, what, str(given), str(wanted))

    def compare(self, sent: Sent) -> Differs | None:
        """What of one answer is not what the report has."""
        if sent.what == "id":
            return self.compare_id(sent)
        if sent.key is None:
            return None if sent.result < 0 else self.differs(sent.what, "an answer", "no line for it")
        line = self.lines.get(sent.key)
        name = f"{sent.key[0]}.{sent.key[1]} {line.head if line else sent.what}"
        unseen = self.left_out.get(sent.key, NOTHING_LEFT_OUT)
        if line is None or not asks_for(line, sent, unseen.size) or sent.what == "open" and self.is_unseen(sent):
            return self.differs(name, f"an answer to {sent.what} of slot {sent.slot} {sent.given}", line and line.text)
        if sent.key in self.answered:
            return self.differs(name, "a second answer", "one line")
        self.answered.add(sent.key)
        words = self.report.answer(line) or []
        wanted = wanted_answer(line, unseen.seen(words))
        given = "" if sent.what == "close" else (sent.result, sent.out) if sent.what != "open" else min(sent.result, 0)
        wanted_given = "" if sent.what == "close" else wanted if sent.what != "open" else wanted[0]
        return None if given == wanted_given else self.differs(name, given, wanted_given)

    def is_unseen(self, sent: Sent) -> bool:
        """Whether reads leave out an event that a client opened."""
        return sent.result >= 0 and sent.slot in self.session.unseen

    def compare_id(self, sent: Sent) -> Differs | None:
        """An id is what a probe behind the open, less 1, draws in a replay of the journal up to there."""
        wanted = struct.pack("<Q", probed_id(self.script, sent.slot, self.program))
        given = sent.out
        return None if given == wanted else self.differs(f"id of slot {sent.slot}", given.hex(), wanted.hex())

    def rings(self) -> Differs | None:
        """The bytes that were put into each client's ring are the report's records, with its threads' numbers."""
        for ring in self.session.rings():
            told = self.report.rings[ring.number]
            data = b"".join(self.record_bytes(ring.slot, record.words) for record in told.records)
            if data[: len(ring.stream)] != ring.stream or len(data) != len(ring.stream):
                return self.differs(f"ring {ring.number}", f"{len(ring.stream)} bytes", f"{len(data)} other bytes")
        return None

    def record_bytes(self, slot: int, words: list[int]) -> bytes:
        """The bytes of a record: the low half of its thread word is the process, the high half the thread."""
        attribute = next(sent.attribute for sent in self.session.sent if sent.what == "open" and sent.slot == slot)
        sample, flags = struct.unpack_from("<Q", attribute, 24)[0], struct.unpack_from("<Q", attribute, 40)[0]
        made = list(words)
        is_sample = words[0] & 0xFFFFFFFF == 9
        if sample & 2 and (is_sample or flags >> 18 & 1):
            front = 1 + bool(sample & 0x10000) + bool(sample & 1)
            behind = len(words) - sum(bool(sample & bit) for bit in (2, 4, 0x40, 0x200, 0x80, 0x10000))
            place = front if is_sample else behind
            task = (made[place] >> 32) - 1
            processes, threads = self.session.processes, self.session.threads
            made[place] = processes.get(task, 0) + (threads.get(task, 0) << 32) if task >= 0 else 0
        return struct.pack(f"<{len(made)}Q", *made)


@dataclass(frozen=True)
class LeftOut:
    """What a read of a group leaves out: the places of members, and how many words stand before and for each member."""

    places: tuple[int, ...] = ()
    front: int = 0
    each: int = 0

    @property
    def size(self) -> int:
        """How many bytes the client has no room for."""
        return 8 * self.each * len(self.places)

    def seen(self, words: list[str]) -> list[str]:
        """The words of an answer as the client sees them."""
        if not self.places or words[0].startswith("E"):
            return words
        kept = words[1 : self.front]
        for place in range((len(words) - self.front) // self.each):
            if place not in self.places:
                kept += words[self.front + self.each * place :][: self.each]
        return [str(int(words[0]) - len(self.places)), *kept]


NOTHING_LEFT_OUT = LeftOut()


def left_out(script: Script, report: Report, unseen: set[int]) -> dict[tuple[str, int], LeftOut]:
    """What each read of a group leaves out, by its key: the members of these slots that are open then."""
    groups: dict[int, list[int]] = {}
    formats: dict[int, int] = {}
    found = {}
    for line in script.acts():
        if not isinstance(line, Line) or line.head not in ("open", "close", "read"):
            continue
        slot = line.slot()
        group = next((members for members in groups.values() if slot in members), list[int]())
        if line.head == "open" and not report.refusal(line):
            words = line.given()
            formats[slot] = struct.unpack_from("<Q", bytes.fromhex(words["attr"]), 32)[0]
            groups.setdefault(int(words.get("leader", slot)), []).append(slot)
        elif line.head == "close":
            # the siblings of a leader that is closed are alone
            groups |= {member: [member] for member in groups.pop(slot, []) if member != slot}
            group[:] = [member for member in group if member != slot]
        elif line.head == "read" and formats.get(slot, 0) & 8:
            bits = formats[slot]
            places = tuple(place for place, member in enumerate(group) if member in unseen)
            found[line.key] = LeftOut(places, 1 + (bits & 1) + (bits >> 1 & 1), 1 + (bits >> 2 & 1) + (bits >> 4 & 1))
    return found


def asks_for(line: Line, sent: Sent, more: int = 0) -> bool:
    """Whether a line of the journal is what a call asked for. `more` is how many bytes a read has no room for."""
    head, words, given = line.head, line.words, sent.given
    if sent.what == "open":
        return head == "open" and line.slot() == sent.slot and opens(line, sent)
    if line.slot() != sent.slot:
        return False
    if sent.what == "read":
        return head == "read" and words[1:] == (f"size={given[0] + more}",)
    if sent.what == "close":
        return head == "close"
    if sent.what == "mmap":
        return head == "map"
    if sent.what == "ioctl" and REQUESTS.get(given[0]) == head:
        if head in ("period", "output"):
            return words[1] == str(given[1])
        return (words[1:] == ("group",)) == bool(given[1] & 1)
    return False


def opens(line: Line, sent: Sent) -> bool:
    """Whether an open's line has the attribute and the place that the call gave."""
    words = line.given()
    raw, made = sent.attribute, bytes.fromhex(words["attr"])
    tid, cpu, group, flags = sent.given
    of_type, _, config, period, sample, read_format, bits = struct.unpack("<IIQQQQQ", raw[:48])
    line_bits = struct.unpack_from("<Q", made, 40)[0]
    line_period, line_sample, line_format = struct.unpack_from("<QQQ", made, 16)
    wanted_period = 0 if (of_type, config) == DUMMY else period
    return (
        (line_period, line_sample, line_format) == (wanted_period, sample, read_format)
        and line_bits & KEPT == bits & KEPT
        and raw[48:] == made[48:]
        and (words["task"] == "all") == (tid == -1)
        and words["cpu"] == ("any" if cpu < 0 else str(cpu))
        and ("leader" in words) == (group != -1 and not flags & 1)
    )


def wanted_answer(line: Line, words: list[str]) -> tuple[int, bytes]:
    """What a call returns by the report, and the bytes that it writes."""
    if words and words[0].startswith("E"):
        number = EBUSY if line.head == "map" and words[0] == "EMAPPED" else NUMBERS[words[0]]
        return -number, b""
    if line.head != "read":
        return 0, b""
    data = b"".join(int(word).to_bytes(8, "little") for word in words)
    return len(data), data


def probed_id(script: Script, slot: int, program: Program) -> int:
    """The id that the event of a slot drew, at the last of its opens: those before were refused."""
    probe = 0 if slot else 1
    opens = sum(line.head == "open" and line.slot() == slot for line in script.lines["t0"])
    head, lines, order = [line.text for line in script.head], dict[str, list[str]](), list[str]()
    for act in script.acts():
        if not isinstance(act, Line):
            order.append(f"s{act.ring}={act.place}")
            continue
        if act.head == "open" and act.slot() == probe:
            probe = max(slot, probe) + 1
        lines.setdefault(act.actor, []).append(act.text)
        order.append(act.actor)
        opens -= act.head == "open" and act.slot() == slot
        if not opens:
            where = " ".join(word for word in act.words if word.split("=")[0] in ("task", "cpu"))
            lines[act.actor] += [f"open {probe} kind=dummy {where} format=4", f"read {probe}"]
            order += [act.actor, act.actor]
            break
    text = list(head)
    for actor, own in sorted(lines.items()):
        text += [("processor " if actor[0] == "p" else "tool ") + actor[1:], *own]
    for first in range(0, len(order), 100):
        text.append(" ".join(["order", *order[first : first + 100]]))
    report = program.report("\n".join([*text, "end"]) + "\n")
    words = report.replies["t0", len(lines["t0"]) - 1].words
    if len(words) != 2:
        raise Fault(f"no id can be asked for slot {slot}")
    return int(words[1]) - 1
