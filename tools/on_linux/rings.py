"""Compares what stands on the rings: the records in their normal form, heads, tails and lost counts."""

from __future__ import annotations

from collections.abc import Callable, Sequence
from typing import TYPE_CHECKING, Any, NamedTuple, TypeAlias

from on_linux import differences, records, rules
from on_linux.doing import Doing, Stream
from perfscript import Record, Ring
from perfscript.attributes import Attribute
from perfscript.follow import Event
from perfscript.names import IDENTIFIER, LOST, SAMPLE

if TYPE_CHECKING:
    from on_linux.compare import Comparison

USER, KERNEL = 2, 1
KERNEL_SPACE = 1 << 63
ID_FIELDS = {"ID", "IDENTIFIER", "STREAM_ID"}
# a record in its normal form; an id, a thread or a processor that is not known is a tuple
Form: TypeAlias = dict[str, Any]


class Layouts:
    """Which fields the records of a ring have, by the events that write to it."""

    def __init__(self, writers: Sequence[Event]) -> None:
        self.by_id = {event.id: event.attribute for event in writers}
        self.attributes = [event.attribute for event in writers if event.attribute.period]
        samples = {attribute.sample for attribute in self.attributes}
        self.is_one = len(samples) == 1
        self.is_known = self.is_one or all(sample & IDENTIFIER for sample in samples)

    def of(self, record: Record, side: Side) -> list[str] | None:
        """The names of a record's fields; None where it is of no known event."""
        if record.type == SAMPLE and self.is_one:
            return self.attributes[0].field_names()
        attribute: Attribute | None = self.by_id.get(side.id(record.body[0])) if record.body else None
        if attribute is None:
            return None
        return attribute.field_names() if record.type == SAMPLE else ["id", "lost", *attribute.trailer_names()]


class Side(NamedTuple):
    """How one side, the report or the kernel, spells ids, threads and processors."""

    id: Callable[[int], Any]
    thread: Callable[[int], Any]
    cpu: Callable[[int], Any]
    is_plausible: Callable[[int, int], bool]

    def field(self, name: str, word: int, mode: int) -> Any:
        """A field of a record in its normal form."""
        if name == "IP":
            return "an address of the mode" if self.is_plausible(mode, word) else ("no address of the mode", word)
        if name == "TIME":
            return "a time"
        spelled = {"TID": self.thread, "CPU": self.cpu} | dict.fromkeys([*ID_FIELDS, "id"], self.id)
        return spelled[name](word) if name in spelled else word


def said_side() -> Side:
    def thread(word: int) -> Any:
        process, number = word & 0xFFFFFFFF, word >> 32
        return process - 1 if process == number else ("no thread", word)

    return Side(lambda word: word, thread, lambda word: word, lambda mode, word: True)


def seen_side(doing: Doing) -> Side:
    def thread(word: int) -> Any:
        process, number = records.halves(word)
        return doing.processes.get(process, ("no task", process, number)) if process == number else ("no thread", word)

    def cpu(word: int) -> Any:
        number, rest = records.halves(word)
        return doing.cpus.index(number) if not rest and number in doing.cpus else ("no processor", word)

    def is_plausible(mode: int, word: int) -> bool:
        return word != 0 and (word >= KERNEL_SPACE) == (mode == KERNEL)

    return Side(lambda word: doing.ids.get(word, ("copy", word)), thread, cpu, is_plausible)


def normal(record: Record, side: Side, layouts: Layouts) -> Form:
    """A record in a form that both sides share; `odd` says what can't be read."""
    if record.type not in (SAMPLE, LOST):
        return {"type": f"type {record.type}"}
    mode = record.misc & records.MODE if record.type == SAMPLE else record.misc
    form: Form = {"type": "SAMPLE" if record.type == SAMPLE else "LOST", "mode": mode, "size": record.size}
    names = layouts.of(record, side)
    found = None if names is None else records.fields(record, names)
    if found is None:
        return {**form, "odd": record.body}
    form |= {name: side.field(name, word, mode) for name, word in found.items()}
    if record.type == LOST and len(found) > 2:
        form["trailer"] = True
    return form


def compare(comparison: Comparison) -> None:
    """Compares all rings that the report has."""
    for number, ring in comparison.report.rings.items():
        stream = comparison.doing.rings.get(number)
        writers = comparison.follow.writers.get(number, [])
        layouts = Layouts(writers)
        if stream is None:
            is_empty = not any((ring.head, ring.tail, ring.lost, ring.pending))
            comparison.check(f"ring {number}", rules.MAP, is_empty, ring.text, "not mapped", None, ring.place)
        elif any(event.task is None for event in writers):
            comparison.skipped.append(f"ring {number}: samples of `task=all` are those of all that runs")
        elif not layouts.is_known:
            comparison.skipped.append(f"ring {number}: samples of several layouts, not all with IDENTIFIER")
        else:
            OneRing(comparison, ring, stream, layouts, writers).compare()


class OneRing:
    """The comparison of one ring."""

    def __init__(
        self, comparison: Comparison, ring: Ring, stream: Stream, layouts: Layouts, writers: Sequence[Event]
    ) -> None:
        self.comparison, self.ring, self.stream, self.writers = comparison, ring, stream, writers
        self.raw_said, self.raw_seen = ring.records, records.of_stream(stream.data)
        seen = seen_side(comparison.doing)
        said = [normal(record, said_side(), layouts) for record in self.raw_said]
        self.seen = [normal(record, seen, layouts) for record in self.raw_seen]
        # each sample of a copy has its original's id beside it, from which the row of a difference may be read
        originals = {copy.id: copy.original.id for copy in comparison.follow.all_copies if copy.original}
        self.said = [differences.Said(form, originals.get(form.get("STREAM_ID", 0))) for form in said]
        self.pair_copies()

    def pair_copies(self) -> None:
        """No call gives the kernel's id of a copy: each new one stands for the id at its place in the report."""
        pairs = self.comparison.copy_ids
        for said, seen in zip(self.said, self.seen):
            one, other = said.get("STREAM_ID"), seen.get("STREAM_ID")
            if isinstance(other, tuple) and one is not None and one not in pairs.values():
                pairs.setdefault((other[0], other[1]), one)
        for seen in self.seen:
            if "STREAM_ID" in seen:
                seen["STREAM_ID"] = pairs.get(seen["STREAM_ID"], seen["STREAM_ID"])

    def check(self, what: str, rule: str, is_same: bool, said: object = "", seen: object = "", row: str | None = None,
              place: int | None = None) -> None:
        about = f"ring {self.ring.number}, {what}"
        self.comparison.check(about, rule, is_same, said, seen, row, place or self.ring.place)

    def compare(self) -> None:
        row = None
        if self.said == self.seen:
            self.all_same()
        else:
            row = differences.of_ring(self.comparison, self.ring.number, self.said, self.seen)
            self.first_difference(row)
        self.ends(row)
        self.times()
        self.exact_addresses()

    def all_same(self) -> None:
        """Counts what was seen for each rule."""
        for place, form in enumerate(self.said, 1):
            is_lost = form["type"] == "LOST"
            self.check(f"record {place}", rules.FULL if is_lost else rules.LAYOUT, True)
            if form.get("trailer"):
                self.check(f"record {place}", rules.TRAILER, True)
            if not is_lost and ID_FIELDS & set(form):
                self.check(f"record {place}", rules.OVERFLOW, True)
        self.check("number of records", rules.SAMPLES, True)
        if len({form.get("IDENTIFIER") for form in self.said} - {None}) > 1:
            self.check("order of records", rules.SENDING, True)

    def first_difference(self, row: str | None) -> None:
        rule = rules.OF_ROWS.get(row or "")
        for place, (said, seen) in enumerate(zip(self.said, self.seen)):
            if said != seen:
                texts, at = (text(said), text(seen)), self.raw_said[place].place
                self.check(f"record {place + 1}", rule or self.rule_of(said, seen), False, *texts, row, at)
                return
        counts = f"{len(self.said)} records", f"{len(self.seen)} records"
        has_lost = any(form["type"] == "LOST" for form in self.said + self.seen) or self.ring.lost
        self.check("number of records", rule or (rules.FULL if has_lost else rules.SAMPLES), False, *counts, row)

    def rule_of(self, said: Form, seen: Form) -> str:
        """The rule that a difference of two records is about."""
        names = {name for name in {**said, **seen} if said.get(name) != seen.get(name)}
        if "type" in names or said["type"] == "LOST" and {"id", "lost", "mode"} & names:
            return rules.FULL
        if said["type"] == "LOST":
            return rules.TRAILER
        if sorted(map(text, self.said)) == sorted(map(text, self.seen)):
            return rules.SENDING
        return rules.OVERFLOW if names <= {*ID_FIELDS, "PERIOD"} else rules.LAYOUT

    def ends(self, row: str | None) -> None:
        """Head and tail, which records are taken, and how many were lost, where each event that wrote tells."""
        ring, stream = self.ring, self.stream
        rule = rules.OF_ROWS.get(row or "", rules.FULL)
        self.same("head", rule, f"head={ring.head}", f"head={stream.head}", row)
        self.same("tail", rules.FULL, f"tail={ring.tail}", f"tail={stream.tail}")
        said = [record.is_taken for record in self.raw_said]
        taken = [record.end <= stream.tail for record in self.raw_said]
        self.check("records taken", rules.FULL, said == taken, f"{sum(said)} taken", f"{sum(taken)} taken")
        reported = sum(record.body[1] for record in self.raw_seen if record.type == LOST)
        lost = f"lost={ring.lost} pending={ring.pending}"
        is_same = ring.lost - ring.pending == reported
        self.check("lost but pending", rules.FULL, is_same, lost, f"{reported} in LOST records", row)
        counts = [self.comparison.doing.lost.get(event.slot) if event.is_open else None for event in set(self.writers)]
        known = [count for count in counts if count is not None]
        if counts and len(known) == len(counts):
            seen = f"lost={sum(known)} pending={sum(known) - reported}"
            self.same("lost and pending", rules.LOST_COUNT, lost, seen, row)

    def same(self, what: str, rule: str, said: str, seen: str, row: str | None = None) -> None:
        """Both sides have to say the same."""
        self.check(what, rule, said == seen, said, seen, row)

    def times(self) -> None:
        """The kernel's times don't fall from record to record of one processor."""
        last: dict[Any, int] = {}
        for record, form in zip(self.raw_seen, self.seen):
            names = [name for name in form if name not in ("type", "mode", "size", "trailer", "odd")]
            if "TIME" not in names or "odd" in form:
                continue
            time, cpu = record.body[names.index("TIME")], form.get("CPU", "one")
            if last.get(cpu, 0) > time or not 0 < time < KERNEL_SPACE:
                self.check("times", rules.LAYOUT, False, "times that rise", f"{last.get(cpu, 0)} then {time}")
            last[cpu] = time

    def exact_addresses(self) -> None:
        """Linux may set PERF_RECORD_MISC_EXACT_IP."""
        for place, record in enumerate(self.raw_seen, 1):
            rest = record.misc & ~records.MODE
            if record.type == SAMPLE and rest:
                row = "exact-ip" if rest == records.EXACT_IP else None
                self.check(f"record {place}, misc", rules.LAYOUT, False, "mode alone", f"{record.misc:#x}", row)


def text(form: Form) -> str:
    return " ".join(f"{name}={value}" for name, value in form.items() if value is not True)
