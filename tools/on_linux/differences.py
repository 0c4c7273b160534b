"""Which row of docs/LINUX.md a difference is, by what happened before. None stands for no known cause."""

from __future__ import annotations

from collections.abc import Sequence
from typing import TYPE_CHECKING, Any, TypeAlias

from on_linux.doing import Answer, pages_of
from on_linux.kernel import PAGE
from perfscript import Line, Script
from perfscript.attributes import Attribute
from perfscript.follow import Event
from perfscript.names import FORMAT_GROUP, PERIOD

if TYPE_CHECKING:
    from on_linux.compare import Comparison

Row: TypeAlias = str | None
Forms: TypeAlias = Sequence[dict[str, Any]]

# the sample bits that Linux knows (enum perf_event_sample_format)
KNOWN_SAMPLE_BITS = (1 << 25) - 1
ID_NAMES = ("IDENTIFIER", "ID", "STREAM_ID")


def of_refusal(comparison: Comparison, line: Line, refusal: str | None, answer: Answer) -> Row:
    """Where one refuses a line and the other does not, or both do for other reasons."""
    if line.head == "open" and refusal:
        return of_open(comparison, line, refusal, answer)
    event = comparison.follow.slots.get(line.slot()) if line.head in ("map", "read") else None
    if event is None:
        return None
    if line.head == "map" and refusal == "EMAPPED":
        return of_map(event, answer)
    if line.head == "read" and refusal is None and answer.errno == "ECHILD":
        leader = comparison.follow.group(line.slot())[0]
        is_changed = leader.changed_since_fork and comparison.follow.live_copies(leader)
        return "changed-group-read" if is_changed and event.attribute.format & FORMAT_GROUP else None
    return None


def of_open(comparison: Comparison, line: Line, refusal: str, answer: Answer) -> Row:
    attribute = Attribute(line, comparison.script.kinds)
    follow = comparison.follow
    leader = None if attribute.leader is None else follow.slots.get(attribute.leader)
    has_no_leader = attribute.leader is not None and leader is None
    is_live = attribute.task == "all" or int(attribute.task) in follow.tasks - follow.exited
    is_placeless = attribute.task == "all" and attribute.cpu == "any"
    goes_on = answer.errno in later_errnos(attribute, has_no_leader, is_live)
    is_known = not attribute.sample & ~KNOWN_SAMPLE_BITS
    rows = {
        ("ESRCH", "leader-before-task"): answer.errno == "EBADF" and has_no_leader and not is_live,
        ("ESRCH", "leader-of-exited-task"):
            answer.errno == "ENODEV" and leader is not None and leader.task in follow.exited,
        ("ENOPLACE", "leader-before-place"): answer.errno == "EBADF" and has_no_leader and is_placeless,
        ("EINHERIT", "inherit-on-processors"): answer.errno is None and attribute.task == "all",
        ("EGROUP", "group-size"): answer.errno is None,
        ("ESOFTPERIOD", "software-period"): goes_on,
        ("ESAMPLEBITS", "attributes"): goes_on and is_known,
    }
    return next((row for (reason, row), holds in rows.items() if reason == refusal and holds), None)


def later_errnos(attribute: Attribute, has_no_leader: bool, is_live: bool) -> set[str | None]:
    """What an open may be answered that has no other fault, or by the faults of its task and its leader."""
    if attribute.period >> 63 or attribute.format & ~31:
        return {"EINVAL"}
    if has_no_leader:
        return {"EBADF"}
    if not is_live:
        return {"ESRCH"}
    if attribute.task == "all" and attribute.cpu == "any":
        return {"EINVAL"}
    return {None} if attribute.leader is None else {None, "EINVAL"}


def of_map(event: Event, answer: Answer) -> Row:
    if event.is_mapped and answer.errno is None:
        return "second-mapping"
    if event.is_redirected and not event.is_mapped and answer.errno in (None, "EBUSY"):
        return "mapping-while-redirected"
    return None


def of_number_of_words(event: Event, said: Sequence[int], seen: Sequence[int]) -> Row:
    """A member that was closed while mapped stays in its group."""
    is_kept = event.has_kept_member and event.attribute.format & FORMAT_GROUP and len(seen) > len(said) > 0
    return "closed-but-mapped" if is_kept else None


def of_lost_word(comparison: Comparison, member: Event, event: Event, said: int, seen: int) -> Row:
    """In a group read the last copy's own count, which is 0, is written over the original's. Where several events fill
    a ring in one stretch, others of their records are lost."""
    if loses_as_many(comparison, member.ring):
        return "lost-in-a-stretch"
    has_copies = event.attribute.format & FORMAT_GROUP and comparison.follow.live_copies(member)
    return "group-lost-word" if has_copies and seen == 0 < said else None


def of_value(comparison: Comparison, member: Event, said: int, seen: int) -> Row:
    """Where contexts were exchanged, the original counted for the child: a reset clears what an exit had folded."""
    if seen >= said:
        return None
    if member.is_kept_off:
        return "closed-but-mapped"
    is_cleared = "reset" in member.commands and member in comparison.follow.folded
    return "clones" if "clones" in comparison.doing.options and is_cleared else None


def of_time(event: Event, said_rises: bool, seen_rises: bool) -> Row:
    """A sibling that was freed while its leader was off gains the whole time off."""
    if event.is_kept_off and said_rises and not seen_rises:
        return "closed-but-mapped"
    return "closed-leader-time" if event.is_freed_while_off and seen_rises and not said_rises else None


def of_ids(comparison: Comparison, said_before: int, said: int, gap: int) -> Row:
    """Each open that was refused behind the allocation of its event has used an id."""
    if said != said_before + 1:
        return None
    refused, is_between = 0, False
    for act in comparison.script.acts():
        if not isinstance(act, Line) or act.head != "open":
            continue
        if comparison.report.refusal(act):
            refused += is_between
        else:
            number = comparison.follow.opened.get(act.name)
            is_between = number == said_before or is_between and number != said
    return "ids-of-refused-opens" if 1 < gap <= 1 + refused else None


def of_copies(copies: Sequence[Event]) -> Row:
    """A fork makes copies by processor, `any` first, and not by the list of groups."""
    return "order-of-copies" if len({copy.attribute.cpu for copy in copies}) > 1 else None


class Said(dict[str, Any]):
    """A record of the report in its normal form, and the id of the original whose copy it is of, if it is of one."""

    def __init__(self, record: dict[str, Any], original: int | None) -> None:
        super().__init__(record)
        self.original = original


def of_ring(comparison: Comparison, ring: int, said: Sequence[Said], seen: Forms) -> Row:
    """Of two lists of records in their normal form (rings.py), which differ: the row that makes one of the other."""
    return next((name for name, explains in RING_ROWS if explains(comparison, ring, said, seen)), None)


def id_of(record: dict[str, Any]) -> Any:
    """The id of the event that a record names."""
    return record.get("IDENTIFIER", record.get("ID", record.get("id")))


def without(record: dict[str, Any], names: Sequence[str] = ("STREAM_ID",)) -> dict[str, Any]:
    return {name: value for name, value in record.items() if name not in names}


def is_longer(said: Forms, seen: Forms) -> bool:
    """Whether Linux has the same records and more behind them."""
    return len(seen) > len(said) and seen[: len(said)] == said


def is_other_order(_comparison: Comparison, _ring: int, said: Forms, seen: Forms) -> bool:
    """The same records of each event in the same order, but interleaved otherwise."""

    def by_event(records: Forms) -> dict[Any, Forms]:
        return {number: [record for record in records if id_of(record) == number] for number in map(id_of, records)}

    apart = by_event(said)
    is_of_samples = all(record["type"] == "SAMPLE" for record in said)
    return len(apart) > 1 and None not in apart and apart == by_event(seen) and is_of_samples


def loses_as_many(comparison: Comparison, ring: int | None) -> bool:
    """Whether a ring of several sampling events has lost records, on both sides as many as far as the kernel tells."""
    if ring is None or ring not in comparison.report.rings:
        return False
    writers = {event for event in comparison.follow.writers.get(ring, []) if event.attribute.period}
    lost = comparison.report.rings[ring].lost
    counts = [comparison.doing.lost.get(event.slot) if event.is_open else None for event in writers]
    known = [count for count in counts if count is not None]
    return len(writers) > 1 and lost > 0 and (len(known) < len(counts) or sum(known) == lost)


def loses_others(comparison: Comparison, ring: int, said: Forms, seen: Forms) -> bool:
    """Where several events overflow in the stretch that fills the ring, other events' records are lost: as many records
    of the same type, size, mode and lost count stand there in their places."""

    def plain(records: Forms) -> list[list[Any]]:
        return [[record.get(name) for name in ("type", "size", "mode", "lost")] for record in records]

    ids = {event.id for event in comparison.follow.writers.get(ring, [])}
    is_whole = not any("odd" in record for record in seen)
    return loses_as_many(comparison, ring) and is_whole and set(map(id_of, seen)) <= ids and plain(said) == plain(seen)


def has_ids_of_first(comparison: Comparison, ring: int, said: Forms, seen: Forms) -> bool:
    """Of two software events that send at one occurrence, the second one's sample has the ids of the first."""
    ids = {event.id for event in comparison.follow.writers.get(ring, [])}

    def plain(records: Forms) -> list[str]:
        return sorted(str(without(record, ID_NAMES)) for record in records)

    given = {record.get("IDENTIFIER", record.get("ID")) for record in seen}
    return len(ids) > 1 and plain(said) == plain(seen) and given < ids


def is_sampled_each_time(comparison: Comparison, ring: int, said: Forms, seen: Forms) -> bool:
    """With PERF_SAMPLE_PERIOD a software event sends a record for each occurrence, with 1 as its period."""
    writers = comparison.follow.writers.get(ring, [])
    if not writers or not all(event.attribute.sample & PERIOD and event.period > 1 for event in writers):
        return False
    others = [without(record, ["PERIOD"]) for record in seen]
    is_each = len(seen) > len(said) and all(record.get("PERIOD") == 1 for record in seen)
    return is_each and all(without(record, ["PERIOD"]) in others for record in said)


def is_sent_at_once(comparison: Comparison, ring: int, said: Forms, seen: Forms) -> bool:
    """After PERIOD on a running software event its next occurrence sends a record: as many records as that makes."""
    writers = comparison.follow.writers.get(ring, [])
    if "held" not in comparison.doing.options or len(writers) != 1 or writers[0].attribute.has("inherit"):
        return False
    is_whole = not any("odd" in record or record["type"] != "SAMPLE" for record in seen)
    return is_whole and len(seen) != len(said) and len(seen) == software_overflows(comparison.script, writers[0])


class SoftwarePeriod:
    """What is left of a software event's period (perf_swevent_set_period): it counts up from minus the period to 0."""

    def __init__(self, period: int) -> None:
        self.period = self.last = period
        self.left = -period
        self.sent = 0

    def occur(self, count: int) -> None:
        for _ in range(count):
            self.left += 1
            if self.left >= 0:
                self.left -= (self.last + self.left) // self.last * self.last
                self.last = self.period
                self.sent += 1

    def restart(self, period: int) -> None:
        """PERIOD while the event is on: 0 is left, and the present period is used up before the new one."""
        self.last, self.period, self.left = self.period, period, 0


def software_overflows(script: Script, event: Event) -> int:
    """How many samples a software event sends in a script whose task runs while PERIOD is asked for."""
    state, running, is_open = SoftwarePeriod(event.attribute.period), dict[str, str](), False
    for act in script.acts():
        if not isinstance(act, Line):
            continue
        if act.head == "switch":
            running[act.actor] = act.words[0]
        elif act.head == "open" and act.slot() == event.slot:
            is_open = True
        elif act.head == "period" and act.slot() == event.slot:
            state.restart(int(act.words[1]))
        elif act.head == "work" and is_open and running.get(act.actor) == str(event.task):
            state.occur(pages_of(act))
    return state.sent


def is_kept_by_mapping(comparison: Comparison, ring: int, said: Forms, seen: Forms) -> bool:
    """An event that was closed while its ring is mapped goes on writing."""
    writers = comparison.follow.writers.get(ring, [])
    return any(event.is_mapped and not event.is_open for event in writers) and is_longer(said, seen)


def is_seen_within_a_line(comparison: Comparison, _ring: int, said: Forms, seen: Forms) -> bool:
    """A tail that moves within a line of work makes room at once."""
    return "early-looks" in comparison.doing.options and is_longer(said, seen)


def is_rounded_up(comparison: Comparison, ring: int, said: Forms, seen: Forms) -> bool:
    """A mapping has whole pages."""
    is_rounded = comparison.script.rings[ring] < PAGE == comparison.doing.rings[ring].mapping.size
    return is_rounded and is_longer(said, seen)


def is_behind_lost(_comparison: Comparison, _ring: int, said: Sequence[Said], seen: Forms) -> bool:
    """A copy's sample behind a LOST record with a trailer has the original's STREAM_ID."""
    for before, one, other in zip([Said({}, None), *said], said, seen):
        is_behind = before.get("type") == "LOST" and "trailer" in before
        is_of_original = without(one) == without(other) and other.get("STREAM_ID") == one.original
        if one != other and not (is_behind and is_of_original):
            return False
    return len(said) == len(seen)


def is_exchanged(comparison: Comparison, _ring: int, said: Sequence[Said], seen: Forms) -> bool:
    """Where contexts were exchanged, samples of the child have the original's STREAM_ID."""
    if "clones" not in comparison.doing.options or len(said) != len(seen):
        return False
    return all(without(one) == without(other) and other.get("STREAM_ID") in (one.get("STREAM_ID"), one.original)
               for one, other in zip(said, seen))


RING_ROWS = (
    ("record-order", is_other_order),
    ("lost-in-a-stretch", loses_others),
    ("ids-at-one-occurrence", has_ids_of_first),
    ("software-sample-period", is_sampled_each_time),
    ("period-while-running", is_sent_at_once),
    ("closed-but-mapped", is_kept_by_mapping),
    ("tail-reads", is_seen_within_a_line),
    ("rings-below-a-page", is_rounded_up),
    ("sample-behind-lost", is_behind_lost),
    ("clones", is_exchanged),
)
