"""Prints the findings: what fails first, then the table of perf stat with counters and causes beside it; or as JSON."""

from __future__ import annotations

import json
import textwrap
from collections.abc import Sequence
from typing import Any

from fit.answering import Answer
from fit.answers import Times
from fit.findings import Finding
from fit.machines import Machine
from fit.plan import Reason
from perfscript.limits import MOST_MEMBERS

COUNTED, NOT_COUNTED, NOT_SUPPORTED = "", "<not counted>", "<not supported>"
HEAD = ("", "event", "share", "at the start", "waits")
WIDTH_OF_NOTES = 112


def percent(times: Times) -> str:
    """The share as perf stat prints it from the two times: none where the event ran all the time."""
    if times.running == times.enabled:
        return ""
    return f"({100.0 * times.running / times.enabled:.2f}%)"


def is_read_in_vain(finding: Finding) -> bool:
    """Whether perf can't read the group: one of its opens was refused, and perf wants a value of each member."""
    return bool(finding.refused) and len(finding.group.events) > 1


def mark_of(finding: Finding, place: int) -> str:
    """What perf stat prints in place of a count that it has not."""
    if place in finding.refused:
        return NOT_SUPPORTED
    return NOT_COUNTED if finding.is_never_on or is_read_in_vain(finding) else COUNTED


def failures(findings: Sequence[Finding]) -> list[list[str]]:
    """A block of lines for each group that fails."""
    return [lines_of_failure(finding) for finding in findings if finding.fails or finding.group.is_beyond]


def lines_of_failure(finding: Finding) -> list[str]:
    """Which group can't be counted, and why."""
    lines, group = [], finding.group
    if group.is_beyond:
        beyond = group.beyond or f"it has {len(group.members)} members, and the program takes {MOST_MEMBERS}"
        return [f"{group.text} is beyond this program:", *wrapped("    ", f"{beyond}.")]
    if finding.refused:
        together = " together" if len(group.events) > 1 else ""
        lines.append(f"{group.text} can never be counted{together}:")
        for place, reason in finding.refused.items():
            lines += wrapped("    ", f"{reason.sentence}.")
            lines.append(f"    So the open of {group.events[place].name} is refused.")
        lines += what_perf_does(finding)
    if finding.is_never_on:
        rest = "What is left of it" if finding.refused else group.text
        word = "is in error and never on" if finding.in_error else "is opened and never on"
        assert finding.reason
        lines += [f"{rest} {word}:", *wrapped("    ", f"{finding.reason.sentence}.")]
    return lines


def what_perf_does(finding: Finding) -> list[str]:
    """What perf prints for the rest of a group of which an open was refused."""
    rest = len(finding.group.events) - len(finding.refused)
    if finding.group.is_stopped:
        return ["    It is the leader of a group. There perf stat ends with an error, and counts nothing at all."]
    if not rest or finding.is_never_on:
        return []
    who, does = ("the others", "they run") if rest > 1 else ("the other", "it runs")
    if any(event.mask for place, event in enumerate(finding.group.events) if place not in finding.refused):
        does = "they hold counters and run" if rest > 1 else "it holds a counter and runs"
    return [f"    perf prints {NOT_COUNTED} for {who} too, though {does}."]


def summary(findings: Sequence[Finding]) -> str:
    """What becomes of the groups that do not fail."""
    rest = [finding for finding in findings if finding.group.is_asked and not finding.is_never_on]
    waiting = [finding for finding in rest if finding.waits]
    if not rest:
        return "No event is ever on."
    if waiting:
        every = "Both" if len(findings) == 2 else f"All {len(findings)}"
        count = every if len(waiting) == len(findings) else f"{len(waiting)} of the {len(findings)}"
        return f"{count} groups {'are' if len(waiting) > 1 else 'is'} on part of the time."
    is_part = len(rest) < len(findings) or any(finding.refused for finding in findings)
    who = "Everything else counts" if is_part else "All events are on"
    moves = any(percent(finding.times) for finding in rest)
    return f"{who} {'whenever the task is on their kind of core' if moves else 'all the time'}."


def seat_of(finding: Finding, place: int) -> str:
    """On which counters an event was at the start, on the first processor that has its group."""
    event = finding.group.events[place]
    if not finding.group.is_asked:
        return "not asked" if finding.group.is_beyond else "not opened"
    if not event.machine:
        return "no counter needed" if not finding.group.is_hardware else "none needed"
    if event.need.counters.metric is not None:
        return "in slots"
    seats: dict[int, list[int]] = next(iter(finding.seats.values()), {})
    return " and ".join(map(event.machine.counter_name, sorted(seats[place]))) if place in seats else "off"


def note_of(finding: Finding, place: int, notes: list[str]) -> str:
    """The number of the note that says why the group waits, beside its leader. New sentences are added to the notes."""
    if place or not finding.group.is_asked or (not finding.waits and not percent(finding.times)):
        return ""
    if finding.is_never_on:
        return "see above"
    sentence = finding.reason.sentence if finding.reason else "the task is also on another kind of core"
    if sentence not in notes:
        notes.append(sentence)
    return f"[{notes.index(sentence) + 1}]"


def rows_of(findings: Sequence[Finding], notes: list[str]) -> list[tuple[str, ...]]:
    """The cells of each event's row. perf prints a share only where it read a value, or found the group never on."""
    rows: list[tuple[str, ...]] = []
    for finding in findings:
        for place, event in enumerate(finding.group.events):
            is_refused = place in finding.refused
            has_share = finding.group.is_asked and not is_refused and not is_read_in_vain(finding)
            share = percent(finding.times) if has_share else ""
            seat = "" if is_refused else seat_of(finding, place)
            note = "" if is_refused else note_of(finding, place, notes)
            rows.append((mark_of(finding, place), event.name, share, seat, note))
    return rows


def table(findings: Sequence[Finding]) -> list[str]:
    """The table: perf stat's columns, two of its own, and the sentences that its last column numbers."""
    notes: list[str] = []
    rows = [HEAD, *rows_of(findings, notes)]
    widths = [max(len(row[at]) for row in rows) for at in range(4)]
    lines = []
    for mark, name, share, seat, note in rows:
        line = f"{mark:>18}      {name:<{max(25, widths[1])}}  {share:>{widths[2]}}  {seat:<{widths[3]}}  {note}"
        lines.append(line.rstrip())
    for number, sentence in enumerate(notes, 1):
        lines += wrapped(f"[{number}] ", sentence)
    return lines


def wrapped(mark: str, sentence: str) -> list[str]:
    """The lines of a sentence behind a mark."""
    lines = textwrap.wrap(sentence, WIDTH_OF_NOTES - len(mark), break_long_words=False, break_on_hyphens=False)
    return [(" " * len(mark) if at else mark) + line for at, line in enumerate(lines)]


def text_of(findings: Sequence[Finding], hints: Sequence[str] = ()) -> list[str]:
    """The whole answer."""
    blocks = failures(findings) + [[summary(findings)], ["", *table(findings)]]
    lines = [line for block in blocks for line in block]
    if hints:
        lines += ["", "What Linux and perf know beside the counters:"]
        for hint in hints:
            lines += wrapped("  - ", hint + ".")
    return lines


def event_as_json(finding: Finding, place: int) -> dict[str, Any]:
    """An event for programs."""
    event = finding.group.events[place]
    seats = {processor: seats[place] for processor, seats in finding.seats.items() if place in seats}
    machine = event.machine
    counters = {}
    for processor, numbers in seats.items():
        if machine:
            counters[str(processor)] = " and ".join(map(machine.counter_name, sorted(numbers)))
    state = {COUNTED: "counted", NOT_COUNTED: "not counted", NOT_SUPPORTED: "not supported"}[mark_of(finding, place)]
    return {
        "name": event.name,
        "state": state,
        "counters": needs_of(machine, event.mask),
        "counters_at_start": counters,
        "refused": reason_as_json(finding.refused.get(place)),
    }


def needs_of(machine: Machine | None, mask: int) -> str | None:
    return machine.counters_of(mask) or None if machine else None


def reason_as_json(reason: Reason | None) -> dict[str, Any] | None:
    """A reason for programs, none where there is none."""
    return {"word": reason.word, "names": reason.names, "sentence": reason.sentence} if reason else None


def group_as_json(finding: Finding) -> dict[str, Any]:
    """A group for programs. `percent` is its share whether or not perf prints it."""
    group, times = finding.group, finding.times
    return {
        "number": group.number,
        "text": group.text,
        "pinned": group.is_pinned,
        "exclusive": group.is_exclusive,
        "asked": group.is_asked,
        "enabled": times.enabled,
        "running": times.running,
        "percent": f"{100.0 * times.running / times.enabled:.2f}" if times.enabled else None,
        "waits": finding.waits,
        "reason": reason_as_json(finding.reason),
        "in_error": finding.in_error,
        "events": [event_as_json(finding, place) for place in range(len(group.events))],
    }


def json_of(answer: Answer, program: Any, hints: Sequence[str], runs: Any) -> str:
    """The whole answer for programs."""
    plan = answer.plan
    machines = [
        {"name": machine.name, "identity": machine.identity or None, "processors": machine.processors}
        for machine in plan.machines
    ]
    found = {
        "program": program.path,
        "note": program.note or None,
        "machines": machines,
        "context": "task" if plan.is_task else {"processors": plan.processors},
        "watchdog": plan.has_watchdog,
        "fails": any(finding.fails for finding in answer.findings),
        "groups": [group_as_json(finding) for finding in answer.findings],
        "hints": list(hints),
    }
    if runs:
        found["repeat"] = runs
    return json.dumps(found, indent=2)
