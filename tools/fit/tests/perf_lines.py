"""Lines of `perf stat` that users type, with what must come of them on some machines: the table perf_lines.toml.

What comes of a line is a word for each event, in perf's order: `on` all the time, a share in percent, `never` on,
`refused` at its open, `none` where it needs no counter, `beyond` the program; `75.00*3` is three of them. `split` says
how many groups perf took apart, and `status` what perf ended with where that is not 0.
"""

from __future__ import annotations

import itertools
import os
import re
import shlex
import tempfile
import tomllib
from dataclasses import dataclass
from typing import NamedTuple

from double.testing import text_in
from fit.findings import Finding
from fit.perf_opens import Wish
from fit.perf_words import read_words
from fit.plan import watchdog_mask
from fit.table import is_read_in_vain, percent
from fit.tests.search import PAIR, Wanted, has_assignment, opened, shares
from fit.with_perf import Done, done_by, machine_of
from perfscript import Program

PATH = os.path.join(os.path.dirname(os.path.abspath(__file__)), "perf_lines.toml")


class Case(NamedTuple):
    """A line on a machine, and what must come of it."""

    machine: str
    words: str
    outcome: str

    @property
    def has_watchdog(self) -> bool:
        return self.words.startswith("--watchdog")


@dataclass(frozen=True)
class Came:
    """What came of a line: perf's status and output, and what the tool says."""

    case: Case
    done: Done
    printed: str


def cases() -> list[Case]:
    """All cases of the table."""
    with open(PATH, "rb") as file:
        table = tomllib.load(file)
    return [Case(machine, words, outcome) for machine, lines in table.items() for words, outcome in lines.items()]


def come(program: Program, case: Case) -> Came:
    """Runs a line."""
    call = read_words(["perf", "stat", *shlex.split(case.words.removeprefix("--watchdog"))])
    machine = machine_of(case.machine, False, call.values("cpu"))
    with tempfile.TemporaryFile() as file:
        done = done_by(program, machine, case.has_watchdog, call, (file.fileno(), file.fileno()))
        return Came(case, done, text_in(file.fileno()))


def outcome(done: Done) -> str:
    """What came of a line, as the table has it."""
    if done.answer is None:
        return f"status {done.status}"
    words: dict[int, str] = {}
    for finding in done.answer.findings:
        for place, event in enumerate(finding.group.events):
            words[event.number] = word_of(finding, place)
    runs = [(word, len(list(same))) for word, same in itertools.groupby(words[number] for number in sorted(words))]
    text = " ".join(f"{word}*{count}" if count > 1 else word for word, count in runs)
    count = sum("takes the weak group" in note for note in done.answer.plan.notes)
    return text + f" split {count}" * bool(count) + f" status {done.status}" * bool(done.status)


def word_of(finding: Finding, place: int) -> str:
    """What became of an event."""
    if place in finding.refused:
        return "refused"
    if finding.group.is_beyond:
        return "beyond"
    if not finding.group.is_asked:
        return "stopped"
    if not finding.group.is_hardware:
        return "none"
    if finding.is_never_on:
        return "never"
    return percent(finding.times).strip("(%)") or "on"


def faults(came: Came) -> list[str]:
    """What of a line's outcome is not what the exhaustive search says, or not what perf printed."""
    answer = came.done.answer
    if answer is None:
        return []
    machine = answer.plan.machines[0]
    findings = [finding for finding in answer.findings if finding.group.is_asked]
    found, groups = [], []
    for finding in findings:
        asks = [event.mask | PAIR * event.is_pair for event in finding.group.events]
        refused = [place for place, event in enumerate(finding.group.events) if event.refused]
        places = [place for place in opened(asks) if place not in refused]
        if sorted(finding.refused) != [place for place in range(len(asks)) if place not in places]:
            found.append(f"{finding.group.text}: refused {sorted(finding.refused)}, and the search opens {places}")
        groups.append(Wanted([asks[place] for place in places], finding.group.is_pinned, finding.group.is_exclusive))
    always = [watchdog_mask(machine)] if came.case.has_watchdog else []
    for finding, share in zip(findings, shares(groups, always)):
        if share * finding.times.enabled != finding.times.running:
            found.append(f"{finding.group.text}: {finding.times}, and the search has {share}")
    return found + split_faults(came.done, "-M" in came.case.words) + printed_faults(came, findings)


def split_faults(done: Done, is_metric: bool) -> list[str]:
    """Where perf takes a weak group apart that has an assignment, or does not where it has none. A metric's groups are
    weak, and so is each that perf took apart."""
    found = []
    for leader in done.opens.wishes:
        if leader.leader or len(leader.group) < 2 or leader.beyond or leader.attempt.attribute.need.refused:
            # where the leader is refused perf ends
            continue
        is_apart = any(done.opens.last[one].is_again for one in leader.group if one in done.opens.last)
        if (is_metric or is_apart) and is_apart == has_counters(leader.group):
            names = ",".join(wish.name for wish in leader.group)
            found.append(f"the weak group {{{names}}} is {'' if is_apart else 'not '}taken apart")
    return found


def has_counters(group: list[Wish]) -> bool:
    """Whether Linux opens a group as a whole, by exhaustive search over the counters that its events may be on."""
    needs = [wish.attempt.attribute.need for wish in group]
    parts = [need.counters.metric for need in needs if need.counters.metric is not None]
    is_open = not parts or (needs[0].is_slots and len(set(parts)) == len(parts))
    is_open &= not any({"pinned", "exclusive"} & {*wish.attempt.attribute.asked.words} for wish in group[1:])
    asks = [need.counters.mask | PAIR * ("pair" in need.counters.marks) for need in needs if need.is_core]
    return is_open and not any(need.refused for need in needs) and has_assignment([ask for ask in asks if ask])


def printed_faults(came: Came, findings: list[Finding]) -> list[str]:
    """Where perf's usual output has other shares than the tool's table."""
    if "Performance counter stats" not in came.printed or "--topdown" in came.case.words:
        return []
    printed = set(re.findall(r"\(\d+\.\d\d%\)", came.printed))
    wanted = {percent(finding.times) for finding in findings if not is_read_in_vain(finding)} - {""}
    return [] if printed == wanted else [f"perf printed {sorted(printed)}, and the table has {sorted(wanted)}"]
