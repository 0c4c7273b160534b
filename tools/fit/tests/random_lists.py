"""Random lists of a machine's events, held to exhaustive search: what is refused at open, what is never on, each share.

A list depends on the machine, a seed and the list's number alone, so each can be made again by itself.
"""

from __future__ import annotations

import collections
import random
from collections.abc import Iterator, Sequence
from functools import cache

from fit.answering import half_pairs
from fit.events import read_lists
from fit.faults import ProgramFault
from fit.findings import Finding, judged_twice
from fit.machines import Machine
from fit.meanings import Meanings
from fit.plan import Group, Plan, plan_of, watchdog_mask, without
from fit.tests.search import PAIR, Wanted, has_assignment, opened, pinned_on, shares
from perfscript import Fault, Program

SOFTWARE = ("task-clock", "cs", "migrations", "dummy", "page-faults")
WHAT = ("lists", "groups", "refused", "never on", "in turns", "alike")
# how many lists are asked together
BATCH = 50
Seen = collections.Counter[str]


@cache
def known(machine: Machine) -> tuple[list[str], list[int]]:
    """The names that the machine's file has, and the codes of its rows."""
    return [*machine.hardware, *machine.masks], [row.first for row in machine.rows]


def pool_of(pick: random.Random, machine: Machine) -> list[str]:
    """Events of a machine: general names, codes of its rows, and codes at random."""
    names, rows = known(machine)
    codes = [code | (0 if code >> 8 else pick.choice((0, 0x100, 0x1100))) for code in rows]
    codes += [pick.randrange(0x10000) for _ in range(6)]
    return names + [f"r{code:x}" for code in codes if machine.counters_for(code).mask]


def random_event(pick: random.Random, pool: Sequence[str]) -> str:
    name: str = pick.choice(SOFTWARE) if pick.random() < 0.05 else pick.choice(pool)
    return name + pick.choice(("", "", "", ":u", ":k"))


def random_group(pick: random.Random, pool: Sequence[str], pinned: float, exclusive: float = 0) -> str:
    """A group as text: one event, or some in braces."""
    size = pick.choice((1, 1, 1, 2, 2, 3, 4, 5))
    modifier = "D" * (pick.random() < pinned) + "e" * (pick.random() < exclusive)
    if size == 1 and pick.random() < 0.7:
        name = random_event(pick, pool)
        return name + modifier if ":" in name else name + ":" * bool(modifier) + modifier
    events = ",".join(random_event(pick, pool) for _ in range(size))
    return "{" + events + "}" + ":" * bool(modifier) + modifier


def random_list(machine: Machine, seed: int, number: int) -> str:
    """A list as text. In some all groups need the same masks."""
    pick = random.Random(f"{seed} {machine.name} {number}")
    pool = pool_of(pick, machine)
    if pick.random() < 0.2:
        group = random_group(pick, pool, 0)
        return ",".join([group] * pick.randint(2, 6))
    pinned = pick.choice((0, 0.2, 0.5))
    return ",".join(random_group(pick, pool, pinned) for _ in range(pick.randint(1, 7)))


def batches(machine: Machine, seed: int, numbers: Sequence[int]) -> Iterator[tuple[bool, list[str]]]:
    """The lists of these numbers, some together: first all that have no watchdog, then the others, every second one
    where Linux has a watchdog's event."""
    for has_watchdog in (False, True) if machine.watchdog else (False,):
        here = [number for number in numbers if not machine.watchdog or number % 2 == has_watchdog]
        for first in range(0, len(here), BATCH):
            yield has_watchdog, [random_list(machine, seed, number) for number in here[first : first + BATCH]]


def judged_lists(
    program: Program, machines: list[Machine], texts: list[str], has_watchdog: bool
) -> list[list[Finding]]:
    """The findings of each list. The lists share scripts."""
    with Meanings() as meanings:
        plans = [plan_of(read_lists([text]), machines, (), has_watchdog, meanings) for text in texts]
    while True:
        groups = tuple(group for plan in plans for group in plan.groups)
        whole = Plan(tuple(machines), groups, (), has_watchdog)
        found = [findings for findings, _ in judged_twice(program, whole, [plan.asked for plan in plans])]
        refused = [half_pairs(findings) for findings in found]
        if not any(refused):
            return found
        plans = [without(plan, halves) for plan, halves in zip(plans, refused)]


def lists_that_differ(
    program: Program, machine: Machine, seed: int, numbers: Sequence[int], seen: Seen
) -> Iterator[tuple[str, str]]:
    """Each list whose answer is not the search's, and what differs. Counts in `seen` what came up."""
    for has_watchdog, texts in batches(machine, seed, numbers):
        always = [watchdog_mask(machine)] if has_watchdog else []
        named = "--watchdog " * has_watchdog
        for text, findings in zip(texts, asked_for(program, machine, texts, has_watchdog)):
            seen["lists"] += 1
            if not isinstance(findings, list):
                yield f"{named}-e '{text}'", str(findings)
                continue
            for fault in faults_of(findings, always, seen) + reason_faults(findings, machine, always):
                yield f"{named}-e '{text}'", fault


def asked_for(
    program: Program, machine: Machine, texts: list[str], has_watchdog: bool
) -> Sequence[list[Finding] | Fault | ProgramFault]:
    """The findings of each list, or why there are none. Where lists can't be asked together, each is asked alone."""
    try:
        return judged_lists(program, [machine], texts, has_watchdog)
    except (Fault, ProgramFault) as fault:
        if len(texts) == 1:
            return [fault]
    return [found for text in texts for found in asked_for(program, machine, [text], has_watchdog)]


def asks_of(group: Group) -> list[int]:
    """What the events of a group ask for, as the search takes it."""
    return [event.mask | PAIR * event.is_pair for event in group.events]


def wanted_of(group: Group) -> Wanted:
    """The group as the search takes it, with the members that can be opened."""
    asks = asks_of(group)
    return Wanted([asks[place] for place in opened(asks)], group.is_pinned, group.is_exclusive)


def faults_of(findings: list[Finding], always: list[int], seen: Seen) -> list[str]:
    """What of a list's findings is not what the search says of its masks."""
    found = []
    groups = [wanted_of(finding.group) for finding in findings]
    for finding, share in zip(findings, shares(groups, always)):
        asks = asks_of(finding.group)
        out = [place for place in range(len(asks)) if place not in opened(asks)]
        if sorted(finding.refused) != out:
            found.append(f"{finding.group.text}: {sorted(finding.refused)} are refused, and by the search {out}")
        if bool(out) == has_assignment([ask for ask in asks if ask]):
            found.append(f"{finding.group.text}: the search opens the members otherwise than all at once")
        if share * finding.times.enabled != finding.times.running:
            found.append(f"{finding.group.text}: {finding.times}, and by the search {share}")
        if (0 < share < 1 or finding.is_never_on) != finding.waits:
            found.append(f"{finding.group.text}: waits is {finding.waits}")
        seen["refused"] += bool(finding.refused)
        seen["in turns"] += 0 < share < 1
    seen["groups"] += len(groups)
    return found + never_on_faults(findings, groups, always, seen) + alike_faults(findings, groups, seen)


def never_on_faults(findings: list[Finding], groups: list[Wanted], always: list[int], seen: Seen) -> list[str]:
    """A group is never on exactly where it has no assignment together with the pinned groups that are on."""
    found, on = [], pinned_on(groups, always)
    for place, (finding, group) in enumerate(zip(findings, groups)):
        others = [mask for other in on if other != place for mask in groups[other].hardware]
        fits = has_assignment([*always, *others, *group.hardware]) or not group.hardware
        if finding.is_never_on == fits or finding.in_error != (finding.is_never_on and group.is_pinned):
            found.append(f"{finding.group.text}: never on {finding.is_never_on}, in error {finding.in_error}, and by "
                         f"the search it {'fits' if fits else 'does not fit'}")
        seen["never on"] += finding.is_never_on
    return found


def alike_faults(findings: list[Finding], groups: list[Wanted], seen: Seen) -> list[str]:
    """Where all hardware groups are flexible and need the same masks, all have the same share."""
    needs = [sorted(group.hardware) for group in groups if group.hardware]
    if len(needs) < 2 or any(group.is_pinned for group in groups) or any(need != needs[0] for need in needs):
        return []
    found = [finding for finding, group in zip(findings, groups) if group.hardware]
    seen["alike"] += any(finding.waits for finding in found)
    times = {(finding.times.enabled, finding.times.running) for finding in found}
    return [] if len(times) == 1 else [f"groups of equal masks have the times {sorted(times)}"]


def reason_faults(findings: list[Finding], machine: Machine, always: list[int]) -> list[str]:
    """The events of a tight set have one counter fewer together than there are events."""
    found, masks = [], {"the watchdog's cycles": sum(always)}
    for finding in findings:
        for event in finding.group.events:
            # also where Linux refuses it: the reason names it then
            masks[event.name] = event.mask
            masks[f"the second counter of {event.name}"] = event.mask << 1
    for finding in findings:
        for reason in [*finding.refused.values(), finding.reason]:
            if not reason or reason.word != "hall":
                continue
            mask = 0
            for name in reason.names:
                mask |= masks[name]
            count = len(reason.names)
            said = "both need" if count == 2 and "both need" in reason.sentence else (
                f"need {count} counters and have {count - 1}: ")
            is_right = said in reason.sentence and reason.sentence.endswith(machine.counters_of(mask))
            if count - 1 != mask.bit_count() or not is_right:
                found.append(f"{finding.group.text}: the reason is no tight set: {reason.sentence}")
    return found
