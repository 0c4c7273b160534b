"""The whole answer to a plan: asks the program, and again where what it answers has perf or Linux change the plan."""

from __future__ import annotations

from dataclasses import dataclass

from fit.findings import Finding, judged_twice, started
from fit.plan import Plan, Reason, split, without
from fit.script import Script
from perfscript import Program


@dataclass(frozen=True)
class Answer:
    """The plan as it is at last, what becomes of each group, and the script that was asked, none where none was."""

    plan: Plan
    findings: list[Finding]
    script: Script | None


def answer_to(program: Program, plan: Plan) -> Answer:
    """Asks until no weak group is left that has to be taken apart, and no pair of which one counter alone was found."""
    while True:
        found, script = asked(program, plan)
        refused = half_pairs(found)
        if refused:
            plan = without(plan, refused)
            continue
        weak = weak_groups(plan, found)
        if not weak:
            return Answer(plan, all_findings(plan, found), script)
        plan = split(plan, weak)


def asked(program: Program, plan: Plan) -> tuple[list[Finding], Script | None]:
    if not plan.asked:
        return [], None
    [(found, script)] = judged_twice(program, plan, [plan.asked])
    return found, script


def all_findings(plan: Plan, found: list[Finding]) -> list[Finding]:
    """The findings of all groups in order, also of those that the program is not asked about."""
    by_number = {finding.group.number: finding for finding in found}
    return [by_number.get(group.number) or started(group) for group in plan.groups]


def half_pairs(found: list[Finding]) -> dict[tuple[int, int], Reason]:
    """The events of which one of two counters was refused and the other not: Linux refuses such an event whole."""
    refused = {}
    for finding in found:
        for place, reason in finding.refused.items():
            members = [member for member in finding.refused_members if member.place == place]
            if finding.group.events[place].is_pair and len(members) == 1:
                refused[finding.group.number, place] = reason
    return refused


def weak_groups(plan: Plan, found: list[Finding]) -> dict[int, Reason]:
    """The weak groups with a sibling whose open was refused, and why."""
    reasons = {}
    for finding in found:
        siblings = {place: reason for place, reason in finding.refused.items() if place}
        if finding.group.is_weak and siblings:
            reasons[finding.group.number] = siblings[min(siblings)]
    return reasons
