"""Spreads the groups of a list over several runs, in each of which every group is on all the time."""

from __future__ import annotations

from collections.abc import Mapping, Sequence
from dataclasses import dataclass
from typing import Any, TypeAlias

from fit.findings import Finding, judged, started
from fit.plan import Group, Plan
from perfscript import Program

MOST_FOR_ALL = 8
# runs, each of some groups
Spread: TypeAlias = tuple[tuple[Group, ...], ...]


@dataclass(frozen=True)
class Runs:
    """The runs that first fit found, a shorter list where there is one, and the groups left out, with their causes."""

    runs: Spread
    fewer: Spread
    left_out: tuple[tuple[Group, str], ...]
    tried_all: bool
    tries: int


def runs_of(program: Program, plan: Plan) -> Runs:
    """First fit by order. At most eight groups are tried in all subsets, and then in all partitions."""
    not_asked = [started(group) for group in plan.groups if not group.is_asked]
    alone = judged(program, plan, [[group] for group in plan.asked]) + [[finding] for finding in not_asked]
    left_out = tuple((found[0].group, why_not(found[0])) for found in alone if not is_whole(found[0]))
    groups = [found[0].group for found in alone if is_whole(found[0])]
    tries = len(plan.asked)
    if not groups or len(groups) > MOST_FOR_ALL:
        spread, more = first_fit_by_asking(program, plan, groups)
        return Runs(spread, (), left_out, not groups, tries + more)
    masks = [mask for mask in range(1, 1 << len(groups)) if mask & (mask - 1)]
    subsets = [members(groups, mask) for mask in masks]
    verdicts = [all(finding.is_whole for finding in found) for found in judged(program, plan, subsets)]
    fits = {1 << at: True for at in range(len(groups))} | dict(zip(masks, verdicts))
    runs = first_fit(len(groups), fits)
    fewest = fewest_runs(len(groups), fits)
    fewer = fewest if len(fewest) < len(runs) else []
    return Runs(as_groups(groups, runs), as_groups(groups, fewer), left_out, True, tries + len(masks))


def is_whole(finding: Finding) -> bool:
    return finding.group.is_asked and finding.is_whole


def why_not(finding: Finding) -> str:
    """Why a group can't be on even alone."""
    if finding.group.is_beyond:
        return "it is beyond this program"
    reasons = finding.refused.values() or [finding.reason]
    return "; ".join(reason.sentence for reason in reasons if reason)


def as_groups(groups: Sequence[Group], runs: Sequence[int]) -> Spread:
    return tuple(tuple(members(groups, mask)) for mask in runs)


def members(groups: Sequence[Group], mask: int) -> list[Group]:
    return [group for at, group in enumerate(groups) if mask >> at & 1]


def first_fit_by_asking(program: Program, plan: Plan, groups: Sequence[Group]) -> tuple[Spread, int]:
    """Puts each group into the first run that the program keeps on all the time with it."""
    runs: list[list[Group]] = []
    tries = 0
    for group in groups:
        tried = judged(program, plan, [[*run, group] for run in runs])
        tries += len(runs)
        place = next((at for at, found in enumerate(tried) if all(finding.is_whole for finding in found)), len(runs))
        runs[place : place + 1] = [[*(runs[place] if place < len(runs) else []), group]]
    return tuple(map(tuple, runs)), tries


def first_fit(count: int, fits: Mapping[int, bool]) -> list[int]:
    """The runs, as sets of groups, when each group goes into the first run that it fits into."""
    runs: list[int] = []
    for at in range(count):
        place = next((number for number, run in enumerate(runs) if fits[run | 1 << at]), None)
        if place is None:
            runs.append(1 << at)
        else:
            runs[place] |= 1 << at
    return runs


def fewest_runs(count: int, fits: Mapping[int, bool]) -> list[int]:
    """The shortest list of runs among all partitions of the groups."""
    best: dict[int, list[int]] = {0: []}
    for whole in range(1, 1 << count):
        lowest = whole & -whole
        part = whole
        found: list[int] = []
        while part:
            if part & lowest and fits[part]:
                rest = best[whole ^ part]
                found = [part, *rest] if not found or len(rest) + 1 < len(found) else found
            part = (part - 1) & whole
        best[whole] = found
    return best[(1 << count) - 1]


def text_of(runs: Runs) -> list[str]:
    """The runs in words."""
    lines = [f"Left out, since it can't be on even alone: {group.text}: {cause}" for group, cause in runs.left_out]
    if not runs.runs:
        return [*lines, "No run is left."]
    lines += list_of(runs.runs)
    count = len(runs.runs)
    suffice = f"{count} run{'s suffice' if count > 1 else ' suffices'}"
    if runs.fewer:
        lines += [f"{suffice}, put together first fit by order. {len(runs.fewer)} do too, and no fewer:"]
        return lines + list_of(runs.fewer)
    fewer = ", and no fewer do: all partitions were tried" if runs.tried_all else ""
    return [*lines, f"{suffice}{fewer if count > 1 else ''}."]


def list_of(runs: Spread) -> list[str]:
    """A line for each run, as perf takes it."""
    return [f"run {number}: -e '{','.join(group.text for group in run)}'" for number, run in enumerate(runs, 1)]


def as_json(runs: Runs) -> dict[str, Any]:
    """The runs for programs."""
    return {
        "runs": [[group.text for group in run] for run in runs.runs],
        "fewer": [[group.text for group in run] for run in runs.fewer] or None,
        "tried_all_partitions": runs.tried_all,
        "left_out": [{"group": group.text, "cause": cause} for group, cause in runs.left_out],
        "tries": runs.tries,
    }
