"""What must come of a list, by exhaustive search and apart from the program and the tool.

A group is a list of masks, 0 for a software event. An event that takes two counters, neighbours, has the mask of the
first of them and PAIR added. Which groups are on follows the rules of docs/RULES.md.
"""

from collections.abc import Iterable, Sequence
from dataclasses import dataclass
from fractions import Fraction
from functools import cache


@dataclass
class Wanted:
    """A group: the masks of its members, and whether it is pinned and exclusive."""

    masks: list[int]
    is_pinned: bool = False
    is_exclusive: bool = False

    @property
    def hardware(self) -> list[int]:
        return [mask for mask in self.masks if mask]


PAIR = 1 << 20


def has_assignment(masks: Iterable[int]) -> bool:
    """Whether the events can have their counters: every choice of counters is tried."""
    return tried(tuple(sorted(masks, key=lambda mask: (mask & PAIR == 0, mask.bit_count(), mask))), 0)


@cache
def tried(masks: tuple[int, ...], taken: int) -> bool:
    if not masks:
        return True
    width = 3 if masks[0] & PAIR else 1
    choices = [width << bit for bit in range(16) if masks[0] >> bit & 1]
    return any(tried(masks[1:], taken | bits) for bits in choices if not taken & bits)


def opened(masks: Sequence[int]) -> list[int]:
    """The places of the members that can join, one after the other."""
    places: list[int] = []
    for place, mask in enumerate(masks):
        if has_assignment([masks[other] for other in places if masks[other]] + [mask] * bool(mask)):
            places.append(place)
    return places


def pinned_on(groups: Sequence[Wanted], always: Sequence[int]) -> list[int]:
    """Which pinned groups are on when each comes in turn, behind events that are always on."""
    found, on = list(always), []
    exclusive = False
    for place, group in enumerate(groups):
        if not group.is_pinned:
            continue
        blocked = group.hardware and (exclusive or (group.is_exclusive and found))
        if not group.hardware or (not blocked and has_assignment(found + group.hardware)):
            on.append(place)
            found += group.hardware
            exclusive = exclusive or (group.is_exclusive and bool(group.hardware))
    return on


def flexible_on(groups: Sequence[Wanted], order: Sequence[int], on: Sequence[int], exclusive: bool) -> list[int]:
    """Which flexible groups are on, in this order, beside the masks of the pinned ones."""
    found, masks, is_refused = [], list(on), False
    for place in order:
        group = groups[place]
        if not group.hardware:
            found.append(place)
            continue
        is_kept_off = exclusive or is_refused or (group.is_exclusive and bool(masks))
        refused = is_kept_off or not has_assignment(masks + group.hardware)
        is_refused = is_refused or refused
        if not refused:
            found.append(place)
            masks += group.hardware
            exclusive = group.is_exclusive
    return found


def shares(groups: Sequence[Wanted], always: Sequence[int] = ()) -> list[Fraction]:
    """The share of each group over a rotation. Groups hold the masks of members that were opened."""
    pinned = pinned_on(groups, always)
    masks = list(always) + [mask for place in pinned for mask in groups[place].hardware]
    exclusive = any(groups[place].is_exclusive and groups[place].hardware for place in pinned)
    order = [place for place, group in enumerate(groups) if not group.is_pinned]
    turning = [place for place in order if groups[place].hardware]
    rounds, times = max(1, len(turning)), [0] * len(groups)
    for _ in range(rounds):
        on = flexible_on(groups, order, masks, exclusive)
        for place in on:
            times[place] += 1
        if len(on) < len(order):
            first = next(place for place in order if groups[place].hardware)
            order = [place for place in order if place != first] + [first]
    for place in pinned:
        times[place] = rounds
    return [Fraction(time, rounds) for time in times]
