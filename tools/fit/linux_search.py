"""The search by which Linux on x86 gives events counters, done again to see whether it finds what is there.

It takes the events by how few counters each has, the fewest first, and gives each the first counter that is free, a
fixed one before a general one. It goes back only to an event that is marked so, at most two of them.
"""

from __future__ import annotations

from collections.abc import Sequence
from dataclasses import dataclass, replace

from fit.machines import Machine

MOST_SAVED = 2


@dataclass(frozen=True)
class Wish:
    """What an event asks for: its counters as a mask, whether it takes the next counter too, and whether Linux goes
    back to it."""

    mask: int
    is_pair: bool = False
    goes_back: bool = False


@dataclass
class State:
    """How far the search is: the place in the order of events, the counters that are taken, how many of them are
    general, and the general counter to begin with."""

    place: int = 0
    taken: int = 0
    general: int = 0
    begin: int = 0


class Search:
    """The search for some events on a machine."""

    def __init__(self, wishes: Sequence[Wish], machine: Machine) -> None:
        self.wishes = sorted(wishes, key=lambda wish: wish.mask.bit_count())
        self.machine = machine
        self.most_general = machine.general - sum(wish.is_pair for wish in wishes)
        self.saved: list[State] = []
        self.state = State()

    def finds(self) -> bool:
        """Whether each event gets its counters."""
        while self.state.place < len(self.wishes):
            if not self.takes_one():
                if not self.saved:
                    return False
                # `taken` of a state that was saved still has the counter that it took
                self.state = self.saved.pop()
                self.state.taken &= ~(1 << self.state.begin)
                self.state.begin += 1
                continue
            self.state.place += 1
            self.state.begin = 0
        return True

    def takes_one(self) -> bool:
        """Gives the event that is next a counter."""
        wish = self.wishes[self.state.place]
        for counter in range(self.machine.general, self.machine.counters):
            if wish.mask >> counter & 1 and not self.state.taken >> counter & 1:
                return self.took(wish, counter, 1 << counter)
        for counter in range(self.state.begin, self.machine.general):
            bits = (3 if wish.is_pair else 1) << counter
            if not wish.mask >> counter & 1 or self.state.taken & bits:
                continue
            self.state.general += 1
            if self.state.general > self.most_general:
                return False
            return self.took(wish, counter, bits)
        return False

    def took(self, wish: Wish, counter: int, bits: int) -> bool:
        self.state.taken |= bits
        self.state.begin = counter
        if wish.goes_back and len(self.saved) < MOST_SAVED:
            self.saved.append(replace(self.state))
        return True


def linux_finds(wishes: Sequence[Wish], machine: Machine) -> bool:
    """Whether Linux's search gives each event its counters."""
    return Search(wishes, machine).finds()
