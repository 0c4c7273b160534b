"""Draws who was on which counter when over a rotation, with the code of timeline.py and perf's names."""

from __future__ import annotations

import timeline
from fit.answers import Cause
from fit.faults import ProgramFault
from fit.script import Script as Asking
from fit.sentences import reason_of
from perfscript import Fault, Program, Script


class Names(timeline.Labels):
    """Calls events as perf does, and counters as the rest of the output does."""

    def __init__(self, drawn: Script, script: Asking) -> None:
        self.script = script
        super().__init__(drawn)
        names = [self.counter(cpu, count - 1) for cpu in range(drawn.cpus) if (count := drawn.counters_of(cpu))]
        self.left = max([self.left, *(12 + timeline.LETTER * len(name) for name in names)])

    def event(self, event: int) -> str:
        return self.script.name_of(event)

    def title(self, event: int) -> str:
        return self.script.name_of(event)

    def counter(self, cpu: int, counter: int) -> str:
        return f"processor {cpu}, {self.script.plan.machine_of(cpu).counter_name(counter)}"

    def cause(self, cause: str) -> str:
        found = Cause.of(cause.split(" "))
        if found is None:
            raise ProgramFault(f"the program gave a cause that is not known: {cause!r}")
        if found.word == "earlier":
            return f"waits for {self.script.text_of_group(found.slots[0])}"
        return reason_of(found, self.script, {}).sentence

    def share(self, part: int, whole: int) -> str:
        """A share as the table has it, rounded to two digits."""
        return f"{100.0 * part / whole:.2f}%" if whole else "0.00%"


def picture_of(program: Program, script: Asking) -> str:
    """The picture of a script that asks nothing yet: timeline.py adds the questions, and the program answers them."""
    drawn = Script(script.text())
    try:
        return timeline.picture_of(program, drawn, Names(drawn, script))
    except Fault as fault:
        raise Fault(f"--svg: {fault}") from None
