"""What the program's answers mean for each group: whether it is counted, for how long, where, and why it waits."""

from __future__ import annotations

from collections.abc import Sequence
from dataclasses import dataclass, field

from fit.answers import Answers, Cause, Times
from fit.faults import ProgramFault
from fit.plan import Group, Member, Plan, Reason
from fit.script import Context, Opened, Round, Script, scripts_of
from fit.sentences import reason_of
from perfscript import Fault, Program


@dataclass
class Finding:
    """A group in all its contexts: its times, by processor the counters that its events had at the start, by place the
    reasons for which opens were refused, and why it waits or is never on. `refused_members` are those that the program
    refused."""

    group: Group
    times: Times = Times(0, 0)
    seats: dict[int, dict[int, list[int]]] = field(default_factory=dict)
    refused: dict[int, Reason] = field(default_factory=dict)
    refused_members: list[Member] = field(default_factory=list)
    in_error: bool = False
    reason: Reason | None = None
    waits: bool = False

    @property
    def is_never_on(self) -> bool:
        return self.group.is_asked and self.times.running == 0

    @property
    def fails(self) -> bool:
        return self.is_never_on or bool(self.refused)

    @property
    def is_whole(self) -> bool:
        """Whether all its members are on whenever the context is on a processor of its kind."""
        return not self.fails and not self.waits


def judged(program: Program, plan: Plan, candidates: Sequence[Sequence[Group]]) -> list[list[Finding]]:
    """The findings of each of some lists of groups, as the program answers."""
    made = scripts_of(plan, candidates)
    answers = answers_of(program, made)
    return [findings_of(script, contexts, answers[id(script)]) for script, contexts in made]


def judged_twice(
    program: Program, plan: Plan, candidates: Sequence[Sequence[Group]]
) -> list[tuple[list[Finding], Script]]:
    """As `judged`, and the script of each list. The times over two rotations have to be twice those over one."""
    made, twice = scripts_of(plan, candidates), scripts_of(plan, candidates, times=2, asks=False)
    answers = answers_of(program, made + twice)
    found = []
    for (script, contexts), (other, others) in zip(made, twice):
        check_doubled(contexts, answers[id(script)].times, others, answers[id(other)].times)
        found.append((findings_of(script, contexts, answers[id(script)]), script))
    return found


def answers_of(program: Program, made: list[tuple[Script, list[Context]]]) -> dict[int, Answers]:
    """The answers to each script, by the script's identity. All calls are made together."""
    scripts = list({id(script): script for script, _ in made}.values())
    calls = [(word, script) for script in scripts for word in ("stat", "replay")[: 1 + script.asks]]
    printed = program.outputs([(word, script.text()) for word, script in calls])
    found: dict[int, Answers] = {}
    for (word, script), text in zip(calls, printed):
        try:
            found.setdefault(id(script), Answers()).add(word, text)
        except Fault as fault:
            raise Fault(f"{program.path} {word} printed what can't be read: {fault}") from None
    return found


def check_doubled(
    contexts: list[Context], times: dict[int, Times], others: list[Context], twice: dict[int, Times]
) -> None:
    """Over two rotations each event has twice the times that it has over one."""
    for context, other in zip(contexts, others):
        for one, two in zip(context.opened, other.opened):
            for slot, again in zip(one.slots, two.slots):
                once, both = times.get(slot, Times(0, 0)), twice.get(again, Times(0, 0))
                if (2 * once.enabled, 2 * once.running) != (both.enabled, both.running):
                    first, second = (f"{time.running} of {time.enabled}" for time in (once, both))
                    shares = f"{first} over one rotation, {second} over two"
                    raise ProgramFault(f"the shares of {one.group.text} differ: {shares}")


def findings_of(script: Script, contexts: list[Context], answers: Answers) -> list[Finding]:
    """The finding of each group of these contexts, in the order of the list."""
    found: dict[int, Finding] = {}
    for context in contexts:
        context.on = {tuple(sorted(answers.seats(one_round.seats))) for one_round in context.rounds}
        for one in context.opened:
            finding = found.setdefault(one.group.number, started(one.group))
            add_opens(finding, script, one, answers)
            add_rounds(finding, script, context, one, answers)
    for finding in found.values():
        if finding.is_never_on and not finding.reason:
            raise ProgramFault(f"{finding.group.text} is never on, and the program gives no cause")
    return [found[number] for number in sorted(found)]


def started(group: Group) -> Finding:
    """A finding that has the opens that are refused whatever else is on."""
    refused = {place: event.refused for place, event in enumerate(group.events) if event.refused}
    return Finding(group, refused=refused)


def add_opens(finding: Finding, script: Script, one: Opened, answers: Answers) -> None:
    """Adds the times of the leader, and the members whose open was refused."""
    times = answers.times.get(one.leader, Times(0, 0))
    finding.times = Times(finding.times.enabled + times.enabled, finding.times.running + times.running)
    for member, question in zip(one.group.members, one.opens):
        cause = answers.refusal(question)
        if cause:
            finding.refused.setdefault(member.place, reason_of(cause, script, {}))
            finding.refused_members.append(member)


def add_rounds(finding: Finding, script: Script, context: Context, one: Opened, answers: Answers) -> None:
    """Adds on which counters the group was at the start, and why it waits or is never on."""
    rounds = context.rounds
    kinds = (None, *script.plan.machines) if one.group.machine is None else (one.group.machine,)
    here = [one_round for one_round in rounds if script.plan.machine_of(one_round.processor) in kinds]
    for one_round in here[:1]:
        seats = answers.seats(one_round.seats)
        places: dict[int, list[int]] = {}
        for member, slot in zip(one.group.members, one.slots):
            if slot in seats:
                places.setdefault(member.place, []).append(seats[slot])
        finding.seats[one_round.processor] = places
    waiting = [one_round for one_round in here if cause_in(one_round, one.leader, answers)]
    if not waiting:
        return
    finding.waits = True
    finding.in_error = finding.in_error or answers.words(waiting[0].why[one.leader])[:1] == ["error"]
    is_on = answers.times.get(one.leader, Times(0, 0)).running > 0
    standing = [one_round for one_round in waiting if one_round.first == one.leader]
    chosen = waiting[0] if is_on or not standing else standing[0]
    causes = {leader: cause_in(chosen, leader, answers) for leader in chosen.why}
    own = causes[one.leader]
    if own and (not finding.reason or not is_on):
        finding.reason = reason_of(own, script, causes)


def cause_in(one_round: Round, leader: int, answers: Answers) -> Cause | None:
    """Why the group of this leader was off in a round; none where it was on or was not asked."""
    return Cause.of(answers.words(one_round.why[leader])) if leader in one_round.why else None
