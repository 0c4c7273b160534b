"""Runs the user's own `perf stat` on a machine, and says below its output why each group waits or is never counted.

perf runs twice in the double: once where nothing is refused, which shows the events that it wants and their names, and
once as it was typed, on the machine's counters. What it opened there becomes a plan as lists behind -e do. The shares
that perf was given have to be those of the plan.
"""

from __future__ import annotations

import argparse
import os
import re
import signal
import sys
import tempfile
from collections.abc import Sequence
from contextlib import ExitStack, closing
from dataclasses import dataclass, replace

from double.build import NotHere, built
from double.certificate import certify
from double.command import NOT_HERE, open_at_end
from double.run import Outputs, Run
from double.testing import text_in
from fit import machines as kinds_of_core
from fit import perf_tables, runs, table
from fit.answering import Answer, answer_to
from fit.events import TRACEPOINT
from fit.faults import BadInput, ProgramFault
from fit.findings import Finding
from fit.hints import hints_of
from fit.machines import Machine
from fit.meanings import Meanings
from fit.outputs import draw
from fit.perf_opens import Opens, plan_of, wishes_of
from fit.perf_session import NotedSession, PerfBroker, Watch
from fit.perf_words import PerfStat, read_words
from fit.stand_in import StandIn
from perfscript import Program, built_at, command

ONLINE = os.path.join(os.path.dirname(os.path.abspath(__file__)), "online.c")
# perf 6.1 crashes at some metrics on some computers, at Skylake's MEM_Request_Latency for a task for one
CRASHES = (signal.SIGSEGV, signal.SIGBUS, signal.SIGABRT, signal.SIGILL, signal.SIGFPE)
# options of the tool that perf's own words take the place of
OF_LISTS = {"lists": "-e", "metrics": "-M", "details": "-d", "everywhere": "-a", "processors": "-C", "mask": "--mask",
            "sampling": "--sampling"}


def check_options(options: argparse.Namespace) -> None:
    """Refuses options that perf has itself."""
    for name, word in OF_LISTS.items():
        if getattr(options, name):
            raise BadInput(f"{word}: with `-- perf stat ..` events and processors stand behind --, among perf's words")
    if options.counters is not None or len(options.machines) != 1:
        raise BadInput("-m: give one machine before `-- perf stat ..`; --list says which there are")


def machine_of(word: str, is_alone: bool, processors: Sequence[str] = ()) -> Machine:
    """The machine, with processors up to the last that perf's own -C names."""
    wanted = [cpu for text in processors for cpu in kinds_of_core.processors_of(text, "-C")]
    [machine] = kinds_of_core.read_machines([word], [], wanted, is_alone)
    name = machine.name
    if not machine.identity:
        raise BadInput(f"-m: {name} has no [models], by which a perf knows a machine; name a machine of --list")
    if not perf_tables.has_tables(machine):
        raise BadInput(f"-m: the perf that is here is no perf of {name}; give its events by -e, as --help says")
    if machine.pmu != "cpu":
        raise BadInput(f"-m: perf has {name} as one of two kinds of core; give its events by -e, as --help says")
    return machine


def answer(options: argparse.Namespace, words: Sequence[str]) -> int:
    """Runs perf, prints, and answers perf's exit status, or the double's."""
    check_options(options)
    word, is_alone = options.machines[0], options.ht == "off"
    machine_of(word, is_alone)
    call = read_words(words)
    machine = machine_of(word, is_alone, call.values("cpu"))
    program = built_at(options.program)
    try:
        done = done_by(program, machine, options.watchdog, call)
    except NotHere as why:
        print(f"{command.name_of('fit.py')}: {why}", file=sys.stderr)
        return NOT_HERE
    if done.answer:
        tell(program, done.answer, options)
    else:
        print("perf opened no event, or said above why not.")
    return done.status


@dataclass(frozen=True)
class Done:
    """perf's status, what it opened, and what became of its groups: none where it opened no event."""

    status: int
    opens: Opens
    answer: Answer | None


def done_by(
    program: Program, machine: Machine, has_watchdog: bool, call: PerfStat, to: Outputs = (None, None)
) -> Done:
    """Runs perf on the machine; its output goes to these descriptors."""
    with closing(StandIn(machine, has_watchdog)) as stand_in, Meanings() as meanings:
        furnish(stand_in, call)
        first = seen(PerfBroker(program, meanings, machine), call.words_to_plan(), stand_in)
        wishes = wishes_of(first.session, first.printed)
        watched: list[Opens] = []

        def new_watch() -> Watch:
            watched.append(Opens(wishes))
            return watched[-1].is_beyond

        broker = PerfBroker(program, meanings, machine, has_watchdog, new_watch)
        status = served(broker, call.words(), stand_in, to)
    sessions = broker.noted_sessions()
    if not sessions or not sessions[0].attempts:
        return Done(status, Opens(wishes), None)
    opens = watched[0]
    if opens.is_other:
        raise ProgramFault(first.fault or "perf did not open what it opened where nothing was refused")
    plan = plan_of(opens, machine, has_watchdog)
    found = answer_to(program, replace(plan, notes=(*plan.notes, *[first.fault] * bool(first.fault))))
    check_same(program, found, opens, sessions[0])
    return Done(status, opens, found)


def furnish(stand_in: StandIn, call: PerfStat) -> None:
    """Writes the files in which perf finds the machine, the tracepoints that it is asked for, and its processes."""
    stand_in.make(number for text in call.values("pid", "tid") for number in text.split(","))
    stand_in.write_processors(max(stand_in.machine.processors) + 1)
    stand_in.write_others()
    stand_in.library = built(ONLINE, "-shared", "-fPIC", "-ldl")
    typed = [word for text in call.values("event") for word in re.split(r"[,{}]", text) if TRACEPOINT.fullmatch(word)]
    stand_in.write_tracepoints((word.split(":")[0], word.split(":")[1]) for word in typed)


@dataclass(frozen=True)
class Seen:
    """What perf printed where nothing was refused, what it opened, and its status."""

    printed: str
    session: NotedSession | None
    status: int

    @property
    def fault(self) -> str:
        """That perf itself crashed, empty where it did not."""
        if self.status - 128 not in CRASHES:
            return ""
        return f"perf itself crashed, by signal {self.status - 128}, where nothing was refused: names are missing here"


def seen(broker: PerfBroker, words: list[str], stand_in: StandIn) -> Seen:
    """Runs perf where nothing is refused."""
    with tempfile.TemporaryFile() as file:
        status = run_inside(broker, words, stand_in, (file.fileno(), file.fileno())).status
        printed = text_in(file.fileno())
    return Seen(printed, next(iter(broker.noted_sessions()), None), status)


def served(broker: PerfBroker, words: list[str], stand_in: StandIn, to: Outputs) -> int:
    """Runs perf in the double, and holds each answer that it was given against a replay. Answers perf's status."""
    run = run_inside(broker, words, stand_in, to)
    differs = certify(broker.sessions, broker.program).differs
    failure = run.failure or (differs and f"NOT CERTIFIED: {differs}")
    if failure:
        raise ProgramFault(failure)
    return run.status


def run_inside(broker: PerfBroker, words: list[str], stand_in: StandIn, to: Outputs) -> Run:
    """Runs a command in the double: by a loaded library where seccomp may not be used."""
    with ExitStack() as stack:
        try:
            run = stack.enter_context(Run(broker, words, stand_in.environment, False, to))
        except NotHere:
            run = stack.enter_context(Run(broker, words, stand_in.environment, True, to))
        run.serve()
    return run


def check_same(program: Program, found: Answer, opens: Opens, session: NotedSession) -> None:
    """Refuses an answer that differs from what perf was given: which opens were refused, the groups, and each share."""
    rows = program.table(open_at_end(session.journal.text()))
    last = {wish.number: attempt for wish, attempt in opens.last.items()}
    for finding in found.findings:
        if not finding.group.is_asked:
            continue
        leader = last[finding.group.events[0].number]
        for place, event in enumerate(finding.group.events):
            attempt = last[event.number]
            is_same = (attempt.refused is not None) == (place in finding.refused)
            if not is_same or attempt.leader is not (leader if place else None):
                raise ProgramFault(f"perf was given another answer to the open of {event.name} than the script has")
        row = rows.get(leader.slot) if leader.slot is not None else None
        times = finding.times
        if row and row.running * times.enabled != times.running * row.enabled:
            given, wanted = f"{row.running} of {row.enabled}", f"{times.running} of {times.enabled}"
            raise ProgramFault(f"perf was given {given} for {finding.group.text}, and the script has {wanted}")


def tell(program: Program, found: Answer, options: argparse.Namespace) -> None:
    """Prints what became of each group."""
    spread = runs.runs_of(program, found.plan) if options.repeat else None
    draw(options, program, found.plan, found.script)
    hints = [*beyond(found.findings), *hints_of(found, options.ht == "off")]
    if options.json:
        print(table.json_of(found, program, hints, spread and runs.as_json(spread)))
        return
    lines = table.text_of(found.findings, hints)
    lines += ["", *runs.text_of(spread)] if spread else []
    print("\n".join(["", *lines]))


def beyond(findings: list[Finding]) -> list[str]:
    """What perf's output does not have where a group is beyond the program."""
    is_there = any(finding.group.is_beyond for finding in findings)
    said = "perf prints <not counted> for a group that is beyond this program; all other shares leave it out"
    return [said] * is_there
