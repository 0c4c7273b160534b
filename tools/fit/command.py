"""The command line: reads the words, asks the program, prints, and says by the exit status whether all is counted."""

from __future__ import annotations

import argparse
import sys
from collections.abc import Sequence

from fit import machines as kinds_of_core
from fit import runs, table
from fit.answering import answer_to
from fit.default_events import default_lists, detail_lists
from fit.events import read_lists
from fit.faults import BadInput, ProgramFault
from fit.hints import hints_of
from fit.listing import listing
from fit.machines import Machine
from fit.meanings import Meanings
from fit.outputs import draw
from fit.plan import plan_of
from perfscript import command, program_at

FITS, FAILS, NO_ANSWER = 0, 1, 3
ABOUT = """Says whether the events of `perf stat` fit on the counters of a machine, what each gets, and why.

Usage: fit.py -m MACHINE -e LIST [options]
       fit.py -m MACHINE [options] -- perf stat OPTIONS [COMMAND]

The second form runs the perf that is here as if it were on that machine."""
STATUS = """\
exit status: 0 all groups are counted, all the time or in turns; 1 a group is refused at open or never on;
2 the input is refused or the program can't be used; 3 a group is beyond the program, or its answers contradict
each other. With `-- perf stat ..` perf's own; 2 and 3 as above, and 77 where perf can't be run in the double"""


def parser() -> command.Parser:
    """The options."""
    made = command.Parser("fit.py", ABOUT, epilog=STATUS)
    add = made.add_argument
    add("-m", metavar="MACHINE", action="append", default=[], dest="machines",
        help="the machine or its model, auto for this computer, or NAME=PROCESSORS for each kind of core; a path that "
        "ends in .toml is a file of your own")
    add("--ht", choices=("on", "off"), default="on", help="whether two threads share a core (default: on)")
    add("--counters", metavar="N", type=int, help="a machine of N counters, in place of -m")
    add("--mask", metavar="EVENT=HEX", action="append", default=[], help="the counters that may count an event")
    add("-e", metavar="LIST", action="append", default=[], dest="lists",
        help="events as perf stat takes them; without it perf's default list")
    add("-M", metavar="METRICS", action="append", default=[], dest="metrics",
        help="metrics and groups of metrics, whose events the perf that is here says")
    add("-d", action="count", default=0, dest="details", help="adds cache events, as perf stat does; up to three times")
    add("--sampling", action="store_true", help="open the events as perf record does: p asks for precise samples")
    add("-a", action="store_true", dest="everywhere", help="count on each processor, not a task")
    add("-C", metavar="PROCESSORS", dest="processors", help="count on these processors, as 0-2,5")
    add("--watchdog", action="store_true", help="a pinned cycles event comes first, as Linux's NMI watchdog has it")
    add("--repeat", action="store_true", help="spread the groups over runs in which each is on all the time")
    add("--svg", metavar="FILE", help="draw who was on which counter when")
    add("--script", metavar="FILE", help="write the script that was asked, with its order")
    add("--json", action="store_true", help="print JSON")
    add("--list", action="store_true", help="say which machines there are, or what the given ones know")
    return made


def machines_of(options: argparse.Namespace) -> tuple[list[Machine], tuple[int, ...]]:
    """The machines that the options give, and the processors that `-C` or `-a` names."""
    if bool(options.machines) == (options.counters is not None):
        raise BadInput("give a machine by -m, or its counters by --counters; --list says which machines there are")
    if options.everywhere and options.processors is not None:
        raise BadInput("-a and -C: give one of them")
    wanted = kinds_of_core.processors_of(options.processors, "-C") if options.processors is not None else ()
    if options.machines:
        found = kinds_of_core.read_machines(options.machines, options.mask, wanted, options.ht == "off")
    else:
        found = [kinds_of_core.plain_with(options.counters, options.mask, wanted)]
    if options.everywhere:
        wanted = tuple(sorted(processor for machine in found for processor in machine.processors))
    return found, wanted


def answer(options: argparse.Namespace) -> int:
    """Asks the program, prints, and answers the exit status."""
    machines, processors = machines_of(options)
    with Meanings(options.sampling, options.watchdog) as meanings:
        lists = [*options.lists, *meanings.metric_lists(options.metrics, machines)]
        typed = read_lists([*(lists or default_lists(machines)), *detail_lists(options.details)])
        plan = plan_of(typed, machines, processors, options.watchdog, meanings)
    program = program_at(options.program)
    found = answer_to(program, plan)
    draw(options, program, found.plan, found.script)
    spread = runs.runs_of(program, found.plan) if options.repeat else None
    hints = hints_of(found, options.ht == "off")
    if options.json:
        print(table.json_of(found, program, hints, spread and runs.as_json(spread)))
    else:
        lines = table.text_of(found.findings, hints)
        lines += ["", *runs.text_of(spread)] if spread else []
        lines += [program.note] if program.note else []
        print("\n".join(lines))
    if any(finding.group.is_beyond for finding in found.findings):
        return NO_ANSWER
    return FAILS if any(finding.fails for finding in found.findings) else FITS


def done(options: argparse.Namespace, behind: Sequence[str] | None) -> int:
    """Does what the options say, with perf's words behind them, if there are any. Answers the exit status."""
    try:
        if behind is not None:
            # the double, which this form alone needs
            from fit import with_perf

            return with_perf.answer(options, behind)
        if not options.list:
            return answer(options)
        found = machines_of(options)[0] if options.machines or options.counters is not None else None
        print("\n".join(listing(found)))
        return FITS
    except ProgramFault as fault:
        print(f"{command.name_of('fit.py')}: {fault}", file=sys.stderr)
        return NO_ANSWER


def main(words: Sequence[str] | None = None) -> int:
    """Does what the words say. Answers the exit status."""
    own = list(sys.argv[1:] if words is None else words)
    behind = own[own.index("--") + 1 :] if "--" in own else None
    options = parser().parse_args(own if behind is None else own[: own.index("--")])
    return command.ended("fit.py", lambda: done(options, behind))
