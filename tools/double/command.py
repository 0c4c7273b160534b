"""The command line of the double."""

from __future__ import annotations

import sys
from collections.abc import Sequence

from perfscript import Draft, Fault, Program, Script, built_at
from perfscript.command import Parser, ended, name_of, text_of

from double import differences, truth
from double.backend import live_path
from double.broker import Broker
from double.build import NotHere
from double.certificate import Certified, certify
from double.journal import TOOL
from double.run import Run
from double.scenario import Scenario, read_scenario
from double.session import Session
from double.sleeping import make_mark

BAD_INPUT, UNCERTIFIED, NOT_HERE, INTERRUPTED = 2, 3, 77, 130
ABOUT = """Runs a command whose performance events count on the simulated processors of a scenario.

Usage: double.py [options] SCENARIO -- COMMAND..
       double.py --mark NAME

docs/DOUBLE.md has the language of scenarios, and what is refused."""
STATUS = """\
exit status: the command's own; 2 the scenario or the words are refused; 3 an answer is not certified, or the double
ended before the command; 77 the double can't run here"""


def parser() -> Parser:
    made = Parser("double.py", ABOUT, STATUS)
    add = made.add_argument
    add("scenario", metavar="SCENARIO", nargs="?", help="the file with the machine and what happens on it")
    add("command", metavar="COMMAND", nargs="*", help="the command and its words")
    add("--preload", action="store_true", help="catch calls by a loaded library, where seccomp may not be used")
    add("--time", choices=("virtual", "real"), default="virtual", help="whether sleeps take time; virtual by default")
    add("--journal", metavar="FILE", help="write each session as a script: FILE, FILE.1, FILE.2 ..")
    add("--truth", action="store_true", help="print what occurred beside what was counted")
    add("--why", action="store_true", help="print which event waited for which")
    add("--verbose", action="store_true", help="name each bit of an attribute that is dropped, and each refused open")
    add("--mark", metavar="NAME", help="say to the double around this command that a mark is reached")
    return made


def main(words: Sequence[str] | None = None) -> int:
    """Reads the words, runs the command, and holds its answers against the journal."""
    form = parser()
    own, command = split(list(sys.argv[1:] if words is None else words))
    options = form.parse_args(own)
    if options.mark is not None:
        return ended("double.py", lambda: reach(options.mark))
    if options.scenario is None or not command:
        form.error("give a scenario, and the command behind --")
    if options.command:
        form.error(f"`{options.command[0]}` stands before --; the command comes behind it")

    def run() -> int:
        program = built_at(options.program)
        scenario = read_scenario(options.scenario, text_of(options.scenario), program)
        return run_in(scenario, program, options, command)

    return ended("double.py", run)


def split(words: list[str]) -> tuple[list[str], list[str]]:
    if "--" not in words:
        return words, []
    place = words.index("--")
    return words[:place], words[place + 1 :]


def reach(name: str) -> int:
    try:
        make_mark(name)
    except OSError as fault:
        raise Fault(f"mark `{name}`: no double around this command knows it ({fault.strerror})") from None
    return 0


def run_in(scenario: Scenario, program: Program, options: object, command: list[str]) -> int:
    """The status of the command, or that of the double where it comes first."""
    given = vars(options)
    broker = Broker(scenario, program, given["time"] == "real", given["verbose"], live_path())
    try:
        with Run(broker, command, by_library=given["preload"]) as run:
            run.serve()
    except NotHere as why:
        print(f"{name_of('double.py')}: {why}", file=sys.stderr)
        return NOT_HERE
    if given["journal"]:
        keep(broker.sessions, given["journal"])
    certified = certify(broker.sessions, program)
    found = [run.failure] if run.failure else []
    if certified.differs:
        found.append(f"NOT CERTIFIED: {certified.differs}")
    for failure in found:
        print(f"{name_of('double.py')}: {failure}", file=sys.stderr)
    tell(broker.sessions, certified, program, given["truth"], given["why"])
    return UNCERTIFIED if found else run.status


def keep(sessions: list[Session], path: str) -> None:
    for session in sessions:
        name = path if session.number == 0 else f"{path}.{session.number}"
        with open(name, "w", encoding="ascii", newline="") as file:
            file.write(open_at_end(session.journal.text()))


def open_at_end(text: str) -> str:
    """A journal without the closes that end it, so that `stat` has the rows of its events."""
    draft = Draft.of(Script(text))
    tool = draft.lines.get(TOOL, [])
    while draft.order and draft.order[-1] == TOOL and tool[-1].startswith("close "):
        draft.order.pop()
        tool.pop()
    return draft.text()


def tell(sessions: list[Session], certified: Certified, program: Program, with_truth: bool, with_why: bool) -> None:
    """What is printed behind the command's own output, on standard error."""
    touched: dict[str, None] = {}
    for session in sessions:
        report = certified.reports.get(session.number)
        if report is None:
            continue
        touched.update(dict.fromkeys(differences.rows_touched(session.journal.text(), report)))
        lines = truth.truth_lines(session, program) if with_truth else []
        lines += truth.why_lines(session, program) if with_why else []
        for line in lines:
            print(line, file=sys.stderr)
    if touched:
        print(f"double: Linux may differ here, by rows of docs/LINUX.md: {', '.join(touched)}", file=sys.stderr)
