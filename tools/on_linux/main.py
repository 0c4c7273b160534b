"""Compares reports of perf_run with what the running Linux kernel does, by software events.

Usage: on_linux [--program PATH] SCRIPT..
       on_linux --report REPORT SCRIPT
       on_linux [--program PATH] [--docs] --all

The first form does each script on the running kernel, and compares with the program's report. The second compares with
this report, and calls no program. The third does the tool's own cases and prints a table; --docs also writes it into
docs/LINUX.md and docs/RULES.md.

PATH is the built perf_run. Without it the tool calls crates/perf_run/out/perf_run, which `rt run` proves and leaves
there. Where that is missing, `rt try` builds the program once, which proves nothing.

Page faults stand for each hardware kind: a page that is touched is one occurrence. docs/LINUX.md has the known
differences.

Ends with 0 where the kernel does the same or differs as documented, with 1 where it differs and no cause is known, with
2 where the words, a file or the program are at fault, and with 77 where no event can be opened.
"""

import os
import time
from argparse import Namespace
from collections.abc import Sequence

from on_linux import documents, kernel, table, verdicts
from on_linux.cases import all_cases
from on_linux.documents import Rows
from on_linux.scripts import Case
from on_linux.task import compiled
from on_linux.verdicts import Verdict
from perfscript import Fault, Outcome, Program, command, program_at
from perfscript.progress import each

FAULT, NO_OPEN = 2, 77


def main(words: Sequence[str] | None = None) -> int:
    options = options_of(words)
    return command.ended("on_linux", lambda: done(options))


def done(options: Namespace) -> int:
    """The status of what the options ask for."""
    texts = [text_of(path) for path in options.scripts]
    report = text_of(options.report) if options.report else None
    program = program_at(options.program) if report is None else Recorded(options.report, report)
    reason = kernel.probe()
    if reason:
        print(f"on_linux: no event can be opened here: {reason}")
        return NO_OPEN
    known = documents.known_rows()
    if options.all:
        return all_of_list(options.docs, program, known)
    return scripts(program, [Case("script", *given, (), None) for given in zip(options.scripts, texts)], known)


class Recorded(Program):
    """A report that stands for the program's."""

    def __init__(self, path: str, report: str) -> None:
        self.path, self.report_text = path, report

    def outcomes(self, calls: Sequence[tuple[str, str]]) -> list[Outcome]:
        return [Outcome(0, self.report_text, "")] * len(calls)


def options_of(words: Sequence[str] | None) -> Namespace:
    parser = command.Parser("on_linux", __doc__)
    parser.add_argument("--report", metavar="REPORT", help="compare with this report")
    parser.add_argument("--all", action="store_true", help="do the tool's own cases")
    parser.add_argument("--docs", action="store_true", help="write the table into docs/")
    parser.add_argument("scripts", nargs="*", metavar="SCRIPT")
    options = parser.parse_args(words)
    if options.all == bool(options.scripts):
        parser.error("give --all, or scripts")
    if options.report and len(options.scripts) != 1:
        parser.error("--report is for one script")
    if options.docs and not options.all:
        parser.error("--docs is for --all")
    return options


def text_of(path: str) -> str:
    text = command.text_of(path)
    if not text.isascii():
        raise Fault(f"{path}: byte {next(at for at, one in enumerate(text) if ord(one) > 127)} is not ASCII")
    return text


def about() -> str:
    return f"Linux {kernel.version()} on {os.uname().machine}, pages of {kernel.PAGE} bytes"


def scripts(program: Program, cases: Sequence[Case], known: Rows) -> int:
    """Does the scripts that are named, and says for each what came of it."""
    by = "the report is" if isinstance(program, Recorded) else "reports by"
    print(f"{about()}; {by} {program.path}")
    statuses = [0]
    with compiled() as helper:
        for case, outcome in zip(cases, program.outcomes([("replay", case.text) for case in cases])):
            if outcome.status:
                print(f"{case.name}: the program ends with {outcome.status}: {outcome.note or 'no note'}")
                statuses.append(FAULT)
                continue
            verdict = verdicts.of_case(case, outcome, helper, known)
            statuses.append(int(verdict.word == verdicts.UNKNOWN))
            tell(verdict)
    return max(statuses)


def tell(verdict: Verdict) -> None:
    """Prints what came of a script: the differences that are documented, and all else that there is to say."""
    print(f"{verdict.case.name}: {verdict.word}" + (f": {', '.join(verdict.rows)}" if verdict.rows else ""))
    documented = [check.text for check in verdict.checks if check.row and not check.is_same]
    for note in documented + verdict.notes:
        print(f"    {note}")
    print(f"    {sum(check.is_same for check in verdict.checks)} of {len(verdict.checks)} comparisons are the same")


def all_of_list(is_for_docs: bool, program: Program, known: Rows) -> int:
    """Does the tool's own cases."""
    began, cases, found = time.monotonic(), all_cases(), list[Verdict]()
    print(f"{about()}; reports by {program.path}", flush=True)
    outcomes = program.outcomes([("replay", case.text) for case in cases])
    asked = time.monotonic()
    with compiled() as helper:
        for case, outcome in each("cases on the kernel", zip(cases, outcomes), len(cases)):
            found.append(verdicts.of_case(case, outcome, helper, known))
    times = f"the reports took {asked - began:.0f} s, the kernel's answers {time.monotonic() - asked:.0f} s"
    comparisons = sum(len(verdict.checks) for verdict in found)
    summary = "\n".join(table.wrapped(f"{table.summary(found)}; {comparisons} comparisons in all."))
    print(f"{table.text(found, known)}\n\n{summary}\n{times}")
    if is_for_docs:
        write_docs(program, found, known, f"{table.page(found, known)}\n\n{summary}")
    return 1 if any(verdict.word == verdicts.UNKNOWN for verdict in found) else 0


def write_docs(program: Program, found: Sequence[Verdict], known: Rows, run: str) -> None:
    page = documents.RULES.read_text("utf-8")
    names = documents.rule_names(page)
    text = f"`python3 tools/on_linux --all` on {about()}, with the reports of {program.kind}:"
    head = "\n".join(table.wrapped(text))
    rules = documents.with_column(page, table.of_rules(found, known, names, kernel.version()))
    documents.RULES.write_text(rules, "utf-8")
    linux = documents.with_last_run(documents.LINUX.read_text("utf-8"), f"{head}\n\n{run}")
    documents.LINUX.write_text(linux, "utf-8")
