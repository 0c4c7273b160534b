"""Does cases, and says of each whether the kernel does the same, differs as documented, or can't be compared."""

from dataclasses import dataclass, field

from on_linux.compare import Check, Comparison
from on_linux.documents import Rows
from on_linux.doing import Doing, why_not_comparable
from on_linux.kernel import version
from on_linux.scripts import Case
from perfscript import Outcome, Report, Script
from perfscript.follow import Follow

SAME, DOCUMENTED, NOT_COMPARABLE = "same", "differs as documented", "not comparable"
NOT_PERMITTED, UNKNOWN = "not permitted", "differs"
TRIES = 20
BY_CHANCE = {"clones", "held"}


@dataclass
class Verdict:
    """What came of a case: the word, the rows of docs/LINUX.md that it showed, and what there is to say."""

    case: Case
    word: str
    rows: list[str] = field(default_factory=list)
    notes: list[str] = field(default_factory=list)
    checks: list[Check] = field(default_factory=list)


def of_case(case: Case, outcome: Outcome, helper: str, known: Rows) -> Verdict:
    """The verdict of a case whose report is there. What hangs on who runs when is tried until it was seen."""
    if outcome.status != 0:
        return Verdict(case, UNKNOWN, notes=[f"the program ends with {outcome.status}: {outcome.note}"])
    script, report = Script(case.text), Report(outcome.out)
    report.check(script)
    reason = why_not_comparable(script, report, case.options)
    if reason:
        return Verdict(case, NOT_COMPARABLE, notes=[reason])
    for attempt in range(1, TRIES + 1):
        verdict = once(case, script, report, helper, known)
        if BY_CHANCE.isdisjoint(case.options) or verdict.word != SAME:
            break
    if not BY_CHANCE.isdisjoint(case.options):
        verdict.notes.append(f"seen in try {attempt} of {TRIES}" if verdict.rows else f"not seen in {TRIES} tries")
    return judged(verdict, known)


def once(case: Case, script: Script, report: Report, helper: str, known: Rows) -> Verdict:
    with Doing(script, Follow(script, report), helper, case.options) as doing:
        doing.run()
        comparison = Comparison(script, report, doing).run()
    differing = [check for check in comparison.checks if not check.is_same]
    rows = {check.row for check in differing if check.row}
    unknown = [check.text for check in differing if check.row not in known]
    if comparison.not_permitted:
        word = NOT_PERMITTED
    elif unknown:
        word = UNKNOWN
    elif rows:
        word = DOCUMENTED
    else:
        word = SAME if comparison.checks else NOT_COMPARABLE
    notes = unknown + comparison.skipped + comparison.not_permitted
    return Verdict(case, word, sorted(rows), notes, comparison.checks)


def judged(verdict: Verdict, known: Rows) -> Verdict:
    """A case of the list shows one of the rows for which it is made, and no other. Other scripts may show any."""
    shows, rows = verdict.case.shows, set(verdict.rows)
    if shows is None or verdict.word not in (SAME, DOCUMENTED):
        return verdict
    for row in sorted(shows) if rows.isdisjoint(shows) else []:
        if row not in known:
            verdict.notes.append(f"docs/LINUX.md has no row {row}")
        elif ".".join(version().split(".")[:2]) in known[row].versions:
            verdict.notes.append(f"does not show {row}, though docs/LINUX.md knows it from {known[row].known_from}")
        else:
            verdict.notes.append(f"does not show {row}, which docs/LINUX.md knows from other versions")
            continue
        verdict.word = UNKNOWN
    if rows.difference(shows):
        verdict.notes += [f"shows {row}, for which it is not made" for row in sorted(rows.difference(shows))]
        verdict.word = UNKNOWN
    return verdict
