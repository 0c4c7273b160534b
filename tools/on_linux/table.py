"""The tables of what came of the cases: by group, by documented difference, and what can't be compared."""

import re
import textwrap
from collections.abc import Iterable, Sequence

from on_linux import rules, verdicts
from on_linux.documents import Rows
from on_linux.verdicts import Verdict

WORDS = (verdicts.SAME, verdicts.DOCUMENTED, verdicts.NOT_COMPARABLE, verdicts.NOT_PERMITTED, verdicts.UNKNOWN)
HEADS = ("Same", "Differs as documented", "Not comparable", "Not permitted", "Differs, cause not known")
# of which verdicts the cases are listed with what there is to say of them
LISTED = {
    verdicts.SAME: "is the same as far as it is comparable",
    verdicts.NOT_COMPARABLE: "is not comparable",
    verdicts.NOT_PERMITTED: "is not permitted",
    verdicts.UNKNOWN: "differs, cause not known",
}


def wrapped(text: str) -> list[str]:
    """A paragraph in lines of 120 columns, none of which ends between two backquotes."""
    kept = re.sub("`[^`]*`", lambda quoted: quoted[0].replace(" ", "\0"), text)
    return [line.replace("\0", " ") for line in textwrap.wrap(kept, 120, break_on_hyphens=False)]


def table(heads: Sequence[str], rows: Sequence[Sequence[object]]) -> list[str]:
    """The lines of a table."""
    return ["| " + " | ".join(map(str, cells)) + " |" for cells in [heads, ["---"] * len(heads), *rows]]


def joined(parts: Iterable[Sequence[str]]) -> str:
    """A page of parts that are not empty."""
    return "\n\n".join("\n".join(part) for part in parts if part)


def by_group(found: Sequence[Verdict]) -> list[tuple[str, list[Verdict]]]:
    """The verdicts of each group of cases, and of all."""
    names = dict.fromkeys(verdict.case.group for verdict in found)
    return [*((name, [verdict for verdict in found if verdict.case.group == name]) for name in names),
            ("all", list(found))]


def counts(found: Iterable[Verdict]) -> list[int]:
    """How many there are of each verdict."""
    words = [verdict.word for verdict in found]
    return [words.count(word) for word in WORDS]


def documented(found: Sequence[Verdict]) -> list[str]:
    """The cases that differ as docs/LINUX.md says, with the row."""
    lines = [
        (verdict.case.name + (f": {'; '.join(verdict.notes)}" if verdict.notes else ""), quoted(verdict.rows))
        for verdict in found if verdict.word == verdicts.DOCUMENTED
    ]
    return table(("Case that differs as documented", "Row"), lines) if lines else []


def not_shown(found: Sequence[Verdict], known: Rows, is_seen: bool) -> list[str]:
    """The rows of docs/LINUX.md that no case has shown: those that were seen before, or those of sources alone."""
    shown = {name for verdict in found for name in verdict.rows}
    names = [name for name, row in known.items() if name not in shown and ("seen" in row.known_from) == is_seen]
    which = "were seen before and that this run does not show" if is_seen else "are known from sources alone"
    return wrapped(f"Rows that {which}: {quoted(names)}.") if names else []


def listed(found: Sequence[Verdict], word: str) -> list[str]:
    """The cases of one verdict about which there is something to say."""
    lines = [
        (f"{verdict.case.group}: {verdict.case.name}", "; ".join(verdict.notes).replace("|", "\\|"))
        for verdict in found if verdict.word == word and verdict.notes
    ]
    return table((f"Case that {LISTED[word]}", "Why"), lines) if lines else []


def text(found: Sequence[Verdict], known: Rows) -> str:
    """All tables."""
    groups = [(name, len(own), *counts(own)) for name, own in by_group(found)]
    rows = not_shown(found, known, False) + not_shown(found, known, True)
    lists = [listed(found, word) for word in LISTED]
    return joined([table(("Group of cases", "Cases", *HEADS), groups), documented(found), rows, *lists])


def page(found: Sequence[Verdict], known: Rows) -> str:
    """What docs/LINUX.md has of a run: how many cases of each group are not the same, and rows not shown again."""
    rows = [(name, len(own), len(own) - counts(own)[0]) for name, own in by_group(found)]
    return joined([table(("Group of cases", "Cases", "Not the same"), rows), not_shown(found, known, True)])


def summary(found: Sequence[Verdict]) -> str:
    same, differs, not_comparable, not_permitted, unknown = counts(found)
    return (
        f"{len(found)} cases: {same} same, {differs} differ as documented, {not_comparable} not comparable, "
        f"{not_permitted} not permitted, {unknown} differ and no cause is known"
    )


def of_rules(found: Sequence[Verdict], known: Rows, names: Iterable[str], version: str) -> dict[str, str]:
    """For each rule of docs/RULES.md what the cases say of it: seen on this version, differs, or not comparable."""
    cells = {}
    for name in names:
        whole, own = rules.PARTS.get(name, (name, known))
        checks = [check for verdict in found for check in verdict.checks if check.rule == whole]
        seen = [f"seen on {version}"] if any(check.is_same for check in checks) else []
        shown = {check.row for check in checks if not check.is_same and check.row and check.row in own}
        rows = sorted(row for row in shown if row in known and not known[row].is_of_stand_in)
        differs = [f"differs: {quoted(rows)}"] if rows else []
        by_source = [row for row, rule in rules.OF_SOURCE_ROWS.items() if rule == name and row in known]
        source = [f"differs by its source: {quoted(by_source)}"] if by_source else []
        cells[name] = "; ".join((seen + differs or ["not comparable"]) + source)
    return cells


def quoted(names: Iterable[str]) -> str:
    return ", ".join(f"`{name}`" for name in names)
