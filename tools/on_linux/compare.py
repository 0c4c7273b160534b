"""Compares the answers of a report with those of the running kernel, line by line."""

from collections.abc import Hashable, Mapping, Sequence
from dataclasses import dataclass

from on_linux import differences, rings, rules
from on_linux.doing import Answer, Doing
from perfscript import Line, Report, Script
from perfscript.follow import Event, Follow
from perfscript.names import FORMAT_GROUP, REFUSALS

RULE_OF_REFUSAL = {"ENOSPC": rules.NO_SPACE}
RULE_OF_REFUSAL |= dict.fromkeys(("EATTRPERIOD", "ESAMPLEBITS", "EFORMATBITS"), rules.ATTRIBUTES)
RULE_OF_LINE = {
    "open": rules.OPENS,
    "map": rules.MAP,
    "output": rules.OUTPUT,
    "period": rules.PERIOD,
    "read": rules.FORMAT,
    "close": rules.CLOSE,
    "enable": rules.ENABLE,
    "disable": rules.ENABLE,
    "reset": rules.RESET,
    "fork": rules.INHERIT,
    "exit": rules.EXIT,
}
SWITCHES = {"context-switches", "cpu-migrations"}
NOT_PERMITTED = ("EACCES", "EPERM")
# the words of a read by what each is and of which member
Words = Mapping[tuple[str, int], int]


@dataclass
class Check:
    """One comparison: what it is about, its rule, whether both say the same, and else the row of docs/LINUX.md."""

    about: str
    rule: str
    is_same: bool
    said: object = ""
    seen: object = ""
    row: str | None = None
    place: int | None = None

    @property
    def text(self) -> str:
        where = f", line {self.place} of the report" if self.place else ""
        cause = f"as documented: {self.row}" if self.row else "of no known cause"
        answers = f"the report has `{self.said}`, Linux `{self.seen}`"
        return f"{self.about}{where}: {answers}: differs, {cause}; rule: {self.rule}"


class Comparison:
    """All checks of one script."""

    def __init__(self, script: Script, report: Report, doing: Doing) -> None:
        self.script, self.report, self.doing = script, report, doing
        self.follow = Follow(script, report)
        self.checks: list[Check] = []
        self.skipped: list[str] = []
        self.not_permitted: list[str] = []
        # both sides' last values of what rises, by the event and its word, and of which it is not sure that they rise
        self.times: dict[Hashable, tuple[int, int]] = {}
        self.is_unsure: set[Hashable] = set()
        # for each copy's id that the kernel gave, as ("copy", id), the id that the report has at its first place
        self.copy_ids: dict[tuple[str, int], int] = {}

    def run(self) -> "Comparison":
        for act in self.script.acts():
            if isinstance(act, Line):
                self.line(act)
        rings.compare(self)
        self.order_of_copies()
        if "ids" in self.doing.options:
            self.ids()
        return self

    def check(self, about: str, rule: str, is_same: bool, said: object = "", seen: object = "", row: str | None = None,
              place: int | None = None) -> None:
        self.checks.append(Check(about, rule, is_same, said, seen, row, place))

    def line(self, line: Line) -> None:
        """Compares the answers to one line, and goes past it."""
        answer = self.doing.answers[line.name]
        refusal = self.report.refusal(line)
        if answer.skipped:
            self.skipped.append(f"{line.name} {line.text}: {answer.skipped}")
        elif answer.errno in NOT_PERMITTED:
            self.not_permitted.append(f"{line.name} {line.text}: {answer.errno}")
        elif refusal or answer.errno:
            self.refusal(line, refusal, answer)
        elif line.head == "read":
            self.read(line, answer.words or [])
        elif line.head in RULE_OF_LINE:
            said = " ".join(self.report.answer(line) or ["Ok"])
            rule, place = RULE_OF_LINE[line.head], self.report.place(line)
            self.check(f"{line.name} {line.text}", rule, said == "Ok", said, answer.text, None, place)
        self.note_times(line)
        self.follow.step(line)

    def refusal(self, line: Line, refusal: str | None, answer: Answer) -> None:
        """Compares where one of both refuses the line."""
        rule = RULE_OF_REFUSAL.get(refusal or "", RULE_OF_LINE.get(line.head, rules.PLACES))
        is_same = answer.errno is not None and answer.errno == REFUSALS.get(refusal or "")
        row = None if is_same else differences.of_refusal(self, line, refusal, answer)
        said = refusal or " ".join(self.report.answer(line) or ["Ok"])
        self.check(f"{line.name} {line.text}", rule, is_same, said, answer.text, row, self.report.place(line))

    # the words of a read

    def read(self, line: Line, words: list[int]) -> None:
        event = self.follow.slots[line.slot()]
        said = [int(word) for word in self.report.answer(line) or []]
        members = self.follow.group(line.slot()) if event.attribute.format & FORMAT_GROUP else [event]
        names = event.attribute.word_names(len(members))
        place = self.report.place(line)
        about = f"{line.name} {line.text}"
        is_same = len(said) == len(words) == len(names)
        row = None if is_same else differences.of_number_of_words(event, said, words)
        self.check(about, rules.FORMAT, is_same, f"{len(said)} words", f"{len(words)} words", row, place)
        if not is_same:
            return
        self.skip_values(about, members)
        for number, (name, member) in enumerate(names):
            what = f"{about}, word {number + 1} ({name})"
            self.word(what, name, members[member], event, said[number], words[number], place)
        self.both_times(about, event, members[0], dict(zip(names, said)), dict(zip(names, words)), place)

    def skip_values(self, about: str, members: Sequence[Event]) -> None:
        """Says which values of a read have no counterpart."""
        if members[0].task is None:
            self.skipped.append(f"{about}: values of `task=all` are those of all that runs")
        for kind in sorted({member.attribute.kind for member in members} & SWITCHES):
            self.skipped.append(f"{about}: a kernel's switches are its own, so values of {kind} are not compared")

    def word(self, what: str, name: str, member: Event, event: Event, said: int, seen: int, place: int | None) -> None:
        """Compares one word of a read; times are compared by how they rise."""
        if name == "nr":
            self.check(what, rules.FORMAT, said == seen, said, seen, None, place)
        elif name == "id":
            known = self.doing.ids.get(seen)
            of = f"the event with id {known} in the report" if known else "of no event that the report has open"
            self.check(what, rules.FORMAT, known == said, said, f"{seen}, which is {of}", None, place)
        elif member.task is None:
            pass
        elif name == "lost":
            row = None if said == seen else differences.of_lost_word(self, member, event, said, seen)
            self.check(what, rules.LOST_COUNT, said == seen, said, seen, row, place)
        elif name == "value":
            self.value(what, member, said, seen, place)
        else:
            first = self.follow.group(event.slot)[0] if event.attribute.format & FORMAT_GROUP else event
            self.rise(what, (first, name), first, rules.TIMES, said, seen, place)

    def value(self, what: str, member: Event, said: int, seen: int, place: int | None) -> None:
        kind, row = member.attribute.kind, None
        if kind == "task-clock":
            self.rise(what, (member, "value"), member, rules.SOFTWARE, said, seen, place)
        elif kind == "dummy":
            self.check(what, rules.SOFTWARE, said == seen, said, seen, None, place)
        elif not member.attribute.is_software:
            found = self.rules_of_value(member)
            if said != seen:
                row = differences.of_value(self, member, said, seen)
                found = [max(found, key=rules.CLOSEST.index)]
            for rule in found:
                self.check(what, rule, said == seen, said, seen, row, place)

    def rules_of_value(self, member: Event) -> list[str]:
        """The rules that a count rests on, by what was asked of the event."""
        attribute = member.attribute
        found = [rules.PLACES]
        found += [rules.EXCLUDE] if attribute.has("exclude_user") or attribute.has("exclude_kernel") else []
        found += [rules.ENABLE] if {"enable", "disable"} & set(member.commands) else []
        found += [rules.RESET] if "reset" in member.commands else []
        if attribute.has("inherit"):
            found += [rules.FOLD, rules.EXIT] if member in self.follow.folded else []
            has_copies = self.follow.live_copies(member) or member in self.follow.folded
            found += [rules.FAMILY, rules.INHERIT] if has_copies else []
        leader = self.follow.group(member.slot)[0]
        found += [rules.MEMBER_OFF] if leader is not member and not leader.state_is_ready else []
        return found

    def rise(self, what: str, key: Hashable, event: Event, rule: str, said: int, seen: int, place: int | None) -> None:
        """Both rise since the last read, or neither does.

        A line that lets a task run and counts no work for it makes that unsure.
        """
        said_before, seen_before = self.times.get(key, (0, 0))
        self.times[key] = said, seen
        is_same = seen >= seen_before and said >= said_before
        if key in self.is_unsure:
            is_same = is_same and (seen > seen_before or said == said_before)
        else:
            is_same = is_same and (seen > seen_before) == (said > said_before)
        self.is_unsure.discard(key)
        row = None if is_same else differences.of_time(event, said > said_before, seen > seen_before)
        self.check(what, rule, is_same, f"{said_before} then {said}", f"{seen_before} then {seen}", row, place)

    def both_times(self, about: str, event: Event, leader: Event, said: Words, seen: Words, place: int | None) -> None:
        """Enabled is at least running; and both are equal on both sides, or on none."""
        if ("enabled", 0) not in seen or ("running", 0) not in seen:
            return
        pairs = [(words[("enabled", 0)], words[("running", 0)]) for words in (said, seen)]
        is_same = all(enabled >= running for enabled, running in pairs)
        if event.task is not None and (leader, "running", "ever") not in self.is_unsure:
            is_same = is_same and (pairs[0][0] == pairs[0][1]) == (pairs[1][0] == pairs[1][1])
        text, other = (" and ".join(map(str, pair)) for pair in pairs)
        row = None if is_same else differences.of_time(leader, False, True)
        self.check(f"{about}, enabled and running", rules.TIMES, is_same, text, other, row, place)

    def note_times(self, line: Line) -> None:
        """A fork, an exit and work of no length let tasks run for which the report counts no time."""
        is_short = line.head == "work" and line.words[0] == "0"
        is_held = line.head == "period" and "held" in self.doing.options
        if not (line.head in ("fork", "exit") or is_short or is_held) or self.report.refusal(line):
            return
        for event in self.follow.originals:
            for name in ("enabled", "running", "value"):
                self.is_unsure |= {(event, name), (event, name, "ever")}

    def order_of_copies(self) -> None:
        """Copies of one fork have rising ids in the order in which they are made."""
        ids = {said: seen[1] for seen, said in self.copy_ids.items()}
        made = [copy for copy in self.follow.all_copies if copy.id in ids]
        for task in dict.fromkeys(copy.task for copy in made):
            copies = [copy for copy in made if copy.task == task]
            if len(copies) < 2:
                continue
            seen = sorted(copies, key=lambda copy: ids[copy.id])
            row = None if seen == copies else differences.of_copies(copies)
            text, other = (" ".join(str(copy.slot) for copy in some) for some in (copies, seen))
            self.check(f"order of the copies for task {task}", rules.OVERFLOW, seen == copies, text, other, row)

    def ids(self) -> None:
        """Ids of events that were opened one after the other: the report draws none for a refused open."""
        pairs = list(self.doing.ids.items())
        for (seen_before, said_before), (seen, said) in zip(pairs, pairs[1:]):
            is_same = seen - seen_before == said - said_before
            row = None if is_same else differences.of_ids(self, said_before, said, seen - seen_before)
            text, other = (f"apart by {gap}" for gap in (said - said_before, seen - seen_before))
            self.check(f"ids of events {said_before} and {said}", rules.OPENS, is_same, text, other, row)
