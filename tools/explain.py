#!/usr/bin/env python3
"""Says why the program refuses a script, which word is at fault, and what to write.

Usage: explain.py [--program PATH] [SCRIPT]

SCRIPT is the file; without it, or with `-`, the text is read from standard input. The program is asked to replay it.
Where it refuses the text, its note is printed as it is, and below it the line with a mark below the word, the reason
and what to do, and the form that the line could have had. The verdict is the program's alone: where this tool can't see
why, it says so. Ends with 0 where the script is done, with 1 where it is refused, and with 2 where the file or the
program is at fault.
"""

from __future__ import annotations

import re
import sys
import tomllib
from collections.abc import Iterable, Sequence
from pathlib import Path

from perfscript import Draft, Fault, Line, Program, Script, command, lines_of, program_at
from perfscript import forms
from perfscript.attributes import Attribute
from perfscript.forms import HEADS, SECTIONS, Form, Part, Wrong, forms_of, misspelled, near, parted, section_of
from perfscript.limits import MOST_KINDS, MOST_LINES, MOST_WEIGHT
from perfscript.names import SOFTWARE_KINDS

NOTE = re.compile(r"perf_run: line (\d+): ([A-Z]+)")
LOOK = re.compile(r"perf_run: act (\d+): ring (\d+) last (\d+) head (\d+) given (\d+)")
UNKNOWN = "this tool can't see why; docs/SCRIPT.md says what the reason {} is"
SHOWN = 100
BYTES = {9: "a tab", 13: "a carriage return", 0: "a byte 0"}
ATTR_FAULTS = tomllib.loads(Path(forms.__file__).with_name("attribute_faults.toml").read_text("ascii"))


class Case:
    """A refused text: its lines, the faulty one, what stands before it, and the version. Where the fault is behind the
    last line, the faulty one is an empty line with the place 0."""

    def __init__(self, program: Program, text: str, place: int) -> None:
        self.program, self.text = program, text
        self.lines = lines_of(text)
        self.before = self.lines[: max(place - 1, 0)]
        self.line = self.lines[place - 1] if 0 < place <= len(self.lines) else Line(0, "", ())
        self.version = "2" if text.startswith("perf 2\n") else "1"
        self.words = self.line.text.split(" ")
        # the form that the line could have had; None where its first word is of no line
        forms = forms_of(self.words[0], self.version)
        is_of_bytes = any(word.startswith("attr=") for word in self.words)
        self.form: Form | None = (forms[-1] if is_of_bytes else forms[0]) if forms else None

    @property
    def parts(self) -> list[tuple[int, Part, str]]:
        return parted(self.words, self.form)[0] if self.form else []

    def script(self) -> Script:
        """What stands before the faulty line, without its order."""
        return Script("".join(line.text + "\n" for line in self.before if line.head != "order"))


def of_end(case: Case) -> Wrong | None:
    ended = [line.place for line in case.before if line.head == "end"]
    if case.line.place and ended:
        reason = f"the line stands behind `end`, which is line {ended[0]}"
        return Wrong(1, reason, "take it away, or move `end` behind it")
    if not case.text.endswith("\n") and 0 < case.line.place == len(case.lines):
        return Wrong(len(case.words), "the line is not ended by a line feed", "end the text with one")
    return Wrong(0, "the text ends without `end`", "write a line `end` behind its last line")


def of_ascii(case: Case) -> Wrong | None:
    for place, word in enumerate(case.words, 1):
        for at, letter in enumerate(word, 1):
            if not 32 <= ord(letter) <= 126:
                named, mending = BYTES.get(ord(letter), f"the byte {ord(letter):#04x}"), "write ASCII and spaces"
                mending = "end lines with line feeds alone" if ord(letter) == 13 else mending
                return Wrong(place, f"byte {at} of the word is {named}, which no script has", mending)
    return None


def of_form(case: Case) -> Wrong | None:
    head = case.words[0]
    if case.words == [""]:
        return Wrong(1, "the line is empty", "take it away")
    if "" in case.words:
        mending = "write one space between two words, and no other"
        return Wrong(case.words.index("") + 1, "a space too many stands in the line", mending)
    if not case.form:
        if head in HEADS:
            reason = f"`{head}` is not a line of `perf {case.version}`, which is line 1"
            return Wrong(1, reason, "take it away, or change line 1")
        return Wrong(1, f"`{head[:40]}` is the first word of no line", near(head, HEADS))
    if head == "perf" and case.line.place > 1:
        return Wrong(1, f"`perf` is line {case.line.place}, and stands in line 1 alone", "take it away")
    found, wrong = parted(case.words, case.form)
    for place, part, value in found:
        fault = misspelled(part, value)
        if fault:
            return Wrong(place, f"`{case.words[place - 1][:60]}`: {fault[0]}", fault[1])
    return wrong


def of_place(case: Case) -> Wrong | None:
    head, section, before = case.words[0], section_of(case.words[0]), case.before
    if len(before) < 2:
        wanted = forms_of(SECTIONS[len(before)], case.version)[0].text
        return Wrong(1, f"`{head}` is line {len(before) + 1}, which has to be `{wanted}`", f"write `{wanted}` there")
    later = next((line for line in before if section_of(line.head) > section), None)
    if later:
        reason = f"`{head}` stands behind `{later.text[:40]}`, line {later.place}"
        return Wrong(1, reason, f"move it before that line; the order is {', '.join(SECTIONS)}")
    if section < 2:
        return Wrong(1, f"`{head}` stands there a second time; it is line {section + 1} alone", "take it away")
    script = case.script()
    free = [cpu for cpu in range(script.cpus) if not script.counters_of(cpu)]
    if free and head != "pmu":
        reason = f"processor {free[0]} is in the mask of no `pmu` line"
        return Wrong(1, reason, f"write a `pmu` line with it before `{head}`")
    if head in SECTIONS:
        return None
    return Wrong(1, f"`{head}` stands under no `{SECTIONS[section]}` line", f"write `{SECTIONS[section]} N` before it")


def of_range(case: Case) -> Wrong | None:
    script = case.script()
    for place, part, value in case.parts:
        low, high = part.value.low, part.value.high
        if part.name == "ACTS":
            found = act_out_of_range(place, value)
            if found:
                return found
            continue
        if part.key == "ip" and not forms.HEXADECIMAL.fullmatch(value):
            return Wrong(place, f"`{case.words[place - 1]}` has more than 16 digits", "write an address of at most 16")
        if part.value.spelled is not forms.NUMBER or value in part.value.words:
            continue
        if part.name in ("CPU", "ANY|CPU"):
            high = script.cpus - 1
        if not low <= int(value) <= high:
            what = part.key or {"AMOUNT": "a length", "HITS": "how often a kind occurred"}.get(part.name)
            what = what or f"`{case.words[0]} {part.shown}`"
            return Wrong(place, f"`{case.words[place - 1]}` is out of range", f"{what} is {low} to {high}")
    return RANGES[case.line.head](case, script) if case.line.head in RANGES else None


def act_out_of_range(place: int, act: str) -> Wrong | None:
    """What is out of range in an act."""
    number, _, at = act[1:].partition("=")
    what, most = {"p": ("a processor", 7), "t": ("a tool", 3), "s": ("a ring", 15)}[act[0]]
    if int(number) > most:
        return Wrong(place, f"`{act}` names {what} out of range", f"{what} is 0 to {most}")
    if at and int(at) > forms.WIDE:
        return Wrong(place, f"`{act}` has a place above 64 bits", "write it in bytes, from the start of the stream")
    return None


def pmu_out_of_range(case: Case, script: Script) -> Wrong | None:
    number, mask = int(case.words[1]), int(case.line.given()["cpus"], 16)
    if number != len(script.pmus):
        return Wrong(2, f"`{number}` is not the next number", f"PMUs are numbered from 0: write {len(script.pmus)}")
    if not mask or mask >> script.cpus:
        return not_a_mask(4, f"cpus={mask:x}", "processors", script.cpus)
    for other, pmu in script.pmus.items():
        if pmu.cpus & mask:
            return Wrong(4, f"`cpus={mask:x}` has a processor of PMU {other}", "name each processor in one `pmu` line")
    return None


def not_a_mask(place: int, word: str, what: str, count: int) -> Wrong:
    return Wrong(place, f"`{word}` is not a mask of {what} 0 to {count - 1}", f"write 1 to {(1 << count) - 1:x}")


def kind_out_of_range(case: Case, script: Script) -> Wrong | None:
    given = case.line.given()
    pmu, mask = int(given.get("pmu", "0")), int(given["mask"], 16)
    if pmu not in script.pmus:
        return Wrong(3, f"`pmu={pmu}` is not declared", near(str(pmu), map(str, script.pmus)))
    counters = script.pmus[pmu].counters
    return not_a_mask(len(case.words), f"mask={mask:x}", "counters", counters) if not mask or mask >> counters else None


def not_rising(case: Case, script: Script) -> Wrong | None:
    head, number = case.line.head, int(case.words[1])
    last = max((int(line.words[0]) for line in case.before if line.head == head), default=-1)
    if number <= last:
        mending = f"numbers of `{head}` lines rise: write {last + 1} or more, or move the line"
        return Wrong(2, f"`{number}` stands behind {last}", mending)
    size = int(case.line.given().get("bytes", "64"))
    near_sizes = f"write {1 << size.bit_length() - 1} or {1 << size.bit_length()}"
    return Wrong(3, f"`bytes={size}` is not a power of two", near_sizes) if size & size - 1 else None


RANGES = {"pmu": pmu_out_of_range, "kind": kind_out_of_range}
RANGES |= dict.fromkeys(("task", "ring", "processor", "tool", "reader"), not_rising)


def of_attr(case: Case) -> Wrong | None:
    place = next(number for number, word in enumerate(case.words, 1) if word.startswith("attr="))
    _, *said = case.program.outputs([("attr " + case.words[place - 1][5:], "")])[0].split()
    if not said or said[0] not in ATTR_FAULTS:
        return None
    fault = ATTR_FAULTS[said[0]]
    return Wrong(place, f"the bytes are no attribute, {said[0]}: {fault['reason']}", fault["mending"])


def of_name(case: Case) -> Wrong | None:
    script, head = case.script(), case.line.head
    if head == "kind":
        name = case.words[1]
        if name in script.kinds:
            place = next(line.place for line in case.before if line.head == "kind" and line.words[0] == name)
            return Wrong(2, f"`{name}` is declared before, in line {place}", "give it another name")
        return Wrong(2, f"`{name}` is reserved: no declared kind may be called so", "give it another name")
    if head in ("map", "reader"):
        place = 3 if head == "map" else 2
        return undeclared(place, f"ring {case.words[place - 1]}", "ring", case.words[place - 1], map(str, script.rings))
    return {"open": open_of_no_kind, "work": work_of_no_kind, "order": act_of_nobody}[head](case, script)


def undeclared(place: int, what: str, head: str, word: str, known: Iterable[str]) -> Wrong:
    mending = f"declare it by a `{head}` line, or name another; {near(word, known)}"
    return Wrong(place, f"{what} is not declared", mending)


def open_of_no_kind(case: Case, script: Script) -> Wrong | None:
    name = case.line.given().get("kind")
    if name:
        return undeclared(3, f"the kind `{name}`", "kind", name, [*script.kinds, *SOFTWARE_KINDS])
    try:
        Attribute(case.line, script.kinds)
        return None
    except Fault:
        reason = f"type and config of the bytes name no kind of {len(script.kinds)} declared ones"
        known = "config, bytes 8 to 15, is a declared kind's number from 0; with type 1 it is 1, 3, 4 or 9"
        return Wrong(3, reason, known)


def work_of_no_kind(case: Case, script: Script) -> Wrong | None:
    seen = set()
    for place, part, _ in case.parts:
        key = case.words[place - 1].split("=")[0]
        if part.name != "HITS":
            continue
        if key == "ip":
            reason = "`ip` stands behind a kind or twice, and no kind is called so"
            return Wrong(place, reason, "write it once, before the kinds")
        if key not in script.kinds:
            return undeclared(place, f"the kind `{key}`", "kind", key, script.kinds)
        if key in seen:
            return Wrong(place, f"`{key}` stands twice in the line", "write each kind once, with all its occurrences")
        seen.add(key)
    return None


def act_of_nobody(case: Case, script: Script) -> Wrong | None:
    for place, _, act in case.parts:
        ring = act[1:].partition("=")[0]
        if act[0] == "s" and int(ring) not in script.rings:
            return undeclared(place, f"ring {ring} of `{act}`", "ring", ring, map(str, script.rings))
        if act[0] != "s" and not script.lines.get(act):
            known = near(act, [actor for actor, lines in script.lines.items() if lines])
            reason = f"`{act}` names {actor_of(act)}, which has no lines"
            return Wrong(place, reason, f"give it lines, or name another; {known}")
    return None


def actor_of(act: str) -> str:
    return f"{'processor' if act[0] == 'p' else 'tool'} {act[1:]}"


def counted(count: int, one: str, more: str = "") -> str:
    return f"{count} {one if count == 1 else more or one + 's'}"


def of_limit(case: Case) -> Wrong | None:
    if case.line.head == "kind":
        return Wrong(1, f"it is kind number {MOST_KINDS + 1}", f"declare at most {MOST_KINDS} kinds")
    reason = f"it is line number {MOST_LINES + 1} under processors and tools"
    return Wrong(1, reason, f"write at most {MOST_LINES} such lines")


def of_weight(case: Case) -> Wrong | None:
    script = case.script()
    opens = [Attribute(line, script.kinds).period for line in script.all_lines() if line.head == "open"]
    periods = [*opens, *(int(line.words[1]) for line in script.all_lines() if line.head == "period")]
    sampling, least = sum(period > 0 for period in opens), min((period for period in periods if period), default=0)
    hits = [int(value) for line in script.all_lines() if line.head == "work"
            for key, value in line.given().items() if key != "ip"]
    weight = sampling * sum(-(-count // least) for count in hits) if least else 0
    if weight <= MOST_WEIGHT:
        return None
    by = f"{counted(sampling, 'sampling open')} and {counted(sum(hits), 'occurrence')}, by {least}"
    mending = f"the most is {MOST_WEIGHT}: raise the least period, or give fewer occurrences"
    return Wrong(1, f"it weighs {weight}: {by}, the least period that a line gives", mending)


def of_order(case: Case) -> Wrong | None:
    script, acts = case.script(), [act for line in case.before if line.head == "order" for act in line.words]
    wrong = []
    for actor, lines in script.lines.items():
        count = acts.count(actor)
        if count != len(lines):
            where = f"{lines[0].place} to {lines[-1].place}" if len(lines) > 1 else f"{lines[0].place}"
            more = f"{len(lines) - count} more" if count < len(lines) else f"{count - len(lines)} fewer"
            has, has_acts = counted(len(lines), "line"), counted(count, f"act `{actor}`", f"acts `{actor}`")
            wrong.append(f"{actor_of(actor)} has {has}, {where} of the text, and the order {has_acts}: write {more}")
    return Wrong(1, "the order is not whole", "; ".join(wrong)) if wrong else None


REASONS = {
    "END": of_end, "ASCII": of_ascii, "FORM": of_form, "PLACE": of_place, "RANGE": of_range, "ATTR": of_attr,
    "NAME": of_name, "LIMIT": of_limit, "WEIGHT": of_weight, "ORDER": of_order,
}


def marked(line: Line, place: int) -> list[str]:
    """A line with a mark below a word, of which no more than some 100 characters are shown."""
    words = line.text.split(" ")
    at, width = sum(len(word) + 1 for word in words[: place - 1]), len((words + [""])[place - 1]) or 1
    first = max(0, at - SHOWN // 2)
    shown = "".join(letter if 32 <= ord(letter) <= 126 else "?" for letter in line.text[first : first + SHOWN])
    return [f"    {shown}", f"    {' ' * (at - first)}{'^' * min(width, SHOWN // 2)}"]


def of_line(case: Case, reason: str) -> list[str]:
    """What there is to say of a refused line."""
    wrong = REASONS[reason](case) if reason in REASONS else None
    if wrong is None:
        said = f"line {case.line.place or len(case.lines)}: {UNKNOWN.format(reason)}"
        return [said, *(marked(case.line, 1) if case.line.place else [])]
    if not case.line.place or wrong.place == 0:
        return [f"behind line {len(case.lines)}: {wrong.reason}; {wrong.mending}"]
    said = f"line {case.line.place}, word {wrong.place}: {wrong.reason}; {wrong.mending}"
    form = [f"the form is: {case.form.text}"] if case.form and reason in ("FORM", "RANGE", "NAME") else []
    return [said, *marked(case.line, wrong.place), *form]


def of_look(program: Program, script: Script, number: int, ring: int, last: int, given: int) -> list[str]:
    """What there is to say of a look that can't have been made: the places that the ring's records have there."""
    draft, order = Draft.of(script), script.order[:number]
    lines = {actor: own[: order.count(actor)] for actor, own in draft.lines.items() if actor in order}
    done = Draft(draft.head, lines, draft.readers, order)
    ends = [record.end for record in program.report(done.text()).rings[ring].records]
    texts = [str(place) for place in [0, *ends] if place >= last]
    shown = ", ".join(texts if len(texts) <= 9 else [*texts[:4], "..", *texts[-4:]])
    why = "stands before the last look" if given < last else "is not where a record ends that was written by then"
    orders = [line for line in lines_of(script.text) if line.head == "order"]
    line, word = [(line, word) for line in orders for word in range(2, len(line.words) + 2)][number]
    said = f"line {line.place}, word {word}: act {number}, `s{ring}={given}`, {why}; write a place of {shown}"
    return [said, *marked(line, word)]


def explained(program: Program, name: str, text: str) -> tuple[list[str], int]:
    """The lines that say what becomes of a text, and the status."""
    outcome = program.call("replay", text)
    if outcome.status == 0:
        return [f"{name}: the program does this script"], 0
    line, look = NOTE.fullmatch(outcome.note), LOOK.fullmatch(outcome.note)
    if line:
        return [outcome.note, *of_line(Case(program, text, int(line[1])), line[2])], 1
    if look:
        number, ring, last, _, given = map(int, look.groups())
        return [outcome.note, *of_look(program, Script(text), number, ring, last, given)], 1
    if outcome.status == 1:
        return [outcome.note, f"{name}: it has {len(text)} bytes; take away what is not needed"], 1
    raise Fault(f"{program.path} ended with status {outcome.status}: {outcome.note or 'no note'}")


def main(words: Sequence[str] | None = None) -> int:
    parser = command.Parser("explain.py", __doc__)
    parser.add_argument("script", metavar="SCRIPT", nargs="?", default="-")
    options = parser.parse_args(words)

    def explain() -> int:
        text = command.text_of(options.script)
        said, status = explained(program_at(options.program), options.script, text)
        print("\n".join(said))
        return status

    return command.ended("explain.py", explain)


if __name__ == "__main__":
    sys.exit(main())
