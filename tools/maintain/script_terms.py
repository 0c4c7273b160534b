#!/usr/bin/env python3
"""Turns script texts and their reports into antt files of worked cases.

The cases are those that crates/worked_cases/data/theorems lists, each a pair NAME.script and NAME.report there. Where
there is NAME.other-seats it is taken for the report: it is the same but for the counters that `seats` names, which are
others than the program's and right too. What comes out is, for each case, the script as a term of the type `Scripted`,
the replies to all lines of its order as a list of terms, and a theorem that these replies are the answers that the
definitions of crates/stage_spec/specs give. The theorem is proved by computation, so it fails where the definitions
answer anything else than the report says.

For the cases listed as `reports/..` the report's text comes out too, and the theorem says that it is the report, by the
definitions of crates/report_spec/specs, with what became of each ring. There a case may also be a script whose order
has an unlawful look at a tail, with the note that crates/worked_cases/data/cases gives for it; the theorem is then that
this look, with the note's numbers, is the first that is not lawful.

No proof rests on this program: what it writes is checked by `rt check` like any other file. A slip here could only
state another case than the text says, which is why the terms are written to be read beside the text.

Usage: script_terms.py
  Writes crates/worked_theorems/proofs/answers and .../reports anew: files that it wrote before are replaced, and the
  list of each folder's modules, as answers.antt beside it
"""

import os
import re
import sys
import tomllib
from collections.abc import Callable, Iterable, Mapping, Sequence
from pathlib import Path
from typing import NamedTuple

import worked_cases
from packages import CRATES, DATA
from perfscript import Act, Fault, Line, Look, Report, Script, command
from perfscript.attributes import Attribute
from perfscript.limits import MOST_CPUS, MOST_TOOLS
from perfscript.names import FLAGS, SOFTWARE_KINDS

PROOFS = os.path.join(CRATES, "worked_theorems", "proofs")
WRITTEN = "written by tools/maintain/script_terms.py"
LINES_PER_FILE = 390
# what files of theorems may import, and what terms call refusals and lines
TABLES = tomllib.loads(Path(__file__).with_suffix(".toml").read_text("utf-8"))
REASONS: Mapping[str, str] = TABLES["reasons"]
RULES = {"exclusive": "Exclusive", "exclusive-self": "ExclusiveSelf", "earlier": "Earlier"}
NOTE = re.compile(r"perf_run: act (\d+): ring (\d+) last (\d+) head (\d+) given (\d+)")


class Case(NamedTuple):
    """A script with its report; or, where it has an unlawful look, with the numbers of its note: the act's number, the
    ring, its last place, its head, the place given."""

    name: str
    script: Script
    report: str
    note: tuple[str, ...]

    def replies(self) -> list[tuple[str, str] | None]:
        """The reply to each act that does a line and its proof, a plain Ok where the report shows none; None for a look
        at a tail."""
        said = Report(self.report).replies if self.report else {}
        return [None if isinstance(act, Look) else reply(act.head, said[act.key].words) if act.key in said
                else ("reply.Ok", "refl") for act in self.script.acts()]


def list_of(terms: Iterable[str]) -> str:
    return " ∷ ".join([*terms, "[]"])


def bracketed(terms: Iterable[str]) -> str:
    text = list_of(terms)
    return text if text == "[]" else f"({text})"


def slots(words: Iterable[str]) -> str:
    return f"(slots ({list_of(words)}))"


# The script.


def switch(line: Line, _kinds: Sequence[str]) -> str:
    return "cpu_line.Switch None" if line.words[0] == "idle" else f"cpu_line.Switch (Some (task {line.words[0]}))"


def work(line: Line, kinds: Sequence[str]) -> str:
    given = line.given()
    hits = bracketed(str(int(given.get(name, "0"))) for name in kinds)
    mode = line.words[1].capitalize()
    return f"cpu_line.Work (work {line.words[0]} mode.{mode} {int(given.get('ip', '0'), 16)} {hits})"


def open_line(line: Line, kinds: Sequence[str]) -> str:
    asked = Attribute(line, kinds)
    is_software = asked.kind in SOFTWARE_KINDS
    attr = " ".join([
        "kind." + asked.kind.title().replace("-", "") if is_software else f"(kind.Hard {kinds.index(asked.kind)})",
        "tasks.All" if asked.task == "all" else f"(tasks.One (task {asked.task}))",
        "cpus.Any" if asked.cpu == "any" else f"(cpus.One (cpu {asked.cpu}))",
        f"{asked.period} {asked.sample} {asked.format}",
        str(sum(1 << place for place, flag in enumerate(FLAGS) if asked.has(flag))),
    ])
    leader = "None" if asked.leader is None else f"(Some (slot {asked.leader}))"
    return f"tool_line.Open (slot {line.words[0]}) (attr {attr}) {leader}"


def read_line(line: Line, _kinds: Sequence[str]) -> str:
    size = f"(Some {line.given()['size']})" if line.given() else "None"
    return f"tool_line.Read (slot {line.words[0]}) {size}"


# the lines whose terms are more than their words in the places of a pattern
MADE: Mapping[str, Callable[[Line, Sequence[str]], str]] = {
    "switch": switch, "work": work, "open": open_line, "read": read_line,
}


def line_term(line: Line, kinds: Sequence[str]) -> str:
    """The term of a line, in a script of these kinds."""
    if line.head in MADE:
        return MADE[line.head](line, kinds)
    pattern: str = TABLES["lines"][line.head]
    return pattern.format(*line.words, is_group=str(line.is_group).lower())


# The report: of each reply its term, and the proof that it is the answer.


def reply(head: str, words: Sequence[str]) -> tuple[str, str]:
    if words and words[0] == "EASSIGN":
        return f"reply.Refused (reason.{REASONS[words[0]]} {slots(words[1:])})", "refl"
    if words and words[0] in REASONS:
        return f"reply.Refused reason.{REASONS[words[0]]}", "refl"
    if head == "read":
        return f"reply.Read {bracketed(words)}", "refl"
    if head == "why":
        return f"reply.Why {why(words)}", "refl"
    if head == "seats":
        pairs = [f"(slot {event}, {counter})" for event, counter in (word.split("=") for word in words)]
        return f"reply.Seats {bracketed(pairs)}", "(refl, refl)"
    raise Fault(f"{head} {' '.join(words)}: not a reply that has a term")


def why(words: Sequence[str]) -> str:
    if words[0] in ("off", "away", "on"):
        return f"why.{words[0].capitalize()}"
    return f"(why.Failed {cause(words[1:])})" if words[0] == "error" else f"(why.Refused {cause(words)})"


def cause(words: Sequence[str]) -> str:
    if words[0] == "hall":
        return f"(cause.Hall {slots(words[1:])})"
    return f"(cause.Rule (rule.{RULES[words[0]]} (slot {words[1]})))"


# The terms of a case.


def act_term(act: Act) -> str:
    if isinstance(act, Look):
        return f"seen {act.ring} {act.place}"
    return f"by_{'cpu' if act.actor[0] == 'p' else 'tool'} {act.actor[1:]}"


def lines_field(name: str, padding: str, script: Script, actors: Sequence[str]) -> list[str]:
    """The lists of lines of processors or tools, up to the last that is not empty; the others are empty."""
    lists = [script.lines.get(actor, []) for actor in actors]
    while lists and not lists[-1]:
        lists.pop()
    out = []
    line = f"  {name} = {padding} " + ("(" if lists else "")
    for lines in lists:
        if not lines:
            line += "[] ∷ "
            continue
        out.append(line + "(")
        out += [f"      {line_term(one, list(script.kinds))} ∷" for one in lines]
        line = "      []) ∷ "
    return [*out, line + ("[]);" if lists else "[];")]


def wrapped(terms: Iterable[str], first: str, margin: str, end: str, width: int = 150) -> list[str]:
    """A list over as many lines as it needs."""
    out, line = [], first
    for piece in [*(f"{term} ∷" for term in terms), "[]" + end]:
        if len(line) + len(piece) + 1 > width and line.strip():
            out.append(line.rstrip())
            line = margin
        line += piece + " "
    return [*out, line.rstrip()]


def script_term(script: Script, name: str) -> list[str]:
    kinds = [f'kind_line (codes "{word}") {kind.pmu} {kind.mask}' for word, kind in script.kinds.items()]
    readers = [f"reader {ring} {one.tries} {one.batch}" for ring, one in script.readers.items()]
    return [
        f"{name} : Scripted",
        f"{name} = record {{",
        f"  cpus = {script.cpus};",
        f"  pmus = {list_of(f'pmu {pmu.counters} {pmu.cpus}' for pmu in script.pmus.values())};",
        *wrapped(kinds, "  kinds = ", "      ", ";"),
        f"  tasks = {list_of(f'task {task}' for task in script.tasks)};",
        f"  rings = {list_of(f'(ring {ring}, {size})' for ring, size in script.rings.items())};",
        *lines_field("cpu_lines", "eight", script, [f"p{number}" for number in range(MOST_CPUS)]),
        *lines_field("tool_lines", "four", script, [f"t{number}" for number in range(MOST_TOOLS)]),
        f"  readers = {list_of(readers)};",
        *wrapped(map(act_term, script.acts()), "  order = ", "      ", ";"),
        "}",
        "",
    ]


def terms_of(case: Case, is_whole: bool) -> list[str]:
    """The theorem of a case: that the replies are the answers, and for a whole report that the text is the report; or
    that a look is the first that is not lawful."""
    name = case.name.replace("-", "_")
    script = script_term(case.script, name)
    if case.note:
        act, ring, *places = case.note
        claim = f"{name} {act} (ring {ring}) {' '.join(places)}"
        proofs = nested(["refl"] * int(act), "(refl, refl, refl)")
        return [*script, f"{name}-unlawful : IsUnlawfulLook {claim}", f"unfolding Walked {name}",
                f"{name}-unlawful = looked {claim} refl {proofs}"]
    replies = case.replies()
    answered = [one for one in replies if one]
    said = wrapped([term for term, _ in answered], f"{name}_replies = ", "    ", "")
    script += [f"{name}_replies : List Reply", *said, ""]
    if not is_whole:
        proofs = nested([proof for _, proof in answered], "tt")
        return [*script, f"{name}-answers : Answers {name} {name}_replies",
                f"unfolding Computed {name} {name}_replies",
                f"{name}-answers = computed {name} {name}_replies {proofs}"]
    lines = [f'    codes "{line}\\n"' for line in case.report.splitlines()]
    claim = f"{name} {name}_replies {name}_report"
    proofs = nested([one[1] if one else "refl" for one in replies], "refl")
    text = [*(line + " ++" for line in lines[:-1]), lines[-1]]
    return [*script, f"{name}_report : List ℕ", f"{name}_report =", *text, "",
            f"{name}-worked : IsWorked {claim}", f"unfolding Computed {claim}",
            f"{name}-worked = computed {claim} refl {proofs}"]


def nested(proofs: Sequence[str], last: str) -> str:
    """The nested tuple of the proofs, one for each act, and of the last one."""
    return "".join(f"({it}, " for it in proofs) + last + ")" * len(proofs)


# The files.

FOLDERS = ("answers", "reports")
USE = re.compile(r"use (\S+?)(?:\.\{(.*)\}| as (\S+))")


def imports(lines: Sequence[str], uses: Iterable[str]) -> list[str]:
    """Of these imports what some lines name."""
    words = set(re.sub(r'"[^"]*"|[(),;{}]', " ", " ".join(lines)).split())
    heads = {word.split(".")[0] for word in words if "." in word}
    out = []
    for module, names, alias in USE.findall("\n".join(uses)):
        used = [name for name in names.split(", ") if name.strip("◌") in words]
        if used or alias in heads:
            out.append(f"use {module} as {alias}" if alias else f"use {module}.{{{', '.join(used)}}}")
    return out


def write_files(out: str, folder: str, title: str, cases: Iterable[Case]) -> None:
    """Writes cases into files that are not too long."""
    uses = [line for part in ("all", folder) for line in TABLES[part].splitlines()]
    parts: list[list[str]] = [[]]
    for case in cases:
        terms = ["", *terms_of(case, folder == "reports")]
        if parts[-1] and len(parts[-1]) + len(terms) + len(uses) + 2 > LINES_PER_FILE:
            parts.append([])
        parts[-1] += terms
    for number, body in enumerate(parts, 1):
        head = [f"-- Worked cases, {WRITTEN} from texts and their reports.", *imports(body, uses)]
        Path(out, f"{title}{number}.antt").write_text("\n".join([*head, *body]) + "\n", "utf-8")


def read_case(file: str, name: str) -> Case:
    """The case NAME of the data, whose theorem stands in files of the name FILE."""
    last, path = os.path.basename(name), os.path.join(DATA, name)
    named, script = f"{file.lower()}_{last}" if last.isdigit() else last, Script(command.text_of(path + ".script"))
    for ending in (".other-seats", ".report"):
        if os.path.exists(path + ending):
            report = command.text_of(path + ending)
            Report(report).check(script)
            return Case(named, script, report, ())
    noted = next((NOTE.fullmatch(note) for _, of, note in worked_cases.cases() if of == name), None)
    if noted is None:
        raise Fault(f"{name}: neither a report nor a note")
    return Case(named, script, "", noted.groups())


def listed() -> dict[str, dict[str, list[Case]]]:
    """The cases of each file of theorems, as the list has them, by their folders."""
    files: dict[str, dict[str, list[Case]]] = {folder: {} for folder in FOLDERS}
    for place, name in worked_cases.theorems():
        folder, file = place.split("/")
        files[folder].setdefault(file, []).append(read_case(file, name))
    return files


# the modules of the folder that are written by hand
BY_HAND = ("Answering", "Looking", "Seats", "Words")


def is_written(path: str) -> bool:
    return WRITTEN in Path(path).read_text("utf-8").partition("\n")[0]


def main() -> None:
    for folder, files in listed().items():
        out = os.path.join(PROOFS, folder)
        for path in [os.path.join(out, file) for file in os.listdir(out) if file.endswith(".antt")]:
            if is_written(path):
                os.remove(path)
        for file, cases in files.items():
            write_files(out, folder, file, cases)
        names = sorted(file[: -len(".antt")] for file in os.listdir(out) if file.endswith(".antt"))
        modules = "".join(f"{'pub ' if name in BY_HAND else ''}mod {name}\n" for name in names)
        Path(f"{out}.antt").write_text(modules, "utf-8")


if __name__ == "__main__":
    sys.exit(command.called(__doc__, main, 0, 0))
