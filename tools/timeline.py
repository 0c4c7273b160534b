#!/usr/bin/env python3
"""Draws who was on which counter of which processor when, as an SVG.

Usage: timeline.py [--program PROGRAM] SCRIPT
       timeline.py PROGRAM SCRIPT

PROGRAM is the built program, crates/perf_run/out/perf_run; `rt run` in crates/perf_run leaves it there, and where it is
not given it is sought there. SCRIPT is a script that the program does, and that leaves one of the four tools without
lines. The picture is written to standard output.

Time goes to the right by each processor's own clock, which its work lines move. A row is a counter; an event that
stands on it while work is done has a bar there. Beneath, each event that was on a counter or was refused has a row: its
colour where it was on, grey with the cause where it was refused. Causes that have no room in their bars stand in a list
below. At the end of a row stands its sum. The program is asked: a tool of its own is added to a copy of the script,
with lines `seats` and `why` before each work line. Nothing is scheduled here.
"""

from __future__ import annotations

import sys
import textwrap
from collections.abc import Sequence
from html import escape
from typing import NamedTuple

from perfscript import Draft, Fault, Key, Line, Program, Report, Script, command, program_at
from perfscript.limits import MOST_LINES, MOST_TOOLS
from perfscript.names import CAUSES

LEFT, TOP, ROW, WIDTH = 160, 52, 22, 720
LETTER = 7
COLORS = ["#2f5f8f", "#a8501c", "#2f7a47", "#93365a", "#5f4fa8", "#7a6614", "#1f7480", "#5c5c5c"]
GREY, INK = "#dcdcdc", "#222"
UNIT = "time of the processor, in the script's units of work"
BRIEF = {
    "hall": "too few counters",
    "earlier": "waits",
    "exclusive": "kept off",
    "exclusive-self": "is exclusive",
    "error": "in error",
}
# how many stretches of one cause the list below names
MOST_NAMED = 3


class Stretch(NamedTuple):
    """A stretch of work: its processor, its beginning and end by that processor's clock, which event was on each
    counter, and why each event was refused."""

    cpu: int
    start: int
    stop: int
    seats: dict[int, int]
    refused: dict[int, str]

    @property
    def when(self) -> str:
        return f"{self.start:,} to {self.stop:,}"


def with_questions(script: Script) -> tuple[Draft, dict[int, list[Key]]]:
    """A draft in which a further tool asks before each stretch of work, and the questions before each of these acts."""
    draft, opened, asked = Draft.of(script), set[int](), dict[int, list[Key]]()
    free = [f"t{number}" for number in reversed(range(MOST_TOOLS)) if f"t{number}" not in script.lines]
    if not free:
        raise Fault("all four tools have lines; a picture needs one that has none")
    draft.order = []
    for number, act in enumerate(script.acts()):
        if isinstance(act, Line) and act.head == "work":
            questions = [f"seats {act.actor[1:]}", *(f"why {event}" for event in sorted(opened))]
            asked[number] = [draft.act(free[0], question) for question in questions]
        if isinstance(act, Line) and act.head == "open":
            opened.add(act.slot())
        draft.order.append(script.order[number])
    if draft.count > MOST_LINES:
        raise Fault(f"the picture would ask in {draft.count} lines, and the program takes {MOST_LINES}")
    return draft, asked


def stretches(script: Script, draft: Draft, asked: dict[int, list[Key]], report: Report) -> list[Stretch]:
    """The stretches of work, as the report of the draft answers."""
    clock, tasks, found = dict[str, int](), dict[str, str](), list[Stretch]()
    places: dict[int, dict[str, str]] = {}
    for number, line in enumerate(script.acts()):
        if not isinstance(line, Line):
            continue
        answer = report.answer(line)
        if line.head == "open" and answer is None:
            places[line.slot()] = line.given()
        if line.head in ("switch", "exit") and answer is None:
            tasks[line.actor] = line.words[0] if line.words else "idle"
        if line.head == "work":
            start = clock.get(line.actor, 0)
            clock[line.actor] = start + int(line.words[0])
            seats, refused = dict[int, int](), dict[int, str]()
            for actor, place in asked[number]:
                words = report.replies[actor, place].words if (actor, place) in report.replies else []
                head, target = draft.lines[actor][place].split(" ")
                if head == "seats":
                    seats = {int(counter): int(event) for event, _, counter in (word.partition("=") for word in words)}
                elif words[:1] and words[0] in (*CAUSES, "error") and is_here(places.get(int(target), {}), line, tasks):
                    refused[int(target)] = " ".join(words)
            found.append(Stretch(int(line.actor[1:]), start, clock[line.actor], seats, refused))
    return found


def is_here(place: dict[str, str], line: Line, tasks: dict[str, str]) -> bool:
    """Whether an event counts on the processor of a line: what its processor does, or the task that is there."""
    if place.get("task") == "all":
        return "p" + place["cpu"] == line.actor
    return place.get("task") == tasks.get(line.actor)


def in_words(cause: str) -> str:
    """A cause, as `why` answers it, in words."""
    word, *named = cause.split(" ")
    if word == "error":
        return "in error: " + in_words(" ".join(named)) if named else "in error"
    if word == "hall":
        events = sorted(named, key=int)
        many = f"too few counters for events {command.listed(events)}"
        return many if len(events) > 1 else f"no counter for event {events[0]}"
    return {
        "earlier": "behind event {}, which was refused",
        "exclusive": "event {} is exclusive",
        "exclusive-self": "is exclusive, and event {} is on",
    }[word].format(*named)


class Labels:
    """What a picture calls its events, counters and causes. Rows begin behind `left`."""

    def __init__(self, script: Script) -> None:
        self.kinds: dict[int, str] = {}
        for line in script.all_lines():
            if line.head == "open":
                self.kinds.setdefault(line.slot(), line.given().get("kind", "attr"))
        self.left = max([LEFT, *(12 + LETTER * len(self.title(event)) for event in self.kinds)])

    def event(self, event: int) -> str:
        return f"{event} {self.kinds.get(event, '')}"

    def title(self, event: int) -> str:
        return f"event {self.event(event)}"

    def counter(self, cpu: int, counter: int) -> str:
        return f"processor {cpu}, counter {counter}"

    def cause(self, cause: str) -> str:
        return in_words(cause)

    def brief(self, cause: str) -> str:
        """A cause in two words."""
        return BRIEF[cause.split(" ")[0]]

    def share(self, part: int, whole: int) -> str:
        """A share as `stat` prints it, cut behind two digits."""
        hundredths = 10000 * part // whole if whole else 0
        return f"{hundredths // 100}.{hundredths % 100:02}%"


class Picture:
    """Rows of bars, and the causes that have no room in them."""

    def __init__(self, labels: Labels, found: list[Stretch]) -> None:
        self.labels, self.found = labels, found
        end = max([one.stop for one in found], default=1) or 1
        self.end, self.scale, self.y = end, WIDTH / end, TOP
        self.parts: list[str] = []
        self.causes: dict[tuple[str, str], list[Stretch]] = {}
        self.width = labels.left + WIDTH + 20 + LETTER * len(self.sums(end, end))

    def has_room(self, one: Stretch, text: str) -> bool:
        return (one.stop - one.start) * self.scale > LETTER * len(text) + 6

    def bar(self, one: Stretch, color: str, texts: list[str], title: str, ink: str = "#fff") -> str:
        """The bar of a stretch, with the first of some texts that has room there."""
        x, width = self.labels.left + one.start * self.scale, (one.stop - one.start) * self.scale
        shown = next((text for text in texts if self.has_room(one, text)), "")
        label = f'<text x="{x + 4:.1f}" y="{self.y + 15}" fill="{ink}">{escape(shown)}</text>' if shown else ""
        size = f'width="{max(width - 1, 1):.1f}" height="{ROW - 4}"'
        drawn = f'<title>{escape(title)}</title><rect x="{x:.1f}" y="{self.y + 2}" {size} fill="{color}"/>'
        return f"<g>{drawn}{label}</g>"

    def sums(self, part: int, whole: int) -> str:
        return f"{part:,} of {whole:,}: {self.labels.share(part, whole)}"

    def row(self, name: str, bars: list[str], part: int, whole: int) -> None:
        """A row: its name, its bars, and at its end its sum."""
        total = f'<text x="{self.labels.left + WIDTH + 10}" y="{self.y + 15}">{self.sums(part, whole)}</text>'
        self.parts += [f'<text x="6" y="{self.y + 15}">{escape(name)}</text>', *bars, total]
        self.y += ROW

    def counter(self, here: list[Stretch], cpu: int, counter: int) -> None:
        """A counter's row: a bar for each stretch in which an event was on it."""
        bars, labels = [], self.labels
        held = [one for one in here if counter in one.seats]
        for one in held:
            event = one.seats[counter]
            color, title = COLORS[event % len(COLORS)], f"{labels.title(event)}, {one.when}"
            bars.append(self.bar(one, color, [labels.event(event)], title))
        self.row(labels.counter(cpu, counter), bars, length_of(held), length_of(here))

    def event(self, here: list[Stretch], event: int) -> None:
        """An event's row: its colour where it was on, grey with the cause where it was refused."""
        bars, title = [], self.labels.title(event)
        on = [one for one in here if event in one.seats.values()]
        refused = [one for one in here if event in one.refused]
        for one in on:
            bars.append(self.bar(one, COLORS[event % len(COLORS)], ["on"], f"{title}: on, {one.when}"))
        for one in refused:
            cause = self.labels.cause(one.refused[event])
            texts = [cause]
            if not self.has_room(one, cause):
                # events of one name may wait for the same in one stretch, which the list names once
                where = self.causes.setdefault((title, cause), [])
                where += [one] if one not in where else []
                mark = f"[{list(self.causes).index((title, cause)) + 1}]"
                texts = [f"{self.labels.brief(one.refused[event])} {mark}", mark]
            bars.append(self.bar(one, GREY, texts, f"{title}: {cause}, {one.when}", INK))
        self.row(title, bars, length_of(on), length_of(on) + length_of(refused))

    def list_of_causes(self) -> None:
        """The causes that have no room in their bars, each with the stretches in which it held."""
        for number, ((title, cause), where) in enumerate(self.causes.items(), 1):
            named = [f"processor {one.cpu}, {one.when}" for one in where[:MOST_NAMED]]
            more = f" and {len(where) - MOST_NAMED} more" if len(where) > MOST_NAMED else ""
            text = f"[{number}] {title}: {cause} ({'; '.join(named)}{more})"
            for line in textwrap.wrap(text, (self.width - 12) // LETTER, subsequent_indent="    "):
                self.parts.append(f'<text x="6" y="{self.y + 15}" xml:space="preserve">{escape(line)}</text>')
                self.y += ROW - 4

    def axis(self) -> list[str]:
        """The lines and numbers of the axis, with its unit."""
        left = self.labels.left
        marks = [left + WIDTH * i // 4 for i in range(5)]
        lines = [f'<line x1="{x}" x2="{x}" y1="{TOP - 8}" y2="{self.y}" stroke="#ddd"/>' for x in marks]
        place = 'y="38" text-anchor="middle"'
        numbers = [f'<text x="{x}" {place}>{self.end * i // 4:,}</text>' for i, x in enumerate(marks)]
        of_sums = f'<text x="{left + WIDTH + 10}" y="18">time on, of the whole</text>'
        return [*lines, *numbers, f'<text x="{left}" y="18">{UNIT}</text>', of_sums]

    def text(self, counters: dict[int, int]) -> str:
        """The picture. `counters`: how many each processor has."""
        for cpu, count in counters.items():
            here = [one for one in self.found if one.cpu == cpu]
            if not here:
                continue
            for counter in range(count):
                self.counter(here, cpu, counter)
            for event in sorted({event for one in here for event in (*one.seats.values(), *one.refused)}):
                self.event(here, event)
            self.y += 8
        lines = self.axis()
        self.list_of_causes()
        size = f'width="{self.width}" height="{self.y + 6}"'
        style = f'<style>text{{font:12px sans-serif;fill:{INK}}}text[fill="#fff"]{{fill:#fff}}</style>'
        paper = '<rect width="100%" height="100%" fill="#fff"/>'
        parts = [style + paper, *lines, *self.parts]
        return "\n".join([f'<svg xmlns="http://www.w3.org/2000/svg" {size}>', *parts, "</svg>"]) + "\n"


def length_of(found: list[Stretch]) -> int:
    """The time of some stretches together."""
    return sum(one.stop - one.start for one in found)


def picture_of(program: Program, script: Script, labels: Labels | None = None) -> str:
    """The picture of a script, as the program answers the questions that are added to it."""
    draft, asked = with_questions(script)
    found = stretches(script, draft, asked, program.report(draft.text()))
    counters = {cpu: script.counters_of(cpu) for cpu in range(script.cpus)}
    return Picture(labels or Labels(script), found).text(counters)


def main(words: Sequence[str] | None = None) -> int:
    parser = command.Parser("timeline.py", __doc__)
    parser.add_argument("built", metavar="PROGRAM", nargs="?")
    parser.add_argument("script", metavar="SCRIPT")
    options = parser.parse_args(words)

    def draw() -> int:
        text, program = command.text_of(options.script), program_at(options.program or options.built)
        program.report(text)
        print(picture_of(program, Script(text)), end="")
        return 0

    return command.ended("timeline.py", draw)


if __name__ == "__main__":
    sys.exit(main())
