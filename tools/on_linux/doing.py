"""Does a script on the running kernel, by the calls that its lines stand for."""

import errno
import os
import resource
import tomllib
from collections.abc import Collection, Sequence
from contextlib import ExitStack, suppress
from dataclasses import dataclass
from itertools import takewhile
from pathlib import Path

from on_linux import kernel
from on_linux.task import MOST_PAGES, Task, Tasks
from perfscript import Act, Fault, Line, Look, Report, Script
from perfscript.attributes import Attribute, bytes_of
from perfscript.follow import Event, Follow
from perfscript.names import FORMAT_GROUP, FORMAT_LOST, SOFTWARE, SOFTWARE_KINDS

# the most words that a read may have here: nr, both times, and three words for each of 64 members
ROOM = 8 * (3 + 3 * 64)
COMMANDS = {"enable": kernel.ENABLE, "disable": kernel.DISABLE, "reset": kernel.RESET}


@dataclass
class Answer:
    """What the kernel answered to a line: Ok, words, an errno, or nothing since the line was not done."""

    words: list[int] | None = None
    errno: str | None = None
    skipped: str | None = None

    @property
    def text(self) -> str:
        words = " ".join(map(str, self.words)) if self.words is not None else "Ok"
        return "not done" if self.skipped else self.errno or words


class Stream:
    """A ring of the script that an event has mapped, and all that was written on it."""

    def __init__(self, mapping: kernel.Mapping) -> None:
        self.mapping, self.data = mapping, b""
        self.head = self.tail = 0

    def look(self) -> None:
        """Keeps what was written since the last look."""
        head = self.mapping.word(kernel.HEAD_AT).value
        self.data += self.mapping.bytes(len(self.data), head)
        self.head, self.tail = head, self.mapping.word(kernel.TAIL_AT).value


class Doing:
    """One script on the running kernel. `answers` has an answer for each line by its name, and `rings` the stream of
    each ring."""

    def __init__(self, script: Script, follow: Follow, helper: str, options: Collection[str] = ()) -> None:
        self.script, self.follow, self.options = script, follow, options
        self.answers: dict[str, Answer] = {}
        self.rings: dict[int, Stream] = {}
        # the ids of the report by the kernel's
        self.ids: dict[int, int] = {}
        self.running: dict[str, int] = {}
        # what is undone at the end, the last first
        self.at_end = ExitStack()
        self.cpus = sorted(os.sched_getaffinity(0))
        self.tasks = Tasks(helper, script.task_numbers())
        # how many records each open event lost, as the kernel tells
        self.lost: dict[int, int | None] = {}
        self.looks: list[Look] = []
        # the numbers of tasks by their processes, also of those that have exited
        self.processes: dict[int, int] = {}

    def __enter__(self) -> "Doing":
        most = resource.getrlimit(resource.RLIMIT_NOFILE)
        wanted = kernel.FIRST_DESCRIPTOR + 320
        if most[0] < wanted <= most[1]:
            resource.setrlimit(resource.RLIMIT_NOFILE, (wanted, most[1]))
        with self.at_end:
            self.at_end.callback(self.tasks.end)
            self.at_end.callback(self.close_all)
            for number in self.script.tasks:
                self.tasks.start(number, self.cpus[0])
                self.note_task(number)
            self.at_end = self.at_end.pop_all()
        return self

    def __exit__(self, *_: object) -> None:
        self.at_end.close()

    def close_all(self) -> None:
        for slot in range(256):
            with suppress(OSError):
                os.close(self.descriptor(slot))

    def note_task(self, number: int) -> None:
        """Keeps a task's context from being exchanged with a clone's, by an event that is not inherited."""
        process = self.tasks.tasks[number].process
        self.processes[process] = number
        if "clones" not in self.options:
            self.at_end.callback(os.close, kernel.event_open(KEEPER, process, -1, -1))

    def descriptor(self, slot: str | int) -> int:
        return kernel.FIRST_DESCRIPTOR + int(slot)

    def run(self) -> None:
        acts = list(self.script.acts())
        for place, act in enumerate(acts):
            if isinstance(act, Look):
                self.see(act)
                continue
            self.looks = looks_behind(acts, place) if "early-looks" in self.options else []
            self.answers[act.name] = self.answer(act)
            self.follow.step(act)
        for stream in self.rings.values():
            stream.look()
        self.lost = {slot: self.lost_of(event) for slot, event in self.follow.slots.items()}

    def lost_of(self, event: Event) -> int | None:
        """How many records the kernel says that an open event lost; None where its format does not ask for that."""
        attribute = event.attribute
        if not attribute.format & FORMAT_LOST or attribute.format & FORMAT_GROUP:
            return None
        try:
            return kernel.read_words(self.descriptor(event.slot), ROOM)[-1]
        except kernel.Refused:
            return None

    def answer(self, line: Line) -> Answer:
        reason = self.why_not_done(line)
        if reason:
            return Answer(skipped=reason)
        try:
            return Answer(words=getattr(self, line.head)(line))
        except kernel.Refused as refused:
            return Answer(errno=refused.name)
        except KeyError as fault:
            raise Fault(f"the report has no refusal of {line.name} {line.text}, whose task is not there") from fault

    def why_not_done(self, line: Line) -> str | None:
        """Why a line has nothing that answers it on the running kernel; None where it has."""
        refusal = self.follow.report.refusal(line)
        if line.head in ("why", "seats", "tick"):
            return f"`{line.head}` asks for what no call of Linux answers"
        if refusal and refusal in OWN_REFUSALS:
            return f"{refusal}: {OWN_REFUSALS[refusal]}"
        if line.actor[0] == "p" and refusal:
            return f"{refusal}: a kernel refuses no switch, fork or exit of a script"
        if line.head in ("work", "fork", "exit") and line.actor not in self.running:
            return "work of an idle processor" if line.head == "work" else "no task is on"
        return None

    # the lines of tools

    def open(self, line: Line) -> None:
        attribute = Attribute(line, self.script.kinds)
        process = -1 if attribute.task == "all" else self.tasks.process(int(attribute.task)) or kernel.NO_PROCESS
        cpu = -1 if attribute.cpu == "any" else self.cpus[int(attribute.cpu)]
        leader = -1 if attribute.leader is None else self.descriptor(attribute.leader)
        descriptor = kernel.event_open(kernel.bytes_for(attribute), process, cpu, leader)
        if self.follow.report.refusal(line) is not None:
            # the report refuses it: it is taken away again, so that both go on from one state
            os.close(descriptor)
            return
        os.dup2(descriptor, self.descriptor(line.slot()), inheritable=False)
        os.close(descriptor)
        self.ids[kernel.with_word(self.descriptor(line.slot()), kernel.ID)] = self.follow.next_id

    def enable(self, line: Line) -> None:
        kernel.command(self.descriptor(line.slot()), COMMANDS[line.head], kernel.GROUP if line.is_group else 0)

    disable = reset = enable

    def period(self, line: Line) -> None:
        event = self.follow.slots.get(line.slot())
        task = self.tasks.tasks.get(event.task) if event and event.task is not None else None
        if "held" in self.options and task:
            task.prefer(1)
            task.hold()
        kernel.with_word(self.descriptor(line.slot()), kernel.PERIOD, int(line.words[1]))

    def read(self, line: Line) -> list[int]:
        size = int(line.given().get("size", ROOM))
        return kernel.read_words(self.descriptor(line.slot()), min(size, ROOM))

    def map(self, line: Line) -> None:
        ring = int(line.words[1])
        mapping = kernel.Mapping(self.descriptor(line.slot()), self.script.rings[ring])
        if self.follow.report.refusal(line) is not None:
            mapping.unmap()
            return
        self.at_end.callback(mapping.unmap)
        self.rings[ring] = Stream(mapping)

    def output(self, line: Line) -> None:
        kernel.command(self.descriptor(line.slot()), kernel.SET_OUTPUT, self.descriptor(line.words[1]))
        if self.follow.report.refusal(line) is not None:
            kernel.command(self.descriptor(line.slot()), kernel.SET_OUTPUT, -1)

    def close(self, line: Line) -> None:
        kernel.close(self.descriptor(line.slot()))

    # the lines of processors

    def switch(self, line: Line) -> None:
        if line.words[0] == "idle":
            self.running.pop(line.actor, None)
            return
        number = int(line.words[0])
        if number not in self.tasks.tasks:
            raise kernel.Refused(errno.ESRCH)
        self.running[line.actor] = number
        self.tasks.tasks[number].put_on(self.cpus[int(line.actor[1:])])

    def work(self, line: Line) -> None:
        task = self.tasks.tasks[self.running[line.actor]]
        if "clones" in self.options:
            self.exchange(line, task)
        is_user, pages = line.words[1] == "user", pages_of(line)
        early = pages // 2 if self.looks else 0
        if early:
            task.touch(is_user, early)
            for look in self.looks:
                self.see(look)
        task.touch(is_user, pages - early)

    def exchange(self, line: Line, task: Task) -> None:
        """Before every other line the other tasks stay on the processor; before the rest they sleep.

        From a task that stays the kernel switches to this one directly, and exchanges the contexts. So this task does
        one of two lines with each context.
        """
        task.prefer(2)
        for other in self.tasks.tasks.values():
            if other is task:
                continue
            other.prefer(1)
            if line.number % 2:
                other.hold()
            else:
                other.touch(True, 0)

    def fork(self, line: Line) -> None:
        number = int(line.words[0])
        if self.tasks.process(number) is not None:
            raise kernel.Refused(errno.EEXIST)
        self.tasks.fork(self.running[line.actor], number)
        self.note_task(number)

    def exit(self, line: Line) -> None:
        self.tasks.exit(self.running.pop(line.actor))

    def see(self, look: Look) -> None:
        stream = self.rings.get(look.ring)
        if stream:
            stream.look()
            stream.mapping.word(kernel.TAIL_AT).value = look.place


def looks_behind(acts: Sequence[Act], place: int) -> list[Look]:
    """The looks at tails that stand right behind an act."""
    return [act for act in takewhile(lambda act: isinstance(act, Look), acts[place + 1 :]) if isinstance(act, Look)]


def pages_of(line: Line) -> int:
    """How many pages a line of work touches: the occurrences of the one kind that it names."""
    return sum(int(count) for key, count in line.given().items() if key != "ip")


# the attribute of an event that counts nothing and is not inherited. It leaves out the kernel and the hypervisor, which
# may not be permitted
KEEPER = bytes_of(SOFTWARE, SOFTWARE_KINDS["dummy"], flags=kernel.USER_ALONE)
# refusals that have no counterpart on a running kernel, and why
OWN_REFUSALS: dict[str, str] = tomllib.loads(Path(__file__).with_name("refusals.toml").read_text("ascii"))


def why_not_comparable(script: Script, report: Report, options: Collection[str]) -> str | None:
    """Why a script as a whole has no counterpart on the running kernel; None where it has."""
    opened = [line for line in script.all_lines() if line.head == "open"]
    attributes = [Attribute(line, script.kinds) for line in opened]
    kinds = {attribute.kind for attribute in attributes if not attribute.is_software}
    cpus = len(os.sched_getaffinity(0))
    if len(script.pmus) > 1:
        return "two PMUs"
    if len(kinds) > 1:
        return "several hardware kinds in one script"
    if script.cpus > cpus:
        return f"{script.cpus} processors, and this machine lets the tool use {cpus}"
    small = [ring for ring, size in script.rings.items() if size < kernel.PAGE]
    if small and "small-rings" not in options:
        return f"a ring below a page of {kernel.PAGE} bytes"
    most = max((pages_of(line) for line in script.all_lines() if line.head == "work"), default=0)
    if most > MOST_PAGES:
        return f"more occurrences in a line than the tool touches, {MOST_PAGES}"
    hardware = [a for line, a in zip(opened, attributes) if not a.is_software and report.refusal(line) is None]
    room = min((script.kinds[kind].mask.bit_count() for kind in kinds), default=16)
    if len(hardware) > room or len(hardware) > 1 and any(a.has("exclusive") for a in hardware):
        return "more hardware events than counters: assignment"
    return None
