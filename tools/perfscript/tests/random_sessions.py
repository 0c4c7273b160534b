"""Random sessions of perf_live from a seed, with lines among them that are none; what is asked of each session."""

import random
import re
from typing import NamedTuple

from perfscript.attributes import bytes_of
from perfscript.faults import Fault
from perfscript.forms import is_formed
from perfscript.limits import MOST_TOOLS
from perfscript.live import Answer, Live, TooLarge, Uncertified
from perfscript.names import FLAGS, SOFTWARE_KINDS
from perfscript.program import Program

KINDS = ("cycles", "instructions", "branches", "misses")
TOOL_LINES = {"open": 24, "read": 24, "command": 12, "why": 8, "seats": 5, "close": 5, "period": 4, "output": 3}
CPU_LINES = {"work": 40, "tick": 14, "switch": 18, "fork": 5, "exit": 3}
# what may stand behind a line of an actor in a script, and not in a session
LATER = ("processor", "tool", "reader", "order", "end")
NOTE = re.compile(r"perf_run: line (\d+): ([A-Z]+)", re.ASCII)
ATTRIBUTES = ("00", "0", "ff" * 64, bytes_of(0, 77).hex(), bytes_of(3, 0).hex(), bytes_of(0, 0, flags=1 << 40).hex())
# lines that are none
ODD = (
    "", " ", "t0", "t0 ", "t0  read 0", " t0 read 0", "t0 read 0 ", "t0 read  0", "t0 Read 0", "t0 read 00",
    "t0 read +1", "t0 read 256", "t0 read 18446744073709551616", "t0 read 0 size=", "t0 reed 0", "t0\tread 0",
    "t0 read 0\r", "t0 read \x00", "t0 read \x7f", "t0 read \xe9", "t0 tick", "p0 read 0", "p0 work 1000000001 user",
    "p0 work 1", "p0 work 1 user user", "p0 work 1 user odd=1", "p0 work 1 user task-clock=1",
    "p0 work 1 user ip=12345678901234567", "p0 work 5 user ip=zz", "p0 switch 64", "p0 switch", "p0 switch idle idle",
    "p0 tick tock", "p0 fork 64", "t0 map 0 0", "t0 map 0 99", "t0 map 0 99999999999999999999", "t0 seats 8",
    "t0 open 0 kind=odd task=all cpu=0", "t0 open 0 kind=dummy task=64 cpu=0", "t0 open 0 kind=dummy cpu=0 task=all",
    "t0 open 0 kind=dummy task=all cpu=0 flags=", "t0 open 0 kind=dummy task=all cpu=0 leader=256", "t0 output 0 256",
    "t0 period 0", "t0 enable 0 groups", "t0 end", "end", "perf 1", "task 5", "t0 task 5", "p0 processor 1",
    "t0 order t0", "order t0", "s0=0", "s0=0 look", "t00 read 0", "T0 read 0", "x read 0", "p read 0", "p0.read 0",
    "t0 perf 1", "t4 read 0", "p8 tick", "t18446744073709551616 read 0",
    *(f"t0 open 0 attr={bytes} task=all cpu=0" for bytes in ATTRIBUTES),
)


class RandomSession:
    """The head and the lines of one seed. Most lines stand for calls and stretches of work that can be."""

    def __init__(self, seed: int) -> None:
        self.random = random.Random(seed)
        pick = self.random
        self.cpus, self.kinds = pick.randint(1, 4), KINDS[: pick.randint(1, len(KINDS))]
        self.tools, self.opened = pick.randint(1, 4), 0
        self.tasks = sorted(pick.sample(range(8), pick.randint(0, 4)))
        rows = self.two_pmus() if pick.random() < 0.3 else self.one_pmu()
        self.head = "\n".join([*rows, *(f"task {task}" for task in self.tasks), "end"]) + "\n"
        self.lines = [self.line() for _ in range(pick.randint(20, 100))]

    def one_pmu(self) -> list[str]:
        counters = self.random.randint(1, 4)
        rows = ["perf 1", f"machine cpus={self.cpus} counters={counters}"]
        return rows + [f"kind {kind} mask={self.random.randint(1, 2**counters - 1):x}" for kind in self.kinds]

    def two_pmus(self) -> list[str]:
        """Each processor on one of two PMUs of two counters, and kinds of both."""
        first = self.random.randint(0, 2**self.cpus - 1)
        masks = [mask for mask in (first, 2**self.cpus - 1 - first) if mask]
        rows = ["perf 2", f"machine cpus={self.cpus}"]
        rows += [f"pmu {number} counters=2 cpus={mask:x}" for number, mask in enumerate(masks)]
        pmus = range(len(masks))
        return rows + [f"kind {kind} pmu={self.random.choice(pmus)} mask={self.random.randint(1, 3)}"
                       for kind in self.kinds]

    def line(self) -> str:
        """A line with its actor: one that is none, a broken one, or one that can be."""
        odds = self.random.random()
        if odds < 0.06:
            return self.random.choice(ODD)
        is_tool = self.random.random() < 0.55
        names = TOOL_LINES if is_tool else CPU_LINES
        name = self.random.choices(list(names), list(names.values()))[0]
        actor = f"t{self.random.randrange(self.tools)}" if is_tool else f"p{self.random.randrange(self.cpus)}"
        line = f"{actor} {getattr(self, name)()}"
        return self.broken(line) if odds < 0.12 else line

    def broken(self, line: str) -> str:
        """The line with one thing changed; it may still be a line."""
        pick, words = self.random, line.split(" ")
        place = pick.randrange(len(words))
        how = pick.randrange(5)
        if how == 0:
            del words[place]
        elif how == 1:
            words.insert(place, pick.choice(words))
        elif how == 2:
            words[place] = words[place].replace(pick.choice("0123456789="), pick.choice("0123456789=x-"))
        elif how == 3:
            words[place] += pick.choice(("0", "00000000000", ",", "=", "\x1b", "x"))
        else:
            words[place], words[-1] = words[-1], words[place]
        return " ".join(words)

    def slot(self) -> int:
        return self.random.randrange(self.opened + 1)

    def task(self) -> int:
        return self.random.choice([*self.tasks, *self.tasks, self.random.randrange(10)])

    def place(self) -> str:
        pick = self.random
        task = "all" if pick.random() < 0.4 else str(self.task())
        cpu = "any" if pick.random() < (0.05 if task == "all" else 0.6) else str(pick.randrange(self.cpus))
        return f"task={task} cpu={cpu}" + (f" leader={self.slot()}" if pick.random() < 0.35 else "")

    def open(self) -> str:
        pick = self.random
        slot = self.opened if pick.random() < 0.9 else self.slot()
        self.opened += slot == self.opened
        if pick.random() < 0.2:
            bits = sum(1 << bit for bit in FLAGS.values() if pick.random() < 0.15)
            attribute = bytes_of(0, pick.randrange(len(self.kinds)), 0, 0, pick.choice((0, 3, 0x1F)), bits)
            return f"open {slot} attr={attribute.hex()} {self.place()}"
        kind = pick.choice(self.kinds) if pick.random() < 0.8 else pick.choice(list(SOFTWARE_KINDS))
        flags = ",".join(flag for flag in FLAGS if pick.random() < 0.15)
        words = [f"open {slot} kind={kind} {self.place()}"]
        words += [f"period={pick.choice((500, 5000, 1 << 63))}"] if pick.random() < 0.15 else []
        words += [f"sample={pick.choice(('1', '7', '103c7', '8'))}"] if pick.random() < 0.15 else []
        words += [f"format={pick.choice(('3', '3', '7', 'b', '1f', '20'))}"] if pick.random() < 0.8 else []
        return " ".join(words + ([f"flags={flags}"] if flags else []))

    def read(self) -> str:
        size = f" size={self.random.choice((0, 8, 24, 72, 1024))}" if self.random.random() < 0.2 else ""
        return f"read {self.slot()}{size}"

    def command(self) -> str:
        word = self.random.choice(("enable", "disable", "reset"))
        return f"{word} {self.slot()}" + " group" * (self.random.random() < 0.3)

    def why(self) -> str:
        return f"why {self.slot()}"

    def seats(self) -> str:
        return f"seats {self.random.randrange(self.cpus)}"

    def close(self) -> str:
        return f"close {self.slot()}"

    def period(self) -> str:
        return f"period {self.slot()} {self.random.choice((0, 500, 7000, 1 << 63))}"

    def output(self) -> str:
        return f"output {self.slot()} {self.slot()}"

    def work(self) -> str:
        kinds = [kind for kind in self.kinds if self.random.random() < 0.7]
        self.random.shuffle(kinds)
        hits = "".join(f" {kind}={self.random.randrange(2000)}" for kind in kinds)
        address = f" ip={self.random.randrange(2**48):x}" if self.random.random() < 0.1 else ""
        return f"work {self.random.randrange(1000)} {self.random.choice(('user', 'user', 'kernel'))}{address}{hits}"

    def tick(self) -> str:
        return "tick"

    def switch(self) -> str:
        return f"switch {'idle' if self.random.random() < 0.2 else self.task()}"

    def fork(self) -> str:
        return f"fork {self.random.randrange(10, 20)}"

    def exit(self) -> str:
        return "exit"


class Compared(NamedTuple):
    """A session: how many lines were taken and how many were bad, and what is wrong; nothing where all is well."""

    seed: int
    taken: int
    bad: int
    fault: str


def compare(seed: int, live: str, program: Program) -> Compared:
    """Does a session line by line. Its journal is replayed, and a bad line is bad in a script for the same reason."""
    session = RandomSession(seed)
    answers: list[tuple[str, Answer]] = []
    try:
        with Live(session.head, live, program) as running:
            for line in session.lines:
                actor, space, rest = line.partition(" ")
                answers.append((line, running.line(actor, rest) if space else running.send(line)))
    except (Uncertified, TooLarge, Fault) as fault:
        return Compared(seed, 0, 0, f"{type(fault).__name__}: {fault}")
    bad = [(line, answer) for line, answer in answers if answer.reason and not answer.is_taken]
    wanted = refusals(session, [line for line, _ in bad], program)
    faults = [said for said in map(wrong, bad, wanted) if said]
    return Compared(seed, len(running.answers), len(bad), faults[0] if faults else "")


def wrong(given: tuple[str, Answer], wanted: str) -> str:
    line, answer = given
    return "" if answer.reason == wanted else f"`{line[:100]}` was answered `{answer}`, and a script has {wanted}"


def refusals(session: RandomSession, lines: list[str], program: Program) -> list[str]:
    """Why the program refuses each line in a script that has the head and that line alone."""
    asked = [Asked(session, line) for line in lines]
    outcomes = program.outcomes([("replay", one.text) for one in asked])
    return [one.reason(outcome.note) for one, outcome in zip(asked, outcomes)]


class Asked:
    """A line as the only one below its actor's header. A line that names no actor stands there by itself, and one of an
    actor that the machine does not have below the header of actor 0."""

    def __init__(self, session: RandomSession, line: str) -> None:
        actor, space, rest = line.partition(" ")
        self.has_actor = bool(space and re.fullmatch("[pt](0|[1-9][0-9]{0,19})", actor))
        self.rest = rest if self.has_actor else line
        number = int(actor[1:]) if self.has_actor else 0
        self.is_there = number < (session.cpus if actor[:1] == "p" else MOST_TOOLS)
        self.version = session.head[len("perf ")]
        header = f"{'tool' if actor[:1] == 't' else 'processor'} {number if self.is_there else 0}"
        self.text = session.head.removesuffix("end\n") + f"{header}\n{self.rest}\nend\n"

    def reason(self, note: str) -> str:
        """The reason that a session has, where a script has this note."""
        refused = NOTE.fullmatch(note)
        found = refused[2] if refused else note or "no refusal"
        if found == "ASCII":
            return found
        if not self.has_actor:
            return "FORM"
        words = self.rest.split(" ")
        if words[0] in LATER and is_formed(words, self.version):
            return "PLACE"
        return found if self.is_there or found in ("FORM", "PLACE") else "RANGE"
