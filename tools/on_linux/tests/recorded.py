"""A run of a small script without a kernel: the answers that a kernel gives which does what the report says."""

import struct

from on_linux.compare import Comparison
from on_linux.doing import Answer
from perfscript import Report, Script

FIRST_ID, FIRST_PROCESS, FIRST_TIME = 100, 5000, 7000
SIZE, FIT, LOST = 72, 56, 2

SCRIPT = f"""perf 1
machine cpus=1 counters=16
kind faults mask=ffff
task 0
ring 0 bytes=4096
processor 0
switch 0
work 10 user ip=5 faults={FIT + LOST}
work 10 user ip=5 faults=1
tool 0
open 0 kind=faults task=0 cpu=any period=1 sample=103c7 format=17 flags=sample_id_all
open 1 kind=faults task=7 cpu=any
map 0 0
read 0
read 0 size=8
why 0
order t0 t0 t0 p0 p0 t0 s0={2 * SIZE} p0 t0 t0
end
"""


def sample(time):
    return (
        "0048000200000009 0000000000000001 0000000000000005 0000000100000001"
        f" {time:016x} {1:016x} {1:016x} {0:016x} {1:016x}"
    )


def report():
    head = (FIT + 1) * SIZE + 72
    lines = [
        f"order t0 t0 t0 p0 p0 t0 s0={2 * SIZE} p0 t0 t0",
        "t0.1 open ESRCH",
        f"t0.3 read {FIT + LOST} 10 10 1 {LOST}",
        "t0.4 read ENOSPC",
        "t0.5 why on",
        f"ring 0 head={head} tail={2 * SIZE} lost={LOST} pending=0",
    ]
    lines += [f"taken {sample(10)}"] * 2 + [f"left {sample(10)}"] * (FIT - 2)
    lines += [
        f"left 0048000000000002 {1:016x} {LOST:016x} 0000000100000001 {20:016x} {1:016x} {1:016x} {0:016x} {1:016x}",
        f"left {sample(20)}",
        "end",
    ]
    return "\n".join(lines) + "\n"


class Mapping:
    size = 4096


class Stream:
    """The stream of a ring, made of the records of a report."""

    def __init__(self, ring):
        self.mapping, self.head, self.tail = Mapping(), ring.head, ring.tail
        self.data = b"".join(encoded(record.words, place) for place, record in enumerate(ring.records))


def encoded(words, place):
    """A record as a kernel writes it: with its own ids, process and time."""
    first, rest = words[0], list(words[1:])
    header = struct.pack("=IHH", first & 0xFFFFFFFF, first >> 32 & 0xFFFF, first >> 48)
    thread = struct.unpack("=Q", struct.pack("=II", FIRST_PROCESS, FIRST_PROCESS))[0]
    if first & 0xFFFFFFFF == 9:
        rest = [FIRST_ID + 1, 0x401000, thread, FIRST_TIME + place, FIRST_ID + 1, FIRST_ID + 1, 0, 1]
    else:
        rest = [FIRST_ID + 1, rest[1], thread, FIRST_TIME + place, FIRST_ID + 1, FIRST_ID + 1, 0, FIRST_ID + 1]
    return header + struct.pack(f"={len(rest)}Q", *rest)


class Doing:
    """What a run on a kernel leaves for the comparison."""

    def __init__(self):
        said = Report(report())
        self.options, self.cpus = frozenset(), [0]
        self.ids, self.processes, self.lost = {FIRST_ID + 1: 1}, {FIRST_PROCESS: 0}, {0: LOST}
        self.answers = {f"p0.{number}": Answer() for number in range(3)}
        self.answers |= {
            "t0.0": Answer(),
            "t0.1": Answer(errno="ESRCH"),
            "t0.2": Answer(),
            "t0.4": Answer(errno="ENOSPC"),
            "t0.3": Answer(words=[FIT + LOST, 4321, 4321, FIRST_ID + 1, LOST]),
            "t0.5": Answer(skipped="`why` asks for what no call answers"),
        }
        self.rings = {0: Stream(said.rings[0])}


def comparison(text, doing=None):
    """Compares a report with the recorded answers."""
    return Comparison(Script(SCRIPT), Report(text), doing or Doing()).run()


def differing(text, doing=None):
    return [check for check in comparison(text, doing).checks if not check.is_same]
