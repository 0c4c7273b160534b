#!/usr/bin/env python3
"""Writes the records of a script's rings as a perf.data file, which perf itself reads.

Usage: perf_data.py [--program PATH] SCRIPT [REPORT] FILE

SCRIPT is a script that the program does, REPORT its report, and FILE the file to write. Without REPORT the program is
asked for it.

The file has the header, for each event that writes to a ring its perf_event_attr of 128 bytes with its id and name, and
as its data COMM records that name the tasks (task N, which is the process N + 1), and all rings' records as they stand
in the report, ring by ring. Then for one

    perf script -i FILE -F comm,pid,tid,cpu,time,event,period,ip
    perf report -i FILE --stdio --sort sym

Where there are several events, perf asks that the samples of all have their id at one place, which the bit IDENTIFIER
(10000) gives, and that all have `sample_id_all` or none has. A file of other events is written too, with a word of
warning.
"""

import struct
import sys
from argparse import Namespace
from collections.abc import Iterable, Mapping, Sequence

from perfscript import Fault, Report, Ring, Script, command, program_at
from perfscript.attributes import Attribute, bytes_of
from perfscript.follow import Event, Follow
from perfscript.names import ID, IDENTIFIER, SOFTWARE, SOFTWARE_KINDS, TRAILER_FIELDS

ATTR_SIZE = 128
HEADER_SIZE = 104
EVENT_DESC = 12
# PERF_TYPE_HARDWARE and PERF_TYPE_RAW, and the kinds that perf has numbers for, in their order
HARDWARE, RAW = 0, 4
HARDWARE_KINDS = (
    "cycles", "instructions", "cache-references", "cache-misses", "branches", "branch-misses", "bus-cycles"
)
COMM = 3


def kind_number(name: str, kinds: Sequence[str]) -> tuple[int, int]:
    """Type and config of a kind: perf's own where perf has one of that name, and else its number as a raw event."""
    if name in SOFTWARE_KINDS:
        return SOFTWARE, SOFTWARE_KINDS[name]
    if name in HARDWARE_KINDS:
        return HARDWARE, HARDWARE_KINDS.index(name)
    return RAW, kinds.index(name)


def attr(event: Event, kinds: Sequence[str]) -> bytes:
    """The bytes of an event's perf_event_attr."""
    asked = event.attribute
    numbers = asked.period, asked.sample, asked.format, asked.flags, ATTR_SIZE
    return bytes_of(*kind_number(asked.kind, kinds), *numbers)


def comm(task: int, trailer: int) -> bytes:
    """The COMM record of a task, whose process and thread are its number and one; with a trailer of zeros, as perf's
    own have."""
    name = f"task-{task}".encode().ljust(16, b"\0")
    size = 8 + 8 + len(name) + 8 * trailer
    return struct.pack("<IHHII", COMM, 0, size, task + 1, task + 1) + name + bytes(8 * trailer)


def data_of(tasks: Iterable[int], events: Sequence[Event], rings: Mapping[int, Ring]) -> bytes:
    """The COMM records of the tasks, and the records of all rings."""
    trailer = len(events[0].attribute.trailer_names())
    comms = b"".join(comm(task, trailer) for task in sorted(tasks))
    words = [word for ring in rings.values() for record in ring.records for word in record.words]
    return comms + struct.pack(f"<{len(words)}Q", *words)


def text(words: str) -> bytes:
    """A string of a header: its length with what fills it up, and its bytes."""
    padded = words.encode() + b"\0" * (64 - len(words) % 64)
    return struct.pack("<I", len(padded)) + padded


def file_of(events: Sequence[Event], kinds: Sequence[str], data: bytes) -> bytes:
    """The file: header, ids, attributes with the places of their ids, data, the table of the one feature, the names."""
    made = [attr(event, kinds) for event in events]
    attrs_at = HEADER_SIZE + 8 * len(events)
    attrs_size = len(events) * (ATTR_SIZE + 16)
    data_at = attrs_at + attrs_size
    ids = b"".join(struct.pack("<Q", event.id) for event in events)
    attrs = b"".join(one + struct.pack("<QQ", HEADER_SIZE + 8 * place, 8) for place, one in enumerate(made))
    names = struct.pack("<II", len(events), ATTR_SIZE)
    for one, event in zip(made, events):
        names += one + struct.pack("<I", 1) + text(event.attribute.kind) + struct.pack("<Q", event.id)
    table = struct.pack("<QQ", data_at + len(data) + 16, len(names))
    sections = attrs_at, attrs_size, data_at, len(data), 0, 0
    header = struct.pack("<8s12Q", b"PERFILE2", HEADER_SIZE, ATTR_SIZE + 16, *sections, 1 << EVENT_DESC, 0, 0, 0)
    return header + ids + attrs + data + table + names


def places_of_id(attribute: Attribute) -> tuple[int, int] | None:
    """Where the event's id stands in its samples, from their front, and in trailers, from their back; None where it
    does not."""
    if not attribute.sample & (ID | IDENTIFIER):
        return None
    name = "IDENTIFIER" if attribute.sample & IDENTIFIER else "ID"
    trailer = [field for bit, field in TRAILER_FIELDS if attribute.sample & bit]
    return attribute.field_names().index(name), len(trailer) - trailer.index(name)


def warning(events: Sequence[Event]) -> str | None:
    """What perf does not read, if anything."""
    places = {places_of_id(event.attribute) for event in events}
    if len(events) > 1 and (len(places) > 1 or None in places):
        return "several events, whose samples do not have an id at one place"
    if len({event.attribute.has("sample_id_all") for event in events}) > 1:
        return "events with sample_id_all, and events without"
    return None


def write(options: Namespace) -> int:
    """Writes the file."""
    text = command.text_of(options.script)
    given = options.report
    report = Report(command.text_of(given)) if given is not None else program_at(options.program).report(text)
    script = Script(text)
    report.check(script)
    follow = Follow(script, report).run()
    events = [event for event in follow.originals if event.attribute.period and event.ring is not None]
    if not events:
        raise Fault(f"{options.script}: no event that samples writes to a ring, so there is nothing to write")
    with open(options.file, "wb") as file:
        file.write(file_of(events, list(script.kinds), data_of(follow.tasks, events, report.rings)))
    if warning(events):
        print(f"perf will not read this file: {warning(events)}", file=sys.stderr)
    return 0


def main(words: Sequence[str] | None = None) -> int:
    parser = command.Parser("perf_data.py", __doc__)
    parser.add_argument("script", metavar="SCRIPT")
    parser.add_argument("report", metavar="REPORT", nargs="?")
    parser.add_argument("file", metavar="FILE")
    options = parser.parse_args(words)
    return command.ended("perf_data.py", lambda: write(options))


if __name__ == "__main__":
    sys.exit(main())
