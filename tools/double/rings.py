"""Rings as clients map them: the page of a memfd before the data, and the records of the report copied into it."""

from __future__ import annotations

import mmap
import os
import struct
from typing import TYPE_CHECKING

from perfscript import Record, Ring
from perfscript.names import FIELDS, LOST, SAMPLE, TID, TRAILER_FIELDS

if TYPE_CHECKING:
    from double.attributes import Attribute
    from double.session import Event, Session

PAGE = 4096
# places in struct perf_event_mmap_page
VERSION, SIZE, HEAD, TAIL, DATA_OFFSET, DATA_SIZE = 0, 72, 1024, 1032, 1040, 1048
SAMPLE_ID_ALL = 1 << 18


def write_page(file: int, pages: int) -> mmap.mmap:
    """Makes the file as long as a page and so many more, and fills in the page."""
    os.ftruncate(file, (1 + pages) * PAGE)
    page = mmap.mmap(file, (1 + pages) * PAGE)
    struct.pack_into("<II", page, VERSION, 1, 0)
    struct.pack_into("<I", page, SIZE, 1056)
    struct.pack_into("<4Q", page, HEAD, 0, 0, PAGE, pages * PAGE)
    return page


class MappedRing:
    """The ring of the event in `slot`, and of those that write to it too. Places are bytes from the stream's start."""

    def __init__(self, session: Session, event: Event, number: int, size: int) -> None:
        self.session, self.slot, self.number, self.size = session, event.slot, number, size
        self.page = write_page(event.file, size // PAGE)
        self.ends = [0]
        self.seen = 0
        self.stream = b""
        self.events_since_wakeup = 0
        self.woken_at = 0
        self.is_readable = False

    def look(self) -> int | None:
        """The place of the last record that the client has released, where it is another than at the last look."""
        tail = struct.unpack_from("<Q", self.page, TAIL)[0]
        place = max((end for end in self.ends if end <= tail), default=0)
        self.ends = [end for end in self.ends if end >= place]
        if place <= self.seen:
            return None
        self.seen = place
        return place

    def take(self, ring: Ring) -> None:
        """Copies what the report has of this ring beyond what was copied."""
        have = len(self.stream)
        for record in ring.records:
            if record.end <= have:
                continue
            data = struct.pack(f"<{len(record.words)}Q", *self.with_threads(record))
            self.put(record.end - len(data), data)
            self.ends.append(record.end)
            self.wake(record)
        if ring.head > have:
            struct.pack_into("<Q", self.page, HEAD, ring.head)

    def put(self, start: int, data: bytes) -> None:
        self.stream += data
        place = start % self.size
        first = data[: self.size - place]
        self.page[PAGE + place : PAGE + place + len(first)] = first
        rest = data[len(first) :]
        self.page[PAGE : PAGE + len(rest)] = rest

    def writer(self) -> Event | None:
        """One of the events that write to the ring: all have the same fields in their samples."""
        return next((event for event in self.session.all_events.values() if event.ring is self), None)

    def with_threads(self, record: Record) -> list[int]:
        """A record's words, with the client's numbers of threads in place of the script's tasks."""
        words = list(record.words)
        writer = self.writer()
        if writer is None:
            return words
        place = tid_place(record.type, len(words), writer.attribute.sample, writer.attribute.flags)
        if place is not None:
            task = words[place] & 0xFFFFFFFF
            tid = self.session.threads.get(task - 1, 0) if task else 0
            process = self.session.processes.get(task - 1, 0) if task else 0
            words[place] = process | tid << 32
        return words

    def wake(self, record: Record) -> None:
        """Whether a poll finds the ring readable now: by its writer's wakeup_events, or since it is half full."""
        writer = self.writer()
        wanted = writer.attribute.wakeup if writer else 0
        by_bytes = self.size // 2
        if writer and writer.attribute.has_watermark:
            by_bytes = min(wanted, self.size) or by_bytes
        elif wanted and record.type == SAMPLE:
            self.events_since_wakeup += 1
            if self.events_since_wakeup >= wanted:
                self.events_since_wakeup = 0
                self.is_readable = True
        if record.end - self.woken_at > by_bytes:
            self.woken_at += by_bytes
            self.is_readable = True


def have_one_layout(one: Attribute, other: Attribute) -> bool:
    """Whether records of both can be told apart from their numbers of threads: they have them at the same places."""
    if not (one.sample | other.sample) & TID:
        return True
    return one.sample == other.sample and not (one.flags ^ other.flags) & SAMPLE_ID_ALL


def tid_place(record_type: int, count: int, sample: int, flags: int) -> int | None:
    """Which word of a record has the thread: None where none has it."""
    if not sample & TID:
        return None
    if record_type == SAMPLE:
        return 1 + sum(1 for bit, _ in FIELDS[: [bit for bit, _ in FIELDS].index(TID)] if sample & bit)
    if record_type == LOST and flags & SAMPLE_ID_ALL:
        return count - sum(1 for bit, _ in TRAILER_FIELDS if sample & bit)
    return None


def group_of(tid: int) -> int:
    """The process of a thread, which may have gone: then the thread's own number."""
    try:
        with open(f"/proc/{tid}/status", encoding="ascii", errors="replace") as file:
            return next(int(line.split()[1]) for line in file if line.startswith("Tgid:"))
    except (OSError, StopIteration):
        return tid
