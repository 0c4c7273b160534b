"""poll(2) and select(2) in all their forms: of events answered here, of others by looking at copies of them."""

from __future__ import annotations

import os
import select
import struct
from dataclasses import dataclass, field

from double import numbers as n
from double.calls import BadAddress, Call, signed
from double.notify import descriptor_of
from double.session import Event

MOST = 4096


@dataclass
class Wait:
    """What a poll waits for: descriptors with the bits asked for, and how the answer is written."""

    call: Call
    wanted: list[tuple[int, int]]
    timeout: int | None
    events: dict[int, Event] = field(default_factory=dict)
    copies: dict[int, int] = field(default_factory=dict)

    def ready(self) -> dict[int, int]:
        """The bits that hold, by descriptor. A ring that is found readable is so once."""
        found = {}
        for number, bits in self.wanted:
            if number in self.events:
                got = bits_of(self.events[number]) & (bits | select.POLLHUP | select.POLLERR)
            elif number in self.copies:
                got = look_at(self.copies[number], bits)
            else:
                got = select.POLLNVAL
            if got:
                found[number] = got
        for number in found:
            ring = self.events[number].ring if number in self.events else None
            if ring:
                ring.is_readable = False
        return found

    def copy_others(self, tid: int) -> None:
        for number, _ in self.wanted:
            if number >= 0 and number not in self.events and number not in self.copies:
                try:
                    self.copies[number] = descriptor_of(tid, number)
                except OSError:
                    continue

    def close(self) -> None:
        for copy in self.copies.values():
            os.close(copy)
        self.copies = {}

    def answer(self, found: dict[int, int]) -> None:
        """Writes what holds, and gives how many descriptors that is."""
        raise NotImplementedError


def bits_of(event: Event) -> int:
    """An event without a ring hangs up, as in Linux; so does one whose tasks have exited."""
    if event.ring is None:
        return select.POLLHUP
    return (select.POLLIN if event.ring.is_readable else 0) | (select.POLLHUP if event.hangs_up else 0)


def look_at(descriptor: int, bits: int) -> int:
    poller = select.poll()
    poller.register(descriptor, bits)
    found = poller.poll(0)
    return found[0][1] if found else 0


class PollWait(Wait):
    """poll and ppoll."""

    def answer(self, found: dict[int, int]) -> None:
        base = self.call.args[0]
        count = 0
        for place, (number, _) in enumerate(self.wanted):
            bits = found.get(number, 0) if number >= 0 else 0
            self.call.write(base + 8 * place + 6, struct.pack("<H", bits))
            count += bits != 0
        self.call.give(count)


SETS = (
    (select.POLLIN, select.POLLIN | select.POLLHUP | select.POLLERR),
    (select.POLLOUT, select.POLLOUT | select.POLLERR),
    (select.POLLPRI, select.POLLPRI),
)


class SelectWait(Wait):
    """select and pselect6: three sets of bits."""

    def answer(self, found: dict[int, int]) -> None:
        count, size = 0, (self.call.args[0] + 63) // 64 * 8
        for (asked, counted), address in zip(SETS, self.call.args[1:4]):
            if not address:
                continue
            bits = 0
            for number, wanted in self.wanted:
                if wanted & asked and found.get(number, 0) & counted:
                    bits |= 1 << number
                    count += 1
            self.call.write(address, bits.to_bytes(size, "little"))
        self.call.give(count)


def wait_of(call: Call) -> Wait:
    """What a call waits for; its timeout in ns, None for ever."""
    if call.number in (n.POLL, n.PPOLL):
        return poll_of(call)
    return select_of(call)


def poll_of(call: Call) -> Wait:
    base, count = call.args[0], call.args[1] & 0xFFFFFFFF
    if count > MOST:
        raise BadAddress
    data = call.read(base, 8 * count) if count else b""
    wanted = [(number, bits) for number, bits, _ in struct.iter_unpack("<iHH", data)]
    if call.number == n.POLL:
        length = signed(call.args[2])
        return PollWait(call, wanted, None if length < 0 else length * 1_000_000)
    return PollWait(call, wanted, timespec(call, call.args[2]))


def select_of(call: Call) -> Wait:
    count = signed(call.args[0])
    size = (max(count, 0) + 63) // 64 * 8
    bits_by_number: dict[int, int] = {}
    for (asked, _), address in zip(SETS, call.args[1:4]):
        bits = int.from_bytes(call.read(address, size), "little") if address and size else 0
        for number in range(count):
            if bits >> number & 1:
                bits_by_number[number] = bits_by_number.get(number, 0) | asked
    timeout = timespec(call, call.args[4], 1000 if call.number == n.SELECT else 1)
    return SelectWait(call, sorted(bits_by_number.items()), timeout)


def timespec(call: Call, address: int, unit: int = 1) -> int | None:
    """A time of two words in ns; the second counts so many ns."""
    if not address:
        return None
    seconds, part = struct.unpack("<qq", call.read(address, 16))
    return int(seconds * 1_000_000_000 + part * unit)
