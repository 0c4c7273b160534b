"""perf_event_open, read, ioctl and mmap of events."""

from __future__ import annotations

import errno
import os
import resource
import struct
from contextlib import suppress

from double import numbers as n
from double.attributes import LEAST, Attribute, AttributeRefused, read_attribute
from double.broker import Broker
from double.calls import BadAddress, Call, signed
from double.rings import write_page
from double.session import Event, Refusal, Sent
from double.tree import Process, exists

MOST_PAGES = 16
COMMANDS = {n.IOC_ENABLE: "enable", n.IOC_DISABLE: "disable", n.IOC_RESET: "reset"}
MAP_ANONYMOUS = 0x20


def open_event(broker: Broker, call: Call) -> None:
    """perf_event_open(attr, pid, cpu, group_fd, flags)"""
    address, pid, cpu, group, flags = (call.args[0], *(signed(word) for word in call.args[1:4]), call.args[4])
    check_flags(flags)
    attribute = attribute_at(broker, call, address)
    if cpu < -1 or cpu >= broker.scenario.cpus:
        raise Refusal(errno.EINVAL, f"processor {cpu}: the scenario's machine has 0 to {broker.scenario.cpus - 1}")
    process = broker.process(call)
    number = free_descriptor(process)
    session = broker.open_session()
    tid = thread_of(call, pid)
    leader: Event | int | None = None
    if group != -1 and not flags & n.FD_NO_GROUP:
        leader = process.files.events.get(group) or session.free_slot()
    slot = session.next_slot
    sent = Sent("open", None, slot, 0, (-1 if tid is None else tid, cpu, group, flags), attribute.given)
    try:
        event = session.open(attribute, tid, cpu, leader)
    except Refusal as refusal:
        sent.key, sent.result = refusal.key, -refusal.error
        broker.record(sent)
        broker.note(f"perf_event_open of {attribute.name} is refused: {refusal.why}")
        raise
    sent.key, sent.slot, sent.result = event.key, event.slot, number
    broker.record(sent)
    process.files.put(number, event, bool(flags & n.FD_CLOEXEC))
    hand_over(broker, call, event, process, number, bool(flags & n.FD_CLOEXEC))


def check_flags(flags: int) -> None:
    if flags & ~(n.FD_NO_GROUP | n.FD_OUTPUT | n.PID_CGROUP | n.FD_CLOEXEC):
        raise Refusal(errno.EINVAL)
    if flags & n.PID_CGROUP:
        raise Refusal(errno.EINVAL, "PERF_FLAG_PID_CGROUP: there are no control groups here")
    if flags & n.FD_OUTPUT:
        raise Refusal(errno.EINVAL, "PERF_FLAG_FD_OUTPUT: PERF_EVENT_IOC_SET_OUTPUT does it")


def attribute_at(broker: Broker, call: Call, address: int) -> Attribute:
    """The attribute at an address. Where its size or a later byte is at fault, the known size is written back."""
    try:
        return broker.translator.attribute(read_attribute(call.read, address))
    except AttributeRefused as refused:
        broker.note(f"perf_event_open is refused: {refused}")
        if refused.error == errno.E2BIG:
            with suppress(BadAddress):
                call.write(address + 4, struct.pack("<I", LEAST))
        raise Refusal(refused.error) from None


def thread_of(call: Call, pid: int) -> int | None:
    """The thread that a pid names: None for all, -2 for one that is not there."""
    if pid == -1:
        return None
    if pid == 0:
        return call.tid
    return pid if pid > 0 and exists(pid) else -2


def free_descriptor(process: Process) -> int:
    """A number in the range of events that the client has not taken."""
    for number in range(n.LOW, n.HIGH + 1):
        if number not in process.files.events and not os.path.lexists(f"/proc/{process.pid}/fd/{number}"):
            return number
    raise Refusal(errno.EMFILE, f"the descriptors {n.LOW} to {n.HIGH} are all in use", is_limit=True)


def hand_over(broker: Broker, call: Call, event: Event, process: Process, number: int, close_on_exec: bool) -> None:
    """Gives the client the event's file, also above its soft limit of descriptors."""
    soft, hard = resource.prlimit(process.pid, resource.RLIMIT_NOFILE)
    low = soft <= number
    try:
        if low:
            resource.prlimit(process.pid, resource.RLIMIT_NOFILE, (number + 1, max(hard, number + 1)))
        call.give_descriptor(event.file, number, close_on_exec)
    except (OSError, ValueError):
        broker.close_event(process.files.take(number))
        why = f"descriptor {number} is above the client's hard limit of {hard}"
        raise Refusal(errno.EMFILE, why, None, True) from None
    finally:
        if low:
            with suppress(OSError, ValueError):
                resource.prlimit(process.pid, resource.RLIMIT_NOFILE, (soft, hard))


def read_event(broker: Broker, call: Call) -> None:
    """read(fd, buf, count)"""
    event = broker.event(call, signed(call.args[0]))
    if event is None:
        call.proceed()
        return
    data = words_for(broker, call, event, call.args[2])
    if data:
        call.write(call.args[1], data)
    call.give(len(data))


def words_for(broker: Broker, call: Call, event: Event, room: int) -> bytes:
    """The bytes of a read of an event into a buffer of so many bytes."""
    broker.do("@read", call.tid)
    session = event.session
    sent = Sent("read", None, event.slot, 0, (room,))
    try:
        words = session.read(event, room)
    except Refusal as refusal:
        sent.key, sent.result = refusal.key, -refusal.error
        session.sent.append(sent)
        raise
    data = struct.pack(f"<{len(words)}Q", *words)
    sent.key, sent.result, sent.out = session.last_key(), len(data), data
    session.sent.append(sent)
    return data


def read_vector(broker: Broker, call: Call) -> None:
    """readv(fd, iov, count): one read for each buffer, until one is not filled."""
    event = broker.event(call, signed(call.args[0]))
    if event is None:
        call.proceed()
        return
    if call.args[2] > 1024:
        raise Refusal(errno.EINVAL)
    buffers = list(struct.iter_unpack("<QQ", call.read(call.args[1], 16 * call.args[2])))
    total = 0
    for address, room in buffers:
        if not room:
            continue
        try:
            data = words_for(broker, call, event, room)
        except Refusal:
            if total:
                break
            raise
        call.write(address, data)
        total += len(data)
        if len(data) != room:
            break
    call.give(total)


def control(broker: Broker, call: Call) -> None:
    """ioctl(fd, request, argument)"""
    event = broker.event(call, signed(call.args[0]))
    request, argument = call.args[1] & 0xFFFFFFFF, call.args[2]
    if event is None:
        call.proceed()
    elif request in (n.FIOCLEX, n.FIONCLEX):
        broker.process(call).files.closed_at_exec[signed(call.args[0])] = request == n.FIOCLEX
        call.proceed()
    elif request == n.IOC_ID:
        give_id(call, event)
    elif request in COMMANDS:
        group = " group" if argument & n.IOC_FLAG_GROUP else ""
        command(call, event, f"{COMMANDS[request]} {event.slot}{group}", (request, argument))
    elif request == n.IOC_PERIOD:
        period = struct.unpack("<Q", call.read(argument, 8))[0]
        command(call, event, f"period {event.slot} {period}", (request, period))
    elif request == n.IOC_SET_OUTPUT:
        set_output(broker, call, event, signed(argument))
    elif request in n.IOC_NAMES:
        raise Refusal(errno.EINVAL, f"{n.IOC_NAMES[request]} has no rule here")
    else:
        raise Refusal(errno.ENOTTY)


def command(call: Call, event: Event, line: str, given: tuple[int, int]) -> None:
    """Does a line that answers Ok or a reason, and tells the client."""
    sent = Sent("ioctl", None, event.slot, 0, given)
    try:
        sent.key, _ = event.session.call(line)
    except Refusal as refusal:
        sent.key, sent.result = refusal.key, -refusal.error
        raise
    finally:
        event.session.sent.append(sent)
    call.give(0)


def give_id(call: Call, event: Event) -> None:
    data = struct.pack("<Q", event.session.id_of(event))
    call.write(call.args[2], data)
    event.session.sent.append(Sent("id", None, event.slot, 0, (n.IOC_ID,), out=data))
    call.give(0)


def set_output(broker: Broker, call: Call, event: Event, target: int) -> None:
    """PERF_EVENT_IOC_SET_OUTPUT: the event writes to the ring of another descriptor's event."""
    if target == -1:
        raise Refusal(errno.EINVAL, "PERF_EVENT_IOC_SET_OUTPUT of -1: an event keeps its ring here")
    other = broker.event(call, target)
    session = event.session
    to = other.slot if other else session.free_slot()
    sent = Sent("ioctl", None, event.slot, 0, (n.IOC_SET_OUTPUT, to))
    try:
        session.output(event, other or to)
        sent.key = session.last_key()
    except Refusal as refusal:
        sent.key, sent.result = refusal.key, -refusal.error
        if refusal.key is None:
            raise
        session.sent.append(sent)
        raise
    session.sent.append(sent)
    call.give(0)


def map_event(broker: Broker, call: Call) -> None:
    """mmap(address, length, protection, flags, fd, offset): the kernel maps the event's file, with its page filled in."""
    event = broker.event(call, signed(call.args[4]))
    _, length, protection, flags, _, offset = call.args
    if event is None or flags & MAP_ANONYMOUS:
        call.proceed()
        return
    pages = (length + n.PAGE - 1) // n.PAGE - 1
    if offset or not flags & n.MAP_SHARED or pages < 0 or pages & (pages - 1):
        raise Refusal(errno.EINVAL)
    if pages == 0 or event.pages == pages + 1 and event.ring is None:
        if not event.pages:
            write_page(event.file, 0)
            event.pages = 1
        call.proceed()
        return
    if not protection & n.PROT_WRITE:
        raise Refusal(errno.EINVAL, "a ring mapped without PROT_WRITE, which overwrites old records, has no rule here")
    if pages > MOST_PAGES:
        raise Refusal(errno.EPERM, f"a ring of {pages} pages: the most is {MOST_PAGES} (perf record -m {MOST_PAGES})")
    map_ring(call, event, pages)


def map_ring(call: Call, event: Event, pages: int) -> None:
    sent = Sent("mmap", None, event.slot, 0, (pages,))
    try:
        event.session.map(event, pages)
        sent.key, event.pages = event.session.last_key(), pages + 1
    except Refusal as refusal:
        sent.key, sent.result = refusal.key, -refusal.error
        raise
    finally:
        if sent.key:
            event.session.sent.append(sent)
    call.proceed()
