"""What else can be done with descriptors: duplicates, closes, and what an event's descriptor does not do."""

from __future__ import annotations

import errno
import struct

from double import numbers as n
from double.broker import Broker
from double.calls import Call, signed
from double.opening import free_descriptor, hand_over
from double.session import Event, Refusal

# what the kernel answers for calls that an event's file has no way to do
NOT_DONE = {
    n.PREAD: errno.ESPIPE, n.PREADV: errno.ESPIPE, n.PREADV2: errno.ESPIPE, n.WRITE: errno.EINVAL,
    n.PWRITE: errno.ESPIPE, n.WRITEV: errno.EINVAL, n.PWRITEV: errno.ESPIPE, n.PWRITEV2: errno.ESPIPE,
    n.LSEEK: errno.ESPIPE, n.FTRUNCATE: errno.EINVAL, n.FALLOCATE: errno.ENODEV, n.SENDFILE: errno.EINVAL,
    n.SPLICE: errno.EINVAL, n.COPY_FILE_RANGE: errno.EINVAL,
}
HEADER = struct.Struct("<QIIQQQQi")
RIGHTS = 1
SOL_SOCKET = 1


def not_done(broker: Broker, call: Call) -> None:
    number = call.args[1] if call.number == n.SENDFILE else call.args[0]
    if broker.event(call, signed(number)) is None:
        call.proceed()
    else:
        raise Refusal(NOT_DONE[call.number])


def close(broker: Broker, call: Call) -> None:
    broker.close_event(broker.process(call).files.take(signed(call.args[0])))
    call.proceed()


def close_range(broker: Broker, call: Call) -> None:
    """close_range(first, last, flags)"""
    first, last, flags = (word & 0xFFFFFFFF for word in call.args[:3])
    process = broker.process(call)
    if flags & n.CLOSE_RANGE_UNSHARE:
        own_files(broker, call)
    for number in [number for number in process.files.events if first <= number <= last]:
        if flags & n.CLOSE_RANGE_CLOEXEC:
            process.files.closed_at_exec[number] = True
        else:
            broker.close_event(process.files.take(number))
    call.proceed()


def own_files(broker: Broker, call: Call) -> None:
    """The process gets a table of descriptors of its own."""
    process = broker.process(call)
    if process.files.users > 1:
        process.files.users -= 1
        process.files = process.files.copy()


def unshare(broker: Broker, call: Call) -> None:
    own_files(broker, call)
    call.proceed()


def duplicate(broker: Broker, call: Call) -> None:
    """dup(fd): the duplicate's number is one of those of events too."""
    event = broker.event(call, signed(call.args[0]))
    if event is None:
        call.proceed()
    else:
        give_duplicate(broker, call, event, None, False)


def duplicate_to(broker: Broker, call: Call) -> None:
    """dup2(fd, number) and dup3(fd, number, flags)"""
    old, new = signed(call.args[0]), signed(call.args[1])
    event, files = broker.event(call, old), broker.process(call).files
    if event is None or old == new:
        if old != new:
            broker.close_event(files.take(new))
        call.proceed()
        return
    if not n.LOW <= new <= n.HIGH:
        raise Refusal(errno.EBADF, f"a duplicate of an event as descriptor {new}: events have {n.LOW} to {n.HIGH}")
    broker.close_event(files.take(new))
    give_duplicate(broker, call, event, new, call.number == n.DUP3 and bool(call.args[2]))


def give_duplicate(broker: Broker, call: Call, event: Event, number: int | None, close_on_exec: bool) -> None:
    process = broker.process(call)
    number = free_descriptor(process) if number is None else number
    process.files.put(number, event, close_on_exec)
    hand_over(broker, call, event, process, number, close_on_exec)


def control_descriptor(broker: Broker, call: Call) -> None:
    """fcntl(fd, command, argument)"""
    number, command = signed(call.args[0]), signed(call.args[1])
    event, files = broker.event(call, number), broker.process(call).files
    if event is None:
        call.proceed()
    elif command in (n.F_DUPFD, n.F_DUPFD_CLOEXEC):
        give_duplicate(broker, call, event, None, command == n.F_DUPFD_CLOEXEC)
    elif command in (n.F_SETOWN, n.F_SETSIG):
        raise Refusal(errno.EINVAL, "fcntl F_SETOWN or F_SETSIG of an event: no signals are sent here, poll tells")
    else:
        if command == n.F_SETFD:
            files.closed_at_exec[number] = bool(call.args[2] & 1)
        call.proceed()


def watch(broker: Broker, call: Call) -> None:
    """epoll_ctl(epoll, operation, fd, event)"""
    if broker.event(call, signed(call.args[2])) is None:
        call.proceed()
    else:
        raise Refusal(errno.EPERM, "epoll of an event: poll, ppoll, select and pselect6 serve")


def take_elsewhere(broker: Broker, call: Call) -> None:
    """pidfd_getfd(pidfd, fd, flags)"""
    target = signed(call.args[1])
    if any(target in process.files.events for process in broker.tree.processes.values()):
        raise Refusal(errno.EPERM, "pidfd_getfd of an event's descriptor")
    call.proceed()


def send_message(broker: Broker, call: Call) -> None:
    """sendmsg and sendmmsg: a message that passes on an event's descriptor is refused."""
    count = 1 if call.number == n.SENDMSG else min(call.args[2], 1024)
    step = 56 if call.number == n.SENDMSG else 64
    if broker.process(call).files.events:
        for place in range(count):
            if passes_event(broker, call, call.args[1] + place * step):
                raise Refusal(errno.EINVAL, "an event's descriptor passed on by a message")
    call.proceed()


def passes_event(broker: Broker, call: Call, address: int) -> bool:
    """Whether the control part of a message has a descriptor of an event."""
    _, _, _, _, _, control, length, _ = HEADER.unpack(call.read(address, HEADER.size))
    data = call.read(control, min(length, 4096)) if control and length else b""
    place = 0
    while place + 16 <= len(data):
        size, level, kind = struct.unpack_from("<QII", data, place)
        if size < 16:
            break
        if (level, kind) == (SOL_SOCKET, RIGHTS):
            passed = [number for (number,) in struct.iter_unpack("<i", data[place + 16 : place + size - size % 4])]
            if any(broker.event(call, number) for number in passed):
                return True
        place += (size + 7) // 8 * 8
    return False
