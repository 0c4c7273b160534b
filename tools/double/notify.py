"""Calls that seccomp user notification brings: the listener of the filter that launch.c installs."""

from __future__ import annotations

import ctypes
import errno
import fcntl
import os
import select
import struct

from double.calls import Call, ClientGone

RECEIVE, SEND, ID_VALID, ADD_DESCRIPTOR = 0xC0502100, 0xC0182101, 0x40082102, 0x40182103
CONTINUE, SET_NUMBER, ADD_AND_SEND = 1, 1, 2
NOTIFICATION = struct.Struct("=QIIiIQ6Q")
PIDFD_OPEN, PIDFD_GETFD = 434, 438

_libc = ctypes.CDLL(None, use_errno=True)


def descriptor_of(pid: int, number: int) -> int:
    """A descriptor of another process, as one of this process (pidfd_getfd)."""
    process = os.pidfd_open(pid)
    try:
        got = int(_libc.syscall(PIDFD_GETFD, process, number, 0))
    finally:
        os.close(process)
    if got < 0:
        raise OSError(ctypes.get_errno(), os.strerror(ctypes.get_errno()))
    return got


class NotifiedCall(Call):
    """A call that waits in the kernel for the listener's answer."""

    def __init__(self, listener: int, cookie: int, tid: int, number: int, args: tuple[int, ...]) -> None:
        super().__init__(tid, number, args)
        self.listener, self.cookie = listener, cookie

    def check(self) -> None:
        try:
            fcntl.ioctl(self.listener, ID_VALID, struct.pack("=Q", self.cookie))
        except OSError:
            raise ClientGone from None

    def _send(self, value: int, error: int, flags: int) -> None:
        try:
            fcntl.ioctl(self.listener, SEND, struct.pack("=QqiI", self.cookie, value, error, flags))
        except OSError as fault:
            if fault.errno in (errno.ENOENT, errno.EINPROGRESS):
                raise ClientGone from None
            raise

    def give(self, value: int) -> None:
        self._send(value, 0, 0)

    def refuse(self, error: int) -> None:
        self._send(0, -error, 0)

    def proceed(self) -> None:
        self._send(0, 0, CONTINUE)

    def give_descriptor(self, descriptor: int, number: int, close_on_exec: bool) -> None:
        flags = os.O_CLOEXEC if close_on_exec else 0
        asked = struct.pack("=QIIII", self.cookie, SET_NUMBER, descriptor, number, flags)
        try:
            fcntl.ioctl(self.listener, ADD_DESCRIPTOR, asked)
        except OSError as fault:
            if fault.errno == errno.ENOENT:
                raise ClientGone from None
            raise
        self.give(number)


class Listener:
    """The listener: readable while a call waits."""

    def __init__(self, descriptor: int) -> None:
        self.descriptor = descriptor
        self.cancelled: list[int] = []
        self.poller = select.poll()
        self.poller.register(descriptor, select.POLLIN)

    def register(self, descriptor: int) -> None:
        """Another descriptor at which a wait ends."""
        self.poller.register(descriptor, select.POLLIN)

    def has_call(self) -> bool:
        return any(number == self.descriptor and bits & select.POLLIN for number, bits in self.poller.poll(0))

    def next(self, timeout: float | None) -> Call | None:
        """The next call, waited for so many ms; None where there is none."""
        ready = [number for number, bits in self.poller.poll(timeout) if bits & select.POLLIN]
        return self.receive() if self.descriptor in ready else None

    def receive(self) -> NotifiedCall | None:
        """The next call, or None where its client has gone."""
        room = bytearray(NOTIFICATION.size)
        try:
            fcntl.ioctl(self.descriptor, RECEIVE, room)
        except OSError as fault:
            if fault.errno in (errno.ENOENT, errno.EINTR):
                return None
            raise
        cookie, tid, _, number, _, _, *args = NOTIFICATION.unpack(room)
        return NotifiedCall(self.descriptor, cookie, tid, number, tuple(args))

    def close(self) -> None:
        os.close(self.descriptor)
