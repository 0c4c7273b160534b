"""Calls that the loaded library sends by a socket (preload.c)."""

from __future__ import annotations

import array
import select
import socket
import struct

from double.calls import Call, ClientGone

REQUEST = struct.Struct("=iiq6Q")
REPLY = struct.Struct("=qiIii")
DOES_ITSELF, HAS_DESCRIPTOR = 1, 2
CANCEL = 100001


class SentCall(Call):
    """A call whose thread waits for an answer on its connection."""

    def __init__(self, connection: socket.socket, tid: int, number: int, args: tuple[int, ...]) -> None:
        super().__init__(tid, number, args)
        self.connection = connection
        self.is_answered = False

    def check(self) -> None:
        if self.is_answered or self.connection.fileno() < 0:
            raise ClientGone

    def _send(self, value: int, error: int, flags: int, number: int = 0, close_on_exec: bool = False,
              descriptor: int | None = None) -> None:
        self.check()
        self.is_answered = True
        data = REPLY.pack(value, error, flags, number, close_on_exec)
        rights = [] if descriptor is None else [(socket.SOL_SOCKET, socket.SCM_RIGHTS, array.array("i", [descriptor]))]
        try:
            self.connection.sendmsg([data], rights)
        except OSError:
            raise ClientGone from None

    def give(self, value: int) -> None:
        self._send(value, 0, 0)

    def refuse(self, error: int) -> None:
        self._send(0, error, 0)

    def proceed(self) -> None:
        self._send(0, 0, DOES_ITSELF)

    def give_descriptor(self, descriptor: int, number: int, close_on_exec: bool) -> None:
        self._send(number, 0, HAS_DESCRIPTOR, number, close_on_exec, descriptor)


class Sockets:
    """The socket at a path, and the connections of all threads."""

    def __init__(self, path: str) -> None:
        self.listening = socket.socket(socket.AF_UNIX, socket.SOCK_SEQPACKET | socket.SOCK_CLOEXEC)
        self.listening.bind(path)
        self.listening.listen(128)
        self.connections: dict[int, socket.socket] = {}
        self.cancelled: list[int] = []
        self.poller = select.poll()
        self.poller.register(self.listening, select.POLLIN)

    def register(self, descriptor: int) -> None:
        """Another descriptor at which a wait ends."""
        self.poller.register(descriptor, select.POLLIN)

    def has_call(self) -> bool:
        return any(number in self.connections or number == self.listening.fileno() for number, _ in self.poller.poll(0))

    def next(self, timeout: float | None) -> Call | None:
        """The next call, waited for so many ms; None where there is none."""
        for number, _ in self.poller.poll(timeout):
            if number == self.listening.fileno():
                connection, _ = self.listening.accept()
                self.connections[connection.fileno()] = connection
                self.poller.register(connection, select.POLLIN)
            elif number in self.connections:
                call = self.receive(self.connections[number])
                if call:
                    return call
        return None

    def receive(self, connection: socket.socket) -> Call | None:
        try:
            data = connection.recv(REQUEST.size)
        except OSError:
            data = b""
        if len(data) != REQUEST.size:
            self.poller.unregister(connection)
            del self.connections[connection.fileno()]
            connection.close()
            return None
        _, tid, number, *args = REQUEST.unpack(data)
        if number == CANCEL:
            self.cancelled.append(tid)
            return None
        return SentCall(connection, tid, number, tuple(args))

    def close(self) -> None:
        for connection in [self.listening, *self.connections.values()]:
            connection.close()
        self.connections = {}
