"""Runs a command inside of the double: starts it, serves its calls until it ends, and cleans up."""

from __future__ import annotations

import ctypes
import errno
import os
import select
import shutil
import signal
import struct
import subprocess
import tempfile
import threading
import time
import traceback
from collections.abc import Sequence
from contextlib import suppress
from types import TracebackType
from typing import Protocol

from double import handlers, numbers as n
from double.broker import Broker
from double.build import FOLDER, NotHere, built
from double.calls import Call
from double.notify import Listener, descriptor_of
from double.sockets import Sockets
from double.tree import Files

assert handlers.ALL

PR_SET_CHILD_SUBREAPER = 36
# how long a command may go on after the broker's failure, and after an interrupt, in seconds
PATIENCE, PATIENCE_AT_INTERRUPT = 10.0, 2.0
# the descriptors of the command's output and errors; None for this process's own
Outputs = tuple[int | None, int | None]


class Catcher(Protocol):
    """What brings calls, one after the other."""

    cancelled: list[int]

    def register(self, descriptor: int) -> None: ...

    def has_call(self) -> bool: ...

    def next(self, timeout: float | None) -> Call | None: ...

    def close(self) -> None: ...


class Started:
    """A command that waits for its first word, with what brings its calls."""

    def __init__(
        self, words: Sequence[str], folder: str, environment: dict[str, str] | None, by_library: bool, to: Outputs
    ) -> None:
        launch = built("launch.c")
        variables = dict(os.environ if environment is None else environment)
        sockets = self.library(folder, variables) if by_library else None
        told, tell = os.pipe()
        wait, self.go = os.pipe()
        way = "preload" if by_library else "notify"
        call = [launch, way, str(n.LOW), str(n.HIGH), str(tell), str(wait), *words]
        self.process = subprocess.Popen(call, pass_fds=(tell, wait), env=variables, stdout=to[0], stderr=to[1])
        os.close(tell)
        os.close(wait)
        try:
            said = os.read(told, 4)
            number = struct.unpack("<i", said)[0] if len(said) == 4 else -errno.EPERM
            self.note = "" if number >= 0 else "no filter is allowed here: a client's own system calls reach the kernel"
            self.catcher: Catcher = sockets or Listener(self.take(number))
        except BaseException:
            self.stop()
            raise
        finally:
            os.close(told)

    @staticmethod
    def library(folder: str, variables: dict[str, str]) -> Sockets:
        """The library, compiled and named to the launcher, and its socket."""
        made = built("preload.c", os.path.join(FOLDER, "wrapped.c"), "-shared", "-fPIC", "-ldl")
        variables["DOUBLE_LIBRARY"] = made
        variables["DOUBLE_SOCKET"] = os.path.join(folder, "socket")
        return Sockets(variables["DOUBLE_SOCKET"])

    def take(self, number: int) -> int:
        if number < 0:
            name = errno.errorcode.get(-number, str(-number))
            raise NotHere(f"seccomp user notification is not allowed here ({name}); --preload does without it")
        try:
            return descriptor_of(self.process.pid, number)
        except OSError as fault:
            raise NotHere(f"this process may not look into the command's ({fault.strerror})") from None

    def begin(self) -> None:
        os.write(self.go, b".")
        os.close(self.go)

    def stop(self) -> None:
        """Ends a command that has not begun."""
        os.close(self.go)
        self.process.kill()
        self.process.wait()


class Run:
    """A `with` around one command; `status` is its own afterwards."""

    def __init__(
        self, broker: Broker, words: Sequence[str], environment: dict[str, str] | None = None, by_library: bool = False,
        to: Outputs = (None, None),
    ) -> None:
        self.broker, self.words, self.environment, self.by_library = broker, words, environment, by_library
        self.to = to
        self.status = 0
        self.failure = ""
        self.is_closed = False

    def __enter__(self) -> "Run":
        adopt_orphans()
        self.folder = tempfile.mkdtemp(prefix="double.")
        try:
            self.started = Started(self.words, self.folder, self.environment, self.by_library, self.to)
        except BaseException:
            shutil.rmtree(self.folder, ignore_errors=True)
            raise
        return self

    def __exit__(self, kind: type[BaseException] | None, fault: BaseException | None, at: TracebackType | None) -> None:
        self.close()
        if self.started.process.poll() is None and kind:
            self.started.process.kill()
        self.started.process.wait()
        shutil.rmtree(self.folder, ignore_errors=True)

    def serve(self) -> None:
        """Serves all calls until the command ends. What goes wrong here is told, and clients then get ENOSYS."""
        with Interrupts() as interrupts:
            try:
                self.broker.tree.add(self.started.process.pid, Files())
                self.started.begin()
                self.loop(interrupts)
                self.broker.end(self.started.process.pid)
            except Exception as fault:
                self.failure = f"the broker ended: {fault or type(fault).__name__} (in {where(fault)})"
            self.close()
            self.status = self.last_status()
            if interrupts.number:
                self.status = 128 + interrupts.number

    def last_status(self) -> int:
        """The command's status. After a failure it has a while to end by itself."""
        try:
            status = self.started.process.wait(PATIENCE if self.failure else None)
        except subprocess.TimeoutExpired:
            self.started.process.kill()
            status = self.started.process.wait()
        if self.failure:
            self.broker.kill_all()
        return status if status >= 0 else 128 - status

    def close(self) -> None:
        """No call is answered any more: clients that wait get ENOSYS."""
        if not self.is_closed:
            self.is_closed = True
            self.started.catcher.close()

    def loop(self, interrupts: "Interrupts") -> None:
        root = os.pidfd_open(self.started.process.pid)
        catcher, broker = self.started.catcher, self.broker
        catcher.register(root)
        catcher.register(interrupts.told)
        broker.has_call, broker.by_library = catcher.has_call, self.by_library
        if self.started.note:
            broker.say(self.started.note)
        timeout: float | None = 0
        try:
            while True:
                call = catcher.next(timeout)
                while catcher.cancelled:
                    broker.cancel(catcher.cancelled.pop())
                if call:
                    broker.handle(call)
                    timeout = 0
                elif select.select([root], [], [], 0)[0] or interrupts.is_over():
                    return
                else:
                    timeout = interrupts.limited(broker.idle())
        finally:
            os.close(root)


class Interrupts:
    """SIGINT and SIGTERM: the command, which a terminal tells too, has two seconds to end; then all is ended."""

    def __init__(self) -> None:
        self.number = self.pending = 0
        self.since = 0.0
        self.before: dict[int, object] = {}

    def __enter__(self) -> "Interrupts":
        self.told, self.tell = os.pipe2(os.O_NONBLOCK | os.O_CLOEXEC)
        if threading.current_thread() is threading.main_thread():
            self.before = {number: signal.signal(number, self.take) for number in (signal.SIGINT, signal.SIGTERM)}
        return self

    def __exit__(self, kind: type[BaseException] | None, fault: BaseException | None, at: TracebackType | None) -> None:
        for number, handler in self.before.items():
            signal.signal(number, handler)  # type: ignore[arg-type]
        os.close(self.told)
        os.close(self.tell)

    def take(self, number: int, _: object) -> None:
        os.write(self.tell, b".")
        self.since = time.monotonic()
        self.pending = number

    def is_over(self) -> bool:
        """Whether a signal came, and the command has not ended since."""
        with suppress(BlockingIOError):
            os.read(self.told, 64)
        if self.since and time.monotonic() - self.since > PATIENCE_AT_INTERRUPT:
            self.number = self.pending
        return bool(self.number)

    def limited(self, timeout: float | None) -> float | None:
        """A wait in ms that ends in time."""
        return timeout if not self.since else min(100.0, 100.0 if timeout is None else timeout)


def adopt_orphans() -> None:
    """Processes whose parents end become children of this process, and not of init, so that none is lost."""
    ctypes.CDLL(None).prctl(PR_SET_CHILD_SUBREAPER, 1, 0, 0, 0)


def where(fault: BaseException) -> str:
    last = traceback.extract_tb(fault.__traceback__)[-1]
    return f"{os.path.basename(last.filename)}:{last.lineno}"
