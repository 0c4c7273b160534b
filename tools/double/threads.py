"""Forks, threads, execs and exits."""

from __future__ import annotations

import os
import select
import stat
import struct

from double import numbers as n
from double.broker import Broker
from double.calls import Call, signed
from double.tree import Process

AT_EMPTY_PATH = 0x1000


def clone_flags(call: Call) -> int:
    if call.number == n.CLONE:
        return call.args[0]
    if call.number == n.CLONE3:
        return int(struct.unpack("<Q", call.read(call.args[0], 8))[0])
    return 0


def clone(broker: Broker, call: Call) -> None:
    """A thread or process is made: counted where its maker's events are inherited. Then it is looked for."""
    flags = clone_flags(call)
    broker.process(call)
    task = broker.session.fork(call.tid) if broker.session else None
    call.proceed()
    child = broker.tree.child_of(call.tid, bool(flags & n.CLONE_THREAD))
    if child is None:
        forget(broker, task)
        return
    add_child(broker, broker.process(call), child, flags)
    if broker.session and task is not None:
        broker.session.name_task(child, task)


def add_child(broker: Broker, parent: Process, child: int, flags: int) -> None:
    if flags & n.CLONE_THREAD:
        broker.tree.add_thread(parent, child)
        return
    if flags & n.CLONE_FILES:
        files = parent.files
        files.users += 1
    else:
        files = parent.files.copy()
    broker.tree.add(child, files)


def forget(broker: Broker, task: int | None) -> None:
    """A fork that the kernel did not do: its task exits at once."""
    if broker.session and task is not None:
        broker.session.tasks[0] = task
        broker.session.exit(0)


def executable(call: Call) -> bool:
    """Whether the file that is to be executed is there and executable, as the thread would find it."""
    if call.number == n.EXECVEAT:
        folder, path, flags = signed(call.args[0]), call.text(call.args[1]), signed(call.args[4])
    else:
        folder, path, flags = -100, call.text(call.args[0]), 0
    name = os.fsdecode(path)
    base = f"/proc/{call.tid}/cwd" if folder == -100 else f"/proc/{call.tid}/fd/{folder}"
    if not name:
        return bool(flags & AT_EMPTY_PATH)
    try:
        found = os.stat(name if name.startswith("/") else os.path.join(base, name))
    except OSError:
        return False
    return stat.S_ISREG(found.st_mode) and bool(found.st_mode & 0o111)


def execute(broker: Broker, call: Call) -> None:
    """execve and execveat: what the exec ends is ended before the kernel does it."""
    process = broker.process(call)
    if executable(call):
        process.has_called_exec = True
        at_exec(broker, process, call.tid)
    call.proceed()


def at_exec(broker: Broker, process: Process, tid: int) -> None:
    """What an exec does: other threads end, descriptors are closed, and events are enabled."""
    for other in sorted(process.threads - {tid}):
        broker.end_thread(other)
    if process.files.users > 1:
        process.files.users -= 1
        process.files = process.files.copy()
    files = process.files
    for number in [number for number, closes in files.closed_at_exec.items() if closes]:
        broker.close_event(files.take(number))
    if tid != process.pid:
        lead(broker, process, tid)
    if broker.session:
        broker.session.exec(process.pid)
        if process.pid in broker.session.tasks:
            broker.do("@exec", process.pid)


def lead(broker: Broker, process: Process, tid: int) -> None:
    """A thread that execs gets the process's number."""
    broker.tree.threads.pop(tid, None)
    process.threads = set()
    broker.tree.add_thread(process, process.pid)
    session = broker.session
    if session and tid in session.tasks:
        session.name_task(process.pid, session.tasks.pop(tid))


def exit_thread(broker: Broker, call: Call) -> None:
    process = broker.process(call)
    if process.threads == {call.tid}:
        exit_process(broker, call)
        return
    broker.end_thread(call.tid)
    call.proceed()
    own = f"/proc/{process.pid}/task/{call.tid}"
    broker.wait_until_gone(lambda: not os.path.exists(own) or call.tid == process.pid)


def exit_process(broker: Broker, call: Call) -> None:
    process = broker.process(call)
    end = os.dup(process.end)
    try:
        broker.end_process(process)
        call.proceed()
        broker.wait_until_gone(lambda: bool(select.select([end], [], [], 0)[0]))
    finally:
        os.close(end)


def hello(broker: Broker, call: Call) -> None:
    """The loaded library finds itself in a process: an exec that no call told, where none was told."""
    process = broker.process(call)
    if not process.has_called_exec and process.pid == call.tid:
        at_exec(broker, process, call.tid)
    process.has_called_exec = False
    call.give(0)
