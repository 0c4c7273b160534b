"""The processes and threads that come from the command, and the tables of descriptors that lead to events."""

from __future__ import annotations

import os
import time
from dataclasses import dataclass, field

from double.session import Event

# how many seconds a fork may take
PATIENCE = 5.0


@dataclass(eq=False)
class Files:
    """A table of descriptors, which threads share: the events by descriptor, and whether an exec closes it."""

    events: dict[int, Event] = field(default_factory=dict)
    closed_at_exec: dict[int, bool] = field(default_factory=dict)
    users: int = 1

    def put(self, number: int, event: Event, close_on_exec: bool) -> None:
        self.events[number] = event
        self.closed_at_exec[number] = close_on_exec
        event.holders += 1

    def take(self, number: int) -> Event | None:
        """Takes a descriptor away, and gives the event that no descriptor leads to any more."""
        event = self.events.pop(number, None)
        self.closed_at_exec.pop(number, None)
        if event is None:
            return None
        event.holders -= 1
        return event if event.holders == 0 else None

    def copy(self) -> "Files":
        made = Files()
        for number, event in self.events.items():
            made.put(number, event, self.closed_at_exec[number])
        return made


@dataclass(eq=False)
class Process:
    """A process: its threads' numbers, its table of descriptors, and a descriptor that tells of its end."""

    pid: int
    files: Files
    end: int
    threads: set[int] = field(default_factory=set)
    has_called_exec: bool = False


class Tree:
    """All threads that come from the command."""

    def __init__(self) -> None:
        self.processes: dict[int, Process] = {}
        self.threads: dict[int, Process] = {}
        # the processes that have ended; those whose parents ended before them are this process's to reap
        self.ended: set[int] = set()

    def add(self, pid: int, files: Files) -> Process:
        process = Process(pid, files, os.pidfd_open(pid))
        self.processes[pid] = process
        self.add_thread(process, pid)
        return process

    def add_thread(self, process: Process, tid: int) -> None:
        process.threads.add(tid)
        self.threads[tid] = process

    def of(self, tid: int) -> Process:
        """The process of a thread. One that no call brought is found by its number: its parent's fork was not seen."""
        if tid not in self.threads:
            pid = number_in_status(tid, "Tgid:")
            if pid in self.processes:
                self.add_thread(self.processes[pid], tid)
            else:
                parent = self.processes.get(number_in_status(pid, "PPid:"))
                process = self.add(pid, parent.files.copy() if parent else Files())
                if tid != pid:
                    self.add_thread(process, tid)
        return self.threads[tid]

    def child_of(self, tid: int, is_thread: bool) -> int | None:
        """The number of the thread or process that a thread has just made: None where the call failed."""
        process = self.of(tid)
        end = time.monotonic() + PATIENCE
        while time.monotonic() < end:
            for number in tasks_of(process.pid) if is_thread else children_of(process.pid, tid):
                if number not in self.threads:
                    return number
            time.sleep(0.0002)
            if not os.path.exists(f"/proc/{tid}"):
                return None
        return None

    def remove_thread(self, tid: int) -> Process | None:
        """A thread is gone. Gives its process where it was the last one."""
        process = self.threads.pop(tid, None)
        if process is None:
            return None
        process.threads.discard(tid)
        return None if process.threads else process

    def remove(self, process: Process) -> None:
        os.close(process.end)
        self.ended.add(process.pid)
        self.processes.pop(process.pid, None)
        for tid in process.threads:
            self.threads.pop(tid, None)


def number_in_status(tid: int, name: str) -> int:
    """A number of /proc/TID/status; 0 where the thread is gone."""
    try:
        with open(f"/proc/{tid}/status", encoding="ascii", errors="replace") as file:
            return next(int(line.split()[1]) for line in file if line.startswith(name))
    except (OSError, StopIteration):
        return 0


def tasks_of(pid: int) -> list[int]:
    try:
        return [int(name) for name in os.listdir(f"/proc/{pid}/task")]
    except OSError:
        return []


def children_of(pid: int, tid: int) -> list[int]:
    try:
        with open(f"/proc/{pid}/task/{tid}/children", encoding="ascii") as file:
            return [int(word) for word in file.read().split()]
    except OSError:
        return []


def exists(tid: int) -> bool:
    return os.path.exists(f"/proc/{tid}")
