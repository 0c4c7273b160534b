"""The counted tasks: the C helper, compiled once into a temporary folder, and what it is asked by pipes."""

import os
import select
import signal
import subprocess
import tempfile
import time
from collections.abc import Iterable, Iterator
from contextlib import contextmanager, suppress

from perfscript import Fault

SOURCE = os.path.join(os.path.dirname(os.path.abspath(__file__)), "counted_task.c")
# as many pages as the helper has in its area
MOST_PAGES = 32768
PATIENCE = 20.0


@contextmanager
def compiled() -> Iterator[str]:
    """The path of the compiled helper, which is removed at the end of a `with`."""
    with tempfile.TemporaryDirectory(prefix="on_linux.") as folder:
        path = os.path.join(folder, "counted_task")
        try:
            call = ["cc", "-O1", "-Wall", "-Wl,-z,now", "-o", path, SOURCE]
            subprocess.run(call, capture_output=True, text=True, check=True)
        except OSError as fault:
            raise Fault(f"cc can't be run: {fault.strerror}") from fault
        except subprocess.CalledProcessError as fault:
            raise Fault(f"cc refuses counted_task.c: {' '.join(fault.stderr.split())}") from fault
        yield path


class Pipes:
    """For each number of a task, the pipes by which it is asked and answers."""

    def __init__(self, numbers: Iterable[int]) -> None:
        self.commands = {number: os.pipe() for number in numbers}
        self.replies = {number: os.pipe() for number in numbers}

    def of_helper(self, number: int) -> tuple[int, int]:
        return self.commands[number][0], self.replies[number][1]

    def close(self) -> None:
        for pair in [*self.commands.values(), *self.replies.values()]:
            for end in pair:
                os.close(end)


class Task:
    """A task of the running kernel; `child` is the process where this tool started it."""

    def __init__(self, number: int, pipes: Pipes, process: int, child: subprocess.Popen[bytes] | None = None) -> None:
        self.number, self.process, self.child = number, process, child
        self.commands, self.replies = pipes.commands[number][1], pipes.replies[number][0]

    def line(self, text: str) -> None:
        os.write(self.commands, (text + "\n").encode())

    def answer(self) -> str:
        """The line that the task answers."""
        got = b""
        end = time.monotonic() + PATIENCE
        while not got.endswith(b"\n"):
            if not select.select([self.replies], [], [], max(0.0, end - time.monotonic()))[0]:
                raise Fault(f"task {self.number} does not answer")
            piece = os.read(self.replies, 64)
            if not piece:
                raise Fault(f"task {self.number} has gone")
            got += piece
        return got.decode().strip()

    def expect(self, wanted: str, deed: str) -> None:
        """Has the task answer so, or says what it did not do."""
        if self.answer() != wanted:
            raise Fault(f"task {self.number} did not {deed}")

    def touch(self, is_user: bool, pages: int) -> None:
        self.line(f"{'u' if is_user else 'k'} {pages}")
        self.expect("ok", "touch its pages")
        self.wait_until_asleep()

    def hold(self) -> None:
        """Lets the task stay on its processor until its next line."""
        self.line("h")
        self.expect("ok", "stay on its processor")

    def wait_until_asleep(self) -> None:
        """Waits until the task sleeps in its next read(2), off its processor."""
        end = time.monotonic() + PATIENCE
        while not is_asleep(self.process):
            if time.monotonic() > end:
                raise Fault(f"task {self.number} does not sleep")
            time.sleep(0.0001)

    def prefer(self, priority: int) -> None:
        """Lets the task run before ordinary ones, where that is permitted."""
        with suppress(PermissionError):
            os.sched_setscheduler(self.process, os.SCHED_FIFO, os.sched_param(priority))

    def kill(self) -> None:
        """Ends a task that does not do its lines."""
        with suppress(ProcessLookupError):
            os.kill(self.process, signal.SIGKILL)
        if self.child:
            self.child.wait()

    def put_on(self, cpu: int) -> None:
        os.sched_setaffinity(self.process, {cpu})


def is_asleep(process: int) -> bool:
    """Whether a process sleeps. /proc/PID/syscall answers a number only for one that is off its processor."""
    try:
        with open(f"/proc/{process}/syscall", encoding="ascii") as file:
            return file.read(1).isdigit()
    except FileNotFoundError:
        pass
    except OSError:
        time.sleep(0.002)
    with open(f"/proc/{process}/stat", encoding="ascii", errors="replace") as file:
        return file.read().rpartition(")")[2].split()[0] == "S"


class Tasks:
    """The tasks of one script: started for `task` lines by the helper at a path, and forked by tasks."""

    def __init__(self, helper: str, numbers: Iterable[int]) -> None:
        self.helper, self.pipes = helper, Pipes(numbers)
        self.tasks: dict[int, Task] = {}
        self.gone: dict[int, int] = {}

    def start(self, number: int, cpu: int) -> None:
        call = [self.helper, *map(str, self.pipes.of_helper(number))]
        ends = [end for one in self.pipes.commands for end in self.pipes.of_helper(one)]
        child = subprocess.Popen(call, pass_fds=ends, stdin=subprocess.DEVNULL)
        self.tasks[number] = task = Task(number, self.pipes, child.pid, child)
        task.expect("ready", "start")
        task.wait_until_asleep()
        task.put_on(cpu)

    def fork(self, of_parent: int, number: int) -> None:
        parent = self.tasks[of_parent]
        commands, replies = self.pipes.of_helper(number)
        parent.line(f"f {commands} {replies}")
        self.tasks[number] = task = Task(number, self.pipes, int(parent.answer()))
        parent.wait_until_asleep()
        task.wait_until_asleep()

    def exit(self, number: int) -> None:
        task = self.tasks.pop(number)
        self.gone[number] = task.process
        descriptor = os.pidfd_open(task.process)
        try:
            task.line("x")
            if not select.select([descriptor], [], [], PATIENCE)[0]:
                raise Fault(f"task {number} does not exit")
        finally:
            os.close(descriptor)
        if task.child:
            task.child.wait()

    def process(self, number: int) -> int | None:
        """The process of a task, also of one that has exited; None where there was none."""
        return self.tasks[number].process if number in self.tasks else self.gone.get(number)

    def end(self) -> None:
        """Ends all tasks; the last started first, so that a parent outlives its children."""
        for number, task in reversed(list(self.tasks.items())):
            try:
                self.exit(number)
            except (OSError, Fault):
                task.kill()
        self.pipes.close()
