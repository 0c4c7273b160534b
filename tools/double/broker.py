"""The broker: takes each caught call whole, has it answered, and lets time pass when all threads sleep."""

from __future__ import annotations

import errno
import os
import select
import signal
import sys
import time
from collections.abc import Callable, Iterable
from functools import partial

from perfscript import Program

from double import numbers as n
from double.attributes import Translator
from double.backend import BackEnd, back_end
from double.calls import BadAddress, Call, ClientGone
from double.clock import Clock, Quiet, Sleep
from double.scenario import Block, Scenario
from double.session import Event, Refusal, Sent, Session
from double.tree import Files, Process, Tree
from double.waits import Wait

Handler = Callable[["Broker", Call], None]
LOOK_AGAIN_MS = 0.5
SETTLING, PATIENCE_AT_EXIT = 0.001, 2.0
# what is done at each call, by its number; the modules that do it add to this
HANDLERS: dict[int, Handler] = {}


class Broker:
    """What is known of the command's threads, the session that is open, and those that are over."""

    def __init__(
        self,
        scenario: Scenario,
        program: Program,
        is_real: bool = False,
        is_verbose: bool = False,
        live: str | None = None,
    ) -> None:
        self.scenario, self.program, self.is_verbose = scenario, program, is_verbose
        self.make_back_end: Callable[[], BackEnd] = partial(back_end, program, live)
        self.make_session: Callable[[Scenario, BackEnd, Callable[[str], None], int], Session] = Session
        self.translator = Translator(scenario, program, self.note)
        self.clock, self.quiet, self.tree = Clock(is_real), Quiet(), Tree()
        self.session: Session | None = None
        self.sessions: list[Session] = []
        self.said: set[str] = set()
        self.parked: dict[int, tuple[Call, Wait | None, Sleep | None]] = {}
        self.interrupted: dict[int, int] = {}
        self.done_until = 0
        self.by_library = False
        self.handlers: dict[int, Handler] = dict(HANDLERS)
        self.settled_at = 0.0
        # whether a call has come that was not taken yet
        self.has_call: Callable[[], bool] = lambda: False

    # what is said

    def say(self, text: str) -> None:
        """A line on standard error, once."""
        if text not in self.said:
            self.said.add(text)
            print(f"double: {text}", file=sys.stderr, flush=True)

    def note(self, text: str) -> None:
        """A line that only --verbose shows."""
        if self.is_verbose:
            self.say(text)

    # calls

    def handle(self, call: Call) -> None:
        """Answers a call, or keeps it waiting."""
        self.quiet.restart()
        self.look_for_ends()
        if self.clock.is_real:
            self.pass_time(self.clock.now)
        try:
            if self.was_interrupted(call):
                call.refuse(errno.EINTR)
            else:
                self.handlers[call.number](self, call)
        except ClientGone:
            return
        except BadAddress:
            self.end_with(call, errno.EFAULT)
        except Refusal as refusal:
            if refusal.is_limit or refusal.key is None and refusal.why:
                self.say(f"{n.NAMES.get(call.number, call.number)}: {refusal.why}")
            self.end_with(call, refusal.error)

    @staticmethod
    def end_with(call: Call, error: int) -> None:
        try:
            call.refuse(error)
        except ClientGone:
            pass

    def was_interrupted(self, call: Call) -> bool:
        """Whether this is a waiting call that a signal ended: the kernel makes it once more behind the handler."""
        if self.by_library:
            return False
        waiting = self.parked.pop(call.tid, None)
        if waiting:
            self.unpark(waiting)
            self.interrupted[call.tid] = waiting[0].number
        if self.interrupted.get(call.tid) == call.number:
            del self.interrupted[call.tid]
            return not isinstance(waiting, tuple) or waiting[0].args == call.args
        return False

    def cancel(self, tid: int) -> None:
        """A signal ended the wait of a thread that the loaded library speaks for."""
        waiting = self.parked.pop(tid, None)
        if waiting:
            self.unpark(waiting)
            self.end_with(waiting[0], errno.EINTR)

    def unpark(self, waiting: tuple[Call, Wait | None, Sleep | None]) -> None:
        _, wait, sleep = waiting
        if wait:
            wait.close()
        if sleep:
            self.clock.drop(sleep)

    def park(self, call: Call, wait: Wait | None, length: int | None, wake: Callable[[], None]) -> None:
        """Keeps a call waiting for a time in ns, for ever where it is None, or until what it waits for holds."""
        sleep = None if length is None else self.clock.sleep(length, call, wake)
        self.parked[call.tid] = call, wait, sleep

    def process(self, call: Call) -> Process:
        return self.tree.of(call.tid)

    def event(self, call: Call, number: int) -> Event | None:
        """The event to which a descriptor of a client leads."""
        return self.process(call).files.events.get(number)

    # sessions

    def open_session(self) -> Session:
        if self.session is None:
            self.session = self.make_session(self.scenario, self.make_back_end(), self.say, len(self.sessions))
            self.sessions.append(self.session)
            self.session.since = self.clock.now
            self.do("@start", None)
        return self.session

    def close_event(self, event: Event | None) -> None:
        """Closes an event that no descriptor leads to any more; the session is over with the last one."""
        if event is None:
            return
        event.session.close(event)
        if not event.session.events and event.session is self.session:
            self.session.bring_up_to_date()
            self.session.back_end.close()
            self.session = None

    def record(self, sent: Sent) -> None:
        assert self.session
        self.session.sent.append(sent)

    def do(self, happening: str, tid: int | None, name: str = "") -> None:
        """Does the blocks of a happening."""
        for block in self.scenario.at(happening, name):
            self.do_block(block, tid)

    def do_block(self, block: Block, tid: int | None) -> None:
        if self.session:
            self.session.block(block, tid)

    # threads

    def look_for_ends(self) -> None:
        """Takes note of processes that were ended from outside, whose exit no call told."""
        for process in list(self.tree.processes.values()):
            if is_over(process):
                self.end_process(process)

    def end_thread(self, tid: int) -> None:
        """A thread exits: its task does, and its descriptors are closed where it was the last thread."""
        self.parked.pop(tid, None)
        if self.session and tid in self.session.tasks:
            self.do("@exit", tid)
            self.session.exit(tid)
        process = self.tree.remove_thread(tid)
        if process:
            self.tree.remove(process)
            self.leave_files(process.files)

    def wait_until_gone(self, is_gone: Callable[[], bool]) -> None:
        """What exits is gone before anybody is told of it, and who waits for it has seen that before time passes."""
        end = time.monotonic() + PATIENCE_AT_EXIT
        while not is_gone() and time.monotonic() < end:
            time.sleep(0.0001)
        self.settled_at = time.monotonic() + SETTLING

    def end_process(self, process: Process) -> None:
        for tid in sorted(process.threads, key=lambda tid: (tid == process.pid, tid)):
            self.end_thread(tid)

    def leave_files(self, files: Files) -> None:
        files.users -= 1
        if files.users == 0:
            for number in sorted(files.events):
                self.close_event(files.take(number))

    def threads(self) -> Iterable[int]:
        return list(self.tree.threads)

    # time

    def pass_time(self, until: int) -> None:
        """Does the `@sleep` blocks up to a time, in the order of their moments."""
        session = self.session
        if session:
            while not session.is_full:
                moment = self.next_moment()
                if moment is None or moment > until:
                    break
                self.do_moment(moment)
        self.done_until = until

    def next_moment(self) -> int | None:
        """When the next `@sleep` block is due."""
        if not self.session or self.session.is_full:
            return None
        since, at = self.session.since, max(self.done_until, self.session.since)
        blocks = [block.every for block in self.scenario.blocks if block.happening == "@sleep"]
        return min((since + ((at - since) // every + 1) * every for every in blocks), default=None)

    def do_moment(self, moment: int) -> None:
        assert self.session
        for block in self.scenario.blocks:
            if block.happening == "@sleep" and (moment - self.session.since) % block.every == 0:
                self.do_block(block, None)
        self.done_until = moment

    def advance(self) -> bool:
        """Lets virtual time pass until something wakes: whether there was anything to wait for."""
        while True:
            first = self.clock.next()
            if first is None:
                return False
            moment = self.next_moment()
            if moment is None or moment > first.deadline:
                self.clock.virtual = max(self.clock.virtual, first.deadline)
                self.done_until = max(self.done_until, self.clock.virtual)
                self.wake(first)
                return True
            self.clock.virtual = max(self.clock.virtual, moment)
            self.do_moment(moment)
            if self.wake_polls():
                return True

    def wake(self, sleep: Sleep) -> None:
        self.clock.drop(sleep)
        waiting = self.parked.pop(sleep.call.tid, None)
        try:
            sleep.wake()
        except (ClientGone, BadAddress):
            pass
        if waiting and waiting[1]:
            waiting[1].close()

    def wake_polls(self) -> bool:
        """Answers the polls of which something holds now."""
        any_woken = False
        for tid, (call, wait, sleep) in list(self.parked.items()):
            if wait is None:
                continue
            found = wait.ready()
            if found:
                del self.parked[tid]
                self.unpark((call, wait, sleep))
                any_woken = True
                try:
                    wait.answer(found)
                except (ClientGone, BadAddress):
                    pass
        return any_woken

    def idle(self) -> float | None:
        """Called while no call waits: for how many ms to wait for one at most, None without an end."""
        self.look_for_ends()
        if self.wake_polls():
            return 0
        if self.clock.is_real:
            return self.idle_in_real_time()
        if not self.clock.sleeps:
            return 50 if self.parked else None
        if time.monotonic() < self.settled_at or not self.quiet.are_asleep(self.threads()) or self.has_call():
            if not self.quiet.has_lasted:
                return LOOK_AGAIN_MS
            self.say("some thread has run for 10 seconds while others sleep: time passes, but not repeatably")
        self.quiet.restart()
        return 0 if self.advance() else None

    def idle_in_real_time(self) -> float | None:
        self.pass_time(self.clock.now)
        first = self.clock.next()
        if first and first.deadline <= self.clock.now:
            self.wake(first)
            return 0
        if first is None and not self.parked:
            return None
        return min(20.0, (first.deadline - self.clock.now) / 1e6 if first else 20.0)

    # the end

    def kill_all(self) -> int:
        """Kills every process that is left, and says how many there were."""
        left = [process for process in self.tree.processes.values() if not is_over(process)]
        for process in left:
            try:
                signal.pidfd_send_signal(process.end, signal.SIGKILL)
            except OSError:
                pass
        return len(left)

    def end(self, root: int) -> None:
        """Ends what the command left behind."""
        count = self.kill_all()
        if count:
            self.say(f"ended {count} processes that the command left behind")
        for process in list(self.tree.processes.values()):
            select.select([process.end], [], [], 5)
            self.end_process(process)
        for pid in self.tree.ended - {root}:
            reap(pid)
        if self.session and not self.session.is_full:
            self.session.bring_up_to_date()


def is_over(process: Process) -> bool:
    return bool(select.select([process.end], [], [], 0)[0])


def reap(pid: int) -> None:
    try:
        os.waitpid(pid, os.WNOHANG)
    except ChildProcessError:
        pass
