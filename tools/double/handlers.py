"""Which module answers which call."""

from double import descriptors, numbers as n, opening, sleeping, threads
from double.broker import HANDLERS, Handler

ALL: dict[Handler, tuple[int, ...]] = {
    opening.open_event: (n.PERF_EVENT_OPEN,),
    opening.read_event: (n.READ,),
    opening.read_vector: (n.READV,),
    opening.control: (n.IOCTL,),
    opening.map_event: (n.MMAP,),
    descriptors.not_done: tuple(descriptors.NOT_DONE),
    descriptors.close: (n.CLOSE,),
    descriptors.close_range: (n.CLOSE_RANGE,),
    descriptors.unshare: (n.UNSHARE,),
    descriptors.duplicate: (n.DUP,),
    descriptors.duplicate_to: (n.DUP2, n.DUP3),
    descriptors.control_descriptor: (n.FCNTL,),
    descriptors.watch: (n.EPOLL_CTL,),
    descriptors.take_elsewhere: (n.PIDFD_GETFD,),
    descriptors.send_message: (n.SENDMSG, n.SENDMMSG),
    sleeping.sleep: (n.NANOSLEEP,),
    sleeping.sleep_by_clock: (n.CLOCK_NANOSLEEP,),
    sleeping.poll: (n.POLL, n.PPOLL, n.SELECT, n.PSELECT6),
    sleeping.option: (n.PRCTL,),
    threads.clone: (n.CLONE, n.CLONE3, n.FORK, n.VFORK),
    threads.execute: (n.EXECVE, n.EXECVEAT),
    threads.exit_thread: (n.EXIT,),
    threads.exit_process: (n.EXIT_GROUP,),
    threads.hello: (n.HELLO,),
}
HANDLERS.update({number: handler for handler, calls in ALL.items() for number in calls})
