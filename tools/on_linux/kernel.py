"""The calls of the running kernel that the tool needs: perf_event_open(2), ioctl(2), mmap(2), read(2), by ctypes."""

import ctypes
import errno
import mmap
import os
import platform
import struct

from perfscript.attributes import Attribute, bytes_of
from perfscript.names import SOFTWARE, SOFTWARE_KINDS

# PERF_COUNT_SW_PAGE_FAULTS
PAGE_FAULTS = 2

# the number of perf_event_open(2) by the name of the machine; those without a name here have 241
OPEN_NUMBERS = {"x86_64": 298, "i686": 336, "armv7l": 364, "ppc64": 319, "ppc64le": 319, "s390x": 331}
ENABLE, DISABLE, RESET = 0x2400, 0x2401, 0x2403
PERIOD, SET_OUTPUT, ID = 0x40082404, 0x2405, 0x80082407
GROUP = 1
# where the user page has its head, its tail and the place and size of the data
HEAD_AT, TAIL_AT, DATA_OFFSET_AT, DATA_SIZE_AT = 1024, 1032, 1040, 1048
PAGE = mmap.PAGESIZE
# event descriptors stand from here on, so that no other open takes the number of one that was closed
FIRST_DESCRIPTOR = 500
# the flags of an event that leaves out the kernel and the hypervisor, as users without privilege may open it
USER_ALONE = 1 << 5 | 1 << 6
# a process number above every that a kernel gives out (PID_MAX_LIMIT)
NO_PROCESS = 4194304

LIBC = ctypes.CDLL(None, use_errno=True)
LIBC.syscall.restype = ctypes.c_long
LIBC.mmap.restype = ctypes.c_void_p
LIBC.mmap.argtypes = [ctypes.c_void_p, ctypes.c_size_t, ctypes.c_int, ctypes.c_int, ctypes.c_int, ctypes.c_long]
LIBC.munmap.argtypes = [ctypes.c_void_p, ctypes.c_size_t]
LIBC.read.restype = ctypes.c_ssize_t
LIBC.read.argtypes = [ctypes.c_int, ctypes.c_void_p, ctypes.c_size_t]
LIBC.ioctl.argtypes = [ctypes.c_int, ctypes.c_ulong, ctypes.c_void_p]
MAP_FAILED = ctypes.c_void_p(-1).value


class Refused(Exception):
    """The kernel refused a call, with the errno of this name."""

    def __init__(self, number: int) -> None:
        self.name = errno.errorcode.get(number, str(number))
        super().__init__(self.name)


def version() -> str:
    """The version of the running kernel, without what its builder put behind it: 6.18.44."""
    return platform.release().split("-")[0].split("+")[0]


def checked(answer: int) -> int:
    if answer < 0:
        raise Refused(ctypes.get_errno())
    return answer


def bytes_for(attribute: Attribute) -> bytes:
    """The bytes of an attribute for the running kernel, where page faults stand for every hardware kind."""
    config = SOFTWARE_KINDS.get(attribute.kind, PAGE_FAULTS)
    fields = SOFTWARE, config, attribute.period, attribute.sample, attribute.format, attribute.flags
    if attribute.bytes is None:
        return bytes_of(*fields)
    return bytes_of(*fields, size=struct.unpack("<I", attribute.bytes[4:8])[0])[:48] + attribute.bytes[48:]


def event_open(attr: bytes, process: int, cpu: int, leader: int) -> int:
    """Opens an event by the bytes of its attribute; gives its descriptor."""
    number = OPEN_NUMBERS.get(platform.machine(), 241)
    room = ctypes.create_string_buffer(attr, len(attr))
    words = [ctypes.c_long(word) for word in (number, process, cpu, leader, 8)]
    return checked(LIBC.syscall(words[0], room, *words[1:]))


def close(descriptor: int) -> None:
    checked(LIBC.close(descriptor))


def command(descriptor: int, request: int, argument: int = 0) -> None:
    checked(LIBC.ioctl(descriptor, request, argument))


def with_word(descriptor: int, request: int, word: int = 0) -> int:
    """Calls ioctl(2) with a word of 64 bits in memory, PERIOD or ID; gives the word as it is left there."""
    value = ctypes.c_uint64(word)
    command(descriptor, request, ctypes.addressof(value))
    return value.value


def read_words(descriptor: int, size: int) -> list[int]:
    """The words that read(2) gives into a buffer of this size."""
    room = ctypes.create_string_buffer(max(size, 1))
    got = checked(LIBC.read(descriptor, room, size))
    return list(struct.unpack(f"={got // 8}Q", room.raw[: got // 8 * 8]))


class Mapping:
    """A ring that is mapped: its user page and its data."""

    def __init__(self, descriptor: int, size: int) -> None:
        self.length = PAGE + size
        address = LIBC.mmap(None, self.length, mmap.PROT_READ | mmap.PROT_WRITE, mmap.MAP_SHARED, descriptor, 0)
        if address == MAP_FAILED:
            raise Refused(ctypes.get_errno())
        self.address: int = address
        self.size, self.data_at = self.word(DATA_SIZE_AT).value, self.word(DATA_OFFSET_AT).value

    def word(self, place: int) -> ctypes.c_uint64:
        """A word of the user page, as HEAD_AT and TAIL_AT, which can be written too."""
        return ctypes.c_uint64.from_address(self.address + place)

    def bytes(self, start: int, end: int) -> bytes:
        """The bytes of the stream from `start` to `end`, which lie in the ring."""
        data = ctypes.string_at(self.address + self.data_at, self.size)
        first = start % self.size
        return (data + data)[first : first + end - start]

    def unmap(self) -> None:
        LIBC.munmap(self.address, self.length)


def probe(flags: int = USER_ALONE) -> str | None:
    """None where an event of page faults with these flags can be opened on this process; else the errno's name."""
    try:
        os.close(event_open(bytes_of(SOFTWARE, PAGE_FAULTS, flags=flags), 0, -1, -1))
    except Refused as refused:
        return refused.name
    return None
