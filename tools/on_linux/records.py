"""Records of the running kernel's rings, decoded as those of the program's report."""

import struct
from collections.abc import Sequence

from perfscript import Fault, Record

MODE = 7
EXACT_IP = 1 << 14


def of_stream(data: bytes) -> list[Record]:
    """The records of the bytes of a ring, from its front."""
    found: list[Record] = []
    at = 0
    while at < len(data):
        kind, misc, size = struct.unpack_from("=IHH", data, at)
        if size < 8 or size % 8 or at + size > len(data):
            raise Fault(f"the kernel's ring has no record at byte {at}: {data[at:at + 8].hex()}")
        words = [kind | misc << 32 | size << 48, *struct.unpack_from(f"={size // 8 - 1}Q", data, at + 8)]
        at += size
        found.append(Record(words, None, at))
    return found


def fields(record: Record, names: Sequence[str]) -> dict[str, int] | None:
    """The fields of a record by their names, where their number is right; else None."""
    found = dict(zip(names, record.body))
    return found if record.is_whole and len(record.body) == len(names) else None


def halves(word: int) -> tuple[int, int]:
    """The two numbers of 32 bits that stand in a word of memory, the first one first."""
    first, second = struct.unpack("=II", struct.pack("=Q", word))
    return first, second
