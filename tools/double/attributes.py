"""The attributes that clients give: what of them goes to the program, and what the broker drops or does itself."""

from __future__ import annotations

import errno
import struct
from collections.abc import Callable
from dataclasses import dataclass

from perfscript import Program
from perfscript.limits import MOST_ATTR
from perfscript.names import SOFTWARE, SOFTWARE_NAMES

from double.scenario import Scenario

LEAST = 64
HARDWARE, RAW = 0, 4
# types whose events a script's attribute may name; others become RAW
OWN_TYPES = (HARDWARE, SOFTWARE, RAW)
DUMMY = 9
INHERIT, FREQ, ENABLE_ON_EXEC, WATERMARK = 1 << 1, 1 << 10, 1 << 12, 1 << 14
# records of what else happens: none is written, whatever is asked for
SIDE_BAND = {
    8: "mmap", 9: "comm", 13: "task", 17: "mmap_data", 23: "mmap2", 24: "comm_exec", 28: "namespaces", 29: "ksymbol",
    30: "bpf_event", 32: "cgroup", 34: "build_id",
}
FAULTS = {"ESHORT": errno.EINVAL, "E2BIG": errno.E2BIG, "ECLASS": errno.ENOENT, "EFLAGBITS": errno.EINVAL,
          "EFIELD": errno.EINVAL}
FLAG_NAMES = {
    7: "exclude_idle", 10: "freq", 11: "inherit_stat", 15: "precise_ip", 16: "precise_ip", 19: "exclude_host",
    21: "exclude_callchain_kernel", 22: "exclude_callchain_user", 25: "use_clockid", 26: "context_switch",
    27: "write_backward", 31: "aux_output", 33: "text_poke", 35: "inherit_thread", 36: "remove_on_exec", 37: "sigtrap",
}


class AttributeRefused(Exception):
    """An attribute that does not become a line: its errno and why, in words."""

    def __init__(self, error: int, why: str) -> None:
        super().__init__(why)
        self.error = error


@dataclass(frozen=True)
class Attribute:
    """What a client asks for: the bytes for the program, and what the broker needs of them."""

    given: bytes
    sent: bytes
    name: str
    period: int
    sample: int
    format: int
    flags: int
    wakeup: int

    @property
    def is_enabled_on_exec(self) -> bool:
        return bool(self.flags & ENABLE_ON_EXEC)

    @property
    def inherits(self) -> bool:
        return bool(self.flags & INHERIT)

    @property
    def has_watermark(self) -> bool:
        return bool(self.flags & WATERMARK)


class Translator:
    """Makes lines of attributes. Asks the program once for each form of bytes what it says of them."""

    def __init__(self, scenario: Scenario, program: Program, note: Callable[[str], None]) -> None:
        self.scenario, self.program, self.note = scenario, program, note
        self.asked: dict[bytes, str] = {}

    def attribute(self, given: bytes) -> Attribute:
        """The attribute of a client's bytes, whose number is what its size says."""
        if len(given) < LEAST:
            raise AttributeRefused(errno.E2BIG, f"an attribute of {len(given)} bytes")
        of_type, size, config, period, sample, read_format, flags, wakeup = struct.unpack("<IIQQQQQI", given[:52])
        number, name = self.kind_of(of_type, config)
        kept = self.kept_flags(flags)
        if of_type == SOFTWARE and config == DUMMY and period:
            self.note("the period of a dummy event is dropped: it counts nothing")
            period = 0
        to_type, to_config = (of_type if of_type in OWN_TYPES else RAW), number
        front = struct.pack("<IIQQQQQI", to_type, size, to_config, period, sample, read_format, kept, wakeup)
        sent = front + given[52:]
        self.check(sent)
        return Attribute(given, sent, name, period, sample, read_format, flags, wakeup)

    def kind_of(self, of_type: int, config: int) -> tuple[int, str]:
        if (of_type, config) in self.scenario.kinds:
            return self.scenario.kinds[of_type, config]
        if of_type == SOFTWARE and config in SOFTWARE_NAMES:
            return config, SOFTWARE_NAMES[config]
        raise AttributeRefused(errno.ENOENT, f"the scenario has no event of type {of_type} and config {config:#x}")

    def kept_flags(self, flags: int) -> int:
        """The flags for the program: without those of side-band records, and those that the broker does."""
        for bit, name in SIDE_BAND.items():
            if flags >> bit & 1:
                self.note(f"the bit {name} is dropped: no such records are written")
                flags &= ~(1 << bit)
        for mask, name, how in (
            (ENABLE_ON_EXEC, "enable_on_exec", "enables the event at the exec"),
            (WATERMARK, "watermark", "wakes by it"),
        ):
            if flags & mask:
                self.note(f"the bit {name} is the broker's, which {how}")
                flags &= ~mask
        if flags & self.scenario.ignored:
            self.note(f"the bits {flags & self.scenario.ignored:#x} are read without effect, as the scenario says")
        return flags & ~self.scenario.ignored

    def check(self, sent: bytes) -> None:
        """Refuses bytes that the program says are no attribute."""
        if sent not in self.asked:
            words = self.program.outputs([(f"attr {sent.hex()}", "")])[0].split()
            self.asked[sent] = words[1]
        fault = self.asked[sent]
        if fault in FAULTS:
            raise AttributeRefused(FAULTS[fault], f"the attribute has {self.in_words(fault, sent)} ({fault})")

    @staticmethod
    def in_words(fault: str, sent: bytes) -> str:
        if fault != "EFLAGBITS":
            names = {"EFIELD": "bp_type or config1", "ECLASS": "a type that is not counted"}
            return names.get(fault, "a size or bytes")
        flags = struct.unpack("<Q", sent[40:48])[0]
        known = {0, 1, 2, 3, 4, 5, 6, 18, 20}
        wrong = [FLAG_NAMES.get(bit, f"bit {bit}") for bit in range(64) if flags >> bit & 1 and bit not in known]
        return "the flags " + ", ".join(dict.fromkeys(wrong))


def read_attribute(read: Callable[[int, int], bytes], address: int) -> bytes:
    """The bytes of an attribute in a client's memory, as many as its size says; a size of 0 counts as the least."""
    size = struct.unpack("<I", read(address + 4, 4))[0] or LEAST
    if not LEAST <= size <= MOST_ATTR:
        raise AttributeRefused(errno.E2BIG, f"an attribute of {size} bytes")
    return read(address, size)
