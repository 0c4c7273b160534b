"""What an `open` line asks for, by words or by the bytes of a struct perf_event_attr."""

import struct
from collections.abc import Collection

from perfscript import names
from perfscript.faults import Fault
from perfscript.script import Line

# the fields of a struct perf_event_attr of 64 bytes: type, size, config, sample_period, sample_type, read_format, flags
FIELDS, SIZE = "IIQQQQQ", 64


def bytes_of(kind_class: int, config: int, period: int = 0, sample: int = 0, form: int = 0, flags: int = 0,
             size: int = SIZE) -> bytes:
    """The bytes of an attribute, of the given size."""
    return struct.pack("=" + FIELDS, kind_class, size, config, period, sample, form, flags).ljust(size, b"\0")


class Attribute:
    """An `open` line that the program takes. `flags` is the word of a struct perf_event_attr, `task` and `cpu` are the
    line's words, and `kinds` the declared kinds in their order."""

    def __init__(self, line: Line, kinds: Collection[str]) -> None:
        given = line.given()
        self.task, self.cpu = given["task"], given["cpu"]
        self.leader = int(given["leader"]) if "leader" in given else None
        self.bytes = bytes.fromhex(given["attr"]) if "attr" in given else None
        if self.bytes is None:
            self.kind = given["kind"]
            self.period = int(given.get("period", "0"))
            self.sample, self.format = int(given.get("sample", "0"), 16), int(given.get("format", "0"), 16)
            self.flags = sum(1 << names.FLAGS[word] for word in given["flags"].split(",")) if "flags" in given else 0
        else:
            fields = struct.unpack("<" + FIELDS, self.bytes[:48].ljust(48, b"\0"))
            kind_class, _, config, self.period, self.sample, self.format, self.flags = fields
            known = names.SOFTWARE_NAMES if kind_class == names.SOFTWARE else dict(enumerate(kinds))
            self.kind = known.get(config, "")
        if self.kind not in names.SOFTWARE_KINDS and self.kind not in kinds:
            raise Fault(f"script line {line.place}: its kind is not declared: {line.text[:80]}")

    def has(self, flag: str) -> bool:
        return bool(self.flags >> names.FLAGS[flag] & 1)

    @property
    def is_software(self) -> bool:
        return self.kind in names.SOFTWARE_KINDS

    def field_names(self) -> list[str]:
        """The fields of a sample, a word each."""
        return [name for bit, name in names.FIELDS if self.sample & bit]

    def trailer_names(self) -> list[str]:
        """The fields of the trailer of another record, a word each."""
        return [name for bit, name in names.TRAILER_FIELDS if self.sample & bit] if self.has("sample_id_all") else []

    def word_names(self, members: int) -> list[tuple[str, int]]:
        """What each word of a read is, as (what, member); the member is a place in the group, and 0 without GROUP."""
        asked = [(names.ENABLED, "enabled"), (names.RUNNING, "running")]
        times = [(name, 0) for bit, name in asked if self.format & bit]
        rest = [name for bit, name in ((names.FORMAT_ID, "id"), (names.FORMAT_LOST, "lost")) if self.format & bit]
        if not self.format & names.FORMAT_GROUP:
            return [("value", 0)] + times + [(name, 0) for name in rest]
        return [("nr", 0)] + times + [(name, member) for member in range(members) for name in ["value", *rest]]
