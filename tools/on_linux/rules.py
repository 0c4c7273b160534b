"""The rules that a comparison is about, as docs/RULES.md names them in the first column of its table."""

import tomllib
from collections.abc import Collection
from pathlib import Path

PLACES = (
    "an event counts one task on any processor, a task while it is on one processor, or everything on one processor"
)
OPENS = "for what `perf_event_open` is refused, in order"
ATTRIBUTES = "an attribute by itself: sample period, sample bits, read_format bits"
TIMES = "time enabled and time running"
EXCLUDE = "`exclude_user`, `exclude_kernel`"
SOFTWARE = "what the software kinds count"
ENABLE = "`PERF_EVENT_IOC_ENABLE` and `DISABLE`, with the group flag"
RESET = "`PERF_EVENT_IOC_RESET` clears the count, and no time"
PERIOD = "`PERF_EVENT_IOC_PERIOD`"
CLOSE = "closing an event; the siblings of a leader become groups of their own"
INHERIT = "`inherit`: tasks that are forked later are counted too"
EXIT = "an exit ends the task and takes its copies away"
FOLD = "what a child counted stays after its exit"
FAMILY = "a read sums an event and its copies"
FORMAT = "`read_format`: which words a read has, alone and of a group"
NO_SPACE = "`ENOSPC` where the buffer is too small"
MAP = "`mmap` of an event, and for what it is refused"
OUTPUT = "`PERF_EVENT_IOC_SET_OUTPUT`, and for what it is refused"
SAMPLES = "a record is sent each `sample_period` occurrences"
LAYOUT = "`sample_type`: the fields of a sample in their order"
OVERFLOW = "what a sample says of its overflow; a copy has its original's id, and its own as STREAM_ID"
SENDING = "which records a stretch of work sends, and in which order"
FULL = "a record that fits is written, else lost, and `PERF_RECORD_LOST` tells how many were"
TRAILER = "`sample_id_all`: the trailer of a LOST record"
LOST_COUNT = "`PERF_FORMAT_LOST`: how many records of an event were lost"
MEMBER_OFF = "a member is off or in error while its leader is"

# the rules that a count rests on: the later one stands, the closer it is to what was asked of the event
CLOSEST = (PLACES, INHERIT, FAMILY, EXIT, FOLD, MEMBER_OFF, ENABLE, EXCLUDE, RESET)
# the rule that a documented difference of records is about, where the records alone do not say it
OF_ROWS = {"closed-but-mapped": CLOSE, "rings-below-a-page": MAP, "record-order": SENDING, "lost-in-a-stretch": FULL}

# the rule that a difference is about which no case can show, by its row; and for rules that are part of another one,
# under which a comparison stands, that one and the rows that are about the part
TABLES = tomllib.loads(Path(__file__).with_suffix(".toml").read_text("ascii"))
OF_SOURCE_ROWS: dict[str, str] = TABLES["of_source_rows"]
PARTS: dict[str, tuple[str, Collection[str]]] = {
    part["rule"]: (part["part_of"], part["rows"]) for part in TABLES["parts"]
}
