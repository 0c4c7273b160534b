"""What perf_event_open(2) and the reports call things."""

# PERF_TYPE_SOFTWARE, and the software kinds with their config PERF_COUNT_SW_..
SOFTWARE = 1
SOFTWARE_KINDS = {"context-switches": 3, "cpu-migrations": 4, "task-clock": 1, "dummy": 9}
SOFTWARE_NAMES = {number: name for name, number in SOFTWARE_KINDS.items()}

# the flags in a script's order, each with its bit in the flags word of a struct perf_event_attr
FLAGS = {
    "disabled": 0, "inherit": 1, "pinned": 2, "exclusive": 3, "exclude_user": 4, "exclude_kernel": 5, "sample_id_all": 18
}

# PERF_FORMAT_..
ENABLED, RUNNING, FORMAT_ID, FORMAT_GROUP, FORMAT_LOST = 0x1, 0x2, 0x4, 0x8, 0x10

# PERF_SAMPLE_.., in the order in which the fields stand in a sample, and in the trailer of another record
IP, TID, TIME, ID, CPU, PERIOD, STREAM_ID, IDENTIFIER = 0x1, 0x2, 0x4, 0x40, 0x80, 0x100, 0x200, 0x10000
FIELDS = (
    (IDENTIFIER, "IDENTIFIER"), (IP, "IP"), (TID, "TID"), (TIME, "TIME"), (ID, "ID"), (STREAM_ID, "STREAM_ID"),
    (CPU, "CPU"), (PERIOD, "PERIOD"),
)
TRAILER_FIELDS = (
    (TID, "TID"), (TIME, "TIME"), (ID, "ID"), (STREAM_ID, "STREAM_ID"), (CPU, "CPU"), (IDENTIFIER, "IDENTIFIER")
)

# PERF_RECORD_LOST, PERF_RECORD_SAMPLE
LOST, SAMPLE = 2, 9

# each refusal of a report, with its errno in Linux; None where Linux has none of the kind
REFUSALS = {
    "EATTRPERIOD": "EINVAL", "ESAMPLEBITS": "EINVAL", "EFORMATBITS": "EINVAL", "ENOPLACE": "EINVAL",
    "ESOFTPERIOD": None, "EEXIST": None, "ESRCH": "ESRCH", "EBADF": "EBADF", "ELEADER": "EINVAL",
    "ECONTEXT": "EINVAL", "EFLAGS": "EINVAL", "EINHERIT": "EINVAL", "EGROUP": None, "EASSIGN": "EINVAL",
    "EPMU": "EINVAL", "EDEVICE": "ENOENT", "EBUSY": None, "EIDLE": None, "EAGAIN": None, "ENOSAMPLE": "EINVAL",
    "EPERIOD": "EINVAL", "ENOSPC": "ENOSPC", "ESELF": "EINVAL", "ECPU": "EINVAL", "EMAPPED": "EINVAL",
    "ENORING": "EINVAL",
}

# why a group waits, as `why` answers
CAUSES = ("hall", "earlier", "exclusive", "exclusive-self")
