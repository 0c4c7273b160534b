"""A client for papi-scaling.scenario: two events in turn on one counter by PAPI's multiplexing, with libpapi by ctypes.

    tools/double.py --truth tools/double/papi-scaling.scenario -- python3 tools/double/papi_scaling.py
"""

import ctypes
import ctypes.util
import sys

VERSION = 7 << 24
MARK = 0x6A676D6B


def main() -> int:
    name = ctypes.util.find_library("papi") or "libpapi.so.7.0"
    try:
        papi = ctypes.CDLL(name)
    except OSError as fault:
        sys.exit(f"there is no libpapi: {fault}")
    events = ctypes.c_int(-1)
    values = (ctypes.c_longlong * 2)()
    if papi.PAPI_library_init(VERSION) != VERSION:
        sys.exit("this libpapi has another version than 7.0")
    steps = [
        papi.PAPI_multiplex_init(),
        papi.PAPI_create_eventset(ctypes.byref(events)),
        papi.PAPI_assign_eventset_component(events, 0),
        papi.PAPI_set_multiplex(events),
        papi.PAPI_add_named_event(events, b"perf::CYCLES"),
        papi.PAPI_add_named_event(events, b"perf::INSTRUCTIONS"),
        papi.PAPI_start(events),
        ctypes.CDLL(None).prctl(MARK, b"work", 0, 0, 0),
        papi.PAPI_stop(events, values),
    ]
    if any(steps):
        sys.exit(f"PAPI or the mark failed: {steps}")
    print(*values)
    return 0


if __name__ == "__main__":
    sys.exit(main())
