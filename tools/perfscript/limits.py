"""The ranges of docs/SCRIPT.md."""

MOST_CPUS, MOST_PMUS, MOST_COUNTERS, MOST_KINDS, MOST_TASKS = 8, 4, 16, 16, 64
MOST_TOOLS, MOST_SLOTS, MOST_MEMBERS = 4, 256, 8
MOST_RINGS, LEAST_RING, MOST_RING = 16, 64, 65536
MOST_TRIES, MOST_BATCH = 65536, 1024
# the length of a stretch of work in units of time, and the occurrences of a kind
MOST_WORK = 1_000_000_000
MOST_ATTR = 4096
# of a whole script: its lines under processors and tools, its text in bytes, its weight
MOST_LINES, MOST_BYTES, MOST_WEIGHT = 16384, 4_194_304, 65536
