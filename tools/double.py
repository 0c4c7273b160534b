#!/usr/bin/env python3
"""Runs an unmodified profiler on simulated processors: each perf_event_open(2) is answered by the proved core.

    tools/double.py tools/double/four-groups.scenario -- perf stat -C 0 -e cycles,instructions,branches,branch-misses sleep 1

docs/DOUBLE.md has the language of scenarios. `tools/double.py --help` lists the options.
"""

import sys

if sys.version_info < (3, 11):
    sys.exit("double.py needs Python 3.11 or later")

# the folder double beside this file; a folder with __init__.py is found before a file of the same name
from double.command import main  # noqa: E402

if __name__ == "__main__":
    sys.exit(main(sys.argv[1:]))
