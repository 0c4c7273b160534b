#!/usr/bin/env python3
"""Says whether the events of a `perf stat -e` list fit on the counters of a machine, what each gets, and why.

    tools/fit.py -m sandybridge -e 'cycles,{l1d_pend_miss.pending,cycle_activity.cycles_l1d_pending},branches:k'

docs/FIT.md answers the questions that users ask with it. `tools/fit.py --help` lists its options.
"""

import sys

if sys.version_info < (3, 11):
    sys.exit("fit.py needs Python 3.11 or later, which reads TOML")

# the folder fit beside this file; a folder with __init__.py is found before a file of the same name
from fit.command import main  # noqa: E402

if __name__ == "__main__":
    sys.exit(main())
