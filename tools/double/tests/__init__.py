"""Tests of the double. Run by `python3 -m unittest discover -s tools`.

Those that ask the program take the one that the variable PERF_RUN names, and fail where it is not there; without the
variable they take the one at its usual place, and are skipped where it is not there. Those that catch calls by seccomp
are skipped where that is not allowed, and those that need perf where there is none: each with a line that says so.
"""
