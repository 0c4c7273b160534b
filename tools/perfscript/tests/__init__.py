"""Tests of the package under the tools. Run by `python3 -m unittest discover -s tools`.

Those that ask the program take the one that the variable PERF_RUN names, and fail where it is not there; without the
variable they take the one at its usual place, and are skipped where it is not there.
"""
