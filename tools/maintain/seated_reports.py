#!/usr/bin/env python3
"""Takes a folder of scripts with reports that were worked out apart from this program, and writes one whose reports
name this program's counters.

Which counter an event has is free where several assignments serve a processor, so two right reports may differ in the
counters that lines of `seats` name. Each report is compared with what the program writes: all but those counters has to
be the same. Then the program's report is written.

Usage: seated_reports.py PROGRAM FROM TO
  PROGRAM  the built program, crates/perf_run/out/perf_run; `rt run` in crates/perf_run leaves it there
  FROM     the folder: NNN.script, and NNN.report or NNN.note
  TO       the folder to write: the same, but for counters
"""

import os
import shutil
import sys
from pathlib import Path

from run_then_replay import without_counters
from perfscript import Fault, command, program_at


def main(path: str, source: str, target: str) -> None:
    program, others = program_at(path), 0
    os.makedirs(target, exist_ok=True)
    for name in sorted(os.listdir(source)):
        path = os.path.join(source, name)
        if not name.endswith(".report"):
            shutil.copy(path, target)
            continue
        wanted = command.text_of(path)
        found = program.call("replay", command.text_of(path[: -len("report")] + "script"))
        if found.status != 0 or without_counters(found.out) != without_counters(wanted):
            raise Fault(f"{path}: status {found.status}, and another report")
        others += found.out != wanted
        Path(target, name).write_text(found.out, "latin-1")
    print(f"{source}: {others} reports with other counters")


if __name__ == "__main__":
    sys.exit(command.called(__doc__, main, 3, 3))
