"""Which rows of docs/LINUX.md a session came by: where the kernel would have answered otherwise, or may have."""

from __future__ import annotations

import struct

from perfscript import Line, Report, Script

FROM_REFUSALS = {
    "EGROUP": "group-size", "ESOFTPERIOD": "software-period", "ESAMPLEBITS": "attributes",
    "EINHERIT": "inherit-on-processors",
}
EXCLUSIVE, PINNED, INHERIT = 1 << 3, 1 << 2, 1 << 1


def rows_touched(text: str, report: Report) -> list[str]:
    """The names of the rows, in the order in which the session came by them."""
    found: dict[str, None] = {}
    script = Script(text)
    opens = 0
    mapped: set[int] = set()
    inherits = False
    for act in script.acts():
        if not isinstance(act, Line):
            continue
        refusal = report.refusal(act)
        for name in rows_of_line(act, refusal, report):
            found[name] = None
        if act.head == "open" and not refusal:
            opens += 1
            flags = struct.unpack_from("<Q", bytes.fromhex(act.given()["attr"]), 40)[0]
            inherits |= bool(flags & INHERIT)
            if flags & EXCLUSIVE:
                found["exclusive-groups"] = None
        elif act.head == "map" and not refusal:
            mapped.add(act.slot())
            found["tail-reads"] = None
        elif act.head == "close" and act.slot() in mapped:
            found["closed-but-mapped"] = None
        elif act.head == "tick" and opens > 1:
            found["rotation"] = None
        elif act.head == "fork" and inherits:
            found["clones"] = None
    return list(found)


def rows_of_line(line: Line, refusal: str | None, report: Report) -> list[str]:
    """What one line alone shows."""
    if line.head == "open" and refusal:
        rows = ["ids-of-refused-opens"]
        if refusal in FROM_REFUSALS:
            rows.append(FROM_REFUSALS[refusal])
        if "leader" in line.given() and refusal in ("ESRCH", "ENOPLACE"):
            rows.append("leader-before-task" if refusal == "ESRCH" else "leader-before-place")
        return rows
    if line.head == "map" and refusal == "EMAPPED":
        return ["second-mapping"]
    if line.head == "read" and report.answer(line) == []:
        return ["sibling-of-error"]
    if line.head in ("enable", "disable") and refusal is None and line.is_group:
        return []
    return []
