"""Reads the examples of a page: a line `$ COMMAND` in a block of code, and the lines below it."""

import re
import shlex


def examples(text: str) -> list[tuple[list[str], str]]:
    """The words of each command `tools/fit.py`, which a backslash continues, and the output below it."""
    found = []
    for block in re.findall(r"(?m)(?:^(?:    .*)?\n)+", text):
        code = "".join(line[4:] + "\n" for line in block.splitlines()).replace("\\\n", " ")
        for part in re.split(r"(?m)^\$ ", code)[1:]:
            command, _, output = part.partition("\n")
            if command.startswith("tools/fit.py "):
                found.append((shlex.split(command)[1:], output.rstrip("\n") + "\n"))
    return found
