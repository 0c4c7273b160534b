"""The C files of this folder, compiled at their first use into a folder that is removed at the end."""

from __future__ import annotations

import os
import platform
import shutil
import subprocess
import tempfile
from functools import cache

FOLDER = os.path.dirname(os.path.abspath(__file__))


class NotHere(Exception):
    """The double does not run here: why, in one line."""


def compiler() -> str:
    """The C compiler. NotHere without one, or where the double knows no calls."""
    if platform.system() != "Linux" or platform.machine() != "x86_64":
        raise NotHere(f"the double knows the calls of Linux on x86_64, and this is {platform.system()} "
                      f"on {platform.machine()}")
    found = shutil.which("cc") or shutil.which("gcc") or shutil.which("clang")
    if found is None:
        raise NotHere("the double compiles its C files at each start, and there is no C compiler cc; install one")
    return found


@cache
def built(name: str, *words: str) -> str:
    """The path of what a C file of the double is compiled to, once for each process that runs the double."""
    return compiled(name, own_folder().name, *words)


@cache
def own_folder() -> tempfile.TemporaryDirectory[str]:
    """A folder that is removed when this process ends."""
    return tempfile.TemporaryDirectory(prefix="double.")


def compiled(name: str, folder: str, *words: str) -> str:
    """Compiles a C file, and gives the path of what is made in the folder given."""
    made = os.path.join(folder, os.path.splitext(os.path.basename(name))[0])
    source = name if os.path.isabs(name) else os.path.join(FOLDER, name)
    call = [compiler(), "-O1", "-Wall", "-Wextra", "-o", made, source, *words]
    done = subprocess.run(call, capture_output=True, text=True, check=False)
    if done.returncode:
        raise NotHere(f"{call[0]} does not compile {name}: {' '.join(done.stderr.split())[:300]}")
    return made
