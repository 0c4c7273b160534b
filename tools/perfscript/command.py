"""What the commands of all tools have alike."""

import argparse
import os
import sys
from collections.abc import Callable, Sequence
from pathlib import Path
from typing import NoReturn

import perfscript
from perfscript.faults import Fault

BAD_INPUT, INTERRUPTED = 2, 130


def name_of(command: str) -> str:
    """What a command is called: as a file of a clone, or as it is installed."""
    called_as = os.path.basename(sys.argv[0])
    return called_as if called_as.startswith("jugheather-") else command


class Parser(argparse.ArgumentParser):
    """Refuses words in one line. `doc` has what the command does, a line `Usage: WORDS`, and details; `program` is the
    name of the program that the command asks."""

    def __init__(self, command: str, doc: str | None, epilog: str | None = None, program: str = "perf_run") -> None:
        about, _, rest = (doc or "").partition("\n\nUsage: ")
        usage, _, details = rest.partition("\n\n")
        text = f"{about}\n\n{details}".strip()
        name = name_of(command)
        form = argparse.RawDescriptionHelpFormatter
        super().__init__(name, usage.replace(command, name) or None, text, epilog, formatter_class=form)
        self.add_argument("--version", action="version", version=f"%(prog)s {perfscript.VERSION}")
        built = f"the built {program}; without it that of the variable {program.upper()}, if there is one"
        self.add_argument("--program", metavar="PATH", help=built)

    def error(self, message: str) -> NoReturn:
        print(f"{self.prog}: {message}; {self.prog} --help has the words", file=sys.stderr)
        sys.exit(BAD_INPUT)


def from_one(text: str) -> int:
    """A number of 1 or more that a word gives."""
    if not text.isdecimal() or not int(text):
        raise argparse.ArgumentTypeError(f"{text!r} is not a number from 1")
    return int(text)


def listed(words: Sequence[str]) -> str:
    """Words in a sentence: `a`, `a and b`, `a, b and c`."""
    return " and ".join([", ".join(words[:-1]), words[-1]] if len(words) > 1 else words)


def ended(command: str, main: Callable[[], int]) -> int:
    """The status of a command. What ends it early is said in one line on standard error."""
    command = name_of(command)
    try:
        status = main()
        sys.stdout.flush()
        return status
    except Fault as fault:
        print(f"{command}: {fault}", file=sys.stderr)
    except BrokenPipeError:
        # nobody reads: what is left goes nowhere, or Python would complain at its end
        os.dup2(os.open(os.devnull, os.O_WRONLY), 1)
    except OSError as fault:
        print(f"{command}: {fault.filename or 'a call of the system'}: {fault.strerror}", file=sys.stderr)
    except UnicodeError as fault:
        print(f"{command}: a file is not a text: {fault}", file=sys.stderr)
    except KeyboardInterrupt:
        return INTERRUPTED
    return BAD_INPUT


def called(doc: str | None, main: Callable[..., int | None], least: int = 0, most: int | None = None) -> int:
    """The status of a tool that has words alone on its command line, `least` to `most` of them, which `main` takes."""
    name, words = os.path.basename(sys.argv[0]), sys.argv[1:]
    if words[:1] == ["--help"]:
        return ended(name, lambda: print(doc) or 0)
    if len(words) < least or most is not None and len(words) > most:
        print(f"{name}: {len(words)} words do not do; {name} --help has the usage", file=sys.stderr)
        return BAD_INPUT
    return ended(name, lambda: main(*words) or 0)


def text_of(path: str) -> str:
    """The text of a file, a character for each byte; `-` is standard input."""
    try:
        if path == "-":
            return sys.stdin.buffer.read().decode("latin-1")
        return Path(path).read_bytes().decode("latin-1")
    except OSError as fault:
        raise Fault(f"{path}: {fault.strerror}") from None
