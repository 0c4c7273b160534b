"""The words of a `perf stat` command line, taken apart as perf itself would: its options, and the command it runs."""

from __future__ import annotations

import re
import subprocess
from collections.abc import Iterator, Sequence
from dataclasses import dataclass
from functools import cache

from fit.faults import BadInput

FORM = "perf stat OPTIONS [COMMAND]"
SECONDS = 60
OPTION = re.compile(r"^\s+(?:-(?P<short>\w)(?:, )?)?(?:--(?P<long>[\w-]+))?(?P<value> <|\[=<)?", re.MULTILINE)
# options that say which events are opened and where; all others are about what is printed and when
OF_EVENTS = (
    "event", "metrics", "detailed", "transaction", "topdown", "td-level", "smi-cost", "all-cpus", "cpu", "pid", "tid",
    "no-inherit", "group", "all-user", "all-kernel", "metric-no-group", "metric-no-merge", "cputype", "null", "cgroup",
    "for-each-cgroup", "iostat",
)
# what is run where the user names no command: perf then counts for as long as that takes
NOTHING = ("true",)


@dataclass(frozen=True)
class Option:
    """An option by its long name, its value, and the words that it stands in."""

    name: str
    value: str | None
    words: tuple[str, ...]


@dataclass(frozen=True)
class PerfStat:
    """A call of `perf stat`: what stands before its options, these, and the command behind them."""

    front: tuple[str, ...]
    options: tuple[Option, ...]
    command: tuple[str, ...]

    @property
    def path(self) -> str:
        return self.front[0]

    def values(self, *names: str) -> list[str]:
        """The values of these options."""
        return [option.value for option in self.options if option.name in names and option.value is not None]

    def words(self) -> list[str]:
        """The words as they were typed, with a command where none was."""
        typed = [word for option in self.options for word in option.words]
        return [*self.front, *typed, "--", *(self.command or NOTHING)]

    def words_to_plan(self) -> list[str]:
        """The words by which perf opens the same events for a command that does nothing, and names each."""
        kept = [word for option in self.options if option.name in OF_EVENTS for word in option.words]
        return [*self.front, "-vv", *kept, "--", *NOTHING]


def read_words(words: Sequence[str]) -> PerfStat:
    """The call that these words are."""
    name = words[0].rpartition("/")[2] if words else ""
    if not name.startswith("perf"):
        word = f", not {words[0]!r}" if words else ""
        raise BadInput(f"behind -- has to stand {FORM}{word}")
    at = next((at for at, word in enumerate(words) if at and not word.startswith("-")), len(words))
    if words[at : at + 1] != ["stat"]:
        given = words[at] if at < len(words) else "nothing"
        raise BadInput(f"behind -- has to stand {FORM}, not perf with {given}; --sampling with -e is about perf record")
    front, rest = tuple(words[: at + 1]), list(words[at + 1 :])
    if rest[:1] in (["record"], ["report"]):
        raise BadInput(f"perf stat {rest[0]} is about a file; leave {rest[0]} out")
    options, command = taken_apart(rest, options_of(front[0]))
    return PerfStat(front, tuple(options), tuple(command))


@cache
def options_of(path: str) -> dict[str, tuple[str, bool]]:
    """What this perf says of its options: by `-e` and by `--event` the long name, and whether a value follows."""
    try:
        done = subprocess.run([path, "stat", "-h"], capture_output=True, text=True, timeout=SECONDS)
    except OSError as fault:
        raise BadInput(f"{path}: {fault.strerror}; Debian has perf as linux-perf") from None
    except subprocess.TimeoutExpired:
        raise BadInput(f"{path} stat -h did not end") from None
    found: dict[str, tuple[str, bool]] = {}
    for option in OPTION.finditer(done.stdout + done.stderr):
        long = option["long"] or option["short"]
        for word in (f"-{option['short']}", f"--{option['long']}"):
            if word not in ("-None", "--None"):
                found[word] = (long, option["value"] == " <")
    if "--event" not in found:
        raise BadInput(f"{path} stat -h does not name perf's options")
    return found


def taken_apart(words: list[str], known: dict[str, tuple[str, bool]]) -> tuple[list[Option], list[str]]:
    """The options, and what stands behind them. What perf does not know it refuses itself."""
    found: list[Option] = []
    while words and words[0].startswith("-") and words[0] != "-":
        word = words.pop(0)
        if word == "--":
            break
        part = long_option(word, words, known) if word.startswith("--") else None
        found += [part] if part else short_options(word, words, known)
    return found, words


def long_option(word: str, rest: list[str], known: dict[str, tuple[str, bool]]) -> Option:
    """`--event=X`, `--event X` or a beginning of the name that no other has."""
    given, mark, value = word.partition("=")
    names = {known[given]} if given in known else {known[other] for other in known if other.startswith(given)}
    name, has_value = names.pop() if len(names) == 1 else (given.removeprefix("--"), False)
    if mark or not has_value or not rest:
        return Option(name, value if mark else None, (word,))
    return Option(name, rest[0], (word, rest.pop(0)))


def short_options(word: str, rest: list[str], known: dict[str, tuple[str, bool]]) -> Iterator[Option]:
    """`-a`, `-dd`, `-e X`, `-eX` or `-ae X`: each letter is an option, the last of them may have a value."""
    letters = word[1:]
    while letters:
        letter, letters = letters[0], letters[1:]
        name, has_value = known.get(f"-{letter}", (letter, False))
        if not has_value:
            yield Option(name, None, (f"-{letter}",))
        elif letters or not rest:
            yield Option(name, letters or None, (f"-{letter}{letters}",))
            return
        else:
            yield Option(name, rest[0], (f"-{letter}", rest.pop(0)))
            return
