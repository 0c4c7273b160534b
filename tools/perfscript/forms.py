"""The forms of lines, as the table of docs/SCRIPT.md has them: their words in order, how each is spelled, its range."""

import difflib
import re
from collections.abc import Iterable
from functools import cache
from pathlib import Path
from typing import NamedTuple

from perfscript import limits
from perfscript.names import FLAGS

HEADERS = ("processor", "tool")
DECLARATIONS = ("perf", "machine", "pmu", "kind", "task", "ring", "reader", "order", "end")
# the sections of a script in their order; lines of processors and tools stand in the sections of their headers
SECTIONS = ("perf", "machine", "pmu", "kind", "task", "ring", "processor", "tool", "reader", "order", "end")
WIDE = (1 << 64) - 1
NUMBER, HEXADECIMAL = re.compile(r"0|[1-9][0-9]{0,19}"), re.compile(r"0|[1-9a-f][0-9a-f]{0,15}")
NAME, BYTES = re.compile(r"[a-z][a-z0-9-]{0,30}"), re.compile(r"(?:[0-9a-f]{2}){1,4096}")
ACT = re.compile(r"[pt](?:0|[1-9][0-9]{0,19})|s(?:0|[1-9][0-9]{0,19})=(?:0|[1-9][0-9]{0,19})")


class Value(NamedTuple):
    """What a word may say: some words, or what is spelled so; a number also has its range."""

    spelled: re.Pattern[str] | None
    low: int = 0
    high: int = WIDE
    words: tuple[str, ...] = ()


VALUES = {
    "VERSION": Value(None, words=("1", "2")),
    "CPUS": Value(NUMBER, 1, limits.MOST_CPUS),
    "COUNTERS": Value(NUMBER, 1, limits.MOST_COUNTERS),
    "PMU": Value(NUMBER, 0, limits.MOST_PMUS - 1),
    "RING": Value(NUMBER, 0, limits.MOST_RINGS - 1),
    "SIZE": Value(NUMBER, limits.LEAST_RING, limits.MOST_RING),
    "TASK": Value(NUMBER, 0, limits.MOST_TASKS - 1),
    "IDLE|TASK": Value(NUMBER, 0, limits.MOST_TASKS - 1, ("idle",)),
    "ALL|TASK": Value(NUMBER, 0, limits.MOST_TASKS - 1, ("all",)),
    "CPU": Value(NUMBER, 0, limits.MOST_CPUS - 1),
    "ANY|CPU": Value(NUMBER, 0, limits.MOST_CPUS - 1, ("any",)),
    "TOOL": Value(NUMBER, 0, limits.MOST_TOOLS - 1),
    "SLOT": Value(NUMBER, 0, limits.MOST_SLOTS - 1),
    "AMOUNT": Value(NUMBER, 0, limits.MOST_WORK),
    "MODE": Value(None, words=("user", "kernel")),
    "TRIES": Value(NUMBER, 1, limits.MOST_TRIES),
    "BATCH": Value(NUMBER, 1, limits.MOST_BATCH),
    "GROUP": Value(None, words=("group",)),
    "N": Value(NUMBER),
    "MASK": Value(HEXADECIMAL),
    "BITS": Value(HEXADECIMAL),
    "ADDRESS": Value(HEXADECIMAL),
    "NAME": Value(NAME),
    "BYTES": Value(BYTES),
    "FLAGS": Value(None),
    "HITS": Value(NUMBER, 0, limits.MOST_WORK),
    "ACTS": Value(ACT),
}
# each form behind the versions of `perf` that have it
LINES = Path(__file__).with_suffix(".txt").read_text("ascii").splitlines()
FORMS = [line.split(maxsplit=1) for line in LINES if not line.startswith("#")]
CPU_HEADS = ("switch", "work", "tick", "fork", "exit")
HEADS = tuple(dict.fromkeys(text.split(" ")[0] for _, text in FORMS))


class Part(NamedTuple):
    """A word of a form: its name before `=`, if any, and what stands there. Hits and acts stand any number of times."""

    key: str
    name: str
    is_optional: bool

    @property
    def value(self) -> Value:
        return VALUES[self.name]

    @property
    def shown(self) -> str:
        rest = [self.name.split("|")[-1]] if self.value.spelled or self.name == "FLAGS" else []
        name = {"HITS": "KIND=N ..", "ACTS": "ACT .."}.get(self.name, "|".join([*self.value.words, *rest]))
        return f"{self.key}={name}" if self.key else name


class Form(NamedTuple):
    """A form: its first word, the words behind it, and the text that shows it."""

    head: str
    parts: list[Part]
    text: str


class Wrong(NamedTuple):
    """What is wrong with a line: the place of the word, from 1, the reason, and what to do."""

    place: int
    reason: str
    mending: str


@cache
def forms_of(head: str, version: str) -> list[Form]:
    """The forms that a first word has in a version."""
    found = []
    for versions, text in FORMS:
        first, *words = text.split(" ")
        if first == head and version in versions:
            bare = [(word.strip("[]").rpartition("="), word[0] == "[") for word in words]
            parts = [Part(key, name, optional) for (key, _, name), optional in bare]
            shown = [f"[{part.shown}]" if part.is_optional else part.shown for part in parts]
            found.append(Form(head, parts, " ".join([head, *shown])))
    return found


def is_formed(words: list[str], version: str) -> bool:
    """Whether a line has a form of a version, and each word is spelled right."""
    for form in forms_of(words[0], version):
        found, wrong = parted(words, form)
        if wrong is None and not any(misspelled(part, value) for _, part, value in found):
            return True
    return False


def section_of(head: str) -> int:
    """The section of a first word, by its place."""
    if head in DECLARATIONS or head in HEADERS:
        return SECTIONS.index(head)
    return SECTIONS.index("processor" if head in CPU_HEADS else "tool")


def near(word: str, known: Iterable[str]) -> str:
    """A question after the word that was meant, or what there is."""
    names = list(known)
    close = difflib.get_close_matches(word, names, 1)
    return f"is `{close[0]}` meant?" if close else f"there is {', '.join(f'`{name}`' for name in names) or 'none'}"


def parted(words: list[str], form: Form) -> tuple[list[tuple[int, Part, str]], Wrong | None]:
    """Each word behind the first with its place, its part of the form and its value; and the first that is wrong."""
    found: list[tuple[int, Part, str]] = []
    at = 1
    for part in form.parts:
        if part.name in ("HITS", "ACTS"):
            for place in range(at, len(words)):
                key, is_hit, value = words[place].partition("=")
                if part.name == "HITS" and not (is_hit and NAME.fullmatch(key)):
                    reason = f"`{words[place]}` is not an occurrence of a kind"
                    return found, Wrong(place + 1, reason, "write KIND=N with the name of a declared kind")
                found.append((place + 1, part, value if part.name == "HITS" else words[place]))
            at = len(words)
            continue
        word = words[at] if at < len(words) else None
        is_key = word is not None and any(word.startswith(one.key + "=") for one in form.parts if one.key)
        is_there = word is not None and not is_key and (not part.is_optional or word == "group")
        if word is not None and (word.startswith(part.key + "=") if part.key else is_there):
            found.append((at + 1, part, word[len(part.key) + 1 :] if part.key else word))
            at += 1
        elif not part.is_optional:
            return found, _missing(words, at, part, form)
    return found, _surplus(words, at, form) if at < len(words) else None


def _missing(words: list[str], at: int, part: Part, form: Form) -> Wrong:
    behind = "at the end of the line" if at == len(words) else f"before `{words[at]}`"
    if at < len(words) and words[at].split("=")[0] not in [one.key for one in form.parts if one.key]:
        return Wrong(at + 1, f"`{words[at]}` stands where `{part.shown}` is wanted", f"write `{part.shown}`")
    return Wrong(at + 1, f"`{part.shown}` is missing {behind}", f"write `{part.shown}` there")


def _surplus(words: list[str], at: int, form: Form) -> Wrong:
    word, keys = words[at], [part.key for part in form.parts if part.key]
    key = word.split("=")[0]
    order = f"the order is {' '.join(keys)}"
    if key in keys and "=" in word:
        if any(one.startswith(key + "=") for one in words[1:at]):
            return Wrong(at + 1, f"`{key}=` stands twice", f"take `{word}` or the other away")
        return Wrong(at + 1, f"`{word}` stands behind `{words[at - 1]}`", f"move it; {order}")
    hint = f"; {near(key, keys)}" if keys else ""
    return Wrong(at + 1, f"`{word}` is one word more than the line has", f"take it away{hint}")


def misspelled(part: Part, value: str) -> tuple[str, str] | None:
    """Why a value is spelled as none, and what to write; None where it is right."""
    wanted = part.value
    if value in wanted.words:
        return None
    if part.name == "FLAGS":
        return _wrong_flags(value)
    if wanted.spelled is None:
        return "it is not one of the words here", f"write {' or '.join(wanted.words)}"
    if wanted.spelled.fullmatch(value):
        return None
    or_word = "".join(f", or {word}" for word in wanted.words)
    if value == "":
        return "it has no value", f"write {part.name}"
    if wanted.spelled is BYTES:
        return "the bytes are not 1 to 4096 pairs of digits", "write two lower-case hexadecimal digits for each byte"
    if wanted.spelled is NAME:
        return "it is not a name", "write a lower-case letter and behind it at most 30 of a-z, 0-9 and -"
    if wanted.spelled is ACT:
        return "it is not an act", "write pN, tN or sR=PLACE, with decimal numbers without leading zeros"
    if value[0] == "0" and re.fullmatch("0+[0-9a-f]*", value):
        return "it has leading zeros", f"write {value.lstrip('0') or '0'}"
    if wanted.spelled is HEXADECIMAL:
        return "it is not a hexadecimal number", "write at most 16 digits 0-9a-f in lower case, without 0x"
    return "it is not a decimal number", f"write at most 20 digits{or_word}"


def _wrong_flags(value: str) -> tuple[str, str] | None:
    given = value.split(",")
    for flag in given:
        if flag not in FLAGS:
            return f"`{flag}` is not a flag", near(flag, FLAGS)
    if given != [flag for flag in FLAGS if flag in given]:
        right = ",".join(flag for flag in FLAGS if flag in given)
        return "its flags stand twice or in another order", f"write flags={right}"
    return None
