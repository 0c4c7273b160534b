"""The counters of a machine: how many there are, and which of them may count which event."""

from __future__ import annotations

import fnmatch
import os
import tomllib
from collections.abc import Sequence
from dataclasses import dataclass, field, replace
from functools import cache, cached_property
from typing import Any

from fit.codes import (
    IN_TX_CHECKPOINTED, RAW, Counters, Register, Row, bits_of, first_matching, placed, registers_of, rows_of,
)
from fit.events import SOFTWARE, TOOL_EVENTS, canonical
from fit.faults import BadInput
from perfscript.command import listed

FOLDER = os.path.join(os.path.dirname(os.path.abspath(__file__)), "machines")
ARM_NAMES = os.path.join(FOLDER, "names", "arm.toml")
CPUINFO = "/proc/cpuinfo"
MOST_COUNTERS, MOST_PROCESSORS, MOST_PMUS = 16, 8, 4
# the hardware events that perf names alike on all machines
GENERAL_NAMES = ("cycles", "instructions", "branches", "branch-misses", "cache-references", "cache-misses")
# `source` says where the rows are from, `numbers` where the numbers of counters are
TEXTS = ("pmu", "watchdog", "source", "numbers", "note")
BLOCKS = ("rows", "precise_rows", "most_precise_rows", "extra", "common")
NUMBERS = ("general", "general_alone", "fixed", "precise")
KEYS: dict[str, type] = (
    dict.fromkeys((*TEXTS, *BLOCKS), str) | dict.fromkeys(NUMBERS, int)
    | {"any": list, "precise_cycles": list, "precise_any": bool, "ibs": bool}
)
TABLES = ("masks", "kernel", "models", "terms", "hardware", "cache", "names")
CYCLES = 0x3C


@dataclass(frozen=True, eq=False)
class Machine:
    """One kind of core. A mask has the general counters as its lowest bits, and the fixed ones behind them. Each is
    itself alone: two that are alike are two kinds of core."""

    name: str
    pmu: str
    general: int
    fixed: int
    masks: dict[str, int] = field(default_factory=dict)
    watchdog: str = ""
    source: str = ""
    numbers: str = ""
    note: str = ""
    processors: tuple[int, ...] = (0,)
    # what the files of this folder say; a file of one's own may
    rows: tuple[Row, ...] = ()
    precise_rows: tuple[Row, ...] = ()
    most_precise_rows: tuple[Row, ...] = ()
    extra: tuple[Register, ...] = ()
    precise: int | None = None
    precise_cycles: tuple[int, ...] = ()
    precise_any: bool = False
    ibs: bool = False
    general_alone: int | None = None
    is_alone: bool = False
    models: dict[str, str] = field(default_factory=dict)
    identity: str = ""
    terms: dict[str, tuple[str, tuple[int, ...]]] = field(default_factory=dict)
    hardware: dict[str, int] = field(default_factory=dict)
    cache: dict[str, tuple[int, int]] = field(default_factory=dict)
    names: dict[str, str] = field(default_factory=dict)
    kernel: dict[str, str] = field(default_factory=dict)

    @property
    def counters(self) -> int:
        return self.general + self.fixed

    @property
    def has_codes(self) -> bool:
        """Whether the file says which counters count an event by its code."""
        return bool(self.terms)

    @cached_property
    def kept(self) -> int:
        """The bits of a config that reach the counter's own register."""
        every = 0
        for name, (where, bits) in self.terms.items():
            if where == "config" and name != "pc":
                every |= placed(~0, bits)
        return every

    @property
    def all_general(self) -> int:
        return (1 << self.general) - 1

    def asked_mask(self, mask: int) -> int:
        """A mask as the program is asked, with the fixed counters as its lowest bits: the program takes the lowest
        counter that is free, and Linux a fixed one (__perf_sched_find_counter)."""
        return mask >> self.general | (mask & self.all_general) << self.fixed

    def counter_name(self, number: int) -> str:
        """What the counter of a number of the program's is called."""
        return f"fixed counter {number}" if number < self.fixed else f"counter {number - self.fixed}"

    def counters_of(self, mask: int) -> str:
        """The names of a mask's counters in a phrase: `counters 0-3 and fixed counter 1`."""
        parts = []
        for word, first, count in (("counter", 0, self.general), ("fixed counter", self.general, self.fixed)):
            numbers = [number for number in range(count) if mask >> (first + number) & 1]
            if numbers:
                parts.append(f"{word}{'s' * (len(numbers) > 1)} {ranges(numbers)}")
        return " and ".join(parts)

    def counters_for(self, config: int, precise: int = 0) -> Counters:
        """The counters that may count a config; `precise` is how precise its samples have to be, 0 to 3."""
        config &= self.kept
        if precise and self.precise_cycles and config & RAW == CYCLES:
            config = self.precise_cycles[precise == 3] | config & ~RAW
        found = first_matching(self.most_precise_rows, config) if precise == 3 else None
        if found is not None:
            return found
        found = first_matching(self.precise_rows, config) if precise else None
        if found is None and precise and not self.precise_any:
            return Counters(0)
        if found is None:
            found = first_matching(self.rows, config)
        if found is None:
            found = Counters(self.all_general)
        if "in_tx_cp" in self.terms and config & IN_TX_CHECKPOINTED:
            found = replace(found, mask=found.mask & 1 << 2)
        for row in self.most_precise_rows if precise == 3 else ():
            if row.kind == "within":
                found = replace(found, mask=found.mask & row.counters.mask)
        return found

    def register_of(self, config: int) -> Register | None:
        """The register that an event's config1 goes to, none where it has none."""
        return next((register for register in self.extra if register.row.holds(config & self.kept)), None)

    def model_of(self, identity: str) -> str:
        """The name of the model that perf identifies like this, empty where it is none of these."""
        for pattern, model in self.models.items():
            if fnmatch.fnmatchcase(identity, pattern) or fnmatch.fnmatchcase(identity, pattern + "-*"):
                return model
        return ""


def ranges(numbers: Sequence[int]) -> str:
    """Numbers that rise, as `0, 2-4 and 7`."""
    runs: list[list[int]] = []
    for number in numbers:
        if runs and runs[-1][1] == number - 1:
            runs[-1][1] = number
        else:
            runs.append([number, number])
    words: list[str] = []
    for first, last in runs:
        words += [f"{first}-{last}"] if last > first + 1 else [str(number) for number in range(first, last + 1)]
    return listed(words)


def names() -> list[str]:
    """The machines that have a file here."""
    return sorted(name[: -len(".toml")] for name in os.listdir(FOLDER) if name.endswith(".toml"))


def plain_word(text: str) -> str:
    """A name without what people write differently."""
    return "".join(letter for letter in text.lower() if letter.isalnum())


@cache
def of_model(word: str) -> tuple[str, str] | None:
    """The machine and the identity of a model's name, as `cascadelake`, none where no file has it."""
    for name in names():
        for pattern, model in load(name).models.items():
            if plain_word(model) == plain_word(word):
                return name, identity_of(pattern)
    return None


def identity_of(pattern: str) -> str:
    """An identity that a pattern of models takes, as perf's PERF_CPUID wants it."""
    word, at = "", 0
    while at < len(pattern):
        end = pattern.find("]", at) if pattern[at] == "[" else at
        letter = pattern[at + 1] if pattern[at] == "[" else pattern[at]
        word += {"*": "1", "!": "3"}.get(letter, letter)
        at = end + 1
    return word + "-1" * (word.count("-") == 2 and not word.startswith("0x"))


def load(word: str) -> Machine:
    """The machine of this name or model, or of this file."""
    if word.endswith(".toml") or "/" in word:
        return load_file(word)
    if word in names():
        return load_file(os.path.join(FOLDER, word + ".toml"))
    found = of_model(word)
    if not found:
        known = f"there are {listed(names())}"
        raise BadInput(f"-m: no machine and no model is called {word!r}; {known}; --list says their models")
    return replace(load_file(os.path.join(FOLDER, found[0] + ".toml")), identity=found[1])


@cache
def load_file(path: str) -> Machine:
    """The machine that a file says."""
    try:
        with open(path, "rb") as file:
            table = tomllib.load(file)
    except OSError as fault:
        raise BadInput(f"-m: {path} can't be read: {fault.strerror}") from None
    except ValueError as fault:
        raise BadInput(f"-m: {path} is no TOML file: {fault}") from None
    return of_table(os.path.basename(path).removesuffix(".toml"), table, path)


def without_threads(machine: Machine) -> Machine:
    """The machine with hyperthreading off: some have more general counters then."""
    if machine.general_alone is None:
        return replace(machine, is_alone=True)
    if not machine.source.startswith("Linux "):
        raise BadInput(f"--ht: {machine.name} has general_alone, and only the files of tools/fit/machines/ may")
    path = os.path.join(FOLDER, machine.name + ".toml")
    with open(path, "rb") as file:
        table = tomllib.load(file)
    alone = of_table(machine.name, table | {"general": machine.general_alone}, path)
    return replace(alone, processors=machine.processors, identity=machine.identity, general_alone=None, is_alone=True)


def of_table(name: str, table: dict[str, Any], path: str) -> Machine:
    """The machine that a file's table says."""
    check_keys(table, path)
    general, fixed = table["general"], table.get("fixed", 0)
    if not 1 <= general or fixed < 0 or general + fixed > MOST_COUNTERS:
        wanted = f"1 to {MOST_COUNTERS} counters together, at least 1 general"
        raise BadInput(f"{path}: general and fixed have to be {wanted}")
    masks = {event: (1 << general) - 1 for event in table.get("any", [])}
    for event, text in table.get("masks", {}).items():
        masks[event] = mask_of(text, general + fixed, f"{path}: the mask of {event}")
    for event in masks:
        check_name(event, path)
    machine = Machine(
        name, table.get("pmu", name), general, fixed, masks, table.get("watchdog", ""),
        **{key: table.get(key, "") for key in ("source", "numbers", "note")},
        **coded_part(table, general, fixed, path),
    )
    if machine.watchdog and machine.watchdog not in {*masks, *machine.hardware}:
        raise BadInput(f"{path}: the watchdog's event {machine.watchdog!r} is not among the machine's events")
    return machine


def coded_part(table: dict[str, Any], general: int, fixed: int, path: str) -> dict[str, Any]:
    """What a table says of codes: rows, registers, terms, and the configs of names."""
    found: dict[str, Any] = {}
    for key in ("rows", "precise_rows", "most_precise_rows"):
        found[key] = rows_of(table.get(key, ""), general, fixed, f"{path}: {key}")
    found["extra"] = registers_of(table.get("extra", ""), f"{path}: extra")
    found["precise_cycles"] = tuple(int(code, 16) for code in table.get("precise_cycles", []))
    for key, default in (("precise", None), ("precise_any", False), ("ibs", False), ("general_alone", None)):
        found[key] = table.get(key, default)
    terms = {name: bits_of(text, f"{path}: terms") for name, text in table.get("terms", {}).items()}
    models = table.get("models", {})
    found |= {"terms": terms, "models": models, "kernel": table.get("kernel", {})}
    found["identity"] = identity_of(next(iter(models))) if models else ""
    found["hardware"] = {name: config_of(text, path)[0] for name, text in table.get("hardware", {}).items()}
    found["cache"] = {name: config_of(text, path) for name, text in table.get("cache", {}).items()}
    found["names"] = table.get("names", {}) | common_names(table.get("common", ""))
    return found


@cache
def arm_names() -> dict[int, list[str]]:
    """The names that Arm's architecture gives to codes."""
    with open(ARM_NAMES, "rb") as file:
        codes = tomllib.load(file)["codes"]
    found: dict[int, list[str]] = {}
    for name, code in codes.items():
        found.setdefault(int(code, 16), []).append(name)
    return found


def common_names(text: str) -> dict[str, str]:
    """The terms of the names that a core has of Arm's architecture, by the codes that it says."""
    found: dict[str, str] = {}
    for part in text.split():
        first, mark, last = part.partition("-")
        for code in range(int(first, 16), int(last if mark else first, 16) + 1):
            found |= {name: f"event={code:#x}" for name in arm_names().get(code, [])}
    return found


def config_of(text: str, path: str) -> tuple[int, int]:
    """The config and the config1 of one or two hexadecimal words."""
    try:
        config, *more = (int(word, 16) for word in text.split())
        return config, sum(more[:1])
    except ValueError:
        raise BadInput(f"{path}: {text!r} has to be a config and maybe a config1, both hexadecimal") from None


def check_keys(table: dict[str, Any], path: str) -> None:
    """Refuses a key that is not known, one of another type, and a missing one."""
    for key, value in table.items():
        wanted = dict if key in TABLES else KEYS.get(key)
        if wanted is None:
            raise BadInput(f"{path}: the key {key!r} is not known; {listed([*KEYS, *TABLES])} are")
        if type(value) is not wanted:
            raise BadInput(f"{path}: {key} has to be {wanted.__name__}, not {type(value).__name__}")
    if "general" not in table:
        raise BadInput(f"{path}: the key 'general', the number of general counters, is missing")
    every = [*table.get("any", []), *table.get("precise_cycles", [])]
    for key in TABLES:
        every += table.get(key, {}).values()
    for value in every:
        if not isinstance(value, str):
            raise BadInput(f"{path}: {value!r} has to be a string, in quotes")


def mask_of(text: str, counters: int, what: str) -> int:
    """The mask that hexadecimal digits give."""
    try:
        mask = int(text, 16)
    except ValueError:
        raise BadInput(f"{what}: {text!r} is no hexadecimal number") from None
    if not 0 < mask < 1 << counters:
        wanted = f"some of the {counters} counters, so to be 1 to {(1 << counters) - 1:x}"
        raise BadInput(f"{what}: {text} has to name {wanted}")
    return mask


def check_name(event: str, where: str) -> None:
    """Refuses a name that no hardware event can have."""
    if event in SOFTWARE or event in TOOL_EVENTS:
        raise BadInput(f"{where}: {event!r} needs no counter, so it has no mask; leave the option out")
    if not event or not event.isprintable() or any(character in event for character in ",{}/: '"):
        why = "it is empty, or has a comma, a brace, a slash, a colon, a quote or a space"
        raise BadInput(f"{where}: {event!r} can't be an event's name: {why}")


def plain(counters: int) -> Machine:
    """A machine of this many counters. Each of them counts the events that perf names alike on all machines."""
    if not 1 <= counters <= MOST_COUNTERS:
        raise BadInput(f"--counters: {counters} has to be 1 to {MOST_COUNTERS}")
    every = (1 << counters) - 1
    masks = {event: every for event in GENERAL_NAMES}
    word = f"{counters} counter{'s' * (counters > 1)}"
    return Machine(word, "cpu", counters, 0, masks, watchdog="cycles", source="the option --counters")


def plain_with(counters: int, masks: Sequence[str], wanted: Sequence[int]) -> Machine:
    """The plain machine with these masks, and processors up to the last that `-C` names."""
    machine = with_masks(plain(counters), masks)
    return replace(machine, processors=tuple(range(max(wanted, default=0) + 1)))


def with_masks(machine: Machine, options: Sequence[str]) -> Machine:
    """The machine with the masks that `--mask EVENT=HEX` options give."""
    masks = dict(machine.masks)
    for option in options:
        event, mark, text = option.partition("=")
        if not mark:
            raise BadInput(f"--mask: {option!r} has to be EVENT=HEX")
        event = canonical(event)
        check_name(event, "--mask")
        masks[event] = mask_of(text, machine.counters, f"--mask {option} on {machine.name}")
    return replace(machine, masks=masks)


def processors_of(text: str, option: str) -> tuple[int, ...]:
    """The processors of a list as perf writes it: `0-2,5`."""
    found: set[int] = set()
    for part in text.split(","):
        first, mark, last = part.partition("-")
        last = last if mark else first
        if not (first.isascii() and first.isdigit() and last.isascii() and last.isdigit()):
            raise BadInput(f"{option}: {part!r} is no processor and no range, as in 0-2,5")
        if int(first) > int(last) or int(last) >= MOST_PROCESSORS:
            raise BadInput(f"{option}: {part!r} has to rise and to stay within processors 0 to {MOST_PROCESSORS - 1}")
        found |= set(range(int(first), int(last) + 1))
    return tuple(sorted(found))


def read_machines(
    words: Sequence[str], masks: Sequence[str], wanted: Sequence[int], alone: bool = False
) -> list[Machine]:
    """The machines of `-m NAME` or `-m NAME=PROCESSORS` options. `wanted` are the processors that `-C` names; `alone`
    says that hyperthreading is off."""
    if len(words) > MOST_PMUS:
        raise BadInput(f"-m: {len(words)} kinds of core; the program has at most {MOST_PMUS}")
    machines = []
    for word in words:
        name, mark, text = word.partition("=")
        machine = load(name) if name != "auto" else this_computer()
        machine = with_masks(without_threads(machine) if alone else machine, masks)
        if mark:
            machine = replace(machine, processors=processors_of(text, f"-m {word}"))
        elif len(words) > 1:
            raise BadInput(f"-m {word}: with several kinds of core each needs its processors, as in -m {word}=0-3")
        else:
            machine = replace(machine, processors=tuple(range(max(wanted, default=0) + 1)))
        machines.append(machine)
    check_processors(machines)
    return machines


def check_processors(machines: Sequence[Machine]) -> None:
    """Each processor from 0 to the last has to be of one machine, and each machine's PMU has a name of its own."""
    every = [processor for machine in machines for processor in machine.processors]
    for processor in range(max(every) + 1):
        if every.count(processor) != 1:
            found = "no machine" if processor not in every else "two machines"
            raise BadInput(f"-m: processor {processor} is of {found}; each from 0 to {max(every)} has to be of one")
    pmus = [machine.pmu for machine in machines]
    for pmu in pmus:
        if pmus.count(pmu) > 1:
            raise BadInput(f"-m: two machines call their PMU {pmu!r}, so no event could say which it means")


def this_computer(path: str | None = None) -> Machine:
    """The machine whose file has the processors that /proc/cpuinfo describes, with this computer's own identity: perf
    has other tables for other models of a machine."""
    found: dict[str, str] = {}
    for identity in identities_in(path or CPUINFO):
        here = [name for name in names() if load(name).model_of(identity)]
        if not here:
            what = "type -m NAME as --list has it, or -m FILE.toml for a file of your own"
            raise BadInput(f"-m auto: no file has the processor {identity}; {what}")
        found |= dict.fromkeys(here, identity)
    if len(found) > 1:
        what = " ".join(f"-m {name}=PROCESSORS" for name in found)
        raise BadInput(f"-m auto: this computer has {len(found)} kinds of core; type {what}, as in =0-3")
    [(name, identity)] = found.items()
    return replace(load(name), identity=identity)


def identities_in(path: str) -> list[str]:
    """How perf identifies the processors that a file as /proc/cpuinfo describes, each kind once."""
    try:
        with open(path, encoding="utf-8") as file:
            blocks = file.read().split("\n\n")
    except OSError as fault:
        raise BadInput(f"-m auto: {path} can't be read: {fault.strerror}") from None
    found = [identity for block in blocks if (identity := identity_in(block))]
    if not found:
        raise BadInput(f"-m auto: {path} does not say which processor this is; type -m NAME as --list has it")
    return list(dict.fromkeys(found))


def identity_in(block: str) -> str:
    """The identity of the processor that the lines of a block describe, empty where they do not."""
    lines = [line.partition(":") for line in block.splitlines()]
    values = {key.strip(): value.strip() for key, _, value in lines}
    try:
        if "CPU implementer" in values:
            return f"{values['CPU implementer']}-{values['CPU part']}"
        numbers = [int(values[key]) for key in ("cpu family", "model", "stepping")]
        return f"{values['vendor_id']}-{numbers[0]}-{numbers[1]:X}-{numbers[2]:X}"
    except (KeyError, ValueError):
        return ""
