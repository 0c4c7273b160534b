"""What an event needs on a machine: its counters, or none, or that Linux refuses its open."""

from __future__ import annotations

import re
from collections.abc import Sequence
from contextlib import ExitStack
from dataclasses import dataclass

from fit import perf_tables
from fit.codes import FLAGS, Counters, placed
from fit.events import COMMON_TERMS, HARDWARE, NUMBER, Typed, cache_event
from fit.faults import BadInput
from fit.machines import Machine
from perfscript.command import listed

# perf's terms that say nothing of counters
PASSED_TERMS = (*COMMON_TERMS, "no-inherit", "inherit")
CONFIGS = ("config", "config1", "config2")
HARDWARE_TYPE, CACHE_TYPE, RAW_TYPE = 0, 3, 4
NUMBERED_CACHES = ("L1-dcache", "L1-icache", "LLC", "dTLB", "iTLB", "branch", "node")
SLOTS, PARTS_OF_SLOTS = 0x0400, range(0x8000, 0x8701, 0x100)
WITHOUT_FILTER = "leave out all terms but event and umask"


@dataclass(frozen=True)
class Need:
    """What an event needs: counters of the core, or a part of the slots' register, or nothing. `refused` says why Linux
    refuses its open. `value` of `term` goes to a register of the core that holds `values` at once."""

    counters: Counters = Counters(0)
    is_core: bool = True
    refused: str = ""
    config: int = 0
    term: str = ""
    value: int = 0
    values: int = 0

    @property
    def is_slots(self) -> bool:
        return self.is_core and self.config & 0xFFFF == SLOTS


NOTHING = Need(is_core=False)


class Meanings:
    """Answers what events need. Names that a file does not have are looked up in perf's tables, where perf is."""

    def __init__(self, sampling: bool = False, has_watchdog: bool = False) -> None:
        self.sampling, self.has_watchdog = sampling, has_watchdog
        self.stack = ExitStack()
        self.tables: dict[str, perf_tables.Tables] = {}
        self.asked: set[str] = set()

    def __enter__(self) -> Meanings:
        return self

    def __exit__(self, *_: object) -> None:
        self.stack.close()

    def need(self, event: Typed, machine: Machine, modifiers: str = "") -> Need:
        """What an event needs on a machine; `modifiers` are those behind its group's brace."""
        if event.needs_no_counter:
            return NOTHING
        if event.kind in machine.masks and event.form == "name":
            return Need(Counters(machine.masks[event.kind]))
        if not machine.has_codes and event.form == "raw" and machine.source.startswith("the option"):
            return Need(Counters(machine.all_general))
        config, config1, refused = self.config(event, machine)
        if refused:
            return Need(refused=refused)
        letters = event.modifiers + modifiers
        precise = letters.count("p")
        if self.sampling and "P" in letters:
            precise = machine.precise or 0
        return self.need_of_config(config, config1, precise, machine)

    def need_of_config(self, config: int, config1: int, precise: int, machine: Machine) -> Need:
        """What a config needs whose samples have to be this precise, 0 to 3."""
        if "slots" in machine.names and is_of_slots(config) and (config1 or config & FLAGS):
            return Need(refused=f"slots and its parts take no filter; {WITHOUT_FILTER}", config=config)
        if precise and machine.precise is not None:
            reason = self.refused_precise(precise, config, machine)
            if reason is None:
                return NOTHING
            if reason:
                return Need(refused=reason)
        counters = machine.counters_for(config, precise if machine.precise is not None else 0)
        if counters.is_none:
            why = " where it is precise" if precise else ""
            return Need(refused=f"{machine.name} has no counter for the code {code_of(config)}{why}", config=config)
        register = machine.register_of(config)
        if not register:
            return Need(counters, config=config)
        return Need(counters, config=config, term=register.term, value=config1, values=register.values)

    def refused_precise(self, precise: int, config: int, machine: Machine) -> str | None:
        """Why Linux refuses a precise event, empty where it does not, none where another PMU than the core's counts."""
        if not self.sampling:
            return "an event with p takes samples, and perf stat takes none; leave p out, or ask with --sampling"
        if machine.ibs and precise < 3 and config in (0x76, 0xC1):
            return None
        most = machine.precise or 0
        if precise > most:
            return f"{machine.name} is precise up to {'p' * most}" if most else f"no event is precise on {machine.name}"
        return ""

    def config(self, event: Typed, machine: Machine) -> tuple[int, int, str]:
        """The config and the config1 of an event, and why Linux refuses it."""
        if event.form == "name":
            return self.config_of_name(event, machine)
        if not machine.has_codes:
            raise event.refuse(f"{machine.name} knows no codes; name an event that --list has, or give --mask")
        if event.form == "raw":
            if int(event.name[1:], 16) >> 64:
                raise event.refuse(f"{event.name} has more than 64 bits")
            return int(event.name[1:], 16), 0, ""
        if event.form == "numeric":
            return self.config_of_number(event, machine)
        text = f"{event.name},{event.terms}".rstrip(",") if event.form == "aliased" else None
        found = self.config_of_terms(event, machine, text)
        return (*found, "") if found else self.looked_up(event, machine)

    def config_of_name(self, event: Typed, machine: Machine) -> tuple[int, int, str]:
        """The config of a name that stands alone."""
        if event.kind in machine.hardware:
            return machine.hardware[event.kind], 0, ""
        cache = cache_event(event.name)
        if event.kind in HARDWARE or cache:
            if cache in machine.cache:
                return (*machine.cache[cache], "")
            if not machine.has_codes:
                raise self.unknown(event, machine)
            return 0, 0, f"Linux has no event for {event.name} on {machine.name}"
        text = terms_of_name(event.name, machine)
        if text:
            found = self.config_of_terms(event, machine, text)
            assert found
            return (*found, "")
        return self.looked_up(event, machine)

    def config_of_number(self, event: Typed, machine: Machine) -> tuple[int, int, str]:
        """The config of TYPE:CONFIG for the types of a core: hardware, cache and raw."""
        return config_of_type(int(event.pmu, 0), int(event.name.split(":")[1], 0), 0, machine, event.name)

    def config_of_terms(self, event: Typed, machine: Machine, text: str | None = None) -> tuple[int, int] | None:
        """The config that terms give, none where one of them is a name that only perf may know."""
        configs = dict.fromkeys(CONFIGS, 0)
        at = event.start
        for term in (event.terms if text is None else text).split(","):
            name, mark, value = (part.strip() for part in term.partition("="))
            if text is None and not name and (mark or event.terms):
                raise event.source.refuse("a term is missing here", at)
            if re.fullmatch(r"r(0x)?[0-9a-fA-F]+", name) and not mark:
                configs["config"] = int(name.removeprefix("r"), 16)
            elif name in CONFIGS:
                configs[name] |= number_of(value, event, at)
            elif name in machine.terms:
                where, bits = machine.terms[name]
                configs[where] |= placed(fitting(number_of(value, event, at) if mark else 1, bits, event, at), bits)
            elif name and name not in PASSED_TERMS:
                known = terms_of_name(name, machine)
                found = self.config_of_terms(event, machine, known) if known and not mark else None
                if found is None and mark:
                    raise event.source.refuse(unknown_term(name, machine), at)
                if found is None:
                    return None
                configs["config"] |= found[0]
                configs["config1"] |= found[1]
            at += len(term) + 1
        return configs["config"], configs["config1"]

    def looked_up(self, event: Typed, machine: Machine) -> tuple[int, int, str]:
        """The config that perf's tables give a name."""
        if not perf_tables.perf_path() or not perf_tables.has_tables(machine):
            raise self.unknown(event, machine)
        self.asked.add(machine.name)
        text = f"{event.pmu}/{event.terms}/" if event.form == "slashed" else event.name
        if event.form == "aliased":
            text = f"{machine.pmu}/{event.name},{event.terms}".rstrip(",") + "/"
        if machine.pmu.startswith("cpu_") and event.form == "name":
            text = f"{machine.pmu}/{event.name}/"
        text = machine.pmu + text[len(event.pmu) :] if event.pmu == machine.name else text
        found = self.tables_of(machine).attributes(text)
        if not found or found[0].type not in (HARDWARE_TYPE, RAW_TYPE):
            raise self.unknown(event, machine)
        if found[0].type == HARDWARE_TYPE:
            return machine.hardware.get(HARDWARE[found[0].config & 0xFF], 0), 0, ""
        return found[0].config, found[0].config1, ""

    def metric_lists(self, names: Sequence[str], machines: Sequence[Machine]) -> list[str]:
        """The lists of events that perf makes of metrics."""
        if not names:
            return []
        if len(machines) > 1 or not perf_tables.has_tables(machines[0]) or not perf_tables.perf_path():
            raise BadInput("-M: metrics need one machine, and a perf on the PATH that has tables of it")
        return [text for name in names for text in self.tables_of(machines[0]).metric_groups(name)]

    def tables_of(self, machine: Machine) -> perf_tables.Tables:
        if machine.name not in self.tables:
            self.tables[machine.name] = self.stack.enter_context(perf_tables.Tables(machine, self.has_watchdog))
        return self.tables[machine.name]

    def unknown(self, event: Typed, machine: Machine) -> BadInput:
        """The refusal of a name that is not known, with what to type."""
        name = event.name or event.terms
        if event.form == "aliased":
            return event.refuse(f"no PMU is called {name!r}; there is {machine.pmu}, and no event has this name either")
        if not machine.has_codes:
            hint = f"--list says what it knows, and --mask {name}=HEX gives an event its counters"
            return event.refuse(f"{name!r} is no event that {machine.name} knows; {hint}")
        code = "type its code, as rUUEE or cpu/event=0xEE,umask=0xUU/".replace("cpu", machine.pmu)
        if not perf_tables.has_tables(machine):
            return event.refuse(f"{name!r} is no name in the file of {machine.name}; {code}")
        path = perf_tables.perf_path()
        if not path:
            why = "the names of perf's tables need perf on the PATH"
            return event.refuse(f"{name!r} is no name in the file of {machine.name}, and {why}; {code}")
        version = perf_tables.version_of(path)
        return event.refuse(f"perf {version} knows no event {name!r} on {machine.name} ({machine.identity}); {code}")


def config_of_type(kind: int, config: int, config1: int, machine: Machine, text: str) -> tuple[int, int, str]:
    """The config and the config1 of an attribute of a core's type, and why Linux refuses it: `text` is its name."""
    if kind == RAW_TYPE:
        return config, config1, ""
    if kind == HARDWARE_TYPE and config < len(HARDWARE) and HARDWARE[config] in machine.hardware:
        return machine.hardware[HARDWARE[config]], 0, ""
    cache, operation, result = config & 0xFF, config >> 8 & 0xFF, config >> 16
    if kind == CACHE_TYPE and cache < len(NUMBERED_CACHES) and operation < 3 and result < 2:
        name = numbered_cache(NUMBERED_CACHES[cache], operation, result)
        if name in machine.cache:
            return (*machine.cache[name], "")
    return 0, 0, f"Linux has no event {text} on {machine.name}"


def is_of_slots(config: int) -> bool:
    """Whether a config is slots or a part of them, whatever its flags."""
    return config & 0xFFFF in (SLOTS, *PARTS_OF_SLOTS)


def terms_of_name(name: str, machine: Machine) -> str:
    """The terms that the file gives a name, whatever its letters' case."""
    return next((text for known, text in machine.names.items() if known.lower() == name.lower()), "")


def numbered_cache(cache: str, operation: int, result: int) -> str:
    words = ("load", "store", "prefetch")[operation]
    return cache_event(f"{cache}-{words}{'-misses' if result else ''}") or ""


def number_of(text: str, event: Typed, at: int) -> int:
    """The value of a term."""
    if not re.fullmatch(NUMBER, text):
        raise event.source.refuse(f"the value {text!r} has to be a number, as 0x3c or 60", at)
    return int(text, 16 if text.startswith("0x") else 10)


def fitting(value: int, bits: tuple[int, ...], event: Typed, at: int) -> int:
    """The value, where the term has room for it."""
    if value >> len(bits):
        raise event.source.refuse(f"the value is too big: the term has {len(bits)} bits", at)
    return value


def unknown_term(name: str, machine: Machine) -> str:
    known = listed([*machine.terms, *CONFIGS, *PASSED_TERMS])
    return f"the term {name!r} is not known on {machine.name}; {known} are"


def code_of(config: int) -> str:
    """A config as a raw code."""
    return f"r{config:x}"
