"""What an attribute of perf_event_open(2) asks for on a machine, and the machine as a scenario of the double."""

from __future__ import annotations

import errno
import struct
from dataclasses import dataclass, replace

from double.attributes import Attribute, Translator
from double.scenario import Scenario
from fit.codes import Counters
from fit.events import HARDWARE
from fit.machines import Machine
from fit.meanings import CACHE_TYPE, HARDWARE_TYPE, NOTHING, RAW_TYPE, Meanings, Need, config_of_type
from fit.plan import not_of_a_task, watchdog_mask
from fit.stand_in import OF_ALL
from perfscript.names import FLAGS, SOFTWARE, SOFTWARE_NAMES

ATTRIBUTE = struct.Struct("<IIQQQQQIIQQ")
DUMMY = 9
PRECISE_SHIFT, PRECISE = 15, 3 << 15
# read without effect: events that leave out idle time or the host take a counter as all others do
WITHOUT_EFFECT = 1 << 7 | PRECISE | 1 << 19
TIMES = 3


@dataclass(frozen=True)
class Given:
    """What perf gives perf_event_open(2) for an event."""

    type: int
    config: int
    config1: int
    flags: int

    @classmethod
    def of(cls, data: bytes) -> Given:
        of_type, _, config, _, _, _, flags, _, _, config1, _ = ATTRIBUTE.unpack(data.ljust(72, b"\0")[:72])
        return cls(of_type, config, config1, flags)

    @property
    def precise(self) -> int:
        return (self.flags & PRECISE) >> PRECISE_SHIFT

    @property
    def is_core(self) -> bool:
        """Whether it is of a type whose events a core's counters count."""
        return self.type in (HARDWARE_TYPE, CACHE_TYPE, RAW_TYPE)

    @property
    def kept(self) -> tuple[int, ...]:
        """What stays where perf asks again for the same event, with less precision or fewer bits."""
        modes = sum(1 << FLAGS[name] for name in ("pinned", "exclusive", "exclude_user", "exclude_kernel"))
        return self.type, self.config, self.config1, self.flags & modes

    @property
    def words(self) -> tuple[str, ...]:
        """The flags of an open in a script."""
        names = ("pinned", "exclusive", "exclude_user", "exclude_kernel")
        return tuple(name for name in names if self.flags >> FLAGS[name] & 1)

    @property
    def text(self) -> str:
        """The event as `perf stat -e` takes it, where perf has not said its name."""
        if self.type == HARDWARE_TYPE and self.config < len(HARDWARE):
            return HARDWARE[self.config]
        return f"r{self.config:x}" if self.type == RAW_TYPE else f"{self.type}:{self.config:#x}"


@dataclass(frozen=True)
class CoreAttribute(Attribute):
    """An attribute as the double takes it, what perf gave, and what that needs of the machine."""

    asked: Given
    need: Need

    @property
    def is_counted(self) -> bool:
        """Whether it takes a counter of the core."""
        return self.need.is_core and bool(self.need.counters.mask)

    def as_dummy(self) -> CoreAttribute:
        """The same, counting nothing: for what needs no counter."""
        sent = struct.pack("<I", SOFTWARE) + self.sent[4:8] + struct.pack("<Q", DUMMY) + self.sent[16:]
        return replace(self, sent=sent, name=SOFTWARE_NAMES[DUMMY])


    def second(self, kind: int | None) -> bytes:
        """The bytes of a sibling of this kind, or without one that counts nothing."""
        alone = sum(1 << FLAGS[name] for name in ("disabled", "pinned", "exclusive"))
        fields = list(ATTRIBUTE.unpack(self.sent.ljust(72, b"\0")[:72]))
        fields[0], fields[2] = (SOFTWARE, DUMMY) if kind is None else (RAW_TYPE, kind)
        fields[6] &= ~alone
        return ATTRIBUTE.pack(*fields)[: len(self.sent)] + self.sent[72:]


class CoreTranslator(Translator):
    """Makes attributes for the program: of an event of the core a kind that has its counters, of others a software
    event."""

    machine: Machine
    meanings: Meanings
    is_checked = True

    def check(self, sent: bytes) -> None:
        if self.is_checked:
            super().check(sent)

    def attribute(self, given: bytes) -> CoreAttribute:
        asked = Given.of(given)
        need = self.need_of(asked)
        fields = list(ATTRIBUTE.unpack(given.ljust(72, b"\0")[:72]))
        fields[8:] = [0, 0, 0]
        if need.is_core and need.counters.mask:
            fields[0], fields[2] = RAW_TYPE, kinds_of(self.machine)[need.counters.mask]
        elif asked.type != SOFTWARE or asked.config not in SOFTWARE_NAMES:
            fields[0], fields[2] = SOFTWARE, DUMMY
        made = super().attribute(ATTRIBUTE.pack(*fields)[: len(given)] + given[72:])
        return CoreAttribute(**vars(made), asked=asked, need=need)

    def need_of(self, asked: Given) -> Need:
        """What an event needs of the machine."""
        if not asked.is_core:
            return NOTHING
        config, config1, refused = config_of_type(asked.type, asked.config, asked.config1, self.machine, asked.text)
        if refused:
            return Need(refused=refused)
        return self.meanings.need_of_config(config, config1, asked.precise, self.machine)


def for_a_task(attribute: CoreAttribute, others: dict[int, str]) -> CoreAttribute:
    """An attribute that is for a task, where its PMU, one of these by its type, counts for all tasks of a processor."""
    pmu = others.get(attribute.asked.type, "")
    if not pmu.startswith(OF_ALL):
        return attribute
    return replace(attribute, need=Need(is_core=False, refused=not_of_a_task(pmu)))


def error_of(need: Need) -> int:
    """With which errno Linux refuses an event that the machine does not have."""
    return errno.ENOENT if need.refused.startswith("Linux has no event") else errno.EINVAL


def kinds_of(machine: Machine) -> dict[int, int]:
    """The kinds of the machine's events, numbered: events of equal counters are one kind."""
    every = [Counters(machine.all_general), *(row.counters for row in machine.rows)]
    masks = {watchdog_mask(machine)} if machine.watchdog else set()
    for counters in every:
        masks |= {counters.mask}
        masks |= {counters.mask << 1} if "pair" in counters.marks else set()
        masks |= {counters.mask & 1 << 2} if "in_tx_cp" in machine.terms else set()
    return {mask: number for number, mask in enumerate(sorted(masks - {0}))}


def scenario_of(machine: Machine) -> Scenario:
    """The machine as a scenario in which nothing happens by itself."""
    kinds = kinds_of(machine)
    cpus = max(machine.processors) + 1
    head = ["perf 1", f"machine cpus={cpus} counters={machine.counters}"]
    head += [f"kind k{number} mask={machine.asked_mask(mask):x}" for mask, number in kinds.items()]
    found = {(RAW_TYPE, number): (number, f"k{number}") for number in kinds.values()}
    return Scenario(machine.name, head, [], found, WITHOUT_EFFECT, [], cpus)


def watchdog_line(machine: Machine, slot: int, processor: int) -> str:
    """The open of the watchdog's event: pinned, and on a processor for all tasks."""
    kind = kinds_of(machine)[watchdog_mask(machine)]
    fields = (RAW_TYPE, 64, kind, 0, 0, TIMES, 1 << FLAGS["pinned"], 0, 0, 0, 0)
    return f"open {slot} attr={ATTRIBUTE.pack(*fields)[:64].hex()} task=all cpu={processor}"
