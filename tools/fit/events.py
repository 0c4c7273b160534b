"""Reads lists of events as `perf stat -e` takes them."""

from __future__ import annotations

import re
from collections.abc import Sequence
from dataclasses import dataclass

from fit.faults import BadInput, at_place

MODIFIERS = "ukhpPGHSDIWeb"
MOST_PRECISE = 3
# perf's other names for the same events
SAME_AS = {
    "cpu-cycles": "cycles",
    "branch-instructions": "branches",
    "idle-cycles-frontend": "stalled-cycles-frontend",
    "idle-cycles-backend": "stalled-cycles-backend",
    "faults": "page-faults",
    "cs": "context-switches",
    "migrations": "cpu-migrations",
}
HARDWARE = (
    "cycles", "instructions", "cache-references", "cache-misses", "branches", "branch-misses", "bus-cycles",
    "stalled-cycles-frontend", "stalled-cycles-backend", "ref-cycles",
)
SOFTWARE = (
    "cpu-clock", "task-clock", "page-faults", "context-switches", "cpu-migrations", "minor-faults", "major-faults",
    "alignment-faults", "emulation-faults", "dummy", "bpf-output", "cgroup-switches",
)
# what perf measures itself
TOOL_EVENTS = ("duration_time", "user_time", "system_time")
# PMUs that are none of a core's, by how their names begin
OTHER_PMUS = (
    "uncore", "cbox", "power", "msr", "cstate_", "intel_pt", "intel_bts", "ibs_", "amd_l3", "amd_df", "amd_iommu",
    "amd_umc", "i915", "kprobe", "uprobe", "breakpoint", "tracepoint", "software", "smmuv3_", "arm_cmn", "arm_dsu",
    "arm_spe", "cs_etm", "hisi_", "imx8_", "dmc620",
)
CACHES = {
    "L1-dcache": ("L1-dcache", "l1-d", "l1d", "L1-data"),
    "L1-icache": ("L1-icache", "l1-i", "l1i", "L1-instruction"),
    "LLC": ("LLC", "L2"),
    "dTLB": ("dTLB", "d-tlb", "Data-TLB"),
    "iTLB": ("iTLB", "i-tlb", "Instruction-TLB"),
    "branch": ("branch", "branches", "bpu", "btb", "bpc"),
    "node": ("node",),
}
CACHE_OPS = {
    "load": ("load", "loads", "read"),
    "store": ("store", "stores", "write"),
    "prefetch": ("prefetch", "prefetches", "speculative-read", "speculative-load"),
}
CACHE_RESULTS = {"access": ("refs", "Reference", "ops", "access"), "miss": ("misses", "miss")}
# perf has no stores of instructions
OPS_OF = {"L1-icache": ("load", "prefetch"), "iTLB": ("load",), "branch": ("load",)}

NUMBER = r"0x[0-9a-fA-F]+|[0-9]+"
SLASHED = re.compile(r"(?P<head>[^,{}/]+)/(?P<terms>[^/]*)/(?P<modifiers>[^,{}/]*)")
NUMERIC = re.compile(rf"(?P<type>{NUMBER}):(?P<config>{NUMBER})(?P<rest>:.*)?")
RAW = re.compile(r"r[0-9a-fA-F]+")
TRACEPOINT = re.compile(r"[A-Za-z_*?][\w*?.-]*:[A-Za-z_*?][\w*?.!]*(?P<rest>:.*)?")
BREAKPOINT = re.compile(rf"mem:(?:{NUMBER})(?:/(?:{NUMBER}))?(?::[rwx]{{1,3}})?(?P<rest>:.*)?")
NAMED = re.compile(r"(?P<name>[^:/]+?)\s*(?::(?P<modifiers>[^:/]*))?")


def canonical(name: str) -> str:
    """The name that the tables have for this one."""
    return SAME_AS.get(name, name)


def is_general(name: str) -> bool:
    """Whether perf knows the name on all machines."""
    return canonical(name) in HARDWARE + SOFTWARE or name in TOOL_EVENTS or cache_event(name) is not None


def cache_event(text: str) -> str | None:
    """The name that `perf list` has for a cache event, none where perf knows none of this name."""
    if text in SAME_AS or text in HARDWARE:
        return None
    for cache, spellings in CACHES.items():
        for spelling in spellings:
            if text == spelling or text.startswith(spelling + "-"):
                return cache_name(cache, text[len(spelling) + 1 :])
    return None


def cache_name(cache: str, rest: str) -> str | None:
    """The name of a cache event whose words behind the cache are these: at most two, an operation and a result."""
    words = {word: ("op", op) for op, every in CACHE_OPS.items() for word in every}
    words |= {word: ("result", result) for result, every in CACHE_RESULTS.items() for word in every}
    found, count = {"op": "load", "result": "access"}, 0
    while rest:
        word = max((word for word in words if rest == word or rest.startswith(word + "-")), key=len, default=None)
        if word is None or count == 2:
            return None
        kind, value = words[word]
        if kind == "op" and count:
            return None
        found[kind] = value
        rest, count = rest[len(word) + 1 :], count + 1
    if found["op"] not in OPS_OF.get(cache, tuple(CACHE_OPS)):
        return None
    if found["result"] == "miss":
        return f"{cache}-{found['op']}-misses"
    return f"{cache}-{found['op']}{'es' if found['op'] == 'prefetch' else 's'}"


@dataclass(frozen=True)
class Source:
    """An `-e` option: its name in messages, and its text."""

    option: str
    text: str

    def refuse(self, reason: str, start: int) -> BadInput:
        """The refusal of what stands at this index."""
        return at_place(reason, self.option, self.text, start + 1)


@dataclass(frozen=True)
class Typed:
    """An event as it was typed, and where its name and its modifiers begin.

    `form` is name, slashed, raw, numeric, tracepoint or breakpoint. `pmu` stands before a slash, `terms` behind it.
    """

    text: str
    form: str
    pmu: str
    name: str
    terms: str
    modifiers: str
    source: Source
    start: int
    modifiers_start: int

    @property
    def kind(self) -> str:
        """The name under which a machine knows it."""
        return canonical(self.name)

    @property
    def is_other(self) -> bool:
        """Whether it is of a PMU that is none of a core's."""
        return self.form == "slashed" and any(self.pmu.startswith(word) for word in OTHER_PMUS)

    @property
    def needs_no_counter(self) -> bool:
        """Whether no counter of a core counts it: software events, tracepoints, breakpoints and other PMUs."""
        is_software = self.kind in SOFTWARE or self.name in TOOL_EVENTS
        if self.form == "numeric":
            return int(self.pmu, 0) not in (0, 3, 4)
        return self.is_other or self.form in ("tracepoint", "breakpoint") or (not self.pmu and is_software)

    @property
    def precise(self) -> int:
        return self.modifiers.count("p")

    def refuse(self, reason: str) -> BadInput:
        return self.source.refuse(reason, self.start)


@dataclass(frozen=True)
class TypedGroup:
    """A leader and its siblings, as they were typed, and the modifiers behind the brace."""

    events: tuple[Typed, ...]
    modifiers: str
    has_braces: bool


def read_lists(texts: Sequence[str]) -> list[TypedGroup]:
    """The groups of all `-e` options, in order."""
    groups: list[TypedGroup] = []
    for number, text in enumerate(texts, 1):
        source = Source("-e" if len(texts) == 1 else f"-e number {number}", text)
        groups += read_list(source)
    return groups


def read_list(source: Source) -> list[TypedGroup]:
    """The groups of one list: events and groups in braces, with commas between."""
    groups: list[TypedGroup] = []
    at, text = 0, source.text
    while True:
        group, at = read_item(source, skip_spaces(text, at))
        groups.append(group)
        at = skip_spaces(text, at)
        if at == len(text):
            return groups
        if text[at] != ",":
            raise source.refuse(f"a comma has to stand here, not {text[at]!r}", at)
        at += 1


def skip_spaces(text: str, at: int) -> int:
    while at < len(text) and text[at].isspace():
        at += 1
    return at


def read_item(source: Source, at: int) -> tuple[TypedGroup, int]:
    """The event or the group in braces that begins at this index, and the index behind it."""
    name = re.compile(r"[A-Za-z_*?][\w*?.]*\s*(?={)").match(source.text, at)
    at = name.end() if name else at
    if source.text[at : at + 1] != "{":
        event, end = read_event(source, at)
        return TypedGroup((event,), "", False), end
    events: list[Typed] = []
    at += 1
    while True:
        event, at = read_event(source, skip_spaces(source.text, at))
        events.append(event)
        at = skip_spaces(source.text, at)
        mark = source.text[at : at + 1]
        if mark == "}":
            break
        if mark != ",":
            raise source.refuse("a group's end } is missing" if not mark else "a group may not hold a group", at)
        at += 1
    modifiers, end = read_group_modifiers(source, at + 1)
    return TypedGroup(tuple(events), modifiers, True), end


def read_group_modifiers(source: Source, at: int) -> tuple[str, int]:
    """The modifiers behind a closing brace, and the index behind them."""
    if source.text[at : at + 1] != ":":
        return "", at
    found = re.compile(r"[^,{}]*").match(source.text, at + 1)
    assert found
    modifiers = found.group().rstrip()
    if not modifiers:
        raise source.refuse("modifiers have to stand behind the colon of a group, as u in {..}:u", at)
    check_modifiers(modifiers, source, at + 1)
    return modifiers, found.end()


def end_of_event(text: str, at: int) -> int:
    """The index behind an event: a comma between slashes belongs to it."""
    is_inside = False
    while at < len(text) and (is_inside or text[at] not in ",{}"):
        is_inside ^= text[at] == "/"
        at += 1
    return at


def read_event(source: Source, at: int) -> tuple[Typed, int]:
    """The event that begins at this index, and the index behind it."""
    end = end_of_event(source.text, at)
    text = source.text[at:end].rstrip()
    if not text:
        raise source.refuse("an event is missing here", at)
    if text.startswith("mem:"):
        end = at + len(re.compile(r"[^,{}]*").match(source.text, at).group())  # type: ignore[union-attr]
        text = source.text[at:end].rstrip()
    return typed_of(text, source, at), end


def typed_of(text: str, source: Source, at: int) -> Typed:
    """What kind of event a text is."""
    if found := SLASHED.fullmatch(text):
        return slashed(found, source, at)
    for form, pattern in (("breakpoint", BREAKPOINT), ("numeric", NUMERIC)):
        if found := pattern.fullmatch(text):
            return with_rest(form, found, source, at)
    found = NAMED.fullmatch(text)
    if found and (is_general(found["name"]) or RAW.fullmatch(found["name"]) or is_modified(found["modifiers"])):
        return named(found, source, at)
    if found := TRACEPOINT.fullmatch(text):
        return with_rest("tracepoint", found, source, at)
    if not (found := NAMED.fullmatch(text)):
        forms = "NAME, NAME:MODIFIERS, PMU/TERMS/MODIFIERS, rCODE or SYSTEM:TRACEPOINT"
        raise source.refuse(f"{text!r} is no event: it has to be {forms}", at)
    return named(found, source, at)


def is_modified(modifiers: str | None) -> bool:
    return modifiers is None or not set(modifiers) - set(MODIFIERS)


def named(found: re.Match[str], source: Source, at: int) -> Typed:
    """An event by its name or raw code."""
    modifiers = found["modifiers"] or ""
    start = at + (found.start("modifiers") if found["modifiers"] is not None else found.end())
    check_modifiers(modifiers.strip(), source, start)
    form = "raw" if RAW.fullmatch(found["name"]) else "name"
    return Typed(found.group(), form, "", found["name"], "", modifiers.strip(), source, at, start)


def slashed(found: re.Match[str], source: Source, at: int) -> Typed:
    """An event with a PMU or a general name before a slash."""
    head, terms, modifiers = found["head"].strip(), found["terms"].strip(), found["modifiers"].strip()
    start = at + found.start("modifiers")
    if modifiers.startswith(":"):
        raise source.refuse("no colon stands between a slash and modifiers; leave it out", start)
    check_modifiers(modifiers, source, start)
    if is_general(head):
        check_common_terms(terms, source, at + found.start("terms"))
        return Typed(found.group(), "name", "", head, terms, modifiers, source, at, start)
    if RAW.fullmatch(head):
        check_common_terms(terms, source, at + found.start("terms"))
        return Typed(found.group(), "raw", "", head, terms, modifiers, source, at, start)
    return Typed(found.group(), "slashed", head, "", terms, modifiers, source, at + found.start("terms"), start)


COMMON_TERMS = ("name", "period", "percore", "metric-id")


def check_common_terms(terms: str, source: Source, at: int) -> None:
    """Refuses a term that an event without a PMU can't have."""
    for term in terms.split(",") if terms else []:
        name = term.partition("=")[0].strip()
        if name not in COMMON_TERMS:
            known = ", ".join(COMMON_TERMS)
            raise source.refuse(f"the term {name!r} is not known here; {known} are, and more behind a PMU", at)
        at += len(term) + 1


def with_rest(form: str, found: re.Match[str], source: Source, at: int) -> Typed:
    """An event whose text ends in a colon and modifiers, or has none."""
    rest = found["rest"] or ""
    start = at + (found.start("rest") + 1 if rest else found.end())
    check_modifiers(rest[1:].strip(), source, start)
    pmu = found["type"] if form == "numeric" else ""
    return Typed(found.group(), form, pmu, found.group(), "", rest[1:].strip(), source, at, start)


def check_modifiers(modifiers: str, source: Source, start: int) -> None:
    """Refuses a modifier that perf does not know, or that stands twice."""
    for index, letter in enumerate(modifiers):
        if letter not in MODIFIERS:
            raise source.refuse(f"the modifier {letter!r} is not known; {', '.join(MODIFIERS)} are", start + index)
        if letter in modifiers[:index] and letter != "p":
            raise source.refuse(f"the modifier {letter!r} stands twice", start + index)
        if modifiers[: index + 1].count("p") > MOST_PRECISE:
            raise source.refuse("p stands more than three times", start + index)


def modes_left_out(own: str, of_group: str) -> tuple[bool, bool]:
    """Whether user mode and whether kernel mode is left out, after the event's own modifiers and then its group's."""
    left = dict.fromkeys("ukh", False)
    for modifiers in (own, of_group):
        is_open = not any(left.values())
        for letter in modifiers:
            if letter in left and is_open:
                left, is_open = dict.fromkeys("ukh", True), False
            if letter in left:
                left[letter] = False
    return left["u"], left["k"]
