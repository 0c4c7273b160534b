"""Cases over all of something: formats, layouts of records, reasons to refuse an open, full rings."""

import tomllib
from itertools import combinations, product
from pathlib import Path
from typing import Any

from on_linux.kernel import PAGE
from on_linux.scripts import Case, Cases, opened, script, user
from perfscript.names import FIELDS, FORMAT_GROUP, TRAILER_FIELDS

# the reasons to refuse an `open`, each with the words for which it holds, and what each family's tool does
TABLES = tomllib.loads(Path(__file__).with_suffix(".toml").read_text("ascii"))
REASONS: dict[str, dict[str, Any]] = TABLES["reasons"]
COMMANDS: dict[str, str] = TABLES["commands"]
OF_LEADERS = {"ECONTEXT", "EFLAGS", "EINHERIT"}
# Linux looks at the leader's descriptor before the task and the place
ROWS = {("ESRCH", "EBADF"): ["leader-before-task"], ("ENOPLACE", "EBADF"): ["leader-before-place"]}


def of_reasons(*names: str) -> list[str]:
    """A tool's lines, the last an open for which all these reasons hold; none where two give one word other values."""
    found: dict[str, Any] = {}
    for key, value in (pair for name in names for pair in REASONS[name].items()):
        if key == "flags" and key in found:
            value = ",".join(sorted({found[key], value}))
        elif found.get(key, value) != value:
            return []
        found[key] = value
    if OF_LEADERS & set(names):
        found.setdefault("leader", 0)
    return [opened(0), opened(1, leader=0), opened(2, **found)]


def one_reason() -> Cases:
    for name in REASONS:
        yield Case("opens refused: one reason", name, script(of_reasons(name)))


def two_reasons() -> Cases:
    for names in combinations(REASONS, 2):
        lines, rows = of_reasons(*names), ROWS.get(names, ())
        if lines:
            yield Case("opens refused: the first of two reasons", "-".join(names), script(lines), shows=rows)


def formats_alone() -> Cases:
    for form in range(32):
        tool = [opened(0, format=form, flags="disabled"), opened(1, format=form)]
        tool += ["read 0", "read 1", "enable 0", "read 0", "read 1"]
        text = script(tool, {0: ["switch 0", user(7), user(4)]}, "t0*2 p0*2 t0*3 p0 t0*2")
        yield Case("reads alone: all formats", f"format-{form:x}", text)


def formats_of_group() -> Cases:
    for form in range(32):
        tool = [opened(0, format=form), opened(1, leader=0, format=form)]
        tool += [opened(2, leader=0, format=form, flags="disabled"), "read 0", "read 1", "enable 2", "read 2", "read 0"]
        text = script(tool, {0: ["switch 0", user(7), user(4)]}, "t0*3 p0*2 t0*3 p0 t0*2")
        yield Case("reads of a group: all formats", f"format-{form:x}", text)


def sizes() -> Cases:
    """Buffers about as large as a read of two members has bytes."""
    for form in (0, 0x1F, 0x7, 0x8, 0x17, 0xF):
        each = 1 + (form & 0x14).bit_count()
        most = 8 * ((form & 3).bit_count() + (1 + 2 * each if form & FORMAT_GROUP else each))
        tool = [opened(0, format=form), opened(1, leader=0, format=form)]
        tool += [f"read 0 size={size}" for size in (0, most - 8, most - 1, most, most + 1)]
        text = script(tool, {0: ["switch 0", user(2)]}, "t0*2 p0*2 t0*5")
        yield Case("reads: sizes of buffers", f"format-{form:x}", text)


def families() -> Cases:
    """A parent works and forks, its child works on processor 1, one command follows, and more work."""
    work = {0: ["switch 0", user(5), "fork 1", user(2)], 1: ["switch 1", user(7), user(11), "exit"]}
    acts, twice = "t0 p0*2 t0 p0 p1*2 t0*3 p1 t0 p1 t0 p0 t0", ["read 0", "read 0"]
    all_flags = ("inherit", "inherit,pinned", "disabled,inherit", "inherit,exclude_kernel")
    for flags, form, (name, command) in product(all_flags, (0x3, 0xF), COMMANDS.items()):
        tool = [opened(0, format=form, flags=flags), *twice, command, *twice, "enable 0", "read 0"]
        label = f"{flags.replace(',', '-')}-{form:x}-{name}"
        yield Case("sums over fork and exit", label, script(tool, work, acts, cpus=2))


def some_of(fields: tuple[tuple[int, str], ...], number: int) -> int:
    """The bits of the fields at whose places `number` has a 1."""
    return sum(bit for place, (bit, _) in enumerate(fields) if number >> place & 1)


def layouts() -> Cases:
    work = {0: ["switch 0", user(2), "work 10 kernel faults=1", "switch idle"], 1: ["switch 0", user(1)]}
    for number in range(256):
        sample = some_of(FIELDS, number)
        tool = [opened(0, period=1, sample=sample), "map 0 0"]
        text = script(tool, work, "t0*2 p0*4 p1*2", cpus=2, rings=[PAGE])
        yield Case("samples: all 256 layouts", f"sample-{sample:x}", text)


def size_of(sample: int) -> int:
    """The bytes of a sample with these fields."""
    return 8 + 8 * sample.bit_count()


def overfull(sample: int, lost: int, taken: int, after: int, ring: int = PAGE, flags: str = "") -> str:
    """A ring is filled, `lost` more are sent, the reader takes `taken` records, and `after` more are sent."""
    size = size_of(sample)
    tool = [opened(0, period=1, sample=sample, format=0x10, flags=flags), "map 0 0", "read 0", "read 0"]
    work = {0: ["switch 0", user((ring - 1) // size + lost), *[user(1)] * after]}
    return script(tool, work, f"t0*2 p0*2 t0 s0={size * taken} p0*{after} t0", rings=[ring])


def trailers() -> Cases:
    group = "LOST records: all trailers"
    for number in range(64):
        sample = some_of(TRAILER_FIELDS, number)
        room = 24 + 8 * sample.bit_count() + size_of(sample)
        taken = -(-room // size_of(sample))
        yield Case(group, f"sample-{sample:x}", overfull(sample, 3, taken, 2, flags="sample_id_all"))
    for sample in (0, 0x103C7, 0x1, 0x100):
        yield Case(group, f"no-trailer-{sample:x}", overfull(sample, 2, 9, 3))
        with_trailer = overfull(sample | 0x101, 2, 9, 3, flags="sample_id_all")
        yield Case(group, f"with-IP-or-PERIOD-{sample:x}", with_trailer)


def full_rings() -> Cases:
    for sample, taken in product((0x0, 0x1, 0x3, 0x7, 0x47, 0xC7, 0x103C7), range(1, 7)):
        yield Case("full rings", f"sample-{sample:x}-taken-{taken}", overfull(sample, 2, taken, 4))
    for pages in (2, 4, 8, 16):
        yield Case("full rings", f"pages-{pages}", overfull(0x103C7, 5, 3, 3, ring=min(PAGE * pages, 65536)))
