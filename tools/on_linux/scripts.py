"""Cases, and how their scripts are written."""

from collections.abc import Collection, Iterable, Iterator, Mapping, Sequence
from typing import NamedTuple, TypeAlias

from perfscript import Draft

KIND = "faults"


class Case(NamedTuple):
    """A script, how it is done on the kernel, and the rows of docs/LINUX.md that it may show.

    A case that has rows is made to show one of them. With None it may show any row.
    """

    group: str
    name: str
    text: str
    options: Collection[str] = ()
    shows: Collection[str] | None = ()


Cases: TypeAlias = Iterator[Case]


def order(text: str, counts: Mapping[str, int]) -> list[str]:
    """The acts of a short text, in which `t0*3` stands for `t0 t0 t0`, and behind them what is left of each actor."""
    acts: list[str] = []
    for word in text.split():
        actor, _, count = word.partition("*")
        acts += [actor] * int(count or 1)
    return acts + [actor for actor, left in counts.items() for _ in range(left - acts.count(actor))]


def script(
    tool: Sequence[str],
    work: Mapping[int, Sequence[str]] | None = None,
    acts: str = "",
    cpus: int = 1,
    tasks: Iterable[int] = (0,),
    rings: Iterable[int] = (),
    kinds: Iterable[str] = (f"kind {KIND} mask=ffff",),
) -> str:
    """A script of one tool. `work` has the lines of each processor; `rings` the sizes of rings in bytes. `acts` is the
    order's beginning; what it leaves out is done behind it."""
    head = ["perf 1", f"machine cpus={cpus} counters=16", *kinds, *(f"task {task}" for task in tasks)]
    head += [f"ring {ring} bytes={size}" for ring, size in enumerate(rings)]
    lines = {f"p{cpu}": list(own) for cpu, own in (work or {}).items()} | {"t0": list(tool)}
    return Draft(head, lines, order=order(acts, {actor: len(own) for actor, own in lines.items()})).text()


def opened(slot: int, task: int | str = 0, cpu: int | str = "any", leader: int | None = None,
           period: int | None = None, sample: int = 0, format: int = 0, flags: str = "") -> str:
    """An `open` line."""
    words = [f"open {slot} kind={KIND} task={task} cpu={cpu}"]
    words += [f"{name}={value}" for name, value in (("leader", leader), ("period", period)) if value is not None]
    words += [f"{name}={bits:x}" for name, bits in (("sample", sample), ("format", format)) if bits]
    return " ".join(words + [f"flags={flags}"] * bool(flags))


def user(pages: int) -> str:
    return f"work 10 user {KIND}={pages}"
