"""Scripts, reports and the program, for every tool.

    names       what perf_event_open(2) and the reports call things: kinds, flags, sample and format bits, refusals
    limits      the ranges of docs/SCRIPT.md, and what a script holds at most
    script      lines_of(text) takes a text apart, and nothing else does: a list of `Line`
                Script(text) reads it: cpus, pmus, kinds, tasks, rings, readers, lines by actor, order, acts()
                Draft writes one: act("t0", "read 0") adds a line that is done next, and gives its key ("t0", 3);
                look(ring, place) adds a look at a tail; text() is the script so far
    attributes  Attribute(line, kinds) is what an `open` asks for, by words or by bytes; bytes_of(..) makes bytes
    follow      Follow(script, report).run(): which events are open, their ids and rings, copies over forks and exits
    report      Report(text): order; replies[("t0", 3)] with its head and words; rings[0] with its records
                Record: words, the header first, 64 bits each; type, misc, size in bytes; is_taken; end in bytes
                rows_of(table): the rows of `stat` by slot: value, enabled, running, estimate
    program     program_at(path_or_None) gives the program: the one of --program, that of PERF_RUN, the built one, or
                `rt try`; built_at(path_or_None) gives it where `rt try` would be too slow
                call("replay", text) and outcomes([("stat", text), ..]) give `Outcome`s: status, out, note
                report(text) and table(text) are of a script that has to be done
    live        Live(head) asks perf_live line by line: tool(0, "read 0") and cpu(0, "tick") give `Answer`s, which have a
                verdict, words, reason, numbers, seats; at its end all answers are compared with one replay
    progress    elapsed seconds, or n of N, on a terminal
    command     --help, --version, --program, and one line with status 2 for what is wrong with the input
    faults      Fault: that line

A key is an actor and the number of the line among that actor's lines, from 0. An actor is `p0` .. `p7` or `t0` .. `t3`.
Times are in the script's units of work, rings' places and sizes in bytes.
"""

from perfscript.faults import Fault
from perfscript.live import Answer, Live
from perfscript.program import Outcome, Program, built_at, program_at
from perfscript.report import Record, Reply, Report, Ring, Row, rows_of
from perfscript.script import Act, Draft, Key, Kind, Line, Look, Pmu, Reader, Script, lines_of

VERSION = "1.0.0"

__all__ = [
    "Act", "Answer", "Draft", "Fault", "Key", "Kind", "Line", "Live", "Look", "Outcome", "Pmu", "Program", "Reader",
    "Record", "Reply", "Report", "Ring", "Row", "Script", "VERSION", "built_at", "lines_of", "program_at", "rows_of",
]
