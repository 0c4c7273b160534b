"""Bad calls of every tool: each ends with status 2 and one line that says what is wrong, and none with a traceback."""

import importlib
import os
import runpy
import shutil
import subprocess
import sys
import tempfile
import traceback
import unittest
import warnings
from concurrent.futures import ThreadPoolExecutor
from unittest import mock

from fit.tests.support import has_perf
from perfscript.program import REPOSITORY
from perfscript.tests.support import DATA, PATH, ProgramTest, program_file

EXAMPLES = os.path.join(DATA, "examples")
SCRIPT, OTHER, REPORT = (os.path.join(EXAMPLES, name) for name in ("full-ring.script", "two-pmus.script", "full-ring.report"))
REFUSED = os.path.join(DATA, "texts-refused", "two-spaces.script")
FIT = ["fit.py", "--counters", "1", "-e", "cycles"]
WITH_PERF = ["fit.py", "-m", "skylake", "--"]
ON_LINUX = ["on_linux"]
LIVE = ["maintain/live_benchmark.py", "--replay", "{program}"]
SCENARIO = os.path.join(REPOSITORY, "tools", "double", "four-groups.scenario")
# words of a call: {false} is a program that fails, {mute} one that writes nothing, {loud} one that writes no report,
# {binary} a file of bytes, {folder} an empty folder, and {program} the program
CALLS = (
    (["timeline.py"], "the following arguments are required: SCRIPT"),
    (["timeline.py", "{program}", "/nonexistent"], "/nonexistent: No such file or directory"),
    (["timeline.py", "{program}", "{folder}"], "Is a directory"),
    (["timeline.py", "/nonexistent", SCRIPT], "--program: /nonexistent is not a file; give the path of the built perf_run"),
    (["timeline.py", "{folder}", SCRIPT], "is not a file; give the path of the built perf_run"),
    (["timeline.py", "{binary}", SCRIPT], "does not start: "),
    (["timeline.py", "{false}", SCRIPT], "replay ended with status 1: no note"),
    (["timeline.py", "{mute}", SCRIPT], "replay printed what can't be read: not a report, which begins with a line `order`"),
    (["timeline.py", "{loud}", SCRIPT], "replay printed what can't be read: not a report"),
    (["timeline.py", "{program}", REFUSED], "perf_run: line 1: FORM; tools/explain.py says why"),
    (["timeline.py", "{program}", "{binary}"], "ASCII; tools/explain.py says why"),
    (["perf_data.py", SCRIPT], "the following arguments are required: FILE"),
    (["perf_data.py", "/nonexistent", REPORT, "{out}"], "/nonexistent: No such file or directory"),
    (["perf_data.py", SCRIPT, "/nonexistent", "{out}"], "/nonexistent: No such file or directory"),
    (["perf_data.py", OTHER, REPORT, "{out}"], "the report's order is not the script's"),
    (["perf_data.py", SCRIPT, SCRIPT, "{out}"], "not a report, which begins with a line `order`"),
    (["perf_data.py", REPORT, REPORT, "{out}"], "script line 2: not understood: t0."),
    (["perf_data.py", "{binary}", REPORT, "{out}"], "script line 1: not understood"),
    (["perf_data.py", SCRIPT, REPORT, "/nonexistent/out"], "/nonexistent/out: No such file or directory"),
    (["perf_data.py", "--program", "{false}", SCRIPT, "{out}"], "replay ended with status 1: no note"),
    (["perf_data.py", "--program", "{program}", REFUSED, "{out}"], "perf_run: line 1: FORM; tools/explain.py says why"),
    (["explain.py", "/nonexistent"], "/nonexistent: No such file or directory"),
    (["explain.py", "--program", "/nonexistent", SCRIPT], "--program: /nonexistent is not a file"),
    (["explain.py", "--program", "{sick}", SCRIPT], "ended with status 4: perf_run: no memory"),
    (["explain.py", "--odd"], "unrecognized arguments: --odd; explain.py --help has the words"),
    ([*FIT, "--program", "/nonexistent"], "--program: /nonexistent is not a file"),
    ([*FIT, "--program", "{false}"], "stat ended with status 1: no note"),
    ([*FIT, "--program", "{loud}"], "stat printed what can't be read: not a table"),
    ([*FIT, "--program", "{program}", "--svg", "/nonexistent/out"], "--svg: /nonexistent/out can't be written"),
    (["fit.py", "-m", "/nonexistent.toml", "-e", "cycles"], "/nonexistent.toml can't be read: No such file or directory"),
    (["fit.py", "-m", "{binary}.toml", "-e", "cycles"], "binary.toml is no TOML file"),
    (["fit.py", "--odd"], "unrecognized arguments: --odd; fit.py --help has the words"),
    (ON_LINUX, "give --all, or scripts; on_linux --help has the words"),
    ([*ON_LINUX, "/nonexistent"], "/nonexistent: No such file or directory"),
    ([*ON_LINUX, "{binary}"], "is not ASCII"),
    ([*ON_LINUX, "--program", "/nonexistent", SCRIPT], "--program: /nonexistent is not a file"),
    ([*ON_LINUX, "--report", "/nonexistent", SCRIPT], "/nonexistent: No such file or directory"),
    (["maintain/run_then_replay.py", "{program}"], "1 words do not do; run_then_replay.py --help has the usage"),
    (["maintain/run_then_replay.py", "{program}", "/nonexistent"], "/nonexistent: No such file or directory"),
    (["maintain/run_then_replay.py", "/nonexistent", SCRIPT], "--program: /nonexistent is not a file"),
    (["maintain/seated_reports.py", "{program}", "/nonexistent", "{folder}"], "/nonexistent: No such file or directory"),
    (["maintain/seated_reports.py", "{false}", EXAMPLES, "{folder}"], "status 1, and another report"),
    (["maintain/worked_cases.py", "odd"], "odd: not known; worked_cases.py --help has the words"),
    (["maintain/worked_cases.py", "call", "group", "/nonexistent"], "No such file or directory"),
    (["maintain/script_terms.py", "odd"], "1 words do not do"),
    (["maintain/definition_lines.py", "odd"], "odd: not known; definition_lines.py --help has the words"),
    (["maintain/layers.py", "odd"], "odd: not known; layers.py --help has the words"),
    (["maintain/missing_answers.py", "odd"], "crates/odd/must-fail: no such folder"),
    (["maintain/cited_definitions.py", "odd"], "1 words do not do"),
    (["maintain/replay_benchmark.py", "{false}"], "make 1000 script ended with status 1: no note"),
    (["maintain/compare_benchmark.py", "{false}"], "1 words do not do; compare_benchmark.py --help has the usage"),
    (["maintain/compare_benchmark.py", "{false}", "/nonexistent"], "--program: /nonexistent is not a file"),
    (["maintain/refused_memory.py", "/nonexistent"], "--program: /nonexistent is not a file"),
    (["maintain/failing_calls.py", "/nonexistent"], "--program: /nonexistent is not a file"),
    (["maintain/check_machines.py"], "0 words do not do; check_machines.py --help has the usage"),
    (["maintain/check_machines.py", "/nonexistent"], "/nonexistent: the tree does not have /nonexistent/arch/x86"),
    (["maintain/trusted.py", "odd"], "odd: not known; trusted.py --help has the words"),
    (["maintain/house_counts.py", "odd"], "1 words do not do; house_counts.py --help has the usage"),
    (["maintain/merge_lemmas.py", "odd"], "odd: not known; merge_lemmas.py --help has the words"),
    (["maintain/repeated_lemmas.py", "odd"], "odd: a number was wanted; repeated_lemmas.py --help has the usage"),
    (["maintain/double_clients.py", "odd"], "unrecognized arguments: odd; double_clients.py --help has the words"),
    (["maintain/double_clients.py", "--seeds", "odd"], "--seeds: odd is not FIRST-LAST, two numbers"),
    (["maintain/double_clients.py", "--jobs", "0"], "argument --jobs: '0' is not a number from 1"),
    (["maintain/double_clients.py", "--program", "/nonexistent"], "--program: /nonexistent is not a file"),
    (["maintain/double_benchmark.py", "odd"], "unrecognized arguments: odd; double_benchmark.py --help has the words"),
    (["maintain/double_benchmark.py", "--live", "/nonexistent"], "--live: /nonexistent is not a file; give"),
    (["maintain/double_benchmark.py", "--program", "/nonexistent"], "--program: /nonexistent is not a file"),
    (["maintain/live_sessions.py", "odd"], "unrecognized arguments: odd; live_sessions.py --help has the words"),
    (["maintain/live_sessions.py", "--seeds", "odd"], "--seeds: odd is not FIRST-LAST, two numbers"),
    (["maintain/live_sessions.py", "--jobs", "0"], "--jobs: 0 is too few; give 1 or more"),
    (["maintain/live_sessions.py", "--program", "/nonexistent"], "--program: /nonexistent is not a file; give"),
    (["maintain/live_sessions.py", "--program", "{false}", "--replay", "/nonexistent"], "--replay: /nonexistent is not"),
    (["maintain/kernel_commands.py", "odd"], "unrecognized arguments: odd; kernel_commands.py --help has the words"),
    (["maintain/kernel_commands.py", "--program", "{folder}"], "is not a file; give the path of the built perf_live"),
    (["maintain/live_benchmark.py", "odd"], "unrecognized arguments: odd; live_benchmark.py --help has the words"),
    (["maintain/live_benchmark.py", "--program", "{folder}"], "is not a file; give the path of the built perf_live"),
    ([*LIVE, "--program", "/bin/true"], "/bin/true does not answer the client in C: the program: "),
    ([*LIVE, "--program", "{binary}"], "binary: Exec format error"),
    (["double.py"], "give a scenario, and the command behind --; double.py --help has the words"),
    (["double.py", "--program", "{program}", "/nonexistent", "--", "true"], "/nonexistent"),
    (["fit.py", "-m", "vax", "-e", "cycles"], "-m: no machine and no model is called 'vax'"),
    (["fit.py", "-m", "skylake", "-M", "no_such_metric"], "-M: "),
    (WITH_PERF, "behind -- has to stand perf stat OPTIONS [COMMAND]"),
    ([*WITH_PERF, "sleep", "1"], "behind -- has to stand perf stat OPTIONS [COMMAND], not 'sleep'"),
    ([*WITH_PERF, "perf", "record", "true"], "not perf with record; --sampling with -e is about perf record"),
    ([*WITH_PERF, "perf-of-none", "stat"], "perf-of-none: No such file or directory; Debian has perf as linux-perf"),
    (["fit.py", "--", "perf", "stat"], "-m: give one machine before `-- perf stat ..`"),
    (["fit.py", "-m", "skylake", "-e", "cycles", "--", "perf", "stat"], "-e: with `-- perf stat ..` events and processors"),
    (["fit.py", "-m", "cortex-a53", "--", "perf", "stat"], "the perf that is here is no perf of cortex-a53"),
    (["fit.py", "-m", "alderlake-core", "--", "perf", "stat"], "alderlake-core as one of two kinds of core"),
    (["maintain/perf_lines.py", "--jobs", "odd"], "argument --jobs: 'odd' is not a number from 1"),
    (["maintain/fit_lists.py", "--jobs", "0"], "argument --jobs: '0' is not a number from 1"),
    (["maintain/fit_lists.py", "--lists", "-1"], "argument --lists: '-1' is not a number from 1"),
    (["maintain/fit_lists.py", "odd"], "-m: no machine and no model is called 'odd'"),
    (["maintain/fit_lists.py", "--program", "/nonexistent"], "--program: /nonexistent is not a file"),
)
# of these perf itself is asked first
if shutil.which("perf"):
    CALLS += (
        ([*WITH_PERF, "perf", "stat", "report"], "perf stat report is about a file; leave report out"),
        ([*WITH_PERF, "perf", "stat", "-C", "0-99"], "-C: '0-99' has to rise and to stay within processors 0 to 7"),
        (["fit.py", "-m", "skylake", "--program", "{folder}", "--", "perf", "stat"], "is not a file; give the path"),
    )
# these compile what starts the program
if shutil.which("cc"):
    CALLS += (
        (["maintain/read_benchmark.py", "/nonexistent"], "/nonexistent does not start: No such file or directory"),
        (["maintain/read_benchmark.py", "{false}"], "replay ended with status 1, no note; wanted: status 1, perf_run: line"),
        (["maintain/start_benchmark.py", "{false}"], "replay ended with status 1, no note; wanted: status 0, no note"),
    )
# of each tool that finds the program by itself: where PERF_RUN names none, a line says so
FIND_IT = [
    ["timeline.py", SCRIPT], ["perf_data.py", SCRIPT, "{out}"], ["explain.py", SCRIPT], FIT, [*ON_LINUX, SCRIPT],
    ["double.py", SCENARIO, "--", "true"], ["maintain/fit_lists.py"], ["maintain/double_clients.py"],
    ["maintain/double_benchmark.py"], ["maintain/live_sessions.py", "--program", "{program}"],
    ["maintain/kernel_commands.py", "--program", "{program}"], ["maintain/live_benchmark.py", "--program", "{program}"],
]
if has_perf():
    FIND_IT += [[*WITH_PERF, "perf", "stat"], ["maintain/perf_lines.py"]]


# what most tools import: a copy of this process has it
IMPORTED = ("double.command", "explain", "fit.command", "on_linux.main", "perf_data", "timeline")
# how many copies run side by side
COPIES = 2 * (os.cpu_count() or 1)


def status_of(path, words):
    """The status of a tool that this process runs as Python runs a command; a traceback goes to standard error."""
    os.chdir(REPOSITORY)
    sys.stdin, sys.stdout, sys.stderr = open(0), open(1, "w"), open(2, "w")
    sys.argv = [path, *words]
    sys.path.insert(0, path if os.path.isdir(path) else os.path.dirname(path))
    status = 0
    try:
        runpy.run_path(path, run_name="__main__")
    except SystemExit as ended:
        status = ended.code or 0
    except BaseException:
        traceback.print_exc()
        status = 1
    sys.stdout.flush()
    sys.stderr.flush()
    return status


class Copy:
    """A call in a copy of this process, which is there sooner than a process that begins anew."""

    def __init__(self, path, words):
        self.files = [tempfile.TemporaryFile("w+") for _ in range(2)]
        self.process = os.fork()
        if self.process == 0:
            status = 1
            # a Python that begins anew says nothing of files that are left open, the tests' own does
            warnings.simplefilter("ignore")
            try:
                for number, file in enumerate([open(os.devnull), *self.files]):
                    os.dup2(file.fileno(), number)
                status = status_of(path, words)
            finally:
                os._exit(status)

    def ended(self):
        """How the call ends."""
        _, status = os.waitpid(self.process, 0)
        said = []
        for file in self.files:
            with file:
                file.seek(0)
                said.append(file.read())
        return subprocess.CompletedProcess([], os.waitstatus_to_exitcode(status), *said)


class BadCalls(ProgramTest):
    @classmethod
    def setUpClass(cls):
        super().setUpClass()
        for name in IMPORTED:
            importlib.import_module(name)
        cls.folder = tempfile.mkdtemp()
        cls.addClassCleanup(shutil.rmtree, cls.folder)
        made = {"false": "exit 1", "mute": "exit 0", "loud": "echo hello", "sick": "echo perf_run: no memory >&2; exit 4"}
        cls.names = {name: program_file(cls.folder, name, f"#!/bin/sh\ncat >/dev/null\n{text}\n") for name, text in made.items()}
        cls.names |= {"program": PATH, "out": os.path.join(cls.folder, "out"), "binary": os.path.join(cls.folder, "binary")}
        cls.names["folder"] = os.path.join(cls.folder, "empty")
        os.mkdir(cls.names["folder"])
        for name in ("binary", "binary.toml"):
            with open(os.path.join(cls.folder, name), "wb") as file:
                file.write(bytes(range(256)))
        os.chmod(cls.names["binary"], 0o755)

    def given(self, words):
        """The path of a tool, and its words."""
        tool, *rest = [word.format(**self.names) for word in words]
        return os.path.join(REPOSITORY, "tools", tool), rest

    def called(self, words):
        """How a call ends that is a process of its own."""
        path, rest = self.given(words)
        call = [sys.executable, path, *rest]
        return subprocess.run(call, cwd=REPOSITORY, capture_output=True, text=True, stdin=subprocess.DEVNULL)

    def check(self, calls, ended):
        """Each call ended with 2, one line that says this, and no output."""
        for (words, said), done in zip(calls, ended, strict=True):
            with self.subTest(words=words):
                self.assertIn(said, done.stderr)
                self.assertEqual((2, "", 1), (done.returncode, done.stdout, done.stderr.count("\n")), done.stderr)
        self.assertFalse(os.path.exists(self.names["out"]))

    def test_the_first_of_each_tool_ends_with_2_and_a_line(self):
        """As a user calls it, by a Python that begins anew."""
        first = list({words[0]: (words, said) for words, said in reversed(CALLS)}.values())
        with ThreadPoolExecutor(os.cpu_count()) as pool:
            self.check(first, pool.map(self.called, [words for words, _ in first]))

    def check_copies(self, every):
        """The same of calls that copies of this process do."""
        for start in range(0, len(every), COPIES):
            calls = every[start : start + COPIES]
            copies = [Copy(*self.given(words)) for words, _ in calls]
            self.check(calls, [copy.ended() for copy in copies])

    def test_each_ends_with_2_and_a_line(self):
        self.check_copies(CALLS)

    def test_each_takes_the_program_of_the_variable(self):
        with mock.patch.dict(os.environ, PERF_RUN="/nonexistent"):
            self.check_copies([(words, "PERF_RUN: /nonexistent is not a file; give the path") for words in FIND_IT])

    def test_each_tool_has_bad_calls(self):
        """Each file of tools/ that is a command."""
        tools = os.path.join(REPOSITORY, "tools")
        found = {"on_linux"}
        for folder in ("", "maintain"):
            for name in os.listdir(os.path.join(tools, folder)):
                path = os.path.join(tools, folder, name)
                if name.endswith(".py"):
                    with open(path) as file:
                        found |= {os.path.join(folder, name)} if file.read().startswith("#!") else set()
        self.assertEqual(found, {words[0] for words, _ in CALLS})


if __name__ == "__main__":
    unittest.main()
