"""The tools are installed as Python tools are, and each command answers."""

import glob
import os
import shutil
import subprocess
import sys
import tempfile
import unittest
from concurrent.futures import ThreadPoolExecutor
from unittest import mock

import perfscript
from perfscript.tests.support import PATH, TOOLS, ProgramTest, stored

NOT_COPIED = ("__pycache__", ".mypy_cache", "build", "*.egg-info")
COMMANDS = ("double", "explain", "fit", "on-linux", "perf-data", "timeline")
ASKED = "import sys, setuptools, wheel, pip; sys.exit(sys.version_info < (3, 11))"


def installer():
    """A Python that can install: this one, or another on the path that has pip, setuptools and wheel."""
    others = [os.path.join(folder, "python3") for folder in os.environ["PATH"].split(os.pathsep)]
    for python in [sys.executable, *others]:
        if os.access(python, os.X_OK) and subprocess.run([python, "-c", ASKED], capture_output=True).returncode == 0:
            return python
    return None


class Installed(ProgramTest):
    @classmethod
    def setUpClass(cls):
        super().setUpClass()
        cls.python = installer()
        if cls.python is None:
            raise unittest.SkipTest("no Python here has pip, setuptools and wheel; Debian has python3-pip and python3-wheel")
        folder = tempfile.mkdtemp()
        cls.addClassCleanup(shutil.rmtree, folder)
        # pip builds in the folder that it is given
        source, cls.target = os.path.join(folder, "tools"), os.path.join(folder, "target")
        shutil.copytree(TOOLS, source, ignore=shutil.ignore_patterns(*NOT_COPIED))
        # setup.py takes a page of docs/ along
        shutil.copytree(os.path.join(TOOLS, "..", "docs"), os.path.join(folder, "docs"))
        call = [cls.python, "-m", "pip", "install", "--no-build-isolation", "--no-index", "--target", cls.target, source]
        done = subprocess.run(call, capture_output=True, text=True, cwd=folder)
        if done.returncode:
            raise AssertionError(done.stdout + done.stderr)
        cls.folder = folder

    def called(self, name, *words):
        path = os.path.join(self.target, "bin", f"jugheather-{name}")
        how = {"capture_output": True, "text": True, "cwd": self.folder, "stdin": subprocess.DEVNULL}
        return subprocess.run([self.python, path, *words], env={**os.environ, "PYTHONPATH": self.target}, **how)

    def test_each_command_has_its_options(self):
        there = sorted(os.path.basename(path) for path in glob.glob(os.path.join(self.target, "bin", "*")))
        self.assertEqual([f"jugheather-{name}" for name in COMMANDS], there)
        with ThreadPoolExecutor(os.cpu_count()) as pool:
            helps = pool.map(lambda name: self.called(name, "--help"), COMMANDS)
            versions = pool.map(lambda name: self.called(name, "--version").stdout, COMMANDS)
        for name, done, version in zip(COMMANDS, helps, versions, strict=True):
            self.assertEqual((0, ""), (done.returncode, done.stderr), name)
            self.assertIn(f"usage: jugheather-{name}", done.stdout)
            for option in ("--help", "--version", "--program PATH"):
                self.assertIn(option, done.stdout, name)
            self.assertEqual(f"jugheather-{name} {perfscript.VERSION}\n", version)

    def test_each_command_does_its_work(self):
        script = os.path.join(self.folder, "a.script")
        with open(script, "w") as file:
            file.write(stored("examples/full-ring.script"))
        for name, words, said in (
            ("explain", [script], "the program does this script"),
            ("fit", ["-m", "k10", "-e", "cycles"], "All events are on all the time."),
            ("fit", ["--list"], "sandybridge"),
            ("perf-data", [script, os.path.join(self.folder, "out.data")], ""),
            ("timeline", [script], "<svg xmlns="),
        ):
            done = self.called(name, "--program", PATH, *words)
            self.assertEqual((0, ""), (done.returncode, done.stderr), name)
            self.assertIn(said, done.stdout)
        self.assertGreater(os.path.getsize(os.path.join(self.folder, "out.data")), 500)
        for file in glob.glob(os.path.join(TOOLS, "on_linux", "cases", "*.toml")):
            self.assertTrue(os.path.exists(os.path.join(self.target, "on_linux", "cases", os.path.basename(file))), file)
        done = self.called("on-linux", "--program", PATH, script)
        self.assertIn(done.returncode, (0, 77), done.stderr)
        self.assertIn("a.script: not comparable" if done.returncode == 0 else "no event can be opened here", done.stdout)

    def test_the_double_runs_a_command(self):
        scenario = os.path.join(self.target, "double", "four-groups.scenario")
        done = self.called("double", "--program", PATH, scenario, "--", "echo", "hello")
        if done.returncode == 77:
            self.skipTest(done.stderr.strip())
        self.assertEqual((0, "hello\n", ""), (done.returncode, done.stdout, done.stderr))
        done = self.called("double", "--program", PATH, scenario)
        said = "jugheather-double: give a scenario, and the command behind --; jugheather-double --help has the words\n"
        self.assertEqual((2, "", said), (done.returncode, done.stdout, done.stderr))

    def test_without_a_program_it_says_what_to_give(self):
        with mock.patch.dict(os.environ, PERF_RUN=""):
            done = self.called("timeline", os.path.join(TOOLS, "..", "examples", "full-ring.script"))
        self.assertEqual((2, "", 1), (done.returncode, done.stdout, done.stderr.count("\n")))
        self.assertTrue(done.stderr.startswith("jugheather-timeline: no program: "), done.stderr)
        self.assertTrue(done.stderr.endswith("give a built perf_run by --program or PERF_RUN\n"), done.stderr)


if __name__ == "__main__":
    unittest.main()
