"""The files that perf_data.py writes hold what the report says, and perf reads them as docs/EXAMPLES.md says."""

import os
import re
import shutil
import struct
import subprocess
import tempfile
import unittest

import perf_data
from perfscript import Report
from perfscript.program import REPOSITORY
from perfscript.tests.support import DATA, PATH, ProgramTest, call_of, stored

EXAMPLES = ("every-field-of-a-sample", "full-ring")


def paths_of(name):
    return [os.path.join(DATA, "examples", name + end) for end in (".script", ".report")]


def written(*words):
    """The status, what is said, and the bytes that are written."""
    with tempfile.TemporaryDirectory() as folder:
        path = os.path.join(folder, "out.data")
        status, out, err = call_of(perf_data.main, [*words, path])
        data = None
        if os.path.exists(path):
            with open(path, "rb") as file:
                data = file.read()
        return status, out, err, data


def sections_of(data):
    """The ids of the file's events, and its records as the words of each."""
    fields = struct.unpack_from("<8sQQQQQQ", data)
    attrs_at, attrs_size, data_at, data_size = fields[3:7]
    ids = []
    for at in range(attrs_at, attrs_at + attrs_size, fields[2]):
        place, size = struct.unpack_from("<QQ", data, at + fields[2] - 16)
        ids += struct.unpack_from(f"<{size // 8}Q", data, place)
    records, at = [], data_at
    while at < data_at + data_size:
        size = struct.unpack_from("<H", data, at + 6)[0]
        records.append(list(struct.unpack_from(f"<{size // 8}Q", data, at)))
        at += size
    return ids, records


class Written(unittest.TestCase):
    def test_the_records_are_those_of_the_report(self):
        for name in EXAMPLES:
            status, out, err, data = written(*paths_of(name))
            self.assertEqual((0, "", ""), (status, out, err))
            ids, records = sections_of(data)
            report = Report(stored(f"examples/{name}.report"))
            wanted = [record.words for ring in report.rings.values() for record in ring.records]
            comms = [record for record in records if record[0] & 0xFFFFFFFF == perf_data.COMM]
            self.assertEqual(comms + wanted, records)
            self.assertEqual(sorted(ids), list(range(1, len(ids) + 1)), name)

    def test_what_is_refused(self):
        (script, report), (_, other) = map(paths_of, EXAMPLES)
        counting = paths_of("count-cycles")
        for words, reason in (
            ((script, other), "perf_data.py: the report's order is not the script's"),
            (tuple(counting), "count-cycles.script: no event that samples writes to a ring, so there is nothing to write"),
            ((script, "/nonexistent"), "perf_data.py: /nonexistent: No such file or directory"),
            ((script, script), "perf_data.py: not a report, which begins with a line `order`"),
            ((report, report), "perf_data.py: script line 2: not understood: t0."),
        ):
            status, out, err, data = written(*words)
            self.assertEqual((2, "", None, 1), (status, out, data, err.count("\n")), err)
            self.assertIn(reason[:50], err)

    def test_perf_is_warned_of(self):
        text = stored("examples/every-field-of-a-sample.script").replace("sample=103c7", "sample=3c7", 1)
        self.assertIn("sample=3c7", text)
        events = perf_data.Follow(perf_data.Script(text), Report(stored("examples/every-field-of-a-sample.report"))).run()
        said = perf_data.warning(events.originals)
        self.assertEqual("several events, whose samples do not have an id at one place", said)


class Asked(ProgramTest):
    def test_without_a_report_the_program_is_asked(self):
        for name in EXAMPLES:
            script, report = paths_of(name)
            self.assertEqual(written(script, report), written("--program", PATH, script))


class InPerf(unittest.TestCase):
    """What an unmodified perf prints, as docs/EXAMPLES.md has it."""

    def test_perf_script_prints_what_the_page_says(self):
        if shutil.which("perf") is None:
            raise unittest.SkipTest("perf is not there; Debian has it as linux-perf")
        with open(os.path.join(REPOSITORY, "docs", "EXAMPLES.md"), encoding="utf-8") as file:
            page = file.read()
        for name in EXAMPLES:
            part = page[page.index(f"tools/perf_data.py examples/{name}.script"):]
            call = re.search(r"perf script -i \S+ (-F \S+)\n", part)
            wanted = re.search(r"(?m)(?:^        1/1 .*\n)+", part)[0]
            with tempfile.TemporaryDirectory() as folder:
                path = os.path.join(folder, "out.data")
                call_of(perf_data.main, [*paths_of(name), path])
                how = dict(capture_output=True, text=True, env={**os.environ, "PERF_PAGER": "cat", "HOME": folder})
                done = subprocess.run(["perf", "script", "-f", "-i", path, *call[1].split()], **how)
                printed = [line.split() for line in done.stdout.splitlines()]
            self.assertEqual([line.split() for line in wanted.splitlines()], printed, done.stderr)


if __name__ == "__main__":
    unittest.main()
