"""What documents print or name of files of the repository is what the files have."""

import glob
import os
import re
import unittest

REPOSITORY = os.path.normpath(os.path.join(os.path.dirname(os.path.abspath(__file__)), "..", "..", ".."))


# the pages that name calls, definitions, laws and files of the crates
PAGES = [
    *glob.glob(os.path.join(REPOSITORY, "docs", "maintain", "*.md")),
    *(os.path.join(REPOSITORY, "docs", name) for name in ("DECISIONS.md", "RULES.md", "SHARING.md")),
]
SOURCES = ("*/src/**/*.rt", "*/specs/**/*.antt", "*/proofs/**/*.antt")
# the tools, and the tables that stand beside those that read them
TOOLS = ("**/*.py", "maintain/*.toml", "on_linux/*.toml", "perfscript/*.toml", "perfscript/*.txt")
WORD = re.compile(r"\w+")


def words_of_the_repository() -> set[str]:
    """The words of the crates' files and of the tools, and the names of the crates, of their files and edits."""
    found: set[str] = set()
    for pattern in (*(f"crates/{source}" for source in SOURCES), *(f"tools/{source}" for source in TOOLS)):
        for path in glob.glob(os.path.join(REPOSITORY, pattern), recursive=True):
            found |= set(WORD.findall(text_of(path)))
            found.add(os.path.basename(path))
    for path in glob.glob(os.path.join(REPOSITORY, "crates", "*")):
        found.add(os.path.basename(path))
    return found | edits()


def edits() -> set[str]:
    """The names of all must-fail edits."""
    paths = glob.glob(os.path.join(REPOSITORY, "crates", "*", "must-fail", "*.edit"))
    return {os.path.basename(path).removesuffix(".edit").partition("-")[2] for path in paths}


def text_of(*parts: str) -> str:
    """The text of a file of the repository."""
    with open(os.path.join(REPOSITORY, *parts), encoding="utf-8") as file:
        return file.read()


class PrintedFiles(unittest.TestCase):
    def test_sharing_prints_its_program(self) -> None:
        program = text_of("crates", "top_tests", "src", "watching.rt")
        self.assertIn("fn a_watcher_reads_what_a_worker_counts", program)
        self.assertIn(f"```rust\n{program}```\n", text_of("docs", "SHARING.md"))

    def test_calls_and_definitions_that_pages_name_are_there(self) -> None:
        there, missing = words_of_the_repository(), []
        for path in PAGES:
            for name in re.findall(r"`([A-Za-z_][\w:]*\w(?:\.rt|\.antt)?)`", text_of(path)):
                last = name.split(":")[-1]
                missing += [] if last in there else [f"{os.path.basename(path)}: {name}"]
        self.assertEqual([], missing)

    def test_files_of_the_crates_that_pages_name_are_there(self) -> None:
        missing = []
        for path in PAGES:
            for name in re.findall(r"`(crates/[\w./-]+?)(?::\d+)?`", text_of(path)):
                is_there = os.path.exists(os.path.join(REPOSITORY, name))
                is_known = is_there or "CRATE" in name or "/out/" in name
                missing += [] if is_known else [f"{os.path.basename(path)}: {name}"]
        self.assertEqual([], missing)

    def test_edits_that_pages_name_are_there(self) -> None:
        page = " ".join(text_of("docs", "maintain", "PROOF.md").split())
        lists = re.findall(r"[Ee]dits? ((?:`[a-z0-9_]+`(?:, )?)+)", page)
        names = {name for some in lists for name in re.findall(r"`([a-z0-9_]+)`", some)}
        self.assertGreater(len(names), 50)
        self.assertEqual(set(), names - edits())


if __name__ == "__main__":
    unittest.main()
