"""Each link of README.md and of the pages below docs/ leads to a heading that is there, each table has a head, and words
of the glossary are linked where a page has them first."""

import os
import re
import unittest
from collections.abc import Iterator

REPOSITORY = os.path.normpath(os.path.join(os.path.dirname(os.path.abspath(__file__)), "..", "..", ".."))
LINK = re.compile(r"\]\(([^)\s]+)\)")
HEADING = re.compile(r"(?m)^#{1,6} (.*)$")
HEAD = re.compile(r"\|[ |-]+\|")
FENCED = re.compile(r"(?ms)^```.*?^```$")
CODE_OR_HEADING = re.compile(r"(?m)`[^`\n]+`|^#.*$")
# the words of the glossary that have no other meaning
LINKED = ("folded", "tight set", "brief", "sheet", "standing")


def pages() -> list[str]:
    """README.md and all pages below docs/, from the top of the repository."""
    found = ["README.md"]
    for folder, _, names in os.walk(os.path.join(REPOSITORY, "docs")):
        found += [os.path.relpath(os.path.join(folder, name), REPOSITORY) for name in names if name.endswith(".md")]
    return sorted(found)


def text_of(page: str) -> str:
    """A page without its blocks of code."""
    with open(os.path.join(REPOSITORY, page), encoding="utf-8") as file:
        text = FENCED.sub("", file.read())
    return "\n".join(line for line in text.splitlines() if not line.startswith("    "))


def anchors(text: str) -> set[str]:
    """What links call the headings of a page: lower-case, without marks, with `-` for each space."""
    found: set[str] = set()
    for heading in HEADING.findall(text):
        plain = re.sub(r"\[([^\]]*)\]\([^)]*\)", r"\1", heading).lower()
        name = re.sub(r"[^\w\- ]", "", plain).replace(" ", "-")
        again = 1
        while name in found:
            name, again = f"{name.removesuffix(f'-{again - 1}')}-{again}", again + 1
        found.add(name)
    return found


def faults(page: str, text: str, known: dict[str, str]) -> Iterator[str]:
    """What is wrong with the links of a page; `known` has the pages' texts."""
    for link in LINK.findall(text):
        if "://" in link:
            continue
        path, _, anchor = link.partition("#")
        target = os.path.normpath(os.path.join(os.path.dirname(page), path)) if path else page
        if not os.path.exists(os.path.join(REPOSITORY, target)):
            yield f"{page}: {link}: there is no file {target}"
        elif anchor and anchor not in anchors(known.get(target, "")):
            yield f"{page}: {link}: {target} has no such heading"


def tables(text: str) -> list[list[str]]:
    """The lines of each table of a page."""
    found: list[list[str]] = [[]]
    for line in text.splitlines():
        if line.startswith("|"):
            found[-1].append(line)
        elif found[-1]:
            found.append([])
    return [lines for lines in found if lines]


class Links(unittest.TestCase):
    def test_each_leads_somewhere(self) -> None:
        known = {page: text_of(page) for page in pages()}
        links = sum(len(LINK.findall(text)) for text in known.values())
        self.assertGreater(links, 50)
        self.assertEqual([], [fault for page, text in known.items() for fault in faults(page, text, known)])

    def test_each_table_has_a_head(self) -> None:
        broken = []
        for page in pages():
            for lines in tables(text_of(page)):
                broken += [] if len(lines) > 2 and HEAD.fullmatch(lines[1]) else [f"{page}: {lines[0]}"]
        self.assertEqual([], broken)

    def test_the_list_of_documents_names_each_page(self) -> None:
        listed = {link.partition("#")[0] for link in LINK.findall(text_of("README.md"))}
        self.assertEqual(set(), set(pages()) - {"README.md"} - listed)

    def test_words_of_the_glossary_are_linked_where_first_met(self) -> None:
        missing = []
        for page in pages():
            text = CODE_OR_HEADING.sub("", text_of(page)) if page != "docs/GLOSSARY.md" else ""
            for word in LINKED:
                first = re.search(rf"(?i)\b{word}s?\b", text)
                missing += [f"{page}: {word}"] if first and text[first.start() - 1] != "[" else []
        self.assertEqual([], missing)

    def test_a_link_that_leads_nowhere_is_found(self) -> None:
        known = {"docs/A.md": "# What it is\n## `Two` words\n## `Two` words\n"}
        self.assertEqual({"what-it-is", "two-words", "two-words-1"}, anchors(known["docs/A.md"]))
        text = "[a](no-such-page.md) [b](#what-it-was) [c](https://example.org/d)"
        self.assertEqual(2, len(list(faults("docs/A.md", text, known))))


if __name__ == "__main__":
    unittest.main()
