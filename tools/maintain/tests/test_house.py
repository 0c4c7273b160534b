"""The tools that read definitions and proofs, on a small repository and on this one."""

import contextlib
import io
import os
import sys
import tempfile
import unittest
from collections.abc import Iterator, Mapping
from pathlib import Path

sys.path.append(os.path.join(os.path.dirname(os.path.abspath(__file__)), ".."))

import house_counts
import layers
import merge_lemmas
import repeated_lemmas
import trusted
from perfscript import Fault
from specs import all_definitions

REPOSITORY = os.path.normpath(os.path.join(os.path.dirname(os.path.abspath(__file__)), "..", "..", ".."))

BASE = """-- What a pair is.
use Rattle.std.specs.Prelude.{ℕ}

-- two numbers
pub record Pair : Type 0 where
  pub left : ℕ
  pub right : ℕ

module _ (unit : ℕ) where
  -- their sum, in units
  pub scaled : Pair → ℕ
  scaled p = p.left * unit + p.right * unit

-- nobody names this
abbrev pub alone : ℕ → ℕ
alone n = n
"""

TOP = """-- What is so.
use Rattle.low.specs.{Pairs.{Pair, scaled}, Pairs as pairs}

abbrev pub IsSo : Pair → Type 0
IsSo p = scaled 2 p ≡ pairs.alone 4
"""

LEMMAS = """module _ (A : Type 0) (f : A → A) where
  -- once
  pub one : (x y : A) → x ≡ y → f x ≡ f y
  one x y e = ap f e

pub other : (B : Type 0) (g : B → B) (u v : B) → u ≡ v → g u ≡ g v
other B g u v e = ap g e

third : (n : ℕ) → n ≡ n
third n = refl
"""


@contextlib.contextmanager
def repository_of(files: Mapping[str, str]) -> Iterator[None]:
    """A repository of these files, as the current folder."""
    here = os.getcwd()
    with tempfile.TemporaryDirectory() as folder:
        for path, text in files.items():
            os.makedirs(os.path.join(folder, os.path.dirname(path)), exist_ok=True)
            with open(os.path.join(folder, path), "w", encoding="utf-8") as file:
                file.write(text)
        os.chdir(folder)
        try:
            yield
        finally:
            os.chdir(here)


def small_repository() -> contextlib.AbstractContextManager[None]:
    """A repository of three files of definitions and proofs, as the current folder."""
    files = {
        "crates/low/specs/Pairs.antt": BASE,
        "crates/low/proofs/Lemmas.antt": LEMMAS,
        "crates/top/specs/Sos.antt": TOP,
    }
    return repository_of(files)


class SmallRepository(unittest.TestCase):
    def test_definitions_name_others(self) -> None:
        with small_repository():
            found = all_definitions()
        names = {it.name: [other[2] for other in it.cites] for it in found.values()}
        self.assertEqual(names, {"Pair": [], "scaled": ["Pair"], "alone": [], "IsSo": ["Pair", "scaled", "alone"]})
        places = {it.name: (it.first, it.last, it.lines) for it in found.values()}
        self.assertEqual(places["Pair"], (5, 7, 3))
        self.assertEqual(places["scaled"], (11, 12, 2))

    def test_each_is_read_after_those_that_it_names(self) -> None:
        with small_repository():
            order = trusted.reached(all_definitions(), [("top", "Sos", "IsSo")])
        self.assertEqual([it.name for it in order], ["Pair", "scaled", "alone", "IsSo"])

    def test_statements_are_compared_up_to_names(self) -> None:
        with small_repository():
            found = repeated_lemmas.repeated()
        self.assertEqual([[name for _, _, name in places] for places in found], [["one", "other"]])

    def test_a_head_is_written_once(self) -> None:
        headed = trusted.headed(BASE, True)
        self.assertEqual(headed, "-- believed\n" + BASE)
        self.assertEqual(trusted.headed(headed, False), "-- inner\n" + BASE)


class MergedLemmas(unittest.TestCase):
    FILES = {
        "crates.txt": "# Types\nlow: bitflags\nside: low\n\n# Top\ntop: low\n",
        "crates/low/proofs/Lib.antt": "mod Lists\nmod Others\n",
        "crates/low/proofs/Lists.antt": """use Rattle.std.specs.Prelude.{ℕ, ◌≡◌}

-- each is itself
same : (n : ℕ) → n ≡ n
same n = refl

pub turned : (a b : ℕ) → a ≡ b → b ≡ a
turned a b e = sym e

pub even : ℕ → Bool
even n = true
""",
        "crates/top/proofs/Numbers.antt": """use Rattle.std.specs.Prelude.{ℕ, ◌≡◌}
use Rattle.{low.{specs.Pairs as pairs, proofs.Lists.{turned}}}

pub itself : (x : ℕ) → x ≡ x
itself x = step x
  where
    step : (y : ℕ) → y ≡ y
    step y = refl

pub itself-twice : (x : ℕ) → x ≡ x
itself-twice x = turned x x (itself x)

pub own : (x y : ℕ) → x ≡ y → x ≡ y
own x y e = e

-- all numbers alike
pub alike : ℕ → Bool
alike x = true

all-alike : (x : ℕ) → alike x ≡ true
unfolding alike
all-alike x = refl
""",
        "crates/top/proofs/Numbers/Answers.antt": """use Rattle.top.proofs.Numbers.{itself, own}

pub returns c = own _ _ (itself 1)
""",
        "crates/side/proofs/Others.antt": """use Rattle.std.specs.Prelude.{ℕ, ◌≡◌}

whole : (x y : ℕ) → x ≡ y → x ≡ y
whole x y e = e
""",
    }

    def merged(self, *words: str) -> tuple[str, dict[str, str]]:
        """What the tool prints, and the files that it changes."""
        said = io.StringIO()
        with repository_of(self.FILES), contextlib.redirect_stdout(said):
            self.assertEqual(0, merge_lemmas.main(*words))
            there = {path: Path(path).read_text(encoding="utf-8") for path in self.FILES}
        return said.getvalue(), {path: text for path, text in there.items() if text != self.FILES[path]}

    def test_what_would_go(self) -> None:
        said, changed = self.merged()
        self.assertEqual({}, changed)
        # not `own` and `whole`: neither crate stands on the other; not `even` and `alike`: a proof opens one
        lists, numbers = "crates/low/proofs/Lists.antt:4: same", "crates/top/proofs/Numbers.antt:4, crates/top/proofs/Numbers.antt:10"
        self.assertEqual(f"{lists} in the place of {numbers}\n2 proofs would go\n", said)

    def test_one_proof_stays(self) -> None:
        said, changed = self.merged("--write")
        self.assertTrue(said.endswith("2 proofs went\n"))
        self.assertEqual("pub mod Lists\nmod Others\n", changed.pop("crates/low/proofs/Lib.antt"))
        numbers, answers, low = (changed.pop(f"crates/{it}.antt") for it in (
            "top/proofs/Numbers", "top/proofs/Numbers/Answers", "low/proofs/Lists"))
        self.assertEqual({}, changed)
        self.assertEqual(self.FILES["crates/low/proofs/Lists.antt"].replace("\nsame :", "\npub same :"), low)
        uses = "use Rattle.std.specs.Prelude.{ℕ, ◌≡◌}\nuse Rattle.low.{specs.Pairs as pairs, proofs.Lists.{turned, same}}\n"
        # all that follows stays: `own`, and `alike`, which a proof opens
        _, own, rest = self.FILES["crates/top/proofs/Numbers.antt"].partition("pub own")
        self.assertEqual(f"{uses}\n{own}{rest}", numbers)
        uses = "use Rattle.top.proofs.Numbers.{own}\nuse Rattle.low.proofs.Lists.{same}\n"
        self.assertEqual(uses + "\npub returns c = own _ _ (same 1)\n", answers)


class ThisRepository(unittest.TestCase):
    def setUp(self) -> None:
        self.here = os.getcwd()
        os.chdir(REPOSITORY)

    def tearDown(self) -> None:
        os.chdir(self.here)

    def test_what_must_be_believed_is_up_to_date(self) -> None:
        said = io.StringIO()
        with contextlib.redirect_stderr(said):
            status = trusted.main("--check")
        self.assertEqual((status, said.getvalue()), (0, ""))

    def test_the_headline_rests_on_what_it_speaks_of(self) -> None:
        names = {it.name for it in trusted.believed()}
        for name in ("StandsFor", "report", "IsLawfulOrder", "tight_set", "settle_all", "sent_at", "rows_of"):
            self.assertIn(name, names)

    def test_few_statements_are_proved_more_than_once(self) -> None:
        said = io.StringIO()
        with contextlib.redirect_stdout(said):
            status = repeated_lemmas.main("10")
        self.assertEqual(0, status, said.getvalue())
        with contextlib.redirect_stdout(said):
            status = repeated_lemmas.main("0")
        self.assertEqual(1 if repeated_lemmas.repeated() else 0, status)

    def test_counts_are_printed(self) -> None:
        said = io.StringIO()
        with contextlib.redirect_stdout(said):
            house_counts.main()
        self.assertRegex(said.getvalue(), r"(?m)^ *[1-9]\d* lines of specs$")


class Layers(unittest.TestCase):
    LIST = "# Types\nlow: bitflags\n\n# Top: what is called\ntop tests_may=Threads: low\n"

    def test_the_highest_group_comes_first(self) -> None:
        with small_repository():
            for name, head in (("low", "Numbers."), ("top", "What is called: a call of many words, as long as this. More.")):
                os.makedirs(f"crates/{name}/src", exist_ok=True)
                with open(f"crates/{name}/src/lib.rt", "w") as file:
                    file.write(f"//! {head}\n\n/// A call.\n")
            groups = layers.groups_of(self.LIST)
            text = layers.described(groups)
        top = "Top: what is called\n  top: What is called: a call of many words, as long as this\n\n"
        self.assertEqual(top + "Types\n  low: Numbers", text)
        self.assertEqual("- **Top: what is called.** `top`\n- **Types.** `low`", layers.layers(groups))

    def test_a_crate_stands_on_no_later_group(self) -> None:
        groups = layers.groups_of(self.LIST.replace("low: bitflags", "low: top"))
        with self.assertRaisesRegex(Fault, "low stands on top, of a later group"):
            layers.check_order(groups)

    def test_the_page_has_the_layers_of_this_repository(self) -> None:
        before = os.getcwd()
        os.chdir(REPOSITORY)
        try:
            self.assertEqual(0, layers.main("--check"))
        finally:
            os.chdir(before)


if __name__ == "__main__":
    unittest.main()
