"""Names of definitions that two crates define, as tools/uncited.py finds them."""

import sys

from conftest import TOP

sys.path.insert(0, str(TOP / "tools"))

import uncited  # noqa: E402

FOREST = """-- A forest.
use Rattle.std.specs.Prelude.{ℕ, List}
pub mod Balance

pub record IsKept (links : List ℕ) : Type 0 where
  pub small : length links ≤ most_blocks

abbrev pub size : List ℕ → ℕ
size links = length links

module _ {A : Type 0} where
  -- an inner one
  abbrev pub IsWithin : A → Type 0
  IsWithin x = ⊥

hidden : ℕ
hidden = 0
"""
GRAPH = """pub data IsKept (blocks : ℕ) : Type 0 where
  empty : IsKept 0

unfoldable pub small : ℕ → ℕ
small zero = 0

hidden : ℕ
hidden = 1
"""


def test_public_names_are_those_of_definitions() -> None:
    assert uncited.published(FOREST) == {"IsKept", "size", "IsWithin"}
    assert uncited.published(GRAPH) == {"IsKept", "small"}


def test_a_name_of_two_crates_is_refused() -> None:
    assert uncited.shared({"forest": [FOREST], "graph": [GRAPH]}) == {"IsKept": ["forest", "graph"]}


def test_two_files_of_one_crate_may_share_a_name() -> None:
    assert uncited.shared({"forest": [FOREST, GRAPH]}) == {}


def test_the_repository_has_no_such_name() -> None:
    texts = {crate: [file.read_text() for file in (TOP / "crates" / crate / "specs").glob("*.antt")] for crate in uncited.crates()}
    assert uncited.shared(texts) == {}
