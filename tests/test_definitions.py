"""Counts of the definitions behind a contract, as tools/definitions.py makes them."""

import subprocess
import sys

from conftest import TOP

sys.path.insert(0, str(TOP / "tools"))

import definitions  # noqa: E402

SPECS = """-- A mine.
use Rattle.std.specs.Prelude.{ℕ, Bool}
use Rattle.pit_model.specs.Mine.{Instance, worth as value_of}

-- a set
pub record IsBest (mine : Instance) (set : ℕ → Bool) : Type 0 where
  pub best : (other : ℕ → Bool) → value_of mine other ≤ℤ value_of mine set

module _ {A : Type 0}
    (few : ℕ) where
  abbrev pub IsFew : A → Type 0
  IsFew x =
      few ≡ 0

kept : ℕ → ℕ
kept zero = 0
kept (suc n) = kept n
"""


def test_the_tables_are_those_of_the_definitions() -> None:
    ran = subprocess.run([TOP / "tools" / "definitions.py", "--check"], capture_output=True, text=True, timeout=60)
    assert (ran.returncode, ran.stdout, ran.stderr) == (0, "", "")


def test_statements_of_a_file() -> None:
    """Each has the lines of its own, without comments and the heads of modules."""
    found = [(name, text.count("\n") + 1) for name, text in definitions.statements(SPECS)]
    assert found == [("IsBest", 2), ("IsFew", 1), ("", 2), ("kept", 1), ("", 1), ("", 1)]


def test_names_that_a_file_brings_in() -> None:
    assert definitions.imports(SPECS)["value_of"] == ("pit_model", "Mine", "worth")


def test_bound_words_and_fields_are_not_cited() -> None:
    assert definitions.cited("(u : Block) → λ v w. mine.blocks u → f (record { size = value u v })", {"mine"}) - set("→λ") == {"Block", "f", "record", "value"}


def test_the_definitions_behind_a_pit() -> None:
    named = {it.name for it in definitions.of_name("IsPit")}
    assert named == {"IsPit", "IsAllowed", "LiesToward", "Fixed", "Instance", "IsClosed", "arcs", "source", "target", "value", "worth", "total", "when"}


def test_a_contract_cites_its_clauses_together() -> None:
    parts = definitions.clauses("run_solve")
    assert {"requires", "done", "refused"} <= set(parts)
    assert definitions.of_name("IsPit") < definitions.closure(parts["done"]) < definitions.whole("run_solve")
