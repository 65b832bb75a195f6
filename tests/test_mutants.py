"""Mutants as tools/mutants.py reads them, and who is taken to have refused one."""

import pathlib
import subprocess
import sys

import pytest

from conftest import PROGRAM, TOP

sys.path.insert(0, str(TOP / "tools"))

import clone  # noqa: E402
import mutants as tool  # noqa: E402
from mutation import crate_tests, edits, lock, program_tests, proofs, prover, states  # noqa: E402
from mutation.clauses import mismatch, refused_at  # noqa: E402
from mutation.outcomes import Outcome  # noqa: E402

SOURCE = """//! A crate.
#[tactic(auto)]
pub fn first(n: u32) -> u32
    ensures { result ≡ n }
{
    second(n)
}

pub(crate) fn second(n: u32) -> u32 {
    n
}
"""
NOT_PROVED = "it is not proved that what the function ensures holds when it returns"
REQUIRED = "it is not proved that what `second` requires holds at this call"




@pytest.fixture
def folder(tmp_path: pathlib.Path) -> pathlib.Path:
    """That of a crate."""
    (tmp_path / "src").mkdir()
    (tmp_path / "src" / "lib.rt").write_text(SOURCE)
    (tmp_path / "mutants").mkdir()
    return tmp_path


def written(folder: pathlib.Path, text: str) -> edits.Mutant:
    file = folder / "mutants" / "answers_less.edit"
    file.write_text(text)
    return edits.read(file)


LESS = "file: src/lib.rt\nold:     second(n)\nnew:     second(n - 1)\n"


@pytest.fixture
def mutant(folder: pathlib.Path) -> edits.Mutant:
    return written(folder, f"# first: its number\nclause: first returns\n{LESS}")


@pytest.mark.parametrize(
    ("said", "found"),
    [
        (f"note: src/lib.rt:2:1: {NOT_PROVED} (`returns`); `search` gave up", "first returns"),
        (f"note: src/lib.rt:6:5: {NOT_PROVED} (`returns-in-Some-2`)", "first returns"),
        (f"note: src/lib.rt:9:1: {NOT_PROVED} (`returns-then-n-eq0-clause-least`)", "second least"),
        (f"note: src/lib.rt:6:5: {REQUIRED} (`second-requires-2-clause-few`); the facts", "first second-few"),
        (f"note: src/lib.rt:6:5: {REQUIRED} (`second-requires`)", "first second-requires"),
        ("note: src/lib.rt:10:5: it is not proved that the invariant of the loop holds (`loop-k-preserved`)", "second loop-k"),
        ("./proofs/lib/first/Answers.antt:3:4: error: `returns-in_err-n-clause-refused`: the two types differ", "first refused"),
        ("./proofs/Laws.antt:3:4: error: `a_law`: the two types differ", "a_law"),
        ("note: src/lib.rt:6:5: it is not proved that the `invariant` of the struct holds (`invariant_of-self-in-O", "first invariant.."),
        ("(only because a proof file names what the edit took away): ./proofs/lib/first/Answers.antt:3:4: error: `returns`: no", ""),
        ("", ""),
    ],
)
def test_the_clause_of_a_refusal(mutant: edits.Mutant, said: str, found: str) -> None:
    assert refused_at(mutant, said) == found


def test_a_refusal_at_another_clause_is_wrong(mutant: edits.Mutant) -> None:
    assert mismatch(mutant, "first returns") == mismatch(mutant, "first ret..") == ""
    assert mismatch(mutant, "first second-requires") == "is refused at `first second-requires`, not at `first returns`"
    assert mismatch(mutant, "") == "is refused at `no clause`, not at `first returns`"


def test_the_clause_is_no_part_of_what_is_tried(mutant: edits.Mutant) -> None:
    before = states.bytes_of(mutant.path)
    mutant.path.write_text(mutant.path.read_text().replace("first returns", "first least"))
    assert states.bytes_of(mutant.path) == before
    mutant.path.write_text(mutant.path.read_text().replace("n - 1", "n + 1"))
    assert states.bytes_of(mutant.path) != before


@pytest.mark.parametrize(
    ("name", "comment", "code"),
    [("code.rt", "    /// Returns the pit.\n", "fn pit() {} // code\n"), ("specs.antt", "-- the pit\n", "pit : List ℕ -- code\n")],
)
def test_a_comment_leaves_the_state_of_a_source_as_it_is(tmp_path: pathlib.Path, name: str, comment: str, code: str) -> None:
    file = tmp_path / name
    file.write_text(code)
    before = states.bytes_of(file)
    file.write_text(comment + code)
    assert states.bytes_of(file) == before == code.encode()
    file.write_text(code.replace("pit", "pits"))
    assert states.bytes_of(file) != before


@pytest.mark.parametrize(
    ("head", "kind", "by"),
    [
        ("clause: first returns\n", edits.CLAUSE, "first returns"),
        ("proofs: csr view::row_rises\n", edits.PROOFS, "csr view::row_rises"),
        ("crate-tests: crate_tests\n", edits.CRATE_TESTS, "crate_tests"),
        ("program-test: test_rows.py::test_a[b: c]\nfeatures: stats line\n", edits.PROGRAM_TEST, "test_rows.py::test_a[b: c]"),
    ],
)
def test_each_kind_is_planted(folder: pathlib.Path, head: str, kind: str, by: str) -> None:
    mutant = written(folder, f"# a: b\n{head}{LESS}")
    assert (mutant.kind, mutant.by) == (kind, by)
    assert mutant.features == (frozenset({"stats", "line"}) if kind == edits.PROGRAM_TEST else frozenset())
    assert edits.planted(mutant) == {"src/lib.rt": SOURCE.replace("    second(n)", "    second(n - 1)")}


def test_a_text_may_have_several_lines(folder: pathlib.Path) -> None:
    text = "crate-tests: csr\nfile: src/lib.rt\nold: {\nold:     second(n)\nnew: {\nnew: if true { return 1; }\nnew:     second(n)\nold: //! A crate.\nnew:\n"
    wanted = SOURCE.replace("{\n    second(n)", "{\nif true { return 1; }\n    second(n)").replace("//! A crate.", "")
    assert edits.planted(written(folder, text)) == {"src/lib.rt": wanted}
    with pytest.raises(edits.Unplantable, match="one line `old:`"):
        edits.planted(written(folder, text.replace("crate-tests: csr", "clause: first returns")))


@pytest.mark.parametrize("head", ["", "clause:\n", "clause: first returns\nproofs: csr\n"])
def test_one_line_says_who_refuses_it(folder: pathlib.Path, head: str) -> None:
    with pytest.raises(edits.Unplantable, match="must say who refuses it"):
        written(folder, head + LESS)


@pytest.mark.parametrize(
    ("text", "why"),
    [
        (LESS.replace("second(n)", "third(n)"), "has `    third(n)` 0 times"),
        (LESS.replace("old:     second(n)", "old: n"), "has `n` 10 times"),
        (LESS.replace("src/lib.rt", "src/main.rt"), "no file `src/main.rt`"),
        ("file: src/lib.rt\n", "it changes nothing"),
    ],
)
def test_what_cannot_be_planted(folder: pathlib.Path, text: str, why: str) -> None:
    with pytest.raises(edits.Unplantable, match=why.replace("(", r"\(").replace(")", r"\)")):
        edits.planted(written(folder, f"clause: first returns\n{text}"))


def test_a_copy_has_mutants_for_a_while(tmp_path: pathlib.Path, mutant: edits.Mutant) -> None:
    file = tmp_path / "copy" / "crates" / mutant.crate / "src" / "lib.rt"
    file.parent.mkdir(parents=True)
    file.write_text(SOURCE)
    with edits.planted_in(tmp_path / "copy", [mutant]):
        assert "second(n - 1)" in file.read_text()
    assert file.read_text() == SOURCE


def test_refusals_and_survivors_by_kind(mutant: edits.Mutant) -> None:
    """Only a refusal counts: neither a survivor nor a run that said nothing of the mutant."""
    refused = f"{prover.REFUSED}: note: src/lib.rt:2:1: {NOT_PROVED} (`returns`)"
    assert prover.outcome_of(mutant, refused) == (mutant, "first returns", "")
    assert prover.outcome_of(mutant, refused.replace("lib.rt:2", "lib.rt:9")).wrong == "is refused at `second returns`, not at `first returns`"
    assert prover.outcome_of(mutant, "NOT REFUSED").wrong == "NOT REFUSED"
    assert prover.outcome_of(mutant, "").wrong
    law = mutant._replace(by="csr laws::first_law")
    failed = "./proofs/Law.antt:3:4: error: the types differ\nonly=1 proved=0\n"
    assert proofs.outcome_of(law, failed) == (law, "laws::first_law", "")
    assert proofs.outcome_of(law, failed.replace("proofs/Law", "specs/Law")).wrong == "not tried: the types differ"
    assert proofs.outcome_of(law, "only=1 proved=1\n").wrong == "NOT REFUSED: laws::first_law is proved"
    assert proofs.outcome_of(law, "rt: the library below did not build\nonly=0 proved=0\n").wrong.startswith("not tried")
    assert proofs.outcome_of(law, "killed").wrong == "not tried: killed"
    assert crate_tests.outcome_of(mutant, "test result: FAILED. 7 passed; 6 failed; 0 ignored").refused == "6 of 13 fail"
    assert crate_tests.outcome_of(mutant, "test result: ok. 13 passed; 0 failed").wrong == "NOT REFUSED: all 13 tests pass"
    assert crate_tests.outcome_of(mutant, "error: no such name").wrong == "not tried: error: no such name"


def test_a_copy_has_the_proofs_of_a_module_out(tmp_path: pathlib.Path) -> None:
    proofs.copy_crates(tmp_path, ["faults", "report"])
    assert (tmp_path / "crates" / "report" / "proofs" / "out").is_dir()
    left = tmp_path / "crates" / "report" / "out"
    assert not left.exists() or {it.name for it in left.iterdir()} <= {clone.COMPILED}
    assert [line.partition(":")[0] for line in (tmp_path / "crates.txt").read_text().splitlines() if line[0] != "#"] == ["faults", "report"]


def test_a_copy_takes_what_a_check_kept(tmp_path: pathlib.Path, monkeypatch: pytest.MonkeyPatch) -> None:
    """The compiled crate is left out: a check of a crate reads only those below it."""
    monkeypatch.setattr(proofs, "TOP", tmp_path / "here")
    out = tmp_path / "here" / "crates" / "csr" / "out"
    for part in ("incremental", clone.COMPILED):
        (out / part).mkdir(parents=True)
        (out / part / "kept").touch()
    for name in ("csr", "faults"):
        proofs.take_kept(tmp_path / "copy", name)
    assert [it.relative_to(tmp_path / "copy") for it in (tmp_path / "copy").rglob("kept")] == [pathlib.Path("crates/csr/out/incremental/kept")]


def test_a_mutant_of_a_definition_names_a_function(folder: pathlib.Path) -> None:
    named = written(folder, f"# a: b\nproofs: csr view::row_rises\n{LESS}")
    assert (named.refuser, proofs.function_of(named), tool.refuser_fault(named)) == ("csr", "view::row_rises", "")
    for by in ("csr", "csr view::row_sleeps"):
        assert tool.refuser_fault(named._replace(by=by)) == f"`{by}` names no function of the crate"
    assert tool.refuser_fault(named._replace(by="no_crate view::row_rises")) == "there is no crate `no_crate`"


def test_rounds_share_neither_features_nor_words(folder: pathlib.Path) -> None:
    def of(features: str, old: str) -> edits.Mutant:
        return written(folder, f"program-test: a.py::b\nfeatures: {features}\nfile: src/lib.rt\nold: {old}\nnew: x\n")

    stats, line, fixed, everything = of("stats", "ab"), of("line", "bc"), of("stats fixed", "cd"), of("all", "de")
    assert program_tests.rounds([stats, line, fixed, everything]) == [[stats, line], [fixed], [everything]]
    assert program_tests.rounds([stats, of("line", "abc")]) == [[stats], [of("line", "abc")]]


def test_the_program_without_a_mutant_is_a_survivor(mutant: edits.Mutant) -> None:
    passing = mutant._replace(by="test_wiring.py::test_check_answers_by_its_status_too")
    assert program_tests.outcome_of(passing, PROGRAM).wrong == "NOT REFUSED: its test passes"
    assert program_tests.outcome_of(passing, pathlib.Path("/bin/true")) == (passing, "the test fails", "")
    assert program_tests.outcome_of(mutant._replace(by="test_wiring.py::test_of_nothing"), PROGRAM).wrong.startswith("not tried")


def test_lines_of_the_lock_file(tmp_path: pathlib.Path, monkeypatch: pytest.MonkeyPatch) -> None:
    """Lines of mutants that are gone are dropped, the others kept."""
    monkeypatch.setattr(lock, "LOCK", tmp_path / "mutants.lock")
    first, second = (f"{it.parent.parent.name}/{it.stem}" for it in edits.paths()[:2])
    lock.write_lock({first: lock.Line("ab", "find pit"), "csr/gone": lock.Line("cd", "x")})
    lock.record({second: lock.Line("ef", "6 of 13 fail")})
    assert lock.read_lock() == {first: lock.Line("ab", "find pit"), second: lock.Line("ef", "6 of 13 fail")}


def for_prover() -> list[edits.Mutant]:
    return [it for it in tool.readable()[0] if it.kind == edits.CLAUSE]


def test_the_gate_tries_crates_that_changed_and_one_more() -> None:
    mutants = for_prover()
    lines = {it.name: lock.Line(states.state_of(it), it.by) for it in mutants}
    (by_day,) = tool.due(mutants, lines)
    other = next(it for it in mutants if it.crate != by_day)
    changed, another = tool.due(mutants, lines | {other.name: lock.Line("of another state", other.by)})
    assert (changed, another != changed) == (other.crate, True)
    assert tool.due(mutants[:1], {}) == [mutants[0].crate]


@pytest.mark.parametrize(("status", "wrong", "wanted"), [(0, "", 0), (0, "NOT REFUSED", 1), (1, "", 1)])
def test_the_prover_s_are_recorded_if_all_is_well(
    status: int, wrong: str, wanted: int, tmp_path: pathlib.Path, monkeypatch: pytest.MonkeyPatch
) -> None:
    monkeypatch.setattr(lock, "LOCK", tmp_path / "mutants.lock")
    first, second = for_prover()[:2]
    outcomes = [Outcome(first, first.by), Outcome(second, second.by, wrong)]
    monkeypatch.setattr(prover, "run", lambda mutants, is_alone: (status, outcomes))
    assert tool.by_prover([first, second], is_alone=False) == wanted
    recorded = {it.name: lock.Line(states.state_of(it), it.by) for it in (first, second)}
    assert lock.read_lock() == ({} if wanted else recorded)


def test_the_others_are_recorded_one_by_one(tmp_path: pathlib.Path, monkeypatch: pytest.MonkeyPatch) -> None:
    monkeypatch.setattr(lock, "LOCK", tmp_path / "mutants.lock")
    first, second = for_prover()[:2]
    assert tool.keep([Outcome(first, "6 of 13 fail"), Outcome(second, "", "NOT REFUSED")]) == 1
    assert lock.read_lock() == {first.name: lock.Line(states.state_of(first), "6 of 13 fail")}


def test_each_mutant_can_be_planted_and_has_a_line() -> None:
    ran = subprocess.run([TOP / "tools" / "mutants.py", "--read"], capture_output=True, text=True, timeout=60)
    assert (ran.returncode, ran.stdout, ran.stderr) == (0, "", "")
    mutants, wrong = tool.readable()
    assert not wrong and {it.kind for it in mutants} == set(edits.KINDS)
    assert tool.mistakes(mutants[:1], {}, needs_line=True)
    other = {mutants[0].name: lock.Line(states.state_of(mutants[0]), "another clause")}
    assert bool(tool.mistakes(mutants[:1], other, needs_line=True)) == (mutants[0].kind == edits.CLAUSE)
