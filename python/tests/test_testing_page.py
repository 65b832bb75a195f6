"""The counts of docs/TESTING.md are lower bounds of the repository's, and not far below them; docs/CONTRACTS.md quotes its sources."""

import re

import pytest
from conftest import ROOT

PAGE = (ROOT / "docs" / "TESTING.md").read_text(encoding="utf-8")
# A bound may be this share below the count.
NEAR = 0.75


def lines(*patterns):
    files = {file for pattern in patterns for file in ROOT.glob(pattern) if file.is_file()}
    return sum(file.read_bytes().count(b"\n") for file in files if "out" not in file.parts)


def functions(pattern):
    return sum(len(re.findall(r"^def test_", file.read_text("utf-8"), re.MULTILINE)) for file in ROOT.glob(pattern))


def mutants(kind):
    edits = (file.read_text(encoding="utf-8") for file in ROOT.glob("crates/*/mutants/*.edit"))
    return sum(bool(re.search(rf"^{kind}:", text, re.MULTILINE)) for text in edits)


COUNTS = {
    r"more than ([\d,]+) lines of code, [\d,]+ lines of proofs": lambda: lines("crates/*/src/**/*.rt"),
    r"lines of code, ([\d,]+) lines of proofs": lambda: lines("crates/*/proofs/**/*"),
    r"more than ([\d,]+) lines of code \|": lambda: lines(
        *(f"python/{name}/**/*.py" for name in ("pitplan", "planaudit", "minelib", "pitshell"))
    ),
    r"lines of tests \| more than ([\d,]+)": lambda: lines("tests/*.py", "python/tests/**/*.py"),
    r"every function of more than (\d+) crates": lambda: len([*ROOT.glob("crates/*/src")]),
    r"mutants \| more than (\d+)": lambda: len([*ROOT.glob("crates/*/mutants/*.edit")]),
    r"more than ([\d,]+) in `tests/`": lambda: functions("tests/*.py"),
    r"more than ([\d,]+) in `python/tests/`": lambda: functions("python/tests/*.py"),
    **{
        rf"`{kind}` \|[^|]*\| (\d+)": lambda kind=kind: mutants(kind)
        for kind in ("clause", "proofs", "program-test", "crate-tests")
    },
}


@pytest.mark.parametrize("pattern", COUNTS)
def test_the_bound_is_below_the_count(pattern):
    (said,) = re.findall(pattern, PAGE)
    bound, count = int(said.replace(",", "")), COUNTS[pattern]()
    assert NEAR * count <= bound <= count


def test_files_that_the_page_names_exist():
    named = re.findall(r"`((?:tests|python|tools)/[\w/.]+|test_\w+\.py)`", PAGE)
    missing = [name for name in named if not any((ROOT / folder / name).exists() for folder in ("", "python/tests"))]
    assert len(named) > 8 and missing == []


def test_the_table_of_contributing_counts_the_mutants():
    page = (ROOT / "CONTRIBUTING.md").read_text(encoding="utf-8")
    rows = re.findall(r"^\| `(clause|proofs|crate-tests|program-test)` \|[^|]*\| (\d+) \|", page, re.MULTILINE)
    assert len(rows) == 4
    assert all(NEAR * mutants(kind) <= int(count) <= mutants(kind) for kind, count in rows)


def test_the_page_of_contracts_quotes_the_sources():
    """Each line of a block is one of the file that is linked last before it, or of a mutant."""
    page = (ROOT / "docs" / "CONTRACTS.md").read_text(encoding="utf-8")
    edits = "\n".join(file.read_text(encoding="utf-8") for file in ROOT.glob("crates/pit_model/mutants/*.edit"))
    found = re.findall(r"\(\.\./(crates/[\w/.]+)\)|^ *```\w*\n(.*?)^ *```$", page, re.MULTILINE | re.DOTALL)
    source, quoted = "", 0
    for file, block in found:
        source = (ROOT / file).read_text(encoding="utf-8") if file else source
        for line in map(str.strip, block.splitlines()):
            quoted += 1
            assert line in source or line in edits, line
    assert quoted > 15


def test_no_rate_of_planted_changes_is_claimed_that_was_measured_on_older_code():
    section = PAGE.partition("\n## Planted changes\n")[2].partition("\n## ")[0]
    assert section and not re.search(r"\d+ of 100", section) and "95 of 100" not in PAGE
