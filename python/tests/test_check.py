"""`pitplan check`: the notes and refusals of `prepare`, without a file."""

import pytest
from conftest import rows

import pitplan
from pitplan import PlanError, load
from pitplan.cli import main
from pitplan.commands.plans import write_plan

ORE = {"cu": lambda i, j, k: {(3, 3, 1): 6, (4, 3, 1): 2.5, (3, 4, 0): 9}.get((i, j, k), 0)}


@pytest.fixture
def mine(plan_folder):
    return plan_folder(rows(7, 7, 4, **ORE))


def test_it_notes_what_prepare_notes_and_writes_nothing(mine):
    before = {path: path.read_bytes() for path in mine.parent.iterdir()}
    notes = pitplan.check(mine)
    assert {path: path.read_bytes() for path in mine.parent.iterdir()} == before
    assert notes == write_plan(load(mine), mine.parent / "plan")["notes"] and any(
        "slope precedences for" in note for note in notes
    )


def test_the_command_line(mine, capsys):
    assert main(["check", str(mine)]) == 0
    said = capsys.readouterr()
    assert said.out == f"{mine}: no errors\n"
    assert said.err.startswith("reading ") and said.err.count("blocks lie on a grid") == 1
    assert main(["check", str(mine), "--quiet"]) == 0
    warnings = [note for note in pitplan.check(mine) if note.startswith("WARNING: ")]
    assert capsys.readouterr().err.splitlines() == warnings


@pytest.mark.parametrize(
    ("change", "said"),
    [
        (("price = 8000", 'price = "much"'), "[metals 1] price: 'much' is not a number"),
        (
            ("precedence_benches = 3", "precedence_benches = 0"),
            "[slopes] precedence_benches: found 0, expected a whole number from 1 to 40",
        ),
        (("discount_rate = 0.1", "discount_rate = 0.1\nrates = 1"), "[shells] rates: unknown key"),
        (('domain = "region"', 'domain = "region"\ntopography = "nowhere.csv"'), "nowhere.csv"),
        (("[shells]", '[constraints]\nmust_mine = "must"\n[shells]'), "must"),
        (("[shells]", "[figures]\nlevels = [900]\n[shells]"), "[figures] levels: 900 is beyond the model"),
    ],
)
def test_what_prepare_refuses_it_refuses(mine, change, said, capsys):
    text = mine.read_text()
    assert text.count(change[0]) == 1
    mine.write_text(text.replace(*change))
    assert main(["check", str(mine), "--quiet"]) == 1
    refusal = capsys.readouterr().err
    assert said in refusal and "Traceback" not in refusal
    assert main(["prepare", str(mine), "--quiet"]) == 1
    assert capsys.readouterr().err == refusal


def test_a_table_is_read_whole(mine):
    table = mine.parent / "blocks.csv"
    table.write_text(table.read_text() + "last,5,5,5,many,0,R,1\n")
    with pytest.raises(PlanError, match="blocks.csv"):
        pitplan.check(mine)


SCHEDULE, PUSHBACKS = "[schedule]\nyears = 4\n", "[pushbacks]\ncount = 1\n"
NOTE = (
    "[schedule] is for pushbacks or blocks, and [pushbacks] is missing: "
    "set its count, tonnes or revenue_factors, or schedule with --by block"
)


def test_a_schedule_without_pushbacks_is_noted(mine, capsys):
    """As `pitplan schedule` refuses it."""
    mine.write_text(mine.read_text() + SCHEDULE)
    assert pitplan.check(mine)[-1] == NOTE
    assert main(["check", str(mine)]) == 0
    assert capsys.readouterr().err.splitlines()[-1] == NOTE
    assert main(["schedule", str(mine), "--quiet", "--no-figures"]) == 1
    assert "[pushbacks] is missing: set its count, tonnes or revenue_factors" in capsys.readouterr().err


@pytest.mark.parametrize("more", ["", PUSHBACKS, SCHEDULE + PUSHBACKS])
def test_no_section_is_missed_that_no_command_asks_for(mine, more):
    mine.write_text(mine.read_text() + more)
    assert NOTE not in pitplan.check(mine)
