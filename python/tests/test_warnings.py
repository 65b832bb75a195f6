"""Inputs that are lawful and unlikely are warned of, after the notes and apart from them."""

import pytest
from conftest import PROJECT, rows

from pitplan import Plan, load
from pitplan.cli import main


def warnings_of(path):
    return [note for note in Plan.from_project(path).notes if note.startswith("WARNING")]


def ore(**more):
    return rows(3, 3, 2, cu=lambda i, j, k: 1.5, **more)


def test_a_price_by_the_pound_is_warned_of(plan_folder):
    """Copper at 4 USD a tonne pays in no block, and at 4 USD a pound, 8818 a tonne, in each."""
    (said,) = warnings_of(plan_folder(ore(), PROJECT, ("price = 8000", "price = 4.0")))
    hint = 'set price_per = "lb" if a price is per lb'
    # 1.5 % of 4 USD.
    told = "the metal in a tonne of mean grade is worth 0.06 USD, and 0 of 18 blocks with metal pay"
    assert said == f"WARNING: no block pays for its processing, copper at 4 USD per t: {hint}; {told}"
    assert not warnings_of(plan_folder(ore(), PROJECT, ("price = 8000", 'price = 4.0\nprice_per = "lb"')))


def test_a_price_by_the_ounce_is_warned_of(plan_folder):
    """Gold of 2 g/t at 2,300 USD a gram is worth 4,600 USD a tonne, 31 times as much as usual; at 2,300 USD an ounce, 148."""
    gold = [('unit = "percent"', 'unit = "gram_per_tonne"'), ('name = "copper"', 'name = "gold"')]
    table = ore().assign(cu=[2.0] * 9 + [0.0] * 9)
    (said,) = warnings_of(plan_folder(table, PROJECT, *gold, ("price = 8000", "price = 2300")))
    hint = 'gold at 2300 USD per g is 31 times its usual price: set price_per = "oz" if it is per oz'
    assert (
        said
        == f"WARNING: {hint}; the metal in a tonne of mean grade is worth 4,600 USD, and 9 of 9 blocks with metal pay"
    )
    assert not warnings_of(plan_folder(table, PROJECT, *gold, ("price = 8000", 'price = 2300\nprice_per = "oz"')))
    cheap = warnings_of(plan_folder(table, PROJECT, *gold, ("price = 8000", "price = 7")))
    assert not [note for note in cheap if "usual price" in note]


def test_a_table_without_metal_is_not_warned_of_its_price(plan_folder):
    assert not warnings_of(plan_folder(rows(2, 2, 1), PROJECT, ("price = 8000", "price = 4.0")))


@pytest.mark.parametrize(("tonnes", "is_warned"), [(2.65, True), (2650, False), (265_000, True), (100, False)])
def test_tonnes_that_do_not_fit_the_blocks_are_warned_of(plan_folder, tonnes, is_warned):
    """Blocks of 1,000 cubic metres in kilotonnes, tonnes, and hundredfold."""
    found = [note for note in warnings_of(plan_folder(ore(tonnes=lambda i, j, k: tonnes))) if "density" in note]
    assert len(found) == is_warned
    if is_warned:
        assert f"blocks of 10 x 10 x 10 m have a density of {tonnes / 1000:.3g} t/m3" in found[0]


def test_cut_blocks_do_not_make_a_model_light(plan_folder):
    """Nine of ten blocks hold a hundredth of their rock, as a ground between levels leaves them; the tenth tells."""
    table = rows(10, 2, 1, cu=lambda i, j, k: 1, tonnes=lambda i, j, k: 2600 if i < 2 else 26)
    assert not [note for note in warnings_of(plan_folder(table)) if "density" in note]


def test_warnings_come_last_and_apart(plan_folder, capsys):
    """Behind a line without words, also those of the table, which were told in the middle of the run."""
    path = plan_folder(ore().assign(cu=40.0), PROJECT)
    assert main(["shells", str(path), "--no-figures"]) == 0
    lines = capsys.readouterr().err.split("\n")
    first = next(number for number, line in enumerate(lines) if line.startswith("WARNING"))
    assert lines[first - 1] == "" and lines[first - 2].strip()
    assert all(line.startswith("WARNING") for line in lines[first:] if line)
    assert sum("the mean grade of copper in blocks above 0 is 40 %" in line for line in lines) == 1


def test_a_new_project_warns_of_codes_for_missing_values(tmp_path, capsys):
    """Three of eighteen tonnes and grades are -99: the rows are no blocks, and the project says so."""
    table = ore()
    table.loc[:2, ["tonnes", "cu"]] = -99
    table.drop(columns=["rock", "region"]).rename(columns={"cu": "cu_pct"}).to_csv(tmp_path / "model.csv", index=False)
    assert main(["init", str(tmp_path / "model.csv")]) == 0
    said = capsys.readouterr().err
    assert "model.csv: 15 blocks, 1,500 tonnes" in said
    assert "WARNING: 3 rows are read as missing blocks, since tonnes is null" in said
    rules = load(tmp_path / "project.toml").table.rules.nulls
    assert rules.values == ("-99",) and rules.meaning("tonnes", "refuse") == "missing"
