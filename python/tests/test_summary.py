"""The first lines of a run: extents, tonnes, grades and columns of small tables, worked by hand."""

import json

import pytest
from conftest import PROJECT, rows

from pitplan import Plan, PlanError, load
from pitplan.cli import main

FLOOR_OF_ORE = {"cu": lambda i, j, k: 2.0 if k == 0 else 0.5, "tonnes": lambda i, j, k: 300 if k == 0 else 100}
GOLD = '[[metals]]\nname = "gold"\ncolumn = "au"\nunit = "gram_per_tonne"\nprice = 60\nrecovery = 0.5\n[slopes]'
SOLVES = [["shells", "--no-figures"], ["pit", "--revenue-factor", "1.00"]]


def first_lines(err):
    """What stands between the steps of the grid and of the walls."""
    lines = err.splitlines()
    ends = [k for k, line in enumerate(lines) if line.startswith(("building the grid", "building slope precedences"))]
    return lines[ends[0] + 1 : ends[1]]


def box(plan_folder, *changes, **more):
    """4 x 3 x 2 blocks of 10 m: 12 of 300 t with 2 % on the floor, 12 of 100 t with 0.5 % above."""
    return plan_folder(rows(4, 3, 2, **{**FLOOR_OF_ORE, **more}), PROJECT, *changes)


def expected(folder):
    """12 x 300 + 12 x 100 = 4,800 t; (3,600 x 2 + 1,200 x 0.5) / 4,800 = 1.625 %."""
    return [
        f"{folder / 'blocks.csv'}: 24 blocks in 24 cells, 4,800 t, tonnes from column tonnes",
        "x: from 0 to 40 m, 4 cells of 10 m, centres in x",
        "y: from 0 to 30 m, 3 cells of 10 m, centres in y",
        "z: from 0 to 20 m, 2 cells of 10 m, centres in z",
        "copper: cu, mean 1.625, maximum 2 %, priced per tonne",
    ]


def test_prepare_tells_them_first_and_keeps_them(plan_folder, tmp_path, capsys):
    path = box(plan_folder)
    assert main(["prepare", str(path)]) == 0
    assert first_lines(capsys.readouterr().err) == expected(tmp_path)
    assert json.loads((tmp_path / "plan" / "plan.json").read_text())["summary"] == expected(tmp_path)


def test_quiet_tells_none(plan_folder, capsys):
    assert main(["prepare", str(box(plan_folder)), "--quiet"]) == 0
    assert "cells of 10 m" not in capsys.readouterr().err


@pytest.mark.parametrize("words", SOLVES)
def test_solving_tells_them(plan_folder, tmp_path, capsys, words):
    path = box(plan_folder)
    path.write_text(path.read_text() + '[constraints]\nmust_mine = "cu"\n')
    assert main([words[0], str(path), *words[1:]]) == 0
    assert first_lines(capsys.readouterr().err) == expected(tmp_path)


def test_the_report_has_them(solved):
    project, folder = solved
    page = (folder / "report.html").read_text()
    # 10 x 9 x 5 cells, without one level of 5 x 9.
    assert "405 blocks in 450 cells, 40,500 t, tonnes from column tonnes</li>" in page
    assert "<li>x: from 0 to 100 m, 10 cells of 10 m, centres in x</li>" in page


def test_columns_that_are_not_used_or_not_named(plan_folder, tmp_path):
    changes = [('id = "name"\nrock_type = "rock"\ndomain = "region"\n', "")]
    lines = Plan.from_project(box(plan_folder, *changes, notes=lambda i, j, k: "core")).summary
    assert lines == [
        *expected(tmp_path)[:4],
        "unused columns: name, rock, region, notes",
        "no column in the project: id, rock_type, domain",
        *expected(tmp_path)[4:],
    ]


def test_gaps_between_blocks_are_cells(plan_folder):
    """Without the upper level's west row of three blocks."""
    table = rows(4, 3, 2, **FLOOR_OF_ORE)
    path = plan_folder(table[(table["z"] < 10) | (table["x"] > 10)])
    assert ": 21 blocks in 24 cells, 4,500 t, tonnes from column tonnes" in Plan.from_project(path).summary[0]


@pytest.mark.parametrize(
    ("words", "said"),
    [
        ('density = "sg"', "60,000 t, tonnes from sg (t/m3) times the block size"),
        ('density = "sg"\nvolume = "m3"', "54,000 t, tonnes from sg (t/m3) times m3 (m3)"),
    ],
)
def test_tonnes_of_a_density_name_their_columns(plan_folder, words, said):
    """24 blocks of 2.5 t a cubic metre, of 1,000 or of 900 cubic metres."""
    more = {"sg": lambda i, j, k: 2.5, "m3": lambda i, j, k: 900}
    path = box(plan_folder, ('id = "name"', f'id = "name"\n{words}'), **more)
    assert Plan.from_project(path).summary[0].endswith(said)


def told(plan):
    """The table's lines, and the notes with all warnings."""
    return [*plan.summary, *plan.notes]


def test_metals_in_grams_and_grades_that_cannot_be(plan_folder):
    """Two metals: the one weighs more than its block, the other all but as much."""
    more = {"au": lambda i, j, k: 1e6 if k else 0, "cu": lambda i, j, k: 100.0 if i + j + k == 0 else 0}
    gold = ("[slopes]\nprecedence_benches", GOLD + "\nprecedence_benches")
    lines = told(Plan.from_project(box(plan_folder, gold, **more)))
    # 1,200 of 4,800 t, and 300 of 4,800 t with 100 %.
    assert "gold: au, mean 2.5e+05, maximum 1e+06 g/t, priced per gram" in lines
    assert "copper: cu, mean 6.25, maximum 100 %, priced per tonne" in lines
    more["cu"] = lambda i, j, k: 100.5 if i + j + k == 0 else 0
    with pytest.raises(PlanError, match=r"blocks.csv row 2 column cu: 100.5 is above 100 %$"):
        Plan.from_project(box(plan_folder, gold, **more))


@pytest.mark.parametrize(
    ("unit", "most", "whole"), [("fraction", 1.5, 1.0), ("gram_per_tonne", 1_000_001.0, 1_000_000.0)]
)
def test_each_unit_has_its_limit(plan_folder, unit, most, whole):
    changes = [('unit = "percent"', f'unit = "{unit}"'), ("price = 8000", "price = 1")]
    Plan.from_project(box(plan_folder, *changes, cu=lambda i, j, k: whole))
    with pytest.raises(PlanError, match=r"row 2 column cu: .* is above .* \(24 rows, 2, 3, 4, ..\)"):
        Plan.from_project(box(plan_folder, *changes, cu=lambda i, j, k: most))


def test_empty_fields_and_the_text_are_told(plan_folder):
    table = rows(4, 3, 2, cu=lambda i, j, k: None if i == 0 else 2.0)
    path = plan_folder(table, PROJECT, ('file = "blocks.csv"', 'file = "blocks.csv"\nempty = "zero"'))
    table.to_csv(path.parent / "blocks.csv", index=False, sep=";")
    lines = told(Plan.from_project(path))
    assert "the fields are separated by semicolons; [table] separator sets another separator" in lines
    assert "WARNING: 6 rows are null or empty in cu, and are read as 0 there" in lines
    # Each once: not among the lines of the table and the notes.
    assert len(lines) == len(set(lines))


def test_a_row_that_is_null_in_two_metals_is_counted_once(plan_folder):
    table = rows(4, 3, 2, cu=lambda i, j, k: -99 if i == 0 else 2.0, au=lambda i, j, k: -99 if i < 2 else 0.5)
    second = '\n[[metals]]\nname = "gold"\ncolumn = "au"\nunit = "gram_per_tonne"\nprice = 50\nrecovery = 0.5\n[slopes]'
    nulls = ('file = "blocks.csv"', 'file = "blocks.csv"\nempty = "zero"\nnull_values = [-99]')
    lines = told(Plan.from_project(plan_folder(table, PROJECT, nulls, ("\n[slopes]", second))))
    assert [it for it in lines if "null or" in it] == [
        "WARNING: 12 rows are null or empty in cu, au, and are read as 0 there"
    ]


def test_a_table_without_tonnes_has_a_mean_of_nothing():
    from numpy import array

    from pitplan.blockmodel.summary import mean_of

    assert mean_of(array([2.0, 4.0]), array([0.0, 0.0])) == 0 and mean_of(array([2.0, 4.0]), array([3.0, 1.0])) == 2.5


def test_scenarios_tell_the_grades_of_all_models(plan_folder, tmp_path, capsys):
    """Models as columns: 300 t of 2 % and of 4 % among 4,800 t, so 0.125 and 0.25 %, with a mean of 0.1875 %."""
    sims = {f"sim_{n}": lambda i, j, k, n=n: 2.0 * n if i + j + k == 0 else 0.0 for n in (1, 2)}
    path = box(plan_folder, **sims)
    path.write_text(path.read_text() + '[scenarios]\ncolumns = { copper = "sim_*" }\n')
    assert main(["scenarios", str(path), "--on", "parallel", "--no-figures"]) == 0
    lines = capsys.readouterr().err.splitlines()
    assert f"{tmp_path / 'blocks.csv'}: 24 blocks in 24 cells, 4,800 t, tonnes from column tonnes" in lines
    assert "y: from 0 to 30 m, 3 cells of 10 m, centres in y" in lines and "unused columns: cu" in lines
    assert "copper: sim_1 and so on, of 2 realisations, mean 0.1875, maximum 4 %, priced per tonne" in lines


def test_scenarios_of_a_folder_tell_its_models(plan_folder, tmp_path, capsys):
    path = box(plan_folder)
    path.write_text(path.read_text() + '[scenarios]\nrealisations = "realisations"\n')
    (tmp_path / "realisations").mkdir()
    for number in (1, 2, 3):
        table = rows(4, 3, 2, cu=lambda i, j, k: 1.0 * number)[["name", "cu"]]
        table.to_csv(tmp_path / "realisations" / f"m{number}.csv", index=False)
    assert load(path).scenarios is not None and main(["scenarios", str(path), "--on", "parallel", "--no-figures"]) == 0
    assert "copper: cu and so on, of 3 realisations, mean 2, maximum 3 %, priced per tonne" in capsys.readouterr().err
