"""Null codes, mapped codes, calculated columns, filters, boxes, cell sizes and percents of [table], each against values worked by hand."""

import numpy as np
import pandas as pd
import pytest
from conftest import PROJECT, rows

from pitplan import Plan, PlanError, load
from pitplan.blockmodel import row_rules
from pitplan.cli import main
from planaudit import AuditError
from planaudit.inputs import block_table, project_file

FILE = 'file = "blocks.csv"'


def with_rules(plan_folder, table, *words, changes=()):
    return plan_folder(table, PROJECT, (FILE, "\n".join([FILE, *words])), *changes)


def tonnes_of(path):
    return Plan.from_project(path).table["tonnes"].tolist()


def refused(path):
    with pytest.raises(PlanError) as told:
        Plan.from_project(path)
    return str(told.value)


def test_null_codes_are_zero_missing_or_refused(plan_folder):
    """Of 18 blocks the first row of grades is -99, the second "NA", the third -1 in copper alone; one block has no tonnes."""
    table = rows(3, 3, 2, cu=lambda i, j, k: 1.5)
    table = table.astype({"cu": object, "tonnes": object})
    table.loc[0, "cu"], table.loc[1, "cu"], table.loc[2, "cu"], table.loc[17, "tonnes"] = -99, "NA", "-1.0", "-99.00"
    nulls = 'nulls = { cu = { values = [-1], as = "zero" }, tonnes = "missing" }'
    plan = Plan.from_project(with_rules(plan_folder, table, 'null_values = [-99, "NA"]', nulls))
    assert plan.table["cu"].tolist() == [0, 0, 0] + [1.5] * 14 and len(plan.table) == 17
    assert "1 rows are left out: tonnes is null, which [table] reads as a missing block" in plan.notes
    assert "WARNING: 3 rows are null or empty in cu, and are read as 0 there" in plan.notes
    said = refused(with_rules(plan_folder, table, 'null_values = [-99, "NA", -1]', 'nulls = { tonnes = "missing" }'))
    assert said.endswith(
        'blocks.csv row 2 column cu: is empty or a null code, as are 2 more: set [table.nulls] "cu" = "zero" or "missing"'
    )
    said = refused(with_rules(plan_folder, table, 'null_values = ["NA"]', 'empty = "zero"'))
    assert "blocks.csv row 19 column tonnes: -99 is negative" in said


def test_a_null_code_is_named_with_its_rows(plan_folder):
    table = rows(3, 3, 2)
    table.loc[4:, "tonnes"] = -99
    said = refused(plan_folder(table))
    assert said.endswith(
        "row 6 column tonnes: -99 is negative (14 rows, 6, 7, 8, ..): -99 occurs 14 times: if it is a null code, set [table] null_values = [-99]"
    )


def test_a_null_code_of_a_code_is_an_empty_code(plan_folder):
    table = rows(3, 3, 2).assign(rock=lambda it: ["none"] + ["R"] * 17)
    said = refused(with_rules(plan_folder, table, 'null_values = ["none"]'))
    assert said.endswith("row 2 column rock: is empty")


def test_codes_are_mapped_and_others_are_refused(plan_folder):
    """Recovery by the names: 9 blocks of "1" and "1.0", 9 of "2"."""
    table = rows(3, 3, 2, rock=lambda i, j, k: ("1", "1.0")[i % 2] if k else "2")
    recovery = ("recovery = 0.5", "recovery = { oxide = 0.5, fresh = 0.8 }")
    path = with_rules(plan_folder, table, 'map = { rock = { 1 = "oxide", 2 = "fresh" } }', changes=[recovery])
    assert Plan.from_project(path).table["rock"].tolist() == ["fresh"] * 9 + ["oxide"] * 9
    path = with_rules(plan_folder, table, 'map = { rock = { 1 = "oxide" } }', changes=[recovery])
    assert refused(path).endswith(
        'row 2 column rock: found the code "2", expected one of 1: name it in [table.map] rock, or all others by "*"'
    )
    path = with_rules(plan_folder, table, 'map = { rock = { 1 = "oxide", "*" = "fresh" } }', changes=[recovery])
    assert Plan.from_project(path).table["rock"].tolist() == ["fresh"] * 9 + ["oxide"] * 9


def test_columns_are_calculated(plan_folder):
    """Copper equivalent 0.5 + 0.3 * 2 / 4, rock from a number, a column from one that is calculated."""
    table = rows(3, 3, 2, au=lambda i, j, k: 2.0, half=lambda i, j, k: 0.5, weath=lambda i, j, k: k + 1).drop(
        columns=["cu", "rock"]
    )
    words = [
        "[table.calculate]",
        'cu = "half + eq"'.replace("eq", "0.3 * au / 4"),
        "rock = \"if(weath < 2, 'SUL', 'OX')\"",
    ]
    path = plan_folder(
        table,
        PROJECT,
        ("[grid]", "\n".join([*words, "[grid]"])),
        ("recovery = 0.5", "recovery = { OX = 0.4, SUL = 0.8 }"),
    )
    plan = Plan.from_project(path)
    assert plan.table["cu"].tolist() == [0.65] * 18
    assert plan.table["rock"].tolist() == ["SUL"] * 9 + ["OX"] * 9


@pytest.mark.parametrize(
    ("expression", "why"),
    [
        ("__import__('os')", "found the function __import__, expected one of if, min"),
        ("weath.real", "may not have Attribute"),
        ("weath[0]", "may not have Subscript"),
        ("9 + 1", "names no column"),
        ("weath +", "is not an expression, such as cu_pct * 62.1 + au_gpt * 38"),
        ("if(weath, 1)", "if takes 3 values"),
        ("(lambda: 1)()", "is not an expression"),
        ("weath if weath else 1", "is not an expression"),
        ("[weath for weath in weath]", "is not an expression"),
        ("weath := 3", "is not an expression"),
        ("@weath", "is not an expression"),
        pytest.param("weath" + " + 1" * 300, "is too long", id="300 sums"),
        pytest.param("1" * 3000 + " + weath", "has more than 2,000 letters", id="3,000 digits"),
    ],
)
def test_an_expression_that_is_none_is_refused_before_reading(plan_folder, expression, why):
    path = plan_folder(rows(2, 2, 2), PROJECT, ("[grid]", f'[table.calculate]\nmore = "{expression}"\n[grid]'))
    with pytest.raises(PlanError, match=r"\[table.calculate\] more: ") as told:
        load(path)
    assert why in str(told.value)


@pytest.mark.parametrize(
    ("expression", "why"),
    [
        ("weath * 2", "there is no column weath"),
        ("rock + 1", "arithmetic takes numbers, found texts"),
        ("rock == 1", "the column rock holds texts, compared with the number 1.0"),
        ("tonnes == '100'", "the column tonnes holds numbers, compared with the text '100'"),
        ("1 / (tonnes - 100)", "is infinite"),
        ("if(tonnes > 0, 'a', 'b')", "gives texts, expected numbers"),
        ("10 ** 10 ** 10 + tonnes", "is infinite"),
    ],
)
def test_an_expression_that_gives_no_grade_is_refused(plan_folder, expression, why):
    table = rows(2, 2, 2).drop(columns="cu")
    assert why in refused(plan_folder(table, PROJECT, ("[grid]", f'[table.calculate]\ncu = "{expression}"\n[grid]')))


def test_columns_of_which_nothing_is_known_are_texts_or_numbers_as_a_whole(plan_folder, monkeypatch):
    """Codes "01" and "1" in pieces that look like numbers stay texts, since one other code is "A"; numbers have decimal commas or nulls."""
    monkeypatch.setattr("pitplan.core.text_tables.PIECE", 3)
    table = rows(3, 2, 2).drop(columns=["cu", "rock"]).assign(code=["01", "1", "01", "1", "A"] + ["1"] * 7)
    table["grade"] = [f"{k},5" for k in range(11)] + ["-"]
    words = [
        "[table.calculate]",
        'cu = "if(is_null(grade), 0, grade * 2)"',
        "rock = \"if(code == '01', 'X', code)\"",
        "[table.nulls]",
        'grade = { values = ["-"] }',
    ]
    path = plan_folder(
        table.to_csv(index=False, sep=";", decimal=","), PROJECT, ("[grid]", "\n".join([*words, "[grid]"]))
    )
    plan = Plan.from_project(path)
    assert plan.table["cu"].tolist() == [2.0 * k + 1 for k in range(11)] + [0]
    assert plan.table["rock"].tolist() == ["X", "1", "X", "1", "A"] + ["1"] * 7


def test_rows_are_filtered_and_clipped(plan_folder):
    """Of 4 x 3 x 2 blocks the filter leaves those of one rock, and the box those with x up to 25."""
    table = rows(4, 3, 2, rock=lambda i, j, k: "R" if j else "air")
    path = with_rules(
        plan_folder, table, "filter = \"rock != 'air' and tonnes > 0\"", "clip = { x = [0, 25], z = [0, 20] }"
    )
    plan = Plan.from_project(path)
    expected = table[(table["rock"] != "air") & (table["x"] <= 25)]
    assert plan.table["name"].tolist() == expected["name"].tolist() and len(expected) == 12
    assert [note for note in plan.notes if "left out" in note] == [
        "8 rows are left out: [table] filter: rock != 'air' and tonnes > 0",
        "4 rows are left out: their centroids lie beyond [table] clip",
    ]
    assert "no block is left" in refused(with_rules(plan_folder, table, 'filter = "tonnes > 1000"'))
    assert "is not a condition" in refused(with_rules(plan_folder, table, 'filter = "tonnes + 1"'))


def test_errors_name_the_row_of_the_file_below_a_preamble_and_behind_rows_that_are_left_out(plan_folder):
    """Rows 1 to 3 are a preamble, row 4 the names, row 5 their units; block 2, 0, 0 is row 8, behind one that is left out."""
    table = rows(3, 3, 2)
    table.loc[2, "tonnes"] = -5
    text = "Model of 2026\nno constraints\n\n" + table.to_csv(index=False).replace(
        "region\n", "region\n-,m,m,m,t,%,-,-\n", 1
    )
    assert "blocks.csv row 8 column tonnes: -5 is negative" in refused(
        with_rules(plan_folder, text, "filter = \"name != 'b0-0-0'\"")
    )
    assert "3 header lines" not in refused(plan_folder(text))


def test_the_audit_names_the_same_row(plan_folder):
    """Below the same preamble the block of row 8 has no tonnes, and then a word for them."""
    for field, why in (("", "is empty"), ("many", '"many" is not a number')):
        table = rows(3, 3, 2).astype({"tonnes": object})
        table.loc[2, "tonnes"] = field
        text = "Model of 2026\nno constraints\n\n" + table.to_csv(index=False).replace(
            "region\n", "region\n-,m,m,m,t,%,-,-\n", 1
        )
        path = with_rules(plan_folder, text, "filter = \"name != 'b0-0-0'\"")
        with pytest.raises(AuditError, match=f"blocks.csv row 8 column tonnes: {why}"):
            block_table.read(project_file.load(path))
        assert f"blocks.csv row 8 column tonnes: {why}" in refused(path)


def test_cells_have_the_volumes_of_their_sizes(plan_folder):
    """2.5 t/m3 times 10 x 10 x 10 m, of which 80 % and 60.5 % are rock: 2,000 t and 1,512.5 t."""
    more = {side: lambda i, j, k: 10 for side in ("dx", "dy", "dz")}
    table = rows(3, 3, 2, sg=lambda i, j, k: 2.5, rock_pct=lambda i, j, k: 80 if k else 60.5, **more).drop(
        columns="tonnes"
    )
    words = ['density = "sg"', 'cell_size = ["dx", "dy", "dz"]', 'rock_percent = "rock_pct"']
    no_grid = ("[grid]\nsize = [10, 10, 10]", "[grid]")
    path = with_rules(plan_folder, table, *words, changes=[no_grid])
    assert tonnes_of(path) == [1512.5] * 9 + [2000.0] * 9 and Plan.from_project(path).grid.size == (10.0, 10.0, 10.0)
    table.loc[3, "rock_pct"] = 100.5
    said = refused(with_rules(plan_folder, table, *words, changes=[no_grid]))
    assert "row 5 column rock_pct: 100.5 is not from 0 to 100, as [table] rock_percent in percent is" in said
    table.loc[3, ["rock_pct", "dz"]] = [50, 5]
    said = refused(with_rules(plan_folder, table, *words, changes=[no_grid]))
    assert said.endswith(
        'row 5 column dz: 5 m is less than the 10 m of other cells: parts of blocks require [table] reblock = "parents"'
    )


def test_ore_percent_dilutes_the_grades(plan_folder):
    """Half of each block is ore of 3 % copper: 1.5 % of the whole block."""
    table = rows(3, 3, 2, cu=lambda i, j, k: 3.0, ore=lambda i, j, k: 0.5)
    plan = Plan.from_project(with_rules(plan_folder, table, 'ore_percent = { column = "ore", unit = "fraction" }'))
    assert plan.table["cu"].tolist() == [1.5] * 18 and plan.table["tonnes"].tolist() == [100.0] * 18


def test_sub_cells_are_put_together_to_parents(plan_folder):
    """One block of four is cut into halves of 5 m with other grades; density 2, so 1,000 t with 1 % and 1,000 t with 4 %: 2.5 %."""
    table = rows(
        2,
        2,
        2,
        cu=lambda i, j, k: 1.0,
        sg=lambda i, j, k: 2.0,
        dx=lambda i, j, k: 10,
        dy=lambda i, j, k: 10,
        dz=lambda i, j, k: 10,
    )
    table = table.astype({"z": float, "dz": float})
    half = table.iloc[[0]].assign(z=7.5, dz=5.0, cu=4.0, name="half")
    table.loc[0, ["z", "dz"]] = [2.5, 5.0]
    words = ['density = "sg"', 'cell_size = ["dx", "dy", "dz"]', 'reblock = "parents"']
    table = pd.concat([table, half]).drop(columns="tonnes")
    plan = Plan.from_project(
        with_rules(plan_folder, table, *words, changes=[("[grid]\nsize = [10, 10, 10]", "[grid]")])
    )
    assert plan.table["tonnes"].tolist() == [2000.0] * 8 and plan.table["cu"].tolist() == [2.5] + [1.0] * 7
    assert "the cells fill 8,000 of the 8,000 m3 of their blocks" in plan.notes


def test_the_audit_reads_the_rules_itself(plan_folder, tmp_path, capsys):
    """Every rule at once, and `pitplan verify` agrees; with one null code less in the audit's project it does not."""
    table = rows(6, 5, 3, cu=lambda i, j, k: 4.0 if (i, j, k) == (2, 2, 1) else 0.1, weath=lambda i, j, k: k).rename(
        columns={"cu": "cu %"}
    )
    table.loc[3, "cu %"] = -99
    table["pct"] = 90.5
    words = [
        'rock_percent = "pct"',
        "filter = \"name != 'b5-4-2'\"",
        "null_values = [-99]",
        'nulls = { "cu %" = "zero" }',
    ]
    words += [
        'calculate = { grade = "if(weath > 1, `cu %` * 0.5, `cu %` + 0.25)" }',
        'map = { rock = { R = "fresh" } }',
    ]
    path = with_rules(plan_folder, table, *words, changes=[('column = "cu"', 'column = "grade"')])
    assert main(["shells", str(path), "--quiet", "--no-figures"]) == 0
    assert main(["verify", str(tmp_path / "plan")]) == 0
    said = capsys.readouterr()
    known = table[table["name"] != "b5-4-2"]
    frame = pd.read_csv(tmp_path / "plan/tables/blocks.csv").set_index("name").loc[known["name"]]
    copper = known["cu %"].replace(-99, 0)
    assert np.allclose(frame["grade"], np.where(known["weath"] > 1, copper * 0.5, copper + 0.25), atol=1e-9)
    assert frame["tonnes"].tolist() == [90.5] * 89 and set(frame["rock"]) == {"fresh"}, said


def test_realisations_have_null_codes_and_rows_that_are_left_out(plan_folder, tmp_path):
    table = rows(6, 5, 3, cu=lambda i, j, k: 4.0 if (i, j, k) == (2, 2, 1) else 0)
    words = "filter = \"name != 'b5-4-2'\"", "null_values = [-99]", 'nulls = { cu = "zero" }'
    path = with_rules(plan_folder, table, *words)
    path.write_text(path.read_text() + '[scenarios]\nrealisations = "models"\n')
    (tmp_path / "models").mkdir()
    for number in (1, 2):
        model = table[["name", "cu"]].copy()
        model.loc[model["cu"] == 0, "cu"] = -99
        model.loc[32 + number, "cu"] = 2.0 * number
        model.to_csv(tmp_path / "models" / f"m{number}.csv", index=False)
    assert main(["scenarios", str(path), "--workers", "1", "--quiet", "--no-figures"]) == 0


def test_the_planners_table_comes_back_with_all_of_its_rows(plan_folder, tmp_path):
    """Rows that are no blocks have zeros; the preamble is left out."""
    table = rows(6, 5, 3, cu=lambda i, j, k: 6.0 if (i, j, k) == (2, 2, 1) else 0)
    text = "Model of 2026\n\n" + table.to_csv(index=False)
    path = with_rules(plan_folder, text, "filter = \"name != 'b2-2-2'\"", 'missing_blocks = "air"')
    assert main(["shells", str(path), "--quiet", "--no-figures"]) == 0
    assert main(["export", str(tmp_path / "plan"), "--to", "table"]) == 0
    (found,) = (tmp_path / "plan").glob("**/table.csv")
    back = pd.read_csv(found)
    assert back["name"].tolist() == table["name"].tolist()
    assert (
        back.set_index("name").loc["b2-2-2", "revenue_factor"]
        == 0
        < back.set_index("name").loc["b2-2-1", "revenue_factor"]
    )


@pytest.mark.parametrize(
    ("words", "broken"),
    [
        (("null_values = [9]", 'nulls = { cu = "zero" }'), "numbers_without"),
        (("filter = \"name != 'b2-2-1'\"", 'missing_blocks = "air"'), "filter_rows"),
        (('map = { rock = { R = "fresh" } }',), "map_codes"),
    ],
)
def test_a_rule_that_the_planner_misreads_fails_the_run(plan_folder, tmp_path, monkeypatch, capsys, words, broken):
    """The planner's step is left out, and the audit, which reads the table itself, finds other blocks."""
    table = rows(6, 5, 3, cu=lambda i, j, k: {(2, 2, 1): 6.0, (3, 2, 1): 9.0}.get((i, j, k), 0))
    path = with_rules(plan_folder, table, *words)
    monkeypatch.setattr(row_rules, broken, lambda *given: given[0] if broken == "numbers_without" else None)
    assert main(["shells", str(path), "--quiet", "--no-figures"]) == 1
    said = capsys.readouterr().err
    assert "verification failed" in said or "of its blocks are not in the table" in said
    assert not (tmp_path / "plan" / "tables").exists()
