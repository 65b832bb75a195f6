"""Texts that a spreadsheet could take for formulas: as they are in CSV files, texts in workbooks, and named once."""

import csv

import pandas as pd
import pytest
from conftest import rows

import pitplan
from pitplan.export import xlsx

BEGIN = ("=1+2", "+1", "-2+3", "@SUM(A1)", '=HYPERLINK("x")', "=")


def warned(plan):
    return [note for note in plan.notes if "begins with" in note]


def test_a_text_that_begins_as_a_formula_is_named_once_by_row_and_column(plan_folder):
    for text in BEGIN:
        table = rows(3, 2, 2).astype(object)
        table.loc[5, "rock"] = table.loc[3, "region"] = table.loc[8, "name"] = text
        path = plan_folder(table)
        assert warned(pitplan.Plan.from_project(path)) == [
            f"WARNING: {path.parent / 'blocks.csv'} row 5 column 'region': {text!r} begins with =, +, - or @, as do 2 other texts: CSV files keep it,"
            " and a spreadsheet may evaluate it; workbooks store it as text"
        ]


def test_names_of_columns_and_columns_that_are_not_used_count_too(plan_folder):
    table = rows(3, 2, 2).assign(
        note=["", "ok", "-5", "=A1"] * 3, **{"@more": 1, "sign": [" =1", "a=b", "1-2", "e@f"] * 3}
    )
    (said,) = warned(pitplan.Plan.from_project(plan_folder(table)))
    assert "row 1 column '@more': '@more' begins with =, +, - or @, as do 3 other texts" in said
    assert warned(pitplan.Plan.from_project(plan_folder(table.drop(columns=["note", "@more"])))) == []
    (said,) = warned(
        pitplan.Plan.from_project(
            plan_folder(rows(3, 2, 2)), table=table[["note", *rows(3, 2, 2).columns]].astype({"note": "category"})
        )
    )
    assert "table row 5 column 'note': '=A1'" in said


def test_a_long_text_is_cut(plan_folder):
    table = rows(3, 2, 2).astype(object)
    table.loc[0, "rock"] = "=" + "9" * 1000
    (said,) = warned(pitplan.Plan.from_project(plan_folder(table)))
    assert "'=" + "9" * 39 + "..' begins" in said


def test_csv_files_keep_the_text(plan_folder, capsys):
    from pitplan.cli import main

    table = rows(3, 3, 2, cu=lambda i, j, k: 6 if (i, j, k) == (1, 1, 0) else 0).astype(object)
    table.loc[[4, 13], "rock"] = ["=1+2", "@a"]
    path = plan_folder(table)
    assert main(["shells", str(path), "--no-verify", "--no-figures"]) == 0
    said = capsys.readouterr()
    assert (said.out + said.err).count("begins with =, +, - or @") == 1
    folder = pitplan.load(path).folder
    with open(folder / "tables/blocks.csv", newline="") as written:
        assert sorted(row["rock"] for row in csv.DictReader(written)) == ["=1+2", "@a", *["R"] * 16]
    with open(pitplan.write_export(folder, "table"), newline="") as written:
        assert [row["rock"] for row in csv.DictReader(written)] == table["rock"].tolist()
    with open(pitplan.write_export(folder, "csv"), newline="") as written:
        assert "=1+2" in {row["rock"] for row in csv.DictReader(written)}


def test_a_workbook_has_them_as_texts(tmp_path):
    openpyxl = pytest.importorskip("openpyxl")
    texts = [*BEGIN, "#N/A", "#REF!", "plain"]
    xlsx.write(tmp_path / "book.xlsx", {"texts": pd.DataFrame({"=head": texts, "npv": range(len(texts))})})
    cells = openpyxl.load_workbook(tmp_path / "book.xlsx")["texts"]
    assert [cells.cell(row, 1).value for row in range(1, 11)] == ["=head", *texts]
    assert {cells.cell(row, 1).data_type for row in range(1, 11)} == {"s"} and cells.cell(2, 2).data_type == "n"
