"""Fields that a reader could take for others: cut at a NUL byte, truths for numbers, texts in columns of another dtype."""

import gzip
import importlib.util

import numpy as np
import pandas as pd
import pytest
from conftest import PROJECT, rows

import pitplan
from pitplan import PlanError
from pitplan.blockmodel import wizard

CODES = ("name", "rock", "region")


def refused(project, **given):
    with pytest.raises(PlanError) as said:
        pitplan.Plan.from_project(project, **given)
    return str(said.value)


def text_with(row, column, field):
    """A table as text with one field, of the row as a spreadsheet counts it, written as given."""
    table = rows(3, 2, 2).astype(object)
    table.loc[row - 2, column] = field
    return table.to_csv(index=False)


@pytest.mark.parametrize(
    ("column", "field"),
    [
        ("tonnes", "159\x0000"),
        ("cu", "0\x00.668"),
        ("rock", "O\x00X"),
        ("name", "B\x00-1"),
        ("x", "25\x00"),
        ("cu", "\x00"),
        ("name", "\x00b"),
        ("region", "1\x00"),
    ],
)
def test_a_nul_byte_in_a_field_is_named_by_row_and_column(plan_folder, column, field):
    path = plan_folder(text_with(5, column, field))
    assert refused(path) == (
        f"{path.parent / 'blocks.csv'} row 5 column {column}: contains a NUL byte: export it again as text, or name its encoding"
        ' by [table] encoding, such as "utf-16"'
    )


def test_a_nul_byte_is_named_in_whatever_piece_form_and_place_it_stands(plan_folder, monkeypatch):
    monkeypatch.setattr("pitplan.core.text_tables.PIECE", 3)
    packed = ("blocks.csv", "blocks.csv.gz")
    text = text_with(11, "tonnes", "1\x000")
    path = plan_folder(text, PROJECT, packed)
    (path.parent / "blocks.csv.gz").write_bytes(gzip.compress(text.replace(",", ";").encode()))
    assert "blocks.csv.gz row 11 column tonnes: contains a NUL byte" in refused(path)
    assert "blocks.csv row 1: contains a NUL byte" in refused(
        plan_folder(rows(2, 2, 2).to_csv(index=False).replace("tonnes", "ton\x00nes", 1))
    )
    # In a column that the project does not name, and in a line's end.
    assert "row 3 column more: contains a NUL byte" in refused(
        plan_folder(rows(2, 2, 2).assign(more=["a", "b\x00c"] * 4).to_csv(index=False))
    )


@pytest.mark.parametrize(("row", "column"), [(5, "rock"), (9, "name")])
def test_a_line_without_an_end_is_named_by_its_row(plan_folder, row, column):
    """A packed file of megabytes may hold a field that fills all memory."""
    table = rows(2, 2, 2).astype(object)
    table.loc[row - 2, column] = "x" * 12_000_000
    path = plan_folder(rows(2, 2, 2), PROJECT, ("blocks.csv", "blocks.csv.gz"))
    (path.parent / "blocks.csv.gz").write_bytes(gzip.compress(table.to_csv(index=False).encode()))
    remedy = "expected a line for each block: export the table again as CSV"
    assert refused(path) == f"{path.parent / 'blocks.csv.gz'} row {row}: has more than 10,000,000 letters, {remedy}"


def test_a_table_in_utf_16_without_a_mark_is_refused_with_the_remedy(plan_folder):
    path = plan_folder(rows(2, 2, 2))
    table = path.parent / "blocks.csv"
    table.write_bytes(table.read_text().encode("utf-16-le"))
    assert "blocks.csv row 1: contains a NUL byte" in refused(path)
    path.write_text(path.read_text().replace('id = "name"', 'id = "name"\nencoding = "utf-16-le"'))
    assert len(pitplan.Plan.from_project(path).blocks) == 8


def test_points_of_a_surface_hold_no_nul_byte(plan_folder):
    path = plan_folder(rows(3, 2, 2), PROJECT, ("[grid]", 'topography = "ground.csv"\n[grid]'))
    (path.parent / "ground.csv").write_bytes(b"x,y,z\n0,0,20\n30,0,2\x000\n30,20,20\n0,20,20\n")
    assert "ground.csv row 3 column z: contains a NUL byte" in refused(path)


@pytest.mark.parametrize("word", ["True", "TRUE", "true", "False"])
@pytest.mark.parametrize("column", ["tonnes", "cu", "x"])
def test_a_column_of_truths_is_none_of_numbers(plan_folder, column, word):
    path = plan_folder(rows(3, 2, 2).assign(**{column: word}))
    assert (
        f'row 2 column {column}: "{word.capitalize()}" is not a number (True and False are not numbers: write 1 and 0)'
        in refused(path)
    )


def test_truths_in_one_piece_alone_are_refused_there(plan_folder, monkeypatch):
    monkeypatch.setattr("pitplan.core.text_tables.PIECE", 3)
    table = rows(3, 2, 2).astype(object)
    table.loc[3:5, "cu"] = "TRUE"
    assert 'row 5 column cu: "True" is not a number' in refused(plan_folder(table))


def test_codes_may_be_truths(plan_folder):
    blocks = pitplan.Plan.from_project(
        plan_folder(rows(3, 2, 2, rock=lambda i, j, k: "TRUE", region=lambda i, j, k: "1"))
    ).blocks
    assert set(blocks["rock"]) == {"TRUE"}


@pytest.mark.parametrize("truths", [[True] * 12, [True, 5, 2.5] * 4, [np.True_, "1", None] * 4])
def test_truths_of_a_frame_are_no_numbers(plan_folder, truths):
    table = rows(3, 2, 2)
    assert 'table row 2 column cu: "True" is not a number' in refused(
        plan_folder(table), table=table.assign(cu=pd.Series(truths))
    )


DTYPES = ["object", "string", "category"] + (["string[pyarrow]"] if importlib.util.find_spec("pyarrow") else [])


@pytest.mark.parametrize("dtype", DTYPES)
@pytest.mark.parametrize("empty", ["zero", "refuse"])
def test_a_text_among_grades_is_refused_whatever_its_dtype(plan_folder, dtype, empty):
    path = plan_folder(rows(3, 2, 2), PROJECT, ('id = "name"', f'id = "name"\nempty = "{empty}"'))
    grades = ["0.5", " 6 ", "1e-1", "0"] * 3
    for text in ("n/a", "1,5", "--", "0x1"):
        table = rows(3, 2, 2).assign(cu=pd.Series([*grades[:7], text, *grades[8:]], dtype=dtype))
        assert f'table row 9 column cu: "{text}" is not a number' in refused(path, table=table)
    table = rows(3, 2, 2).assign(cu=pd.Series(grades, dtype=dtype))
    assert sorted(set(pitplan.Plan.from_project(path, table=table).blocks["cu"])) == [0.0, 0.1, 0.5, 6.0]


@pytest.mark.parametrize("dtype", DTYPES)
def test_an_empty_field_of_each_dtype_is_one(plan_folder, dtype):
    table = rows(3, 2, 2).assign(cu=pd.Series(["0.5", None, ""] + ["1"] * 9, dtype=dtype))
    assert "table row 3 column cu: is empty" in refused(plan_folder(rows(3, 2, 2)), table=table)
    path = plan_folder(rows(3, 2, 2), PROJECT, ('id = "name"', 'id = "name"\nempty = "zero"'))
    plan = pitplan.Plan.from_project(path, table=table)
    assert sorted(plan.blocks["cu"])[:3] == [0.0, 0.0, 0.5] and any(
        "2 rows are null or empty in cu" in note for note in plan.notes
    )


def test_columns_of_other_kinds_are_no_numbers(plan_folder):
    path, table = plan_folder(rows(3, 2, 2)), rows(3, 2, 2)
    for column, text in (
        (pd.date_range("2020-01-01", periods=12), "2020-01-01"),
        (np.arange(12) + 2j, "2j"),
        (pd.to_timedelta(range(12), "D"), "0 days"),
    ):
        assert f'table row 2 column cu: "{text}' in refused(path, table=table.assign(cu=pd.Series(column)))


def test_missing_numbers_of_pandas_own_kinds_are_empty(plan_folder):
    for dtype in ("Int64", "Float64"):
        table = rows(3, 2, 2).assign(cu=pd.array([1, None] + [2] * 10, dtype=dtype))
        assert "table row 3 column cu: is empty" in refused(plan_folder(rows(3, 2, 2)), table=table)


@pytest.mark.parametrize("missing", [None, np.nan, pd.NA])
@pytest.mark.parametrize("column", ["rock", "region"])
def test_a_missing_code_of_a_frame_is_empty(plan_folder, column, missing):
    table = rows(3, 2, 2).astype({column: object})
    table.loc[4, column] = missing
    for given in (table, table.astype({column: "string"}), table.astype({column: "category"})):
        assert f"table row 6 column {column}: is empty" in refused(plan_folder(rows(3, 2, 2)), table=given)


@pytest.mark.parametrize("column", CODES)
def test_a_code_of_a_frame_holds_no_nul_byte(plan_folder, column):
    table = rows(3, 2, 2)
    table.loc[4, column] = "O\x00X"
    for given in (table, table.astype({column: "string"}), table.astype({column: "category"})):
        assert f"table row 6 column {column}: contains a NUL byte" in refused(plan_folder(rows(3, 2, 2)), table=given)


def begun(tmp_path, table):
    (tmp_path / "model.csv").write_text(table if isinstance(table, str) else table.to_csv(index=False))
    with pytest.raises(PlanError) as said:
        wizard.write_project(tmp_path / "model.csv", tmp_path / "project.toml")
    assert not (tmp_path / "project.toml").exists()
    return str(said.value)


def test_a_new_project_is_refused_for_truths_and_nul_bytes(tmp_path):
    model = rows(3, 2, 2).rename(columns={"cu": "cu_pct"})
    for column in ("x", "tonnes", "cu_pct"):
        assert f'row 2 column {column}: "True" is not a number' in begun(tmp_path, model.assign(**{column: "TRUE"}))
    table = model.astype(object)
    table.loc[4, "rock"] = "O\x00X"
    assert "is not a text file" in begun(tmp_path, table)
