"""Tables that are refused, each by a sentence with file, row and column; and those that are read."""

import gzip
import zipfile

import numpy as np
import pandas as pd
import pytest
from conftest import PROJECT, rows
from helpers.read_alike import compare_tables

import pitplan
from pitplan import PlanError
from pitplan.blockmodel.reader import read


@pytest.fixture(autouse=True)
def read_by_both(monkeypatch):
    compare_tables(monkeypatch)


def refused(project):
    with pytest.raises(PlanError) as said:
        pitplan.Plan.from_project(project)
    return str(said.value)


@pytest.mark.parametrize(
    "column, value, words",
    [
        ("tonnes", "many", 'row 4 column tonnes: "many" is not a number'),
        ("tonnes", "", "row 4 column tonnes: is empty"),
        ("tonnes", "-1", "row 4 column tonnes: -1 is negative"),
        ("tonnes", "inf", "row 4 column tonnes: is infinite"),
        ("cu", "-99", "row 4 column cu: -99 is negative"),
        ("cu", "n/a", 'row 4 column cu: "n/a" is not a number'),
        ("x", "", "row 4 column x: is empty"),
        ("name", "b0-0-0", "row 4 column name: b0-0-0 is the id of row 2 too: expected a different id in each row"),
        ("rock", " ", "row 4 column rock: is empty"),
        ("region", "", "row 4 column region: is empty"),
        ("z", "5.4", "row 4 column z: 5.4 is off the grid"),
        ("x", "15", "row 4 column x, y, z: the block of row 3 lies there too"),
    ],
)
def test_a_bad_field_is_named_by_row_and_column(plan_folder, column, value, words):
    table = rows(3, 2, 2).astype(object)
    table.loc[2, column] = value
    path = plan_folder(table)
    assert refused(path).startswith(f"{path.parent / 'blocks.csv'} {words}")


def test_one_centre_off_the_grid_is_named_by_its_row_with_all_digits(plan_folder):
    """At coordinates of seven digits, without a size in the project: the others make the grid."""
    table = rows(8, 8, 3).assign(y=lambda it: it["y"] + 6512000)
    table.loc[40, "y"] += 0.4
    path = plan_folder(table, PROJECT, ("[grid]\nsize = [10, 10, 10]\n", ""))
    centre = table.loc[40, "y"] - 0.4
    assert f"row 42 column y: {centre + 0.4:.1f} is off the grid 6512005, 6512015, 6512025, .. by 0.4 m" in refused(
        path
    )


@pytest.mark.parametrize("separator", [";", "\t", "|"])
def test_separator_and_decimal_commas_are_told_by_the_text(plan_folder, separator):
    table = rows(3, 2, 2, cu=lambda i, j, k: 0.125 * i, tonnes=lambda i, j, k: 99.5)
    plain = pitplan.Plan.from_project(plan_folder(table))
    told = pitplan.Plan.from_project(plan_folder(table.to_csv(index=False, sep=separator, decimal=",")))
    pd.testing.assert_frame_equal(told.blocks, plain.blocks)
    assert [note.split(";")[0] for note in told.notes[:2]] == [
        f"the fields are separated by { {';': 'semicolons', chr(9): 'tabs', '|': 'bars'}[separator] }",
        "the decimals are written with a comma",
    ]


def test_a_comma_within_a_number_parts_thousands_where_commas_part_fields(plan_folder):
    text = rows(2, 2, 2).to_csv(index=False).replace(",100,", ',"16,562",', 1)
    assert refused(plan_folder(text)).endswith('row 2 column tonnes: "16,562" is not a number')


@pytest.mark.parametrize("encoding", ["cp1252", "utf-16"])
def test_another_encoding_is_named_or_recognised(plan_folder, encoding):
    table = rows(2, 2, 2, rock=lambda i, j, k: "S\u00fc")
    path = plan_folder(table, PROJECT, ("recovery = 0.5", 'recovery = { "S\u00fc" = 0.5 }'))
    plain = pitplan.Plan.from_project(path)
    (path.parent / "blocks.csv").write_bytes(table.to_csv(index=False).encode(encoding))
    found = pitplan.Plan.from_project(path)
    assert found.blocks["rock"].tolist() == plain.blocks["rock"].tolist()
    told = "8 bytes are not UTF-8 and are read as Windows-1252; [table] encoding names another encoding"
    assert (told in found.notes) == (encoding == "cp1252")
    for named, is_read in ((encoding, True), ("utf-8", False)):
        text = path.read_text().replace('file = "blocks.csv"\n', f'file = "blocks.csv"\nencoding = "{named}"\n')
        (path.parent / "other.toml").write_text(text)
        if is_read:
            assert pitplan.Plan.from_project(path.parent / "other.toml").blocks["rock"].tolist() == ["S\u00fc"] * 8
        else:
            why = 'is not written in UTF-8: name its encoding by [table] encoding, such as "cp1252" or "utf-16"'
            assert why in refused(path.parent / "other.toml")


def test_a_column_that_stands_twice_is_refused(plan_folder):
    text = rows(2, 2, 2).to_csv(index=False).replace("tonnes,cu,rock", "cu,cu,rock", 1)
    assert refused(plan_folder(text, PROJECT)).endswith("row 1: the column cu occurs twice")
    table = rows(2, 2, 2)
    table.columns = ["name", "x", "y", "z", "tonnes", "cu", "rock", "tonnes"]
    with pytest.raises(PlanError, match="table row 1: the column tonnes occurs twice"):
        pitplan.Plan.from_project(plan_folder(rows(2, 2, 2)), table=table.assign(region="1"))


def test_a_column_of_another_name_with_a_point_is_no_second_one(plan_folder):
    table = rows(2, 2, 2).assign(**{"cu.1": 7})
    assert pitplan.Plan.from_project(plan_folder(table)).table["cu"].tolist() == [0] * 8


def test_a_table_without_rock_is_refused(plan_folder):
    assert refused(plan_folder(rows(2, 2, 2, tonnes=lambda i, j, k: 0))).endswith("column tonnes: all tonnes are 0")


def test_a_missing_column_is_named_with_those_that_are_there(plan_folder):
    path = plan_folder(rows(2, 2, 2).drop(columns="cu"))
    words = "row 1: there is no column cu; the columns are name, x, y, z, tonnes, rock, region"
    assert refused(path) == f"{path.parent / 'blocks.csv'} {words}"


def test_a_missing_file_and_an_empty_one_are_named(plan_folder):
    path = plan_folder("")
    assert refused(path).startswith(f"{path.parent / 'blocks.csv'}: is not a table")
    (path.parent / "blocks.csv").unlink()
    assert refused(path) == f"{path.parent / 'blocks.csv'}: cannot be read: No such file or directory"
    plan_folder("name,x,y,z,tonnes,cu,rock,region\n")
    assert refused(path) == f"{path.parent / 'blocks.csv'}: has no blocks"


def test_a_line_with_too_many_fields_is_refused(plan_folder):
    text = rows(2, 2, 2).to_csv(index=False).replace("b1-0-0", "b1,0,0")
    assert "blocks.csv row 3: has 10 fields, expected the 8 of the names" in refused(plan_folder(text))


def test_empty_fields_are_taken_as_0_where_the_project_says_so(plan_folder):
    table = rows(2, 2, 2).astype(object)
    table.loc[[1, 2], "cu"] = ""
    plan = pitplan.Plan.from_project(plan_folder(table, PROJECT, ('id = "name"', 'id = "name"\nempty = "zero"')))
    assert "WARNING: 2 rows are null or empty in cu, and are read as 0 there" in plan.notes
    assert plan.table["cu"].tolist() == [0.0] * 8


def test_a_compressed_table_with_another_separator_is_the_same(plan_folder):
    table = rows(3, 2, 2, cu=lambda i, j, k: 0.1 * i)
    plain = pitplan.Plan.from_project(plan_folder(table))
    path = plan_folder(table, PROJECT, ('"blocks.csv"', '"blocks.csv.gz"\nseparator = ";"'))
    with gzip.open(path.parent / "blocks.csv.gz", "wt") as file:
        table.to_csv(file, sep=";", index=False)
    pd.testing.assert_frame_equal(pitplan.Plan.from_project(path).blocks, plain.blocks)


MIXED = rows(3, 3, 2, cu=lambda i, j, k: 0.1 * i + k, rock=lambda i, j, k: ["7", "7.0", "R"][j]).astype(object)
MIXED.loc[[1, 4, 7], "cu"] = ""


@pytest.mark.parametrize("decimal", [".", ","])
@pytest.mark.parametrize("piece", [1, 2, 5, 18])
def test_a_table_that_is_read_in_pieces_is_the_same(plan_folder, monkeypatch, decimal, piece):
    """Codes that are numbers in some pieces, and grades that are whole in some, or empty."""
    written = MIXED.apply(
        lambda column: column.map(lambda it: str(it).replace(".", decimal) if isinstance(it, float) else it)
    )
    text = written.to_csv(sep=";", index=False)
    project = pitplan.load(plan_folder(text, PROJECT, ('id = "name"', 'id = "name"\nempty = "zero"')))
    whole = read(project)
    monkeypatch.setattr("pitplan.core.text_tables.PIECE", piece)
    pieces = read(project)
    pd.testing.assert_frame_equal(pieces.frame, whole.frame)
    assert (
        pieces.notes == whole.notes
        and pieces.filled == whole.filled == 3
        and set(pieces.frame["rock"]) == {"7", "7.0", "R"}
    )


def test_what_is_no_number_is_named_in_whatever_piece_it_stands(plan_folder, monkeypatch):
    monkeypatch.setattr("pitplan.core.text_tables.PIECE", 3)
    table = rows(3, 2, 2).astype(object)
    table.loc[7, "cu"] = "n/a"
    assert refused(plan_folder(table)).endswith('blocks.csv row 9 column cu: "n/a" is not a number')
    table.loc[7, "cu"] = "1"
    text = table.to_csv(index=False).splitlines()
    text[8] += ",1"
    assert "row 9: has 9 fields, expected the 8 of the names" in refused(plan_folder("\n".join(text)))


def zipped(path, **files):
    with zipfile.ZipFile(path, "w", zipfile.ZIP_DEFLATED) as packed:
        for name, text in files.items():
            packed.writestr(name.replace("_", "."), text)


ZIP = ('"blocks.csv"', '"blocks.zip"')


def test_a_zipped_table_is_the_same(plan_folder):
    """With semicolons, decimal commas and a spreadsheet's mark, which are told by looking at it."""
    table = rows(3, 2, 2, cu=lambda i, j, k: 0.1 * i)
    plain = pitplan.Plan.from_project(plan_folder(table))
    path = plan_folder(table, PROJECT, ZIP)
    zipped(path.parent / "blocks.zip", blocks_csv="\ufeff" + table.to_csv(sep=";", decimal=",", index=False))
    pd.testing.assert_frame_equal(pitplan.Plan.from_project(path).blocks, plain.blocks)


def test_zipped_tables_that_cannot_be_read_are_named(plan_folder):
    text = rows(2, 2, 2).to_csv(index=False)
    path = plan_folder(rows(2, 2, 2), PROJECT, ZIP)
    place = path.parent / "blocks.zip"
    for files, count in (({"a_csv": text, "b_csv": text}, 2), ({}, 0)):
        zipped(place, **files)
        with pytest.raises(PlanError, match=f"blocks.zip: packs {count} files, and must pack one table"):
            pitplan.Plan.from_project(path)
    zipped(place, a_csv=text)
    whole = place.read_bytes()
    for broken in (b"no archive", whole[:40] + b"????" + whole[44:]):
        place.write_bytes(broken)
        with pytest.raises(PlanError, match="blocks.zip: cannot be read: "):
            pitplan.Plan.from_project(path)


def test_a_spreadsheets_mark_at_the_beginning_is_passed_over(plan_folder):
    path = plan_folder("\ufeff" + rows(2, 2, 2).to_csv(index=False))
    assert (
        pitplan.Plan.from_project(path).blocks["name"].tolist()
        == pitplan.Plan.from_project(plan_folder(rows(2, 2, 2))).blocks["name"].tolist()
    )


@pytest.mark.parametrize(
    "change, key, name",
    [
        (('column = "cu"', 'column = "rock"'), "rock_type", "rock"),
        (('rock_type = "rock"', 'rock_type = "cu"'), "rock_type", "cu"),
        (('id = "name"', 'id = "tonnes"'), "id", "tonnes"),
        (("[shells]", '[constraints]\nmust_mine = "region"\n[shells]'), "domain", "region"),
        (("[shells]", '[[schedule.limits]]\ncolumn = "name"\nmax = 1\n[shells]'), "id", "name"),
    ],
)
def test_a_column_of_codes_that_is_named_as_one_of_numbers_is_refused(plan_folder, change, key, name):
    path = plan_folder(rows(3, 2, 2), PROJECT, change)
    assert (
        refused(path)
        == f"{path}: [table] {key}: the column {name} is also read as numbers: codes require a column of their own"
    )


def test_rock_and_region_may_be_one_column(plan_folder):
    path = plan_folder(rows(3, 2, 2), PROJECT, ('domain = "region"', 'domain = "rock"'))
    assert set(pitplan.Plan.from_project(path).blocks["rock"]) == {"R"}


def test_columns_with_names_of_the_plans_own_are_kept_beside_them(plan_folder):
    table = rows(3, 2, 2).rename(columns={"name": "id", "cu": "revenue"})
    path = plan_folder(table, PROJECT, ('id = "name"', 'id = "id"'), ('column = "cu"', 'column = "revenue"'))
    blocks = pitplan.Plan.from_project(path).blocks
    assert blocks["id"].tolist() == list(range(12)) and blocks["planner_id"][0] == "b0-0-1"
    assert blocks["planner_revenue"].tolist() == [0] * 12 == blocks["revenue"].tolist()


def test_codes_stay_texts(plan_folder):
    table = rows(2, 2, 2, region=lambda i, j, k: "01", rock=lambda i, j, k: "NA")
    project = pitplan.load(plan_folder(table))
    assert set(read(project).frame["region"]) == {"01"} and set(read(project).frame["rock"]) == {"NA"}


def test_a_table_of_pandas_is_taken_as_it_is(plan_folder):
    table = rows(3, 3, 2, cu=lambda i, j, k: 0.7 if (i, j, k) == (1, 1, 0) else 0)
    path = plan_folder(table)
    given = pitplan.Plan.from_project(path, table=table)
    pd.testing.assert_frame_equal(given.blocks, pitplan.Plan.from_project(path).blocks)
    bad = table.assign(tonnes=np.where(table.index == 3, np.nan, 1.0))
    with pytest.raises(PlanError, match="table row 5 column tonnes: is empty"):
        pitplan.Plan.from_project(path, table=bad)
