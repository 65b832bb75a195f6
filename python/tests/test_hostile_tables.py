"""Sixty tables that cannot be planned: each error names file, row, column, what was found, what was expected, and the remedy."""

import gzip
import zipfile

import pytest
from conftest import PROJECT, rows

from pitplan import Plan, PlanError

FILE = 'file = "blocks.csv"'
# A mine of 3 x 2 x 2 blocks: row 2 is its first, row 13 its last.
TABLE = rows(3, 2, 2).to_csv(index=False)
LINES = TABLE.splitlines()


def cell(row, column, text):
    """The table with another field; rows as in the file."""
    lines = [line.split(",") for line in LINES]
    lines[row - 1][LINES[0].split(",").index(column)] = text
    return "\n".join(",".join(line) for line in lines) + "\n"


def line(row, text):
    return "\n".join([*LINES[: row - 1], text, *LINES[row:]]) + "\n"


def column(name, texts):
    lines = [LINES[0], *LINES[1:]]
    at = LINES[0].split(",").index(name)
    parts = [it.split(",") for it in lines]
    for number, part in enumerate(parts[1:]):
        part[at] = texts[number % len(texts)]
    return "\n".join(",".join(part) for part in parts) + "\n"


# Fields: the table, the end of the error.
FIELDS = {
    "a word among tonnes": (cell(5, "tonnes", "many"), 'row 5 column tonnes: "many" is not a number'),
    "a word among grades": (cell(5, "cu", "n/a"), 'row 5 column cu: "n/a" is not a number'),
    "a dash": (cell(5, "cu", "-"), 'row 5 column cu: "-" is not a number'),
    "a word among centroids": (cell(5, "x", "east"), 'row 5 column x: "east" is not a number'),
    "a truth": (cell(5, "cu", "True"), 'row 5 column cu: "True" is not a number (True and False are not numbers: write 1 and 0)'),
    "a number with a unit": (cell(5, "cu", "1.5%"), 'row 5 column cu: "1.5%" is not a number'),
    "a comma in a number": (
        cell(5, "cu", "1,5"),
        "row 5: has 9 fields, expected the 8 of the names: quote a field that contains the separator, or remove the surplus one",
    ),
    "two points": (cell(5, "cu", "1.5.0"), 'row 5 column cu: "1.5.0" is not a number'),
    "a date": (cell(5, "cu", "2026-01-05"), 'row 5 column cu: "2026-01-05" is not a number'),
    "nan": (cell(5, "cu", "nan"), 'row 5 column cu: "nan" is not a number'),
    "infinity": (cell(5, "cu", "inf"), "row 5 column cu: is infinite"),
    "no tonnes": (cell(5, "tonnes", ""), "row 5 column tonnes: is empty"),
    "no grade": (cell(5, "cu", ""), "row 5 column cu: is empty"),
    "no centroid": (cell(5, "y", ""), "row 5 column y: is empty"),
    "blanks for a grade": (cell(5, "cu", "  "), "row 5 column cu: is empty"),
    "no id": (cell(5, "name", ""), None),
    "no rock type": (cell(5, "rock", ""), "row 5 column rock: is empty"),
    "no domain": (cell(5, "region", " "), "row 5 column region: is empty"),
    "an id twice": (cell(5, "name", "b0-0-0"), "row 5 column name: b0-0-0 is the id of row 2 too: expected a different id in each row"),
    "tonnes below 0": (cell(5, "tonnes", "-3"), "row 5 column tonnes: -3 is negative"),
    "a grade below 0": (cell(5, "cu", "-0.2"), "row 5 column cu: -0.2 is negative"),
    "a null code of tonnes": (
        column("tonnes", ["100", "-99"]),
        "row 3 column tonnes: -99 is negative (6 rows, 3, 5, 7, ..): -99 occurs 6 times: if it is a null code, set [table] null_values = [-99]",
    ),
    "a null code of grades": (
        column("cu", ["-999", "1"]),
        "row 2 column cu: -999 is negative (6 rows, 2, 4, 6, ..): -999 occurs 6 times: if it is a null code, set [table] null_values = [-999]",
    ),
    "a null code far above": (
        column("cu", ["1", "9999"]),
        "row 3 column cu: 9999 is above 100 % (6 rows, 3, 5, 7, ..): 9999 occurs 6 times: if it is a null code, set [table] null_values = [9999]",
    ),
    "grades in grams": (column("cu", ["120", "150.5"]), None),
    "a grade above the whole": (cell(5, "cu", "100.01"), "row 5 column cu: 100.01 is above 100 %"),
    "no tonnes anywhere": (column("tonnes", ["0"]), "column tonnes: all tonnes are 0"),
    "a centroid beyond the earth": (cell(5, "x", "5e12"), "row 5 column x: 5e+12 is not a coordinate in metres: expected at most 1,000,000,000"),
    "a centroid off the grid": (cell(5, "x", "7.5"), None),
    "a block twice": (line(5, LINES[1].replace("b0-0-0", "other")), "row 5 column x, y, z: the block of row 2 lies there too"),
    "thousands": (cell(5, "tonnes", '"16,562"'), 'row 5 column tonnes: "16,562" is not a number'),
    "a NUL byte in a code": (cell(5, "rock", "R\0X"), None),
    "a NUL byte in a number": (cell(5, "cu", "1\0"), None),
}  # fmt: skip

# Files: the table, what the error has.
FILES = {
    "nothing": ("", "is not a table"),
    "names alone": (LINES[0] + "\n", "has no blocks"),
    "rows alone": ("\n".join(LINES[1:]) + "\n", "there is no column name"),
    "a preamble alone": ("Block model of 2026\n\n", "there is no column name"),
    "a column less": (TABLE.replace("tonnes", "mass", 1), "row 1: there is no column tonnes; the columns are name, x, y, z, mass"),
    "a column twice": (TABLE.replace("cu,rock", "tonnes,rock", 1), "row 1: the column tonnes occurs twice"),
    "names in other letters": (TABLE.replace("tonnes", "TONNES", 1), "row 1: there is no column tonnes"),
    "a field more in a row": (line(5, LINES[4] + ",more"), "row 5: has 9 fields, expected the 8 of the names: quote a field"),
    "a field more in each row": ("\n".join([LINES[0], *(it + ",1" for it in LINES[1:])]), "row 2: has more fields than names in row 1: name each column"),
    "a row of half its fields": (line(5, "b0-1-0,5"), "row 5 column y: is empty"),
    "an open quote": (cell(5, "rock", '"R'), "row 5: a quotation mark is opened and not closed: close it, or remove it"),
    "a workbook": (b"PK\x03\x04" + b"x" * 60, "is a workbook or another packed file: save the sheet, or what it packs, as CSV"),
    "an old workbook": (b"\xd0\xcf\x11\xe0" + b"x" * 60, "is a workbook or another packed file"),
    "bytes": (bytes(range(256)) * 4, "contains a NUL byte: export it again as text"),
    "UTF-16 without a mark": (TABLE.encode("utf-16-le"), "contains a NUL byte: export it again as text, or name its encoding"),
}  # fmt: skip

# Keys of [table]: the keys, what the error has.
KEYS = {
    "an encoding that is not the text's": ('encoding = "utf-16"', "is not written in utf-16: name its encoding"),
    "a separator that is not the text's": ('separator = ";"', "there is no column name"),
    "names in a row that has none": ("header_row = 3", "row 3: there is no column name; the columns are b1-0-0"),
    "a first row above the names": ("header_row = 5\nfirst_row = 4", "first_row: must be below the names, which header_row puts in row 5"),
    "a first row in the middle": ("first_row = 99", "has no blocks"),
    "a null that no list is": ("null_values = { a = 1 }", "null_values: found {'a': 1}, expected a list of null codes, such as [-99, \"-\", \"NA\"]"),
    "a meaning that there is not": ('nulls = { cu = "ignore" }', 'cu: found "ignore", expected one of refuse, zero, missing'),
    "centroids as 0": ('nulls = { x = "zero" }', 'nulls: the centroids in x may not be read as 0: expected "refuse" or "missing"'),
    "a map without codes": ("map = { rock = {} }", "rock: has no codes: write them"),
    "a code without a name": ('map = { rock = { S = "soft" } }', 'row 2 column rock: found the code "R", expected one of S'),
    "cells of two columns": ('cell_size = ["x", "y"]', "cell_size: expected three columns, along x, y and z"),
    "cells without a size": ('cell_size = ["cu", "cu", "cu"]', "row 2 column cu: 0 is not the size of a cell: expected metres above 0"),
    "parents without sizes": ('reblock = "parents"', 'reblock: "parents" requires cell_size, which is missing'),
    "percents that are none": ('rock_percent = "tonnes"', None),
    "a percent above a fraction": ('rock_percent = { column = "x", unit = "fraction" }', "row 2 column x: 5 is not from 0 to 1, as [table] rock_percent in fraction is"),
    "a unit that there is not": ('rock_percent = { column = "x", unit = "permille" }', "unit: found"),
    "a box without rock": ("clip = { x = [900, 950] }", "no block is left: 12 rows are left out: their centroids lie beyond [table] clip: change these keys of [table]"),
    "a box inside out": ("clip = { x = [50, 10] }", "x: found 50 above 10, expected the least metre first"),
    "a filter of no truth": ('filter = "tonnes"', "filter: 'tonnes' is not a condition, such as density > 0"),
    "a filter that is none": ('filter = "tonnes >"', "filter: 'tonnes >' is not an expression"),
    "a filter by a column that is not there": ('filter = "assay > 0"', "row 1: there is no column assay; the columns are name, x, y"),
}  # fmt: skip


def test_there_are_sixty():
    assert len(FIELDS) + len(FILES) + len(KEYS) >= 60


def refused(path):
    with pytest.raises(PlanError) as told:
        Plan.from_project(path)
    return str(told.value)


@pytest.mark.parametrize("name", FIELDS)
def test_a_field(plan_folder, name):
    text, why = FIELDS[name]
    path = plan_folder(text)
    said = refused(path) if why else seen(path)
    if why:
        assert said.startswith(str(path.parent / "blocks.csv")) and said.endswith(f" {why}")


def seen(path):
    """Those without an expected error: some name more than a row, and some can be planned."""
    try:
        Plan.from_project(path)
    except PlanError as error:
        assert "blocks.csv row " in str(error) and ": " in str(error)
    return ""


@pytest.mark.parametrize("name", FILES)
def test_a_file(plan_folder, name):
    text, why = FILES[name]
    path = plan_folder(TABLE)
    (path.parent / "blocks.csv").write_bytes(text if isinstance(text, bytes) else text.encode())
    said = refused(path)
    assert said.startswith(str(path.parent / "blocks.csv")) and why in said, said


@pytest.mark.parametrize("name", KEYS)
def test_a_key(plan_folder, name):
    words, why = KEYS[name]
    path = plan_folder(TABLE, PROJECT, (FILE, f"{FILE}\n{words}"))
    if why is None:
        assert Plan.from_project(path).table["tonnes"].tolist() == [100.0] * 12
    else:
        assert why in refused(path)


def test_packed_tables_that_cannot_be_read(plan_folder):
    path = plan_folder(TABLE, PROJECT, (FILE, 'file = "blocks.zip"'))
    with zipfile.ZipFile(path.parent / "blocks.zip", "w") as packed:
        packed.writestr("a.csv", TABLE)
        packed.writestr("b.csv", TABLE)
    assert "packs 2 files, and must pack one table" in refused(path)
    path = plan_folder(TABLE, PROJECT, (FILE, 'file = "blocks.csv.gz"'))
    (path.parent / "blocks.csv.gz").write_bytes(gzip.compress(TABLE.encode())[:-30])
    assert "cannot be read" in refused(path)
