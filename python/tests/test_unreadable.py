"""Files that are locked, cut short or bent: one line that names the file, whatever reads it."""

import pickle
import random
import struct
import zipfile

import numpy as np
import pytest
from conftest import PROJECT, rows
from helpers.surveys import AROUND, HOLED, gis, tiff

import pitplan
from pitplan import PlanError
from pitplan.config.table import SurveyFile
from pitplan.survey import readers
from planaudit.errors import AuditError

ZIP = ('"blocks.csv"', '"blocks.zip"')
STRINGS = "a,b\n0,0\n" + "".join(f"1, {y}.0, {x}.0, {x * y}.0\n" for x in range(3) for y in range(3)) + "0,0,0,0\n"


def refused(call, *given):
    with pytest.raises(PlanError) as said:
        call(*given)
    assert len(str(said.value).splitlines()) == 1
    return str(said.value)


@pytest.fixture
def packed(plan_folder):
    """The project of a packed table, and what changes its bytes."""
    path = plan_folder(rows(3, 2, 2), PROJECT, ZIP)
    place = path.parent / "blocks.zip"

    def change(method=zipfile.ZIP_DEFLATED, bend=lambda data: data):
        with zipfile.ZipFile(place, "w", method) as made:
            made.write(path.parent / "blocks.csv", "blocks.csv")
        place.write_bytes(bend(place.read_bytes()))
        return path

    return change


def in_both_heads(data, offset, number):
    """Sets a number of two bytes in the member's own head and in that of the list, whose fields begin two bytes later."""
    bent, at = bytearray(data), data.index(b"PK\x01\x02")
    for place in (data.index(b"PK\x03\x04") + offset, at + offset + 2):
        bent[place : place + 2] = struct.pack("<H", number)
    return bytes(bent)


def test_a_locked_table_is_named(packed):
    path = packed(bend=lambda data: in_both_heads(data, 6, 1))
    assert refused(pitplan.Plan.from_project, path).endswith(
        "blocks.zip: is locked by a password: unpack it, and name the table that it packs"
    )


@pytest.mark.parametrize("method", [9, 99])
def test_a_table_that_is_packed_otherwise_is_named(packed, method):
    said = refused(pitplan.Plan.from_project, packed(bend=lambda data: in_both_heads(data, 8, method)))
    assert "blocks.zip: is packed in a way that is not read here (" in said and said.endswith(
        "): pack it by deflate, or unpack it"
    )


@pytest.mark.parametrize("method", [zipfile.ZIP_DEFLATED, zipfile.ZIP_LZMA, zipfile.ZIP_BZIP2])
def test_a_bent_packed_table_is_named(packed, method):
    rng = random.Random(method)
    for _ in range(20):
        place = rng.randrange(42, 200)
        path = packed(
            method, lambda data: data[:place] + bytes([data[place] ^ rng.randrange(1, 256)]) + data[place + 1 :]
        )
        try:
            pitplan.blockmodel.reader.read(pitplan.load(path))
        except PlanError as error:
            assert "blocks.zip" in str(error) and "\n" not in str(error)


def test_a_header_of_too_long_a_field_is_named(plan_folder):
    path = plan_folder(rows(2, 2, 2).rename(columns={"name": "n" * 200_000}).to_csv(index=False))
    assert "blocks.csv row 1: is not a table header: field larger than field limit (131072)" in refused(
        pitplan.Plan.from_project, path
    )


@pytest.mark.parametrize("column", ["x", "y", "z"])
@pytest.mark.parametrize("place", [1e300, -1e10])
def test_a_centre_where_no_ground_is_is_named(plan_folder, column, place):
    table = rows(3, 2, 2)
    table.loc[4, column] = place
    said = refused(pitplan.Plan.from_project, plan_folder(table))
    assert said.endswith(
        f"blocks.csv row 6 column {column}: {place:g} is not a coordinate in metres: expected at most 1,000,000,000"
    )


def test_the_name_of_a_column_with_a_line_s_end_stays_on_the_line(plan_folder, capsys):
    table = rows(3, 2, 2).rename(columns={"cu": "cu\npct"}).astype(object)
    path = plan_folder(table, PROJECT, ('column = "cu"', 'column = "cu\\npct"'))
    assert len(pitplan.Plan.from_project(path).blocks) == 12
    table.loc[2, "cu\npct"] = "n/a"
    assert refused(pitplan.Plan.from_project, plan_folder(table, path.read_text())).endswith(
        'row 4 column cu\\npct: "n/a" is not a number'
    )
    assert refused(pitplan.Plan.from_project, plan_folder(table.drop(columns="rock"), path.read_text())).endswith(
        "are name, x, y, z, tonnes, cu\\npct, region"
    )
    assert pitplan.errors.on_one_line("a\nb\r\nc\x85d\u2028e") == "a\\nb\\r\\nc\\x85d\\u2028e"


def test_what_a_run_says_of_a_column_stays_on_its_line(plan_folder, capsys):
    pitplan.Plan.from_project(
        plan_folder(rows(3, 2, 2).assign(**{"a\nb": 1})), progress=pitplan.core.progress.on_standard_error()
    )
    assert "unused columns: a\\nb\n" in capsys.readouterr().err


def made_of(kind, place):
    """A file of heights or areas of a kind."""
    if kind == "tif":
        return tiff(place / "a.tif", np.arange(400).reshape(20, 20), (0, 10, 0, 200, 0, -10))
    if kind == "gpkg":
        return gis(place / "a.gpkg", "GPKG", {"lease": [(HOLED, 0)]})
    texts = {
        "asc": "ncols 4\nnrows 3\nxllcorner 0\nyllcorner 0\ncellsize 10\n" + "1 2 3 4.5\n" * 3,
        "str": STRINGS,
        "dxf": "0\nSECTION\n2\nENTITIES\n"
        + "0\nPOINT\n8\nTOPO\n10\n1.5\n20\n2.5\n30\n3.5\n" * 3
        + "0\nENDSEC\n0\nEOF\n",
    }
    (place / f"a.{kind}").write_text(texts[kind])
    return place / f"a.{kind}"


@pytest.mark.parametrize("kind", ["asc", "tif", "gpkg", "dxf", "str"])
def test_a_file_of_heights_that_is_cut_short_is_named(tmp_path, kind):
    pytest.importorskip({"dxf": "ezdxf", "str": "numpy"}.get(kind, "osgeo"))
    file = made_of(kind, tmp_path)
    whole, refusals = file.read_bytes(), 0
    for length in range(0, len(whole), max(1, len(whole) // 60)):
        file.write_bytes(whole[:length])
        for read in (
            lambda: readers.topography(SurveyFile(file), AROUND),
            lambda: readers.areas(SurveyFile(file)),
        ):
            try:
                read()
            except PlanError as error:
                refusals += 1
                assert str(error).startswith(str(file)) and "\n" not in str(error)
    assert refusals > 50


@pytest.mark.parametrize("number", ["nan", "inf", "-1e300"])
def test_points_that_are_no_places_are_named(tmp_path, number):
    file = tmp_path / "a.str"
    file.write_text(STRINGS.replace("1, 1.0, 2.0, 2.0", f"1, 1.0, {number}, 2.0"))
    said = refused(readers.topography, SurveyFile(file), AROUND)
    assert (
        said
        == f"{file}: has a point at {float(number):g}, 1, 2: expected metres, none beyond 1,000,000,000: export it again"
    )
    file = tmp_path / "lease.csv"
    file.write_text("x,y\n0,0\n1e12,0\n10,10\n")
    assert "lease.csv: has a point at 1e+12, 0: expected metres" in refused(readers.areas, SurveyFile(file))


@pytest.mark.parametrize("kind", [pitplan.PlanError, AuditError])
def test_a_sentence_that_quotes_a_file_keeps_its_begin_and_its_remedy(kind):
    said = str(kind(f"blocks.csv: found {'x' * 140_000}: rename it"))
    assert len(said) < 2_010 and said.startswith("blocks.csv: found xxx") and said.endswith("xxx: rename it")
    assert " [..] " in said


def test_an_error_has_its_place_as_fields(plan_folder):
    """The key with its line, or the row and the column; also if another process has raised it."""
    path = plan_folder(rows(2, 2, 2), PROJECT, ("price = 8000", "price = -1"))
    with pytest.raises(PlanError) as raised:
        pitplan.check(path)
    place = raised.value.place
    assert (place.key, place.row, place.column) == ("metals 1.price", None, "")
    assert path.read_text().splitlines()[place.line - 1] == "price = -1"
    table = rows(2, 2, 2).astype({"tonnes": object})
    table.loc[2, "tonnes"] = "heavy"
    with pytest.raises(PlanError) as raised:
        pitplan.check(plan_folder(table))
    place = pickle.loads(pickle.dumps(raised.value)).place
    assert (place.key, place.line, place.row, place.column) == ("", None, 4, "tonnes")
