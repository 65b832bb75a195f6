"""Block models of OMF 1: files of the tests' own writer, cell by cell, and what is refused."""

import re

import numpy as np
import pytest
from helpers.omf_files import Written

from pitplan import PlanError
from pitplan.blockmodel import omf


def small(path, **geometry):
    """Two columns of 10 and 20 m, one row of 30 m, three levels of 5 m; numbers by cell, the level fastest."""
    file = Written()
    file.volume([10, 20], [30], [5, 5, 5], [file.numbers("cu", [0.1, 0.2, 0.3, 1.1, np.nan, 1.3])], **geometry)
    return file.save(path)


def test_cells_and_numbers_by_hand(tmp_path):
    frame, kind = omf.read(small(tmp_path / "a.omf", origin=[1000, 2000, 300]))
    assert kind == 'OMF 0.9, volume "Blocks", 2 x 1 x 3 cells, 1 attributes'
    assert list(frame) == ["x", "y", "z", "xinc", "yinc", "zinc", "cu"]
    assert frame["x"].tolist() == [1005] * 3 + [1020] * 3 and set(frame["y"]) == {2015}
    assert frame["z"].tolist() == [302.5, 307.5, 312.5] * 2
    assert frame["xinc"].tolist() == [10] * 3 + [20] * 3 and set(frame["yinc"]) == {30} and set(frame["zinc"]) == {5}
    assert frame["cu"].tolist()[:4] == [0.1, 0.2, 0.3, 1.1] and np.isnan(frame["cu"][4]) and frame["cu"][5] == 1.3


@pytest.mark.parametrize("packs", [False, True])
def test_origins_add_and_sides_may_be_packed(tmp_path, packs):
    file = Written(origin=(100_000, 7_000_000, 0))
    file.volume([0.1] * 3, [1], [2], origin=[0.5, 0, -10], packs=packs)
    frame, _ = omf.read(file.save(tmp_path / "a.omf"))
    assert frame["x"].tolist() == [100_000.55, 100_000.65, 100_000.75]
    assert set(frame["y"]) == {7_000_000.5} and set(frame["z"]) == {-9}


@pytest.mark.parametrize(
    ("axes", "places", "sizes"),
    [
        ({}, [(5, 15, 2.5), (5, 15, 7.5)], (10, 30, 5)),
        # From the top down.
        ({"axis_w": [0, 0, -1]}, [(5, 15, -2.5), (5, 15, -7.5)], (10, 30, 5)),
        # Turned a quarter to the left: u runs north, v west.
        ({"axis_u": [0, 1, 0], "axis_v": [-1, 0, 0]}, [(-15, 5, 2.5), (-15, 5, 7.5)], (30, 10, 5)),
        # The vertical axis is the first.
        ({"axis_u": [0, 0, 1], "axis_v": [0, 1, 0], "axis_w": [1, 0, 0]}, [(2.5, 15, 5), (7.5, 15, 5)], (5, 30, 10)),
        # By 3-4-5, 53 degrees: east-like is the one with the greater part to the east, v.
        (
            {"axis_u": [0.6, 0.8, 0], "axis_v": [-0.8, 0.6, 0]},
            [(3 - 12, 4 + 9, 2.5), (3 - 12, 4 + 9, 7.5)],
            (30, 10, 5),
        ),
        ({"axis_u": "X", "axis_v": "Y", "axis_w": "Z"}, [(5, 15, 2.5), (5, 15, 7.5)], (10, 30, 5)),
    ],
)
def test_axes_turn_the_cells(tmp_path, axes, places, sizes):
    file = Written()
    file.volume([10], [30], [5, 5], **axes)
    frame, _ = omf.read(file.save(tmp_path / "a.omf"))
    assert frame[["x", "y", "z"]].to_numpy() == pytest.approx(np.array(places), abs=1e-9)
    assert frame[["xinc", "yinc", "zinc"]].to_numpy().tolist() == [list(sizes)] * 2


def test_categories_texts_and_whole_numbers(tmp_path):
    file = Written()
    data = [
        file.categories("rock", [1, 0, -1, 1], ["OX", "SUL"]),
        file.texts("name", ["a", "b", None, "d e"]),
        file.numbers("class", [1, 2, 3, 3], "<i8"),
        file.numbers("cut", [1.5, np.nan, 3, 3]),
        file.categories("colour", [0, 1, -1, 1], [[255, 0, 0], [0, 0, 255]], "ColorArray"),
        file.texts("when", ["2026-01-01"] * 4, "DateTimeData"),
        file.numbers("corners", np.zeros(12), location="vertices"),
        file.add("Vector3Data", name="dip", location="cells", array=""),
        file.numbers("x", [7, 8, 9, 10]),
    ]
    file.volume([1, 1], [1], [1, 1], data)
    frame, kind = omf.read(file.save(tmp_path / "a.omf"), ["class", "cut"])
    assert kind.endswith("2 x 1 x 2 cells, 7 attributes, 2 of colours or vectors left out")
    assert frame["rock"].tolist() == ["SUL", "OX", "", "SUL"] and frame["name"].tolist() == ["a", "b", "", "d e"]
    assert frame["class"].tolist() == ["1", "2", "3", "3"] and frame["cut"].tolist() == ["1.5", "", "3", "3"]
    assert frame["colour"].tolist()[:2] == [0, 1] and np.isnan(frame["colour"][2])
    assert frame["when"].tolist() == ["2026-01-01"] * 4 and frame["x_attribute"].tolist() == [7, 8, 9, 10]
    assert omf.read(tmp_path / "a.omf")[0]["class"].tolist() == [1, 2, 3, 3]


def bent(change, **keys):
    """The bytes of a file with two cells, an attribute and a category, changed before it is written."""
    file = Written()
    data = [file.numbers("cu", [1, 2]), file.categories("rock", [0, 1], ["A", "B"])]
    file.volume([1, 1], [1], [1], data)
    found = {it["__class__"]: it for it in file.objects.values()}
    change(file, found)
    return file.bytes(**keys)


def put(kind, key, value):
    return lambda _, found: found[kind].update({key: value})


BENT = {
    "no volume": (
        lambda file, _: file.objects.update({k: {} for k, it in file.objects.items() if "Element" in it["__class__"]}),
        r"expected one volume element, found 0 \(none\): export a file with one",
    ),
    "two volumes": (
        lambda file, _: file.volume([1], [1], [1], name="Other"),
        r"expected one volume element, found 2 \(Blocks, Other\)",
    ),
    "geometry": (
        put("VolumeElement", "geometry", "nowhere"),
        'Blocks: geometry: found "nowhere", expected the identifier of an object: export',
    ),
    "geometry of another class": (
        put("VolumeGridGeometry", "__class__", "SurfaceGridGeometry"),
        'geometry: found "SurfaceGridGeometry", expected VolumeGridGeometry',
    ),
    "no sides": (put("VolumeGridGeometry", "tensor_u", []), "tensor_u: expected cell sizes above 0"),
    "a side of 0": (put("VolumeGridGeometry", "tensor_v", [0]), "tensor_v: expected cell sizes above 0"),
    "sides of texts": (put("VolumeGridGeometry", "tensor_w", ["1"]), "tensor_w: expected a list of numbers"),
    "sides of nothing": (put("VolumeGridGeometry", "tensor_w", None), "tensor_w: found nothing, expected an array"),
    "too many cells": (
        lambda _, found: found["VolumeGridGeometry"].update(tensor_u=[1] * 9000, tensor_v=[1] * 9000),
        "found 81,000,000 cells, expected at most 64,000,000: reblock it",
    ),
    "inclined": (
        put("VolumeGridGeometry", "axis_w", [0, 0.6, 0.8]),
        r"found the axes \(1, 0, 0\), \(0, 1, 0\), \(0, 0.6, 0.8\), expected a vertical one",
    ),
    "skew": (
        put("VolumeGridGeometry", "axis_v", [0.6, 0.8, 0]),
        "expected a vertical one and two horizontal ones at right angles",
    ),
    "two vertical axes": (put("VolumeGridGeometry", "axis_v", [0, 0, 1]), "expected a vertical one"),
    "no direction": (put("VolumeGridGeometry", "axis_u", [0, 0, 0]), "axis_u: has no direction"),
    "an axis of two numbers": (put("VolumeGridGeometry", "axis_u", [0, 1]), "axis_u: found 2 numbers, expected 3"),
    "an origin of texts": (put("VolumeGridGeometry", "origin", "here"), 'origin: found "here", expected three numbers'),
    "an attribute without array": (
        put("ScalarData", "array", 7),
        "Blocks: cu: array: found 7, expected the identifier",
    ),
    "another count": (
        lambda file, _: [
            it.update(array=file.pack([1, 2, 3])) for it in file.objects.values() if it["__class__"] == "ScalarArray"
        ],
        "cu: found more numbers, expected 2",
    ),
    "too few": (
        lambda file, _: [
            it.update(array=file.pack([1])) for it in file.objects.values() if it["__class__"] == "ScalarArray"
        ],
        "cu: found 1 numbers, expected 2",
    ),
    "infinite": (
        lambda file, _: [
            it.update(array=file.pack([1, np.inf])) for it in file.objects.values() if it["__class__"] == "ScalarArray"
        ],
        "cu: the value of cell 2 is infinite",
    ),
    "beyond the file": (
        put("ScalarArray", "array", {"start": 60, "length": 10**9, "dtype": "<f8"}),
        "the array ends at byte 1,000,000,060 of [0-9,]+: the file is cut",
    ),
    "before the arrays": (put("ScalarArray", "array", {"start": 2, "length": 4, "dtype": "<f8"}), "the file is cut"),
    "places of texts": (
        put("ScalarArray", "array", {"start": "60", "length": 4, "dtype": "<f8"}),
        'found "60", expected the bytes of an array',
    ),
    "objects of Python": (
        put("ScalarArray", "array", {"start": 60, "length": 4, "dtype": "O"}),
        'found numbers of type "O", expected one such as <f8',
    ),
    "a strange type": (
        put("ScalarArray", "array", {"start": 60, "length": 4, "dtype": "number"}),
        'found numbers of type "number"',
    ),
    "no zlib": (
        put("ScalarArray", "array", {"start": 61, "length": 9, "dtype": "<f8"}),
        "the array at byte 61 is damaged",
    ),
    "category": (
        lambda file, _: [it.update(array=["A"]) for it in file.objects.values() if it["__class__"] == "StringArray"],
        "rock: cell 2 has the category 1, and the legend 1 names",
    ),
    "two of one name": (
        lambda file, _: [it.update(name="cu") for it in file.objects.values() if it["__class__"] == "MappedData"],
        "Blocks: two attributes are called cu",
    ),
}


@pytest.mark.parametrize("name", BENT)
def test_what_is_damaged_is_refused(tmp_path, name):
    change, words = BENT[name]
    path = tmp_path / "model.omf"
    path.write_bytes(bent(change))
    with pytest.raises(PlanError, match=re.escape(str(path)) + ": .*" + words):
        omf.read(path)


def test_texts_of_another_count_are_refused(tmp_path):
    file = Written()
    file.volume([1, 1], [1], [1], [file.texts("name", ["a"])])
    with pytest.raises(PlanError, match="name: found 1 texts, expected 2: export the file again"):
        omf.read(file.save(tmp_path / "a.omf"))


@pytest.mark.parametrize(
    ("data", "words"),
    [
        (b"", "is not OMF: found the bytes , expected 84 83 82 81"),
        (b"id,x,y,z\n1,2,3,4\n" * 9, "is not OMF: found the bytes 69 64 2c 78, expected 84 83 82 81"),
        (b"PK\x03\x04" + bytes(80), "is OMF 2, whose arrays are Parquet, which is not read: save it as OMF 1"),
        (bent(put("Project", "name", ""))[:40], "has 40 bytes, and the header of OMF has 60: the file is cut"),
        (
            bent(put("Project", "name", ""), version=b"OMF-v0.8.0"),
            "is OMF-v0.8.0, expected OMF-v0.9.0: save it as OMF 1",
        ),
        (bent(put("Project", "name", ""))[:70], "the JSON begins at byte [0-9]+ of 70: the file is cut"),
        (bent(put("Project", "name", ""))[:-9], "the JSON at byte [0-9]+ is damaged"),
        (
            b"\x84\x83\x82\x81" + b"OMF-v0.9.0".ljust(48, b"\0") + (60).to_bytes(8, "little") + b"[1, 2]",
            "the JSON at byte 60 is not a dictionary of objects",
        ),
        (
            b"\x84\x83\x82\x81" + b"OMF-v0.9.0".ljust(48, b"\0") + (60).to_bytes(8, "little") + b"[" * 10**6,
            "the JSON at byte 60 is damaged",
        ),
    ],
)
def test_other_and_cut_files_are_refused(tmp_path, data, words):
    path = tmp_path / "model.omf"
    path.write_bytes(data)
    with pytest.raises(PlanError, match=words):
        omf.read(path)


def test_a_file_cut_anywhere_is_refused_or_whole(tmp_path):
    data = bent(put("Project", "name", ""))
    for end in range(0, len(data), 7):
        (tmp_path / "model.omf").write_bytes(data[:end])
        with pytest.raises(PlanError):
            omf.read(tmp_path / "model.omf")


@pytest.mark.slow
def test_a_bent_byte_is_refused_or_changes_values_only(tmp_path):
    """No byte of header and arrays makes the reader crash."""
    data, rng = bent(put("Project", "name", "")), np.random.default_rng(3)
    path, refused = tmp_path / "model.omf", 0
    for place in range(len(data)):
        other = bytearray(data)
        other[place] ^= int(rng.integers(1, 256))
        path.write_bytes(other)
        try:
            assert len(omf.read(path)[0]) in (1, 2)
        except PlanError as error:
            assert str(error).startswith(str(path))
            refused += 1
    assert refused > 100


def test_files_are_recognised_by_their_first_bytes(tmp_path):
    assert omf.is_omf(tmp_path / "model", bent(put("Project", "name", ""))[:4])
    assert omf.is_omf(tmp_path / "model.OMF", b"PK\x03\x04")
    assert not omf.is_omf(tmp_path / "blocks.csv", b"id,x") and not omf.is_omf(tmp_path / "blocks.zip", b"PK\x03\x04")


def test_a_file_that_is_not_there_is_refused(tmp_path):
    with pytest.raises(PlanError, match="none.omf: cannot be read: No such file or directory"):
        omf.read(tmp_path / "none.omf")
