"""Block models of Datamine: files of the tests' own writer in both precisions and byte orders, and what is refused."""

import re

import numpy as np
import pytest
from helpers.datamine_files import DATA, file_of

from pitplan import PlanError
from pitplan.blockmodel import datamine

CELLS = {"XC": [5, 15, 25], "YC": [10, 10, 10], "ZC": [2.5, 2.5, 7.5]}
LAYOUTS = [(4, "<"), (8, "<"), (4, ">"), (8, ">")]


def written(path, columns=CELLS, **keys):
    path.write_bytes(file_of(columns, **keys))
    return path


@pytest.mark.parametrize(("size", "order"), LAYOUTS)
def test_a_model_by_hand(tmp_path, size, order):
    columns = CELLS | {
        "CU": [0.3, 1.07, -1e30],
        "AU": [1e30, 0, 2],
        "ROCK": ["OX", "SULPHIDE", ""],
        "CLASS": [1, 3, -1e30],
    }
    fixed = {"XINC": 10, "YINC": 20, "ZINC": 5, "XMORIG": 0.1, "AREA": "NORTH"}
    path = written(tmp_path / "model.dm", columns, size=size, order=order, fixed=fixed)
    frame, kind = datamine.read(path, ["CLASS", "ROCK"])
    assert kind == f"Datamine .dm, {'single' if size == 4 else 'double'} precision, 3 records"
    assert list(frame) == ["x", "y", "z", "CU", "AU", "ROCK", "CLASS", "xinc", "yinc", "zinc", "XMORIG", "AREA"]
    assert frame[["x", "y", "z"]].to_numpy().T.tolist() == list(CELLS.values())
    assert frame["CU"].tolist()[:2] == [0.3, 1.07] and np.isnan(frame["CU"][2])
    assert np.isnan(frame["AU"][0]) and frame["AU"].tolist()[1:] == [0, 2]
    assert frame["ROCK"].tolist() == ["OX", "SULPHIDE", ""] and frame["CLASS"].tolist() == ["1", "3", ""]
    assert set(frame["xinc"]) == {10} and set(frame["yinc"]) == {20} and set(frame["zinc"]) == {5}
    assert set(frame["XMORIG"]) == {0.1} and set(frame["AREA"]) == {"NORTH"}
    assert datamine.read(path)[0]["CLASS"].tolist()[:2] == [1, 3]


@pytest.mark.parametrize(("size", "order"), LAYOUTS)
@pytest.mark.parametrize("count", [1, DATA // 5 - 1, DATA // 5, DATA // 5 + 1, 3 * (DATA // 5), 1000])
def test_records_do_not_cross_pages(tmp_path, size, order, count):
    """Five words a record: 101 records a page."""
    rng = np.random.default_rng(count)
    columns = {name: np.arange(count) for name in ("XC", "YC", "ZC")} | {"CU": rng.integers(0, 999, count) / 8}
    columns |= {"ID": [f"b{k % 100}" for k in range(count)]}
    frame, kind = datamine.read(written(tmp_path / "model.dm", columns, size=size, order=order))
    assert kind.endswith(f" {count:,} records") and len(frame) == count
    assert frame["z"].tolist() == list(range(count)) and frame["CU"].tolist() == columns["CU"].tolist()
    assert frame["ID"].tolist() == columns["ID"]


def test_small_letters_are_the_same_fields(tmp_path):
    frame, _ = datamine.read(written(tmp_path / "model.dm", {name.lower(): it for name, it in CELLS.items()}))
    assert list(frame) == ["x", "y", "z"]


def test_a_last_page_may_be_short(tmp_path):
    data = file_of(CELLS, size=8)
    (tmp_path / "model.dm").write_bytes(data[: 4096 + 3 * 3 * 8])
    assert len(datamine.read(tmp_path / "model.dm")[0]) == 3
    (tmp_path / "model.dm").write_bytes(data[: 4096 + 3 * 3 * 8 - 1])
    words = "ends at byte 4,167, on page 2 of 2; expected 4,168 bytes: the file is cut: export it again"
    with pytest.raises(PlanError, match=re.escape(words)):
        datamine.read(tmp_path / "model.dm")


def test_a_file_cut_anywhere_is_refused(tmp_path):
    columns = {name: np.arange(400) for name in ("XC", "YC", "ZC")}
    data = file_of(columns, size=4)
    assert len(data) == 2048 * 4
    for end in range(0, 2048 * 3 + (400 - 2 * 169) * 12, 101):
        (tmp_path / "model.dm").write_bytes(data[:end])
        with pytest.raises(PlanError, match="is no Datamine file|the file is cut"):
            datamine.read(tmp_path / "model.dm")


def put(data, word, value, size=8):
    """The bytes of a file in double precision with another word of the definition."""
    other = np.frombuffer(data, dtype=f"<f{size}").copy()
    other[word] = value
    return other.tobytes()


def text(data, word, value):
    found = bytearray(data)
    found[8 * word : 8 * word + 4] = value.ljust(4).encode()
    return bytes(found)


FIRST, SECOND = 24, 31
PLAIN = file_of(CELLS | {"CU": [1, 2, 3]}, fixed={"ANGLE1": 0, "XINC": 10})
BENT = {
    "no file": (
        b"",
        "is no Datamine file: found no data definition in its first page, of 2,048 or 4,096 bytes: export it again, or as CSV",
    ),
    "a table": (b"id,x,y,z,tonnes\n" * 999, "is no Datamine file"),
    "no fields": (put(PLAIN, 21, 0), "is no Datamine file"),
    "half a field": (put(PLAIN, 21, 2.5), "is no Datamine file"),
    "no pages": (put(PLAIN, 22, 0), "is no Datamine file"),
    "a page that is no number": (put(PLAIN, 22, np.nan), "is no Datamine file"),
    "many fields": (
        put(PLAIN, 21, 70),
        "found 70 fields, expected at most 69, which one page defines: export fewer fields",
    ),
    "more fields than there are": (put(PLAIN, 21, 7), 'field 7: found the type "", expected a name and A or N'),
    "a type": (
        text(PLAIN, SECOND + 2, "X"),
        'field 2 YC: found the type "X", expected a name and A or N: export the file again',
    ),
    "no name": (text(PLAIN, SECOND, ""), 'field 2: found the type "N", expected a name'),
    "a word beyond the record": (put(PLAIN, SECOND + 3, 509), "field 2 YC: found word 509, expected 0 to 508"),
    "a word below 0": (put(PLAIN, SECOND + 3, -1), "field 2 YC: found word -1, expected 0 to 508"),
    "half a word": (put(PLAIN, SECOND + 3, 1.5), "field 2 YC: found word 1.5, expected 0 to 508"),
    "two in one word": (
        put(PLAIN, SECOND + 3, 1),
        "field YC: is stored in the same word as another: export the file again",
    ),
    "more pages": (put(PLAIN, 22, 9), "ends at byte 8,192, on page 3 of 9"),
    "more records": (put(PLAIN, 23, 128), "found 128 records on the last page, expected at most 127"),
    "too many records": (
        put(PLAIN, 22, 10**6),
        "found 126,999,749 records, expected at most 64,000,000: reblock the model",
    ),
    "no records": (put(PLAIN, 22, 1), "has no records: expected a block model"),
    "no records on the last page": (put(PLAIN, 23, 0), "has no records: expected a block model"),
    "nothing stored": (put(put(put(put(PLAIN, FIRST + 3, 0), SECOND + 3, 0), 38 + 3, 0), 45 + 3, 0), "has no records"),
    "infinite": (
        put(PLAIN, 512 + 4 + 3, np.inf),
        "record 2 field CU: is infinite: the file is damaged: export it again",
    ),
    "not a number": (
        text(PLAIN, SECOND, "YB"),
        r"has no field YC; expected the XC, YC and ZC of a block model, found XC, YB, ZC, CU, ANGLE1, XINC",
    ),
    "twice": (
        text(PLAIN, 45, "XC"),
        "field XC: is defined 2 times, and not as parts of one text: export the file again",
    ),
    "rotated": (
        put(PLAIN, 24 + 7 * 4 + 6, 30),
        "ANGLE1 is 30, and XC and YC of a rotated model are not those of the ground: export the model with world",
    ),
}


@pytest.mark.parametrize("name", BENT)
def test_what_is_damaged_is_refused(tmp_path, name):
    data, words = BENT[name]
    path = tmp_path / "model.dm"
    path.write_bytes(data)
    with pytest.raises(PlanError, match=re.escape(str(path)) + ": .*" + words):
        datamine.read(path)


def test_parts_of_a_text_that_do_not_follow_each_other_are_refused(tmp_path):
    data = file_of(CELLS | {"ROCK": ["SULPHIDE"] * 3})
    (tmp_path / "model.dm").write_bytes(put(data, 24 + 7 * 4 + 4, 3))
    with pytest.raises(PlanError, match="field ROCK: is defined 2 times, and not as parts of one text"):
        datamine.read(tmp_path / "model.dm")


def test_a_bent_byte_is_refused_or_changes_values_only(tmp_path):
    """No byte of the definition makes the reader crash, or read more records than the file holds."""
    rng, path = np.random.default_rng(5), tmp_path / "model.dm"
    for place in range(8 * (24 + 7 * 6)):
        other = bytearray(PLAIN)
        other[place] ^= int(rng.integers(1, 256))
        path.write_bytes(other)
        try:
            assert len(datamine.read(path)[0]) <= 127
        except PlanError as error:
            assert str(error).startswith(str(path))


def test_files_are_recognised_by_their_first_page(tmp_path):
    for size, order in LAYOUTS:
        assert datamine.is_datamine(tmp_path / "model", file_of(CELLS, size=size, order=order)[:4096])
    assert datamine.is_datamine(tmp_path / "model.DM", b"")
    assert not datamine.is_datamine(tmp_path / "blocks.csv", b"id,x,y,z,tonnes\n" * 999)


def test_a_file_that_is_not_there_is_refused(tmp_path):
    with pytest.raises(PlanError, match="none.dm: cannot be read: No such file or directory"):
        datamine.read(tmp_path / "none.dm")
