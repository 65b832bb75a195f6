"""The audit's reader of plain tables: the same bits as pandas' exact reader, and None for a table that is not plain."""

from pathlib import Path

import numpy as np
import pandas as pd
import pytest
from helpers.random_tests import examples
from hypothesis import given, strategies as st

from planaudit.inputs import plain_tables
from planaudit.inputs.text_layout import TextLayout

WHOLE = st.integers(-(10**18), 10**18).map(str) | st.integers(-99, 99).map(str)
DECIMAL = st.decimals(allow_nan=False, allow_infinity=False, places=4, min_value=-(10**9), max_value=10**9).map(str)
FLOAT = st.floats(allow_nan=False, allow_infinity=False).map(repr)
ODD = st.sampled_from(
    ["5.", ".5", "-.25", "-0.0", "+7", "007", "1e3", "2.5E-7", "123456789.1234567", "0.1234567890123456"]
)
TEXT = st.text("ab-_.xyz 019", max_size=19)
NAMES = ("number", "perhaps", "code")
KINDS = {"number": "number", "perhaps": "number or empty", "code": "text"}


def read(path, text, names=NAMES, first_row=2, kinds=None):
    path.write_bytes(text.encode("utf-8"))
    return plain_tables.read(path, TextLayout(",", tuple(names), first_row - 1, first_row), kinds or KINDS)


def by_pandas(path, first_row=2):
    found = pd.read_csv(
        path,
        dtype={"code": str},
        keep_default_na=False,
        na_values={"perhaps": [""]},
        float_precision="round_trip",
        skiprows=first_row - 2,
        low_memory=False,
    )
    return found.astype({"number": float, "perhaps": float})


@examples(60)
@given(
    st.lists(st.tuples(WHOLE | DECIMAL | FLOAT | ODD, DECIMAL | ODD | st.just(""), TEXT), min_size=1, max_size=40),
    st.sampled_from([16, 100, 1 << 21]),
    st.sampled_from(["\n", "\r\n"]),
    st.booleans(),
)
def test_numbers_and_texts_are_those_of_pandas(tmp_path_factory, rows, size, end, is_ended):
    path = tmp_path_factory.mktemp("plain") / "t.csv"
    text = end.join([",".join(NAMES), *map(",".join, rows)]) + end * is_ended
    with pytest.MonkeyPatch.context() as patch:
        patch.setattr(plain_tables, "BYTES", size)
        found = read(path, text)
    due = by_pandas(path)
    assert list(found) == list(NAMES) and len(found) == len(rows)
    for name in ("number", "perhaps"):
        assert found[name].to_numpy(dtype=float).tobytes() == due[name].to_numpy().tobytes()
    assert found["code"].tolist() == due["code"].tolist()


@examples(60)
@given(
    st.lists(WHOLE | DECIMAL | FLOAT | ODD | st.just("-123456.5"), min_size=1, max_size=4),
    st.lists(DECIMAL | ODD | st.just(""), min_size=1, max_size=4),
    st.lists(TEXT, min_size=1, max_size=4),
    st.sampled_from([100, 1 << 21]),
    st.data(),
)
def test_fields_that_recur_are_those_of_pandas(tmp_path_factory, numbers, perhaps, codes, size, data):
    """Equal fields are read once, and fields of more than eight characters with those that recur."""
    path, count = tmp_path_factory.mktemp("plain") / "t.csv", data.draw(st.integers(4, 40))
    columns = [[data.draw(st.sampled_from(some)) for _ in range(count)] for some in (numbers, perhaps, codes)]
    text = "\n".join([",".join(NAMES), *map(",".join, zip(*columns))])
    with pytest.MonkeyPatch.context() as patch:
        patch.setattr(plain_tables, "BYTES", size)
        found = read(path, text)
    due = by_pandas(path)
    for name in ("number", "perhaps"):
        assert found[name].to_numpy(dtype=float).tobytes() == due[name].to_numpy().tobytes()
    assert found["code"].tolist() == due["code"].tolist() == columns[2]


@pytest.mark.parametrize("rows", [3, 40])
def test_blanks_are_no_part_of_codes_and_ids_that_are_stripped(tmp_path, rows):
    names, kinds = ("number", "perhaps", "code"), ("code", "stripped id", "id")
    texts = [f" a{row} b,\tc{row % 3} , {row}" for row in range(rows)]
    found = read(tmp_path / "t.csv", "\n".join([",".join(names), *texts]), kinds=dict(zip(names, kinds)))
    assert found["number"].tolist() == [f"a{row} b" for row in range(rows)]
    assert [*found["perhaps"]] == [f"c{row % 3}" for row in range(rows)]
    assert [*found["code"]] == [f" {row}" for row in range(rows)]


def test_a_number_among_fields_that_recur_must_be_one(tmp_path):
    good = "1,2,a\n" * 40
    for wrong in ("x,2,a\n", "12345678x,2,a\n", "-12345678x,2,a\n"):
        assert read(tmp_path / "t.csv", "number,perhaps,code\n" + good) is not None
        assert read(tmp_path / "t.csv", "number,perhaps,code\n" + good + wrong + good) is None


def test_types_are_those_of_pandas(tmp_path):
    found = read(tmp_path / "t.csv", "number,perhaps,code\n1,2,a\n-3,4.,b\n")
    assert [found[name].dtype for name in NAMES] == [np.int64, np.float64, object]


def test_lines_above_the_rows_are_passed_over(tmp_path):
    text = "a model,\nnumber,perhaps,code\n1,,a\n2,5,\n"
    found = read(tmp_path / "t.csv", text, first_row=3)
    assert found["number"].tolist() == [1, 2] and found["code"].tolist() == ["a", ""]
    assert np.isnan(found["perhaps"][0]) and found["perhaps"][1] == 5
    assert list(read(tmp_path / "t.csv", text, first_row=3, kinds={"code": "text"})) == ["code"]


BELOW = [
    'a,"1",b\n',
    "1,2\n",
    "1,2,a,b\n",
    "1,2,a\n\n3,4,b\n",
    "1,2,a\r3,4,b\n",
    "1,2,é\n",
    "1,2,a\0b\n",
    "n/a,2,a\n",
    " 1,2,a\n",
    ",2,a\n",
    "1,-,a\n",
    "1,.,a\n",
    "1,1.2.3,a\n",
    "nan,2,a\n",
    "1,inf,a\n",
    "1_0,2,a\n",
    f"1,2,{'x' * 65}\n",
    "",
]


@pytest.mark.parametrize("rows", BELOW)
def test_a_table_that_is_not_plain_is_left_to_pandas(tmp_path, rows):
    good = "1,2,a\n"
    assert read(tmp_path / "t.csv", "number,perhaps,code\n" + good) is not None
    assert read(tmp_path / "t.csv", "number,perhaps,code\n" + good * bool(rows) + rows) is None


@pytest.mark.parametrize("names", [("number", "number", "code"), ("number", "code", "other")])
def test_names_that_recur_or_are_missing_are_left_to_pandas(tmp_path, names):
    assert read(tmp_path / "t.csv", ",".join(names) + "\n1,2,3\n", names) is None


def test_a_line_above_the_rows_may_hold_no_other_end_of_line(tmp_path):
    assert read(tmp_path / "t.csv", "number,perhaps,code\r1,2,a\n1,2,a\n") is None


def test_the_example_is_plain():
    path = Path(__file__).resolve().parents[2] / "examples/plan/blocks.csv"
    names = path.read_text().splitlines()[0].split(",")
    kinds = {name: "text" if name in ("id", "rock", "region") else "number" for name in names}
    found = plain_tables.read(path, TextLayout(",", tuple(names), 1, 2), kinds)
    pd.testing.assert_frame_equal(
        found, pd.read_csv(path, dtype={name: str for name in ("id", "rock", "region")}, float_precision="round_trip")
    )
