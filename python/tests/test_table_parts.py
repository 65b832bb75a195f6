"""The planner's table in parts by several threads: the same bits as Python's own conversion of each field, and the errors of one thread."""

import csv
import itertools

import numpy as np
import pandas as pd
import pytest
from helpers.random_tests import examples
from hypothesis import given, strategies as st

from pitplan import PlanError
from pitplan.core import text_tables
from pitplan.core.text_tables import USUAL, Fields, TableFormat

WHOLE = st.integers(-(10**6), 10**6).map(str)
DECIMAL = st.decimals(allow_nan=False, allow_infinity=False, places=4, min_value=-(10**9), max_value=10**9).map(str)
# Up to 15 characters, and exponents of which some leave the range of powers that a float holds.
SHORT = st.tuples(st.integers(0, 10**15 - 1), st.integers(0, 14), st.integers(-30, 30)).map(
    lambda it: f"{it[0]}"[: 14 - it[1]] + "." + f"{it[0]}"[14 - it[1] : 14] + (f"e{it[2]}" if it[2] % 3 == 0 else "")
)
ODD = st.sampled_from(["5.", ".5", "-.25", "-0.0", "+7", "007", "1e3", "2.5E-7", "0.000001", "999999999999999", "1e-7"])
CODES = st.text("ab-_.xyz019", min_size=1, max_size=19)
NAMES = ("number", "perhaps", "code", "id")
FIELDS = Fields(codes=["id"], shared=["code"], numbers={"number": [], "perhaps": []})


def form(separator=",", first_row=2):
    return TableFormat(separator, ".", USUAL, first_row - 1, first_row)


@pytest.fixture
def in_parts(monkeypatch):
    """Reads small tables in parts of 64 bytes by two threads."""
    set_parts(monkeypatch)


def set_parts(monkeypatch):
    monkeypatch.setattr(text_tables, "LEAST", 1)
    monkeypatch.setattr(text_tables, "PART", 64)
    monkeypatch.setattr(text_tables, "cores", lambda: 2)


def text_of(rows, end="\n", names=NAMES):
    return end.join([",".join(names), *map(",".join, rows)]) + end


def written(path, text):
    path.write_bytes(text.encode("utf-8"))
    return path


def parts(path, fields=FIELDS, **how):
    found = form(**how)
    return text_tables.read_parts(path, found, text_tables.options_of(found, fields))


@examples(60)
@given(
    st.lists(
        st.tuples(WHOLE | DECIMAL | SHORT | ODD, DECIMAL | ODD | st.just(""), CODES, CODES), min_size=1, max_size=40
    ),
    st.sampled_from(["\n", "\r\n"]),
)
def test_numbers_are_those_of_python(tmp_path_factory, rows, end):
    path = written(tmp_path_factory.mktemp("parts") / "t.csv", text_of(rows, end))
    with pytest.MonkeyPatch.context() as patch:
        set_parts(patch)
        found = text_tables.read_columns(path, form(), FIELDS)
    with open(path, newline="") as file:
        due = list(csv.DictReader(file))
    for name in ("number", "perhaps"):
        numbers = np.array([float(row[name] or "nan") for row in due])
        kept = numbers + 0.0 if found[name].dtype == np.int64 else numbers
        assert found[name].to_numpy(dtype=float).tobytes() == kept.tobytes()
    for name in ("code", "id"):
        assert found[name].astype(object).tolist() == [row[name] for row in due]


def test_parts_are_read_where_the_table_is_plain(in_parts, tmp_path):
    """100 rows of 14 to 18 bytes: the parts hold all rows, in order."""
    path = written(tmp_path / "t.csv", text_of([(f"{row}.25", str(row), "ox", f"B{row}") for row in range(100)]))
    found = parts(path)
    assert len(found) >= 20 and list(itertools.chain(*(it["id"] for it in found))) == [f"B{row}" for row in range(100)]
    assert pd.concat(found)["number"].tolist() == [row + 0.25 for row in range(100)]


@pytest.mark.parametrize(
    "field",
    [
        *(
            "0.1234567890123456",
            "1234567890.12345",
            "9007199254740993.5",
            "1e-8",
            "3e23",
            "1e999",
            "inf",
            "n/a",
            " 5.5",
        ),
        *('"5.5"', "5.5 ", "True", "5\u00b75"),
    ],
)
def test_one_thread_reads_what_is_not_plain(in_parts, tmp_path, monkeypatch, field):
    """The field is in the last of many parts; without threads the result is the same."""
    rows = [*((f"{row}.5", "1", "ox", f"B{row}") for row in range(30)), (field, "1", "ox", "last")]
    path = written(tmp_path / "t.csv", text_of(rows))
    assert parts(path) is None
    found = text_tables.read_columns(path, form(), FIELDS)
    monkeypatch.setattr(text_tables, "read_parts", lambda *_: None)
    pd.testing.assert_frame_equal(found, text_tables.read_columns(path, form(), FIELDS), check_categorical=False)


@pytest.mark.parametrize(
    ("row", "why"),
    [
        ("1,2,ox,B,more", "row 42: has 5 fields, expected the 4 of the names"),
        ("1,2,o\0x,B", "row 42 column code: contains a NUL byte"),
        ('1,2,"ox,B', "a quotation mark is opened and not closed"),
    ],
)
def test_errors_name_the_row_of_the_file(in_parts, tmp_path, row, why):
    """The header and 40 rows precede it, in other parts."""
    good = text_of([(f"{number}.5", "1", "ox", f"B{number}") for number in range(40)])
    with pytest.raises(PlanError, match=why):
        text_tables.read_columns(written(tmp_path / "t.csv", f"{good}{row}\n"), form(), FIELDS)


def test_lines_before_the_first_row_belong_to_each_part(in_parts, tmp_path):
    """As in exports with a line of units; skipped lines may have blanks."""
    rows = "".join(f"{row}\t{row}.5\n" for row in range(50))
    path = written(tmp_path / "t.csv", f"made by hand\na\tb\n{rows}")
    found = parts(path, Fields(), separator="\t", first_row=3)
    assert len(found) > 2 and pd.concat(found)["b"].tolist() == [row + 0.5 for row in range(50)]


@pytest.mark.parametrize("changed", [{"LEAST": 1 << 20}, {"cores": lambda: 1}])
def test_a_small_table_or_one_processor_takes_one_thread(in_parts, tmp_path, monkeypatch, changed):
    path = written(tmp_path / "t.csv", text_of([("1.5", "1", "ox", "B")] * 30))
    assert parts(path) is not None
    for name, value in changed.items():
        monkeypatch.setattr(text_tables, name, value)
    assert parts(path) is None
