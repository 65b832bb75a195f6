"""Large tables are written as pandas writes them, to the byte."""

import os

import numpy as np
import pandas as pd
import pytest
from hypothesis import given, strategies as st

from pitplan.core import csv_writer, processes

ODD = [
    0.0,
    -0.0,
    np.nan,
    np.inf,
    -np.inf,
    1e16,
    1e-5,
    0.1 + 0.2,
    5e-324,
    1.7976931348623157e308,
    123456789012345680.0,
    5010.0,
]
floats = st.one_of(st.sampled_from(ODD), st.floats())
SAID = ["", " ", "nan", "OX", "B001-002", "5.0", "Grün", "a,b", 'say "so"', "two\nlines", "\r"]
texts = st.one_of(st.sampled_from(SAID), st.text(max_size=4))
columns = {
    "float64": (floats, np.float64),
    "int64": (st.integers(-(2**63), 2**63 - 1), np.int64),
    "int32": (st.integers(-(2**31), 2**31 - 1), np.int32),
    "uint8": (st.integers(0, 255), np.uint8),
    "float32": (st.floats(width=32), np.float32),
    "bool": (st.booleans(), bool),
    "text": (texts, object),
    "mixed": (st.one_of(texts, st.none(), st.integers(), st.floats()), object),
}


@pytest.mark.parametrize("rows, sample", [(2, 1000), (1000, 1)])
@given(data=st.data())
def test_any_table_is_written_as_by_pandas(tmp_path_factory, rows, sample, data):
    """By pieces that are smaller than the table, and by larger ones; and whole numbers that recur, or do not."""
    kinds = data.draw(st.lists(st.sampled_from(list(columns)), max_size=4))
    count = data.draw(st.integers(0, 5))
    names = data.draw(st.lists(texts, min_size=len(kinds), max_size=len(kinds)))
    drawn = [
        pd.Series(data.draw(st.lists(columns[kind][0], min_size=count, max_size=count)), dtype=columns[kind][1])
        for kind in kinds
    ]
    table = pd.concat(drawn, axis=1) if drawn else pd.DataFrame(index=range(count))
    table.columns = names
    path = tmp_path_factory.mktemp("table") / "table.csv"
    with pytest.MonkeyPatch.context() as patch:
        patch.setattr(csv_writer, "ROWS", rows)
        patch.setattr(csv_writer, "SAMPLE", sample)
        csv_writer.write(path, table)
    assert path.read_bytes() == table.to_csv(index=False).encode()


def test_pandas_is_asked_for_what_is_quoted_alone(tmp_path, monkeypatch):
    asked, plain = [], pd.DataFrame({"id": ["a", "b", "c", "d"], "x": [5.0, 15.0, np.nan, -0.0]})
    to_csv = pd.DataFrame.to_csv
    monkeypatch.setattr(
        pd.DataFrame, "to_csv", lambda table, *words, **more: asked.append(len(table)) or to_csv(table, *words, **more)
    )
    monkeypatch.setattr(csv_writer, "ROWS", 2)
    csv_writer.write(tmp_path / "plain.csv", plain)
    csv_writer.write(tmp_path / "quoted.csv", plain.assign(id=["a", "b", "c", "d,e"]))
    assert (tmp_path / "plain.csv").read_text() == "id,x\na,5.0\nb,15.0\nc,\nd,-0.0\n"
    assert (tmp_path / "quoted.csv").read_text() == 'id,x\na,5.0\nb,15.0\nc,\n"d,e",-0.0\n'
    assert asked == [0, 0, 2], "the headings of both, and two rows"


def parts_of(monkeypatch, path, table, count):
    """Writes a table by up to `count` processes, a new one from every second row on; returns the rows of each."""
    found: list = []
    monkeypatch.setattr(csv_writer, "cores", lambda: count)
    monkeypatch.setattr(csv_writer, "APART", 2)
    monkeypatch.setattr(csv_writer, "run_all", lambda tasks: [found.append(task.args[2]) or task() for task in tasks])
    csv_writer.write(path, table)
    return found


@pytest.mark.parametrize(
    "count, parts",
    [
        (1, [range(0, 7)]),
        (3, [range(0, 2), range(2, 4), range(4, 7)]),
        (9, [range(0, 1), range(1, 3), range(3, 5), range(5, 7)]),
    ],
)
def test_processes_write_parts_that_are_put_together(tmp_path, monkeypatch, count, parts):
    table = pd.DataFrame({"id": np.arange(7), "name": [*"abcdef", "g,h"], "x": [0.5, np.nan, 1, 2, 3, 4, 5]})
    assert parts_of(monkeypatch, tmp_path / "table.csv", table, count) == parts
    assert (tmp_path / "table.csv").read_bytes() == table.to_csv(index=False).encode()
    assert os.listdir(tmp_path) == ["table.csv"]


def test_processes_of_their_own_write_the_same(tmp_path, monkeypatch):
    table = pd.DataFrame({"id": np.arange(50), "x": np.arange(50) / 4})
    monkeypatch.setattr(csv_writer, "cores", lambda: 2)
    monkeypatch.setattr(processes, "cores", lambda: 2)
    monkeypatch.setattr(csv_writer, "APART", 10)
    own, write_part = [], csv_writer.write_part
    monkeypatch.setattr(csv_writer, "write_part", lambda *words: own.append(words) or write_part(*words))
    csv_writer.write(tmp_path / "table.csv", table)
    assert (tmp_path / "table.csv").read_bytes() == table.to_csv(index=False).encode()
    assert own == [], "this process writes no part"


def test_a_part_that_cannot_be_written_leaves_none(tmp_path, monkeypatch):
    table, write_part = pd.DataFrame({"id": np.arange(9), "x": np.arange(9) / 4}), csv_writer.write_part

    def failing(path, rows, part):
        write_part(path, rows, part)
        if part[0]:
            raise OSError("no room")

    monkeypatch.setattr(csv_writer, "write_part", failing)
    with pytest.raises(OSError, match="no room"):
        parts_of(monkeypatch, tmp_path / "table.csv", table, 3)
    assert os.listdir(tmp_path) == ["table.csv"], "the file itself is staged"
