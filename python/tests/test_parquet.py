"""Tables as Parquet: refused by name where pyarrow is not installed, read where it is; and what is made of its columns."""

import importlib.util

import numpy as np
import pandas as pd
import pytest
from conftest import PROJECT, rows

import pitplan
from pitplan import MissingPackage, PlanError
from pitplan.blockmodel import wizard
from pitplan.core import text_tables

HAS_PYARROW = importlib.util.find_spec("pyarrow") is not None
IN_PARQUET = ('file = "blocks.csv"', 'file = "blocks.parquet"')


@pytest.fixture
def in_parquet(plan_folder, tmp_path):
    """A project whose table is Parquet; of bytes that are none where pyarrow is missing."""

    def write(table):
        path = plan_folder(rows(2, 2, 2), PROJECT, IN_PARQUET)
        if HAS_PYARROW:
            table.to_parquet(tmp_path / "blocks.parquet", index=False)
        else:
            (tmp_path / "blocks.parquet").write_bytes(b"PAR1")
        return path

    return write


@pytest.mark.skipif(HAS_PYARROW, reason="pyarrow is installed")
def test_without_pyarrow_it_is_said_what_is_missing(in_parquet):
    said = r"blocks.parquet: is Parquet, which needs pyarrow \(python3-pyarrow\), .*: export the table as CSV"
    with pytest.raises(MissingPackage, match=said):
        pitplan.Plan.from_project(in_parquet(rows(2, 2, 2)))


@pytest.mark.skipif(not HAS_PYARROW, reason="needs pyarrow, which Debian 12 does not have")
def test_it_is_planned_as_the_same_table_as_text(in_parquet, plan_folder):
    table = rows(4, 3, 2, cu=lambda i, j, k: np.float32(0.3 + i))
    found = pitplan.Plan.from_project(in_parquet(table.assign(more=1)))
    text = pitplan.Plan.from_project(plan_folder(table.assign(cu=[round(float(it), 1) for it in table["cu"]])))
    pd.testing.assert_frame_equal(found.blocks, text.blocks)
    assert any("unused columns: more" in line for line in found.summary)


@pytest.mark.skipif(not HAS_PYARROW, reason="needs pyarrow, which Debian 12 does not have")
def test_a_column_that_is_missing_is_named(in_parquet):
    with pytest.raises(PlanError, match="blocks.parquet row 1: there is no column cu"):
        pitplan.Plan.from_project(in_parquet(rows(2, 2, 2).drop(columns=["cu"])))


def test_what_is_made_of_columns():
    """Single floats are the decimals that one would write, an empty code is empty, and a number that is a code is a text."""
    cu = np.array([0.3, 1.07, np.nan], dtype=np.float32)
    frame = pd.DataFrame({"cu": cu, "rock": ["A", None, "B"], "id": [1, 2, 3], "z": [5.5, 15.5, 25.5]})
    frame["rock"] = frame["rock"].astype("category")
    found = text_tables.plain(frame, ["rock", "id"])
    assert (
        found["cu"].tolist()[:2] == [0.3, 1.07]
        and np.isnan(found["cu"][2])
        and found["z"].tolist() == [5.5, 15.5, 25.5]
    )
    assert found["rock"].tolist() == ["A", "", "B"] and found["id"].tolist() == ["1", "2", "3"]


def test_what_needs_text_says_so(tmp_path):
    (tmp_path / "model.parquet").write_bytes(b"PAR1")
    with pytest.raises(
        PlanError, match="model.parquet: is Parquet, and pitplan init needs a table that is text, such as CSV"
    ):
        wizard.write_project(tmp_path / "model.parquet", tmp_path / "project.toml")
