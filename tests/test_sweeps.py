"""One row of each kind and mode, with each of its calls going wrong in turn; `make sweep` does so with every row."""

import pathlib

import pytest

from rows import Row, few_rows
from sweeps import sweep


@pytest.mark.parametrize("row", few_rows(), ids=lambda row: row.name)
def test_each_call_goes_wrong_in_turn(row: Row, shim: pathlib.Path, tmp_path: pathlib.Path) -> None:
    result = sweep(row, shim, tmp_path)
    assert result.wrong == []
