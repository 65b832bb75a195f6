"""The column of ids of the audit: one id is read as text, a million are compared as bytes."""

import numpy as np
import pandas as pd
import pytest

from planaudit.blocks import own_columns
from planaudit.inputs.identifiers import Identifiers, fields_of

NAMES = ["B1", "B22", "a longer one", "B1"]


def ids(names=NAMES):
    return pd.Series(Identifiers(np.array([name.encode() for name in names])))


def test_fields_are_texts():
    column = ids()
    assert column.tolist() == [*column] == column.astype(str).tolist() == NAMES
    assert column.iloc[2] == "a longer one" and column.to_numpy().dtype == object
    assert column.isna().tolist() == [False] * 4 and (column == "B1").tolist() == [True, False, False, True]
    assert column.nbytes == 48


def test_rows_are_taken_and_put_together_as_ids():
    frame = pd.DataFrame({"id": ids(), "x": [1.0, 2.0, 3.0, 4.0]})
    for some, due in ((frame.iloc[[2, 0]], [2, 0]), (frame[frame["x"] > 2], [2, 3]), (frame.tail(1), [3])):
        assert fields_of(some["id"]).tolist() == [NAMES[row].encode() for row in due]
    both = pd.concat([frame, frame.head(1)], ignore_index=True)
    assert fields_of(both["id"]).tolist() == [name.encode() for name in [*NAMES, "B1"]]
    copied = frame["id"].copy()
    assert copied.tolist() == NAMES and not np.shares_memory(fields_of(copied), fields_of(frame["id"]))


def test_with_other_texts_they_are_texts():
    both = pd.concat([ids(), pd.Series(["absent-7", "ä"])], ignore_index=True)
    assert both.dtype == object and both.tolist() == [*NAMES, "absent-7", "ä"] and fields_of(both) is None


def test_a_missing_row_has_no_id():
    with pytest.raises(ValueError, match="no id for a missing row"):
        ids().reindex([0, 9])


@pytest.mark.parametrize("are_bytes", [(True, True), (True, False), (False, True), (False, False)])
def test_another_id_in_the_results_is_a_difference(are_bytes):
    said, due = ids(["B1", "B22", "B3"]), ids(["B1", "B2", "B3"])
    columns = [it if is_bytes else it.astype(object) for it, is_bytes in zip((said, due), are_bytes)]

    class Plan:
        own, rows = (pd.DataFrame({"id": it}) for it in columns)

        def called(self, row):
            return f"row {row}"

    assert [fields_of(it) is not None for it in columns] == [*are_bytes]
    assert own_columns.unlike(Plan()) == (["row 1: id B22 for B2"], 1)
