"""The layouts that are recognised, by the planner's reader and by the audit's, against those that were written."""

import numpy as np
import pandas as pd
import pytest
from hypothesis import given, strategies as st

from pitplan.core.expressions import ExpressionError, parsed
from pitplan.core.text_tables import layout_of
from planaudit.errors import AuditError
from planaudit.inputs import text_layout
from planaudit.inputs.formulas import value_of

ROWS = ["10,20,5,0.5,AND", "30,20,5,0.7,POR", "50,20,5,,POR", "70,20,5,0.1,AND"]
NAMES = "x,y,z,cu,rock"
# The lines, the separator, the decimal mark, the rows of the names and of the first block.
LAYOUTS = {
    "plain": ([NAMES, *ROWS], ",", ".", 1, 2),
    "semicolons and decimal commas": ([NAMES.replace(",", ";"), *(it.replace(",", ";").replace(".", ",") for it in ROWS)], ";", ",", 1, 2),
    "semicolons and thousands": (["x;y;z;t"] + ["10;20;5;16,562.5"] * 3, ";", ".", 1, 2),
    "tabs": ([NAMES.replace(",", "\t"), *(it.replace(",", "\t") for it in ROWS)], "\t", ".", 1, 2),
    "bars": ([NAMES.replace(",", "|"), *(it.replace(",", "|") for it in ROWS)], "|", ".", 1, 2),
    "blanks": (["x  y z cu rock", "10 20   5 0.5 AND", "30 20 5 0.7 POR"], " ", ".", 1, 2),
    "units": ([NAMES, "m,m,m,%,-", *ROWS], ",", ".", 1, 3),
    "two header lines": ([NAMES, "m,m,m,%,-", "float,float,float,float,text", *ROWS], ",", ".", 1, 4),
    "comments": (["# model", "# by hand, in 2026, of 5 lines, all, here", NAMES, *ROWS], ",", ".", 3, 4),
    "a preamble": (["Surpac Block Model Export", "block model: pit.mdl", "", NAMES, *ROWS], ",", ".", 4, 5),
    "a preamble with commas": (["model, of 2026", "constraints: none, none", NAMES, *ROWS], ",", ".", 3, 4),
    "Vulcan": ([NAMES, "Variable descriptions:,,,Cu OK,", "Variable types:,double,double,double,name", "Variable defaults:,0,0,-99,none", *ROWS], ",", ".", 1, 5),
    "empty lines below the names": ([NAMES, "", *ROWS], ",", ".", 1, 3),
    "quoted names": (['"x","y","z","cu, total","rock"', *ROWS], ",", ".", 1, 2),
    "quoted fields": ([NAMES, '10,20,5,0.5,"AND, fresh"', '30,20,5,0.5,"POR, ""old"""'], ",", ".", 1, 2),
    "one row": ([NAMES, ROWS[0]], ",", ".", 1, 2),
    "names alone": ([NAMES], ",", ".", 1, 2),
    "nothing": ([], ",", ".", 1, 2),
    "numbers alone": (["10,20,5", "30,20,5"], ",", ".", 1, 2),
    "a row that is too long": ([NAMES, ROWS[0], ROWS[1] + ",1", ROWS[2]], ",", ".", 1, 2),
    "a first row with a word": ([NAMES, "10,20,low,0.5,AND", *ROWS[1:]], ",", ".", 1, 2),
    "texts alone": (["a,b", "c,d", "e,f"], ",", ".", 1, 2),
}  # fmt: skip


@pytest.mark.parametrize("name", LAYOUTS)
def test_a_layout_is_recognised_by_both(name):
    lines, separator, decimal, header, first = LAYOUTS[name]
    found = layout_of(lines)
    assert (found.separator, found.decimal, found.header_row, found.first_row) == (separator, decimal, header, first)
    again = text_layout.layout_of(iter(f"{line}\r\n" for line in lines), None, None, None)
    assert (again.separator, again.header_row, again.first_row) == (separator, header, first)
    named = text_layout.layout_of(iter(lines), None, 2, 3)
    assert (named.header_row, named.first_row) == (2, 3)


FRAME = pd.DataFrame(
    {
        "cu": [0.1, 0.2, np.nan, 3.5],
        "au gpt": [1.0, 0.0, 3.0, -2.0],
        "weath": [1, 2, 3, 1],
        "class": ["1", "2", "", "x"],
    }
)
numbers = st.one_of(st.sampled_from(["cu", "`au gpt`", "weath", "2", "0.25", "1e-3", ".5"]))
texts = st.sampled_from(["class", "'1'", '"x"', "''"])


def joined(template, *parts):
    return st.tuples(*parts).map(lambda it: template.format(*it))


def deeper(part):
    truth = st.one_of(
        st.tuples(part, st.sampled_from(["<", "<=", ">", ">=", "==", "!="]), part).map(" ".join),
        joined("class in [{}, '2']", st.sampled_from(["'1'", "'x'"])),
        st.just("not class == 'x'"),
        joined("is_null({})", st.sampled_from(["cu", "class"])),
    )
    condition = st.one_of(truth, joined("({}) and ({})", truth, truth), joined("({}) or not ({})", truth, truth))
    return st.one_of(
        st.tuples(part, st.sampled_from("+-*/"), part).map(" ".join),
        joined("({})", part),
        joined("-{}", part),
        joined("{} ** 2", st.sampled_from(["cu", "weath", "(cu + 1)"])),
        joined("if({}, {}, {})", condition, part, part),
        joined("min({}, {})", part, part),
        joined("max({}, {})", part, part),
        joined("sqrt(abs({}))", part),
        joined("floor({})", part),
    )


@given(st.recursive(numbers, deeper, max_leaves=8))
def test_the_audit_evaluates_an_expression_as_the_planner_does(text):
    """By a parser of its own and numpy, where the planner uses Python's parser and pandas."""
    try:
        planner = parsed(text).of(FRAME)
    except ExpressionError as error:
        assert "names no column" in str(error) or "cannot be evaluated" in str(error) or "compared" in str(error)
        return
    audit = value_of(text, FRAME)
    assert np.array_equal(planner.astype(float), audit.astype(float), equal_nan=True), text


@pytest.mark.parametrize(
    ("text", "expected"),
    [
        ("cu + weath * 2", [2.1, 4.2, np.nan, 5.5]),
        ("(cu + weath) * 2", [2.2, 4.4, np.nan, 9.0]),
        ("-weath ** 2", [-1, -4, -9, -1]),
        ("weath - 1 - 1", [-1, 0, 1, -1]),
        ("if(is_null(cu), 0, cu)", [0.1, 0.2, 0, 3.5]),
        ("if(class == '1' or weath > 2, 5, 6)", [5, 6, 5, 6]),
        ("if(1 < weath <= 2, 1, 0)", [0, 1, 0, 0]),
        ("if(class not in ['1', '2'], 1, 0)", [0, 0, 1, 1]),
        ("max(cu, `au gpt`)", [1.0, 0.2, np.nan, 3.5]),
        ("cu * 3", [0.3, 0.6, np.nan, 10.5]),
    ],
)
def test_expressions_that_are_worked_by_hand(text, expected):
    for found in (parsed(text).of(FRAME), value_of(text, FRAME)):
        assert np.array_equal(found.astype(float), np.array(expected, dtype=float), equal_nan=True)


@pytest.mark.parametrize(
    "text", ["cu +", "(cu", "cu)", "nothing", "sin(cu)", "cu $ 2", "cu cu", "if(cu)", "in", "class + 1"]
)
def test_the_audit_refuses_what_has_no_value(text):
    with pytest.raises(AuditError, match="cannot be evaluated"):
        value_of(text, FRAME)
