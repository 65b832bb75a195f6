"""Expressions: rules that are valid, values that are refused by name, and random ones against exact fractions."""

from fractions import Fraction

import numpy as np
import pandas as pd
import pytest
from helpers.random_tests import examples
from hypothesis import given, strategies as st

from pitplan.core.expressions import ExpressionError, parsed

FRAME = pd.DataFrame({"cu": [0.2, 0.4, 1.2], "au": [0.0, 2.0, -1.0], "rock": ["OX", "SU", "OX"]})


def value(text):
    return parsed(text).of(FRAME).tolist()


@pytest.mark.parametrize(
    ("text", "due"),
    [
        ("cu > if(rock == 'OX', 0.3, 0.2)", [False, True, True]),
        ("if(not (3 > 2), 1, cu)", [0.2, 0.4, 1.2]),
        ("(0 - 2) ** 2 * cu", [0.8, 1.6, 4.8]),
        ("not cu > 0.3 and rock in ['OX', 'TR']", [True, False, False]),
        ("0.1 < cu <= 0.4", [True, True, False]),
        ("rock not in ['OX']", [False, True, False]),
        ("if(rock == 'OX' or au > 1, -cu, min(cu, 0.3))", [-0.2, -0.4, -1.2]),
        ("if(is_null(rock), 'none', rock)", ["OX", "SU", "OX"]),
    ],
)
def test_a_valid_rule_has_its_values(text, due):
    assert value(text) == due


@pytest.mark.parametrize(
    ("text", "said"),
    [
        ("(cu > 0.3) + (au > 1) >= 2", "arithmetic takes numbers, found truths"),
        ("rock + rock", "arithmetic takes numbers, found texts"),
        ("cu and au", "and takes conditions, such as cu > 0.3, found numbers"),
        ("not cu", "not takes conditions"),
        ("(0 - 1) ** 0.5 * cu", "a negative number has no power with a fraction"),
        ("au ** 0.5", "a negative number has no power with a fraction"),
        ("abs(rock) + cu", "abs takes numbers, found texts"),
        ("if(cu, 1, 0)", "if takes a condition first, found numbers"),
        ("if(cu > 1, 1, 'a')", "if gives one kind of value, found numbers and texts"),
        ("if(cu > 1, 1, 0) == 'OX'", "compares numbers with texts"),
        ("cu == 'OX'", "the column cu holds numbers, compared with the text 'OX'"),
        ("rock in ['OX', 1]", "the column rock holds texts, compared with the number 1.0"),
        ("rock in cu", "in takes a list"),
    ],
)
def test_a_value_of_another_kind_is_refused_by_name(text, said):
    with pytest.raises(ExpressionError) as error:
        value(text)
    assert said in str(error.value)


def test_a_backslash_is_refused():
    with pytest.raises(ExpressionError, match="a text in it has a backslash"):
        parsed(r"rock == '\x4f\x58'")


# Small numbers, whose fractions floats hold exactly.
NUMBERS = st.sampled_from(["0.5", "2", "3", "0.25", "cu", "au"])
VALUES = {"cu": [Fraction(1, 4), Fraction(3, 2), Fraction(-2)], "au": [Fraction(4), Fraction(0), Fraction(1, 2)]}
SUMS = {"+": lambda a, b: a + b, "-": lambda a, b: a - b, "*": lambda a, b: a * b}
ORDERS = {"<": lambda a, b: a < b, ">=": lambda a, b: a >= b, "==": lambda a, b: a == b, "!=": lambda a, b: a != b}
Exact = list[Fraction] | list[bool]


@st.composite
def numbers(draw, depth=3):
    """Draws an expression of numbers, as text and as its exact values."""
    if depth == 0 or draw(st.integers(0, 3)) == 0:
        text = draw(NUMBERS)
        return text, VALUES.get(text) or [Fraction(text)] * 3
    if draw(st.integers(0, 3)) == 0:
        (condition, truths), (one, first), (other, second) = (
            draw(conditions(depth - 1)),
            draw(numbers(depth - 1)),
            draw(numbers(depth - 1)),
        )
        return f"if({condition}, {one}, {other})", [a if t else b for t, a, b in zip(truths, first, second)]
    sign = draw(st.sampled_from(sorted(SUMS)))
    (one, first), (other, second) = draw(numbers(depth - 1)), draw(numbers(depth - 1))
    return f"({one} {sign} {other})", [SUMS[sign](a, b) for a, b in zip(first, second)]


@st.composite
def conditions(draw, depth=2):
    """Draws a condition likewise."""
    kind = draw(st.integers(0, 2)) if depth > 0 else 0
    if kind == 0:
        sign = draw(st.sampled_from(sorted(ORDERS)))
        (one, first), (other, second) = draw(numbers(max(depth - 1, 0))), draw(numbers(max(depth - 1, 0)))
        return f"({one} {sign} {other})", [ORDERS[sign](a, b) for a, b in zip(first, second)]
    one, first = draw(conditions(depth - 1))
    if kind == 1:
        return f"(not {one})", [not a for a in first]
    other, second = draw(conditions(depth - 1))
    word, join = draw(st.sampled_from([("and", lambda a, b: a and b), ("or", lambda a, b: a or b)]))
    return f"({one} {word} {other})", [join(a, b) for a, b in zip(first, second)]


@examples(60)
@given(numbers())
def test_random_expressions_have_their_exact_values(drawn):
    text, due = drawn
    frame = pd.DataFrame({name: [float(it) for it in values] for name, values in VALUES.items()})
    found = parsed(f"{text} + 0 * cu").of(frame)
    assert found.tolist() == np.array([float(it) for it in due]).round(9).tolist()
