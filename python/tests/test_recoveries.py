"""Recovery by grade and fixed tails against sums done by hand, and against numpy's interpolation."""

from dataclasses import replace
from decimal import Decimal
from fractions import Fraction

import numpy as np
import pytest
from conftest import PROJECT, rows
from helpers.writings import PLAIN, UNVERIFIED
from hypothesis import given, strategies as st

import pitplan
from pitplan import PlanError, verify
from pitplan.config.economics import Curve
from pitplan.core.decimals import Exact
from pitplan.economics import block_values, weighing
from pitplan.economics.weighing import Head
from planaudit.money import feed
from planaudit.money.feed import at_grade

CURVE = "recovery = [[0.6, 0.9], [0.2, 0.5]]"


def row_of(*grades):
    return rows(len(grades), 1, 1, cu=lambda i, j, k: grades[i])


def revenues(path):
    return (pitplan.Plan.from_project(path).values.revenue / 10**6).tolist()


def test_between_two_grades_by_hand(plan_folder):
    """100 t, of which 0.5, 0.5, 0.7, 0.9 and 0.9 of the copper are sold at 8000."""
    path = plan_folder(row_of(0.1, 0.2, 0.4, 0.6, 1.0), PROJECT, ("recovery = 0.5", CURVE))
    assert revenues(path) == [400, 800, 2240, 4320, 7200]
    (note,) = [note for note in pitplan.Plan.from_project(path).notes if "recovery of copper" in note]
    assert (
        note
        == "recovery of copper depends on the head grade; 2 of 5 blocks lie outside 0.2 to 0.6 %, where it is constant"
    )


def test_the_grade_is_that_of_what_comes_to_the_mill(plan_folder):
    """A quarter of waste with it: 0.5 % are 0.4 % there. 80 t of the block come there, with 0.4 t of copper."""
    text = "mining_cost = 2\nmining_recovery = 0.8\ndilution = 0.25\n"
    path = plan_folder(row_of(0.5), PROJECT, ("recovery = 0.5", CURVE), ("mining_cost = 2\n", text))
    assert revenues(path) == [2240]


def test_a_fixed_tail_by_hand(plan_folder):
    """Of 125 t that come to the mill 0.0625 t of copper are lost, of what is left half; of 0.06 % nothing is left."""
    text = "mining_cost = 2\ndilution = 0.25\n"
    path = plan_folder(
        row_of(0.5, 0.06), PROJECT, ("recovery = 0.5", "recovery = 0.5\ntail_grade = 0.05"), ("mining_cost = 2\n", text)
    )
    assert revenues(path) == [1750, 0]
    assert "constant tail of copper: 0.05 % of every tonne of feed are lost" in pitplan.Plan.from_project(path).notes


def test_by_rock(plan_folder):
    """R by grade with a tail of 0.1 %, S by one number without."""
    table = rows(2, 1, 1, cu=lambda i, j, k: 0.4, rock=lambda i, j, k: "RS"[i])
    by_rock = "recovery = { R = [[0.2, 0.5], [0.6, 0.9]], S = 0.8125 }\ntail_grade = { R = 0.1 }"
    assert revenues(plan_folder(table, PROJECT, ("recovery = 0.5", by_rock))) == [1680, 2600]


def test_a_recovery_is_kept_to_a_millionth(plan_folder):
    """A third is 0.333333 of 0.1 t."""
    assert revenues(plan_folder(row_of(0.1), PROJECT, ("recovery = 0.5", "recovery = [[0, 0], [0.3, 1]]"))) == [
        266.6664
    ]


@pytest.mark.parametrize(
    ("points", "millionths"),
    [([[0, "0"], [2, "0.000001"]], 0), ([[0, "0.000001"], [2, "0.000002"]], 2), ([[0, "0.0000015"]], 2)],
)
def test_the_middle_of_two_millionths_is_the_even_one(points, millionths):
    curve = Curve(tuple((Decimal(grade), Decimal(share)) for grade, share in points))
    head = Head(Exact.of(1, 1), Exact.of(1, 1))
    assert weighing.at_grades(curve, head).tolist() == [millionths]
    assert at_grade(curve.points, Fraction(1)) == Decimal(millionths).scaleb(-6)


numbers = st.decimals(0, 5, places=3)


@given(
    st.dictionaries(numbers, st.decimals(0, 1, places=4), min_size=1, max_size=5),
    st.lists(numbers, min_size=1, max_size=8),
    numbers,
)
def test_as_numpy_has_it_but_for_a_millionth(named, grades, dilution):
    curve = Curve(tuple(zip(sorted(named), sorted(named.values()))))
    head = Head(Exact.of_decimals(grades), Exact.of(1 + dilution, len(grades)))
    expected = np.interp([float(grade / (1 + dilution)) for grade in grades], *np.array(curve.points, dtype=float).T)
    found = weighing.at_grades(curve, head)
    assert found.astype(float) / 1e6 == pytest.approx(expected, abs=5.01e-7)
    exactly = [at_grade(curve.points, Fraction(grade) / Fraction(1 + dilution)) for grade in grades]
    assert [Decimal(int(parts)).scaleb(-6) for parts in found] == exactly


@pytest.mark.parametrize(
    ("recovery", "said"),
    [
        ("[[0.2, 0.5], [0.6, 0.4]]", "falls as the grade rises"),
        ("[[0.2, 0.5], [0.2, 0.6]]", "a grade occurs twice"),
        ("[[0.2, 1.5]]", "found 1.5, expected 0 to 1"),
        ("[[-0.2, 0.5]]", "found -0.2, expected 0 or more"),
        ("{ R = [[0.2]] }", r"must be a list of pairs \[grade, recovery\]"),
        ("{ R = 1.2 }", "found 1.2, expected 0 to 1"),
    ],
)
def test_what_is_wrong_is_named(plan_folder, recovery, said):
    with pytest.raises(PlanError, match=rf"\[metals 1\] recovery: {said}"):
        pitplan.load(plan_folder(row_of(0.4), PROJECT, ("recovery = 0.5", f"recovery = {recovery}")))


TEXT = (
    ("recovery = 0.5", "recovery = { R = [[0, 0.4], [7, 0.95]], S = 0.9 }\ntail_grade = { R = 0.03 }"),
    ("mining_cost = 2\n", "mining_cost = 2\ndilution = 0.3\n"),
)


def deposit():
    return rows(9, 9, 3, cu=lambda i, j, k: 9.1 - i if (j, k) == (4, 0) else 0, rock=lambda i, j, k: "RS"[i % 3 == 0])


def wrong(path):
    return {rule.name for rule in verify(path.parent / "plan") if rule.differences}


def test_the_second_look_agrees(plan_folder):
    pitplan.write_shells(plan_folder(deposit(), PROJECT, *TEXT), writing=PLAIN)


def at_own_grade(recovery, rock, head):
    return of_rows(recovery, rock, Head(head.grade, Exact.of(1, len(rock))))


def down(whole, unit):
    return whole // unit


of_rows = weighing.of_rows


@pytest.mark.parametrize(("name", "planted"), [("of_rows", at_own_grade), ("nearest", down)])
def test_a_recovery_at_another_grade_or_rounded_otherwise_is_found(plan_folder, monkeypatch, name, planted):
    path = plan_folder(deposit(), PROJECT, *TEXT)
    monkeypatch.setattr(weighing, name, planted)
    pitplan.write_shells(path, writing=UNVERIFIED)
    assert "money" in wrong(path)


def test_a_tail_that_is_passed_over_is_found(plan_folder, monkeypatch):
    path, weigh = plan_folder(deposit(), PROJECT, *TEXT), block_values.values_of

    def without(frame, grid, project, *more):
        return weigh(
            frame,
            grid,
            replace(project, metals=tuple(replace(metal, tail_grade=Decimal(0)) for metal in project.metals)),
            *more,
        )

    monkeypatch.setattr(block_values, "values_of", without)
    pitplan.write_shells(path, writing=UNVERIFIED)
    assert "money" in wrong(path)


def test_recoveries_that_two_millionths_are_as_near_to_are_told_exactly():
    """Half a millionth above 0.5 at 1 %, and a fifth of one at 0.4 %."""
    curve = ((Decimal(0), Decimal("0.5")), (Decimal(2), Decimal("0.500001")))
    shares, close = feed.by_grade(curve, np.array([1.0, 0.4]))
    assert close.tolist() == [True, False] and shares[1] == 0.5
