"""What the package makes of numbers: exact, whatever their form and the caller's decimal context; values from `fractions` and by hand."""

import random
from decimal import ROUND_UP, Context, Decimal, FloatOperation, Inexact, getcontext, localcontext
from fractions import Fraction

import numpy as np
import pytest

pitshell = pytest.importorskip("pitshell", reason="make library builds it")
from pitshell import _amounts  # noqa: E402

CHAIN = [[1, 0], [2, 1]]


def due(number):
    """The nearest millionth, a tie to the even one, and whether the number is another."""
    exact = Fraction(*number.as_integer_ratio()) * 10**6
    return round(exact), exact.denominator != 1


def demand_nearest(numbers):
    found = _amounts.millionths_of(numbers, "values", False)
    wanted = [due(number) for number in numbers]
    assert found.amounts.tolist() == [amount for amount, _ in wanted]
    assert found.rounded == sum(is_another for _, is_another in wanted)


def test_a_decimal_is_taken_whole_by_a_caller_of_six_digits():
    with localcontext(Context(prec=6)):
        found = pitshell.solve([Decimal("1000000.4"), Decimal("-1000000.1")], [[0, 1]])
        assert found.in_pit.tolist() == [True, True] and str(found.worth) == "0.300000" and found.rounded == 0
        assert str(pitshell.solve([Decimal("123456.789012"), Decimal("-123456.5")], [[0, 1]]).worth) == "0.289012"
        assert str(pitshell.solve([123456789], []).worth) == "123456789.000000"
        assert str(pitshell.shells([123456789], [0], [], [1000]).worths[0]) == "123456789.000000000"
        assert str(pitshell.certificate([123456789], []).worth) == "123456789.000000"


def test_no_context_of_the_caller_changes_a_number_or_is_changed():
    values = [Decimal("0.0000005"), Decimal("0.0000015"), Decimal("1.0000024999999999999999999999999999999999"), 0.1]
    with localcontext(Context(prec=1, rounding=ROUND_UP, Emax=3, Emin=-3, traps=[Inexact, FloatOperation])) as mine:
        found = _amounts.millionths_of(values, "values", False)
        assert not any(mine.flags.values()) and getcontext() is mine
    assert (found.amounts.tolist(), found.rounded) == ([0, 2, 1000002, 100000], 4)


def test_a_decimal_is_rounded_once():
    # Of 28 digits the last is 5, and so a tie; the exact number lies above it.
    number = Decimal("1234567890123.0000005" + "0" * 30 + "1")
    assert _amounts.millionths_of([number], "values", False).amounts.tolist() == [1234567890123000001]


@pytest.mark.parametrize("number", ["9.99e999999", "-1e999999999", "1E+9999999999999", "9223372036854.775808"])
def test_a_decimal_too_large_is_an_overflow(number):
    with pytest.raises(OverflowError, match="values: that of block 1 does not fit 64 bits of millionths"):
        pitshell.solve([Decimal(1), Decimal(number)], [])


def test_decimals_at_the_ends():
    numbers = [
        Decimal(it)
        for it in (
            "9223372036854.775807",
            "-9223372036854.775807",
            "1e-999999999",
            "0e999999999",
            "-0",
            "4.9e-7",
            "5e-7",
            "5.1e-7",
        )
    ]
    found = _amounts.millionths_of(numbers, "values", False)
    assert found.amounts.tolist() == [2**63 - 1, 1 - 2**63, 0, 0, 0, 0, 0, 1] and found.rounded == 4


@pytest.mark.parametrize("most", [1e-6, 1, 1e3, 1e9, 1e11, 9.2e12])
def test_floats_are_rounded_to_the_nearest_millionth(most):
    rng = random.Random(most)
    demand_nearest(np.array([rng.uniform(-most, most) for _ in range(2000)]))


def test_floats_at_ties_and_ends():
    ties = np.array([(number + 0.5) / 1e6 for number in (*range(3000), 10**9, 10**12)])
    dyadic = np.array([number / 2**7 + 0.5**20 for number in range(3000)])
    small = np.array([0.0, -0.0, 5e-324, -5e-324, 2.0**-1022, 1e-300, 4.9e-7, 5e-7, 5.1e-7])
    ends = np.array([9223372036854.0, -9223372036854.0, 2.0**43 - 2.0**-9, 9.1e12 + 2.0**-9])
    for numbers in (ties, dyadic, small, ends):
        for near in (numbers, np.nextafter(numbers, np.inf), np.nextafter(numbers, -np.inf)):
            demand_nearest(near)
            demand_nearest(-near)
    for kind in (np.float16, np.float32, np.longdouble):
        demand_nearest((np.arange(500) / 7).astype(kind))
        demand_nearest((np.arange(500) * 2e-7).astype(kind))
    # Half a unit of the last place of a float lies between two floats.
    demand_nearest(np.array([9e12], dtype=np.longdouble) + np.longdouble(2) ** -15)


def test_rounded_counts_each_float_that_is_no_whole_number_of_millionths():
    found = pitshell.solve([9.1e12 + 2**-9], [])
    assert str(found.worth) == "9100000000000.001953" and found.rounded == 1
    assert pitshell.solve([0.5, 0.25, -3.0, 2.0**-6], []).rounded == 0
    # The float 0.1 is 0.1000000000000000055..
    assert pitshell.solve([0.1, 0.5], []).rounded == 1


def test_floats_too_large():
    for number in (9223372036854.8, -9223372036854.8, 1e13, 1.7e308, np.longdouble("1e4000")):
        with pytest.raises(OverflowError, match="values: that of block 1 does not fit 64 bits of millionths"):
            pitshell.solve(np.array([0, number]), [])


def test_integers_of_any_size_in_lists_are_named_where_they_do_not_fit():
    for values, millionths in (
        ([1, 2**63], True),
        ([-1, 2**64], True),
        ([0, -(2**63) - 1], True),
        ([1, 2**63], False),
        ([-1, 10**400], False),
    ):
        with pytest.raises(OverflowError, match="values: that of block 1 does not fit 64 bits of millionths"):
            pitshell.solve(values, [], millionths=millionths)
    assert pitshell.solve(np.array([5, -3], dtype=object), [], millionths=True).worth == Decimal("0.000005")
    with pytest.raises(pitshell.Refusal, match="error 8: .* a number below 0, or above 2,147,483,647"):
        pitshell.solve([1, 2], [[1, 2**63]])
    with pytest.raises(TypeError, match="needs.* are float64 and not whole numbers"):
        pitshell.solve([1, 2], [[1, 0.0]])


def test_true_is_no_number():
    for values in ([Decimal(1), True], np.array([1, np.True_], dtype=object)):
        with pytest.raises(TypeError, match="values: that of block 1 is True, and not a number"):
            pitshell.solve(values, [])


@pytest.mark.parametrize("kind", [list, tuple, lambda it: np.array(it, dtype=object)])
def test_a_flow_of_integers_up_to_the_greatest(kind):
    # Block 2 pays for both that it needs: the flow shows the pit with what it can spare, and not with more than it has.
    values, needs = [-3, -4, 9], CHAIN
    assert pitshell.check(values, needs, [1, 1, 1], kind([3_000_000, 7_000_000]))
    for flow in ([2**63, 1], [1, 2**63], [2**64, 2**65], [10**30, 10**30]):
        assert not pitshell.check(values, needs, [1, 1, 1], kind(flow))
    for flow, number, need in (
        ([2**63, -1], 15, 1),
        ([10**30 + 1, 1], 4, 0),
        ([2**200, 1], 4, 0),
        ([1, -(2**200)], 15, 1),
    ):
        with pytest.raises(pitshell.Refusal) as refused:
            pitshell.check(values, needs, [1, 1, 1], kind(flow))
        assert (refused.value.number, refused.value.need) == (number, need)


def test_a_flow_follows_the_order_of_the_needs():
    large = 2**70
    for order in ([0, 1], [1, 0]):
        needs, flow = np.array(CHAIN)[order], [[large, -1][place] for place in order]
        with pytest.raises(pitshell.Refusal) as refused:
            pitshell.check([-3, -4, 9], needs, [1, 1, 1], flow)
        assert refused.value.need == order.index(1)


def test_a_flow_that_is_no_integer_is_named():
    for flow in ([1, 2.5], [1, None], np.array([1.0, 2.5]), [1, Decimal(1)]):
        with pytest.raises(TypeError, match=r"flow: that of need [01] is .*, and not a whole number of millionths"):
            pitshell.check([-3, -4, 9], CHAIN, [1, 1, 1], flow)


def masked(numbers, mask, dtype=None):
    return np.ma.masked_array(numbers, mask, dtype=dtype)


def given():
    """Each argument by its name: how it is handed in, with a mask, and the name that the refusal has."""
    values, needs = [-3, -4, 9], np.array(CHAIN)
    rows = (np.array([0, 0, 1, 2]), np.array([0, 1]))
    hidden, pairs = [False, True, False], [[False, False], [False, True]]
    yield "values", lambda mask: pitshell.solve(masked(values, mask and hidden), needs)
    yield "values", lambda mask: pitshell.solve(masked(values, mask and hidden, np.float64), needs)
    yield "revenues", lambda mask: pitshell.shells(masked([0, 0, 9], mask and hidden), [3, 4, 0], needs, [1000])
    yield "costs", lambda mask: pitshell.shells([0, 0, 9], masked([3, 4, 0], mask and hidden), needs, [1000])
    yield "factors", lambda mask: pitshell.shells(
        [0, 0, 9], [3, 4, 0], needs, masked([500, 900, 1000], mask and hidden)
    )
    yield "needs", lambda mask: pitshell.solve(values, masked(needs, mask and pairs))
    yield r"needs\[0\]", lambda mask: pitshell.solve(
        values, (masked(rows[0], mask and [False, True, False, False]), rows[1])
    )
    yield r"needs\[1\]", lambda mask: pitshell.solve(values, (rows[0], masked(rows[1], mask and [False, True])))
    yield "fixed", lambda mask: pitshell.solve(values, needs, masked([0, 0, 1], mask and hidden))
    yield "in_pit", lambda mask: pitshell.check(values, needs, masked([1, 1, 1], mask and hidden), [3, 7])
    yield "flow", lambda mask: pitshell.check(values, needs, [1, 1, 1], masked([3, 7], mask and [False, True]))


def test_masked_elements_are_refused_and_a_mask_of_none_is_not():
    for name, call in given():
        call(False)
        with pytest.raises(ValueError, match=rf"^{name}: the element at 1(, 1)? is masked: hand in a number there"):
            call(True)
