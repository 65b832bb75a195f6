"""Decimals against Python's own `decimal`."""

from decimal import ROUND_HALF_EVEN, Context, Decimal, localcontext

import numpy as np
import pytest
from hypothesis import given, strategies as st

from pitplan.core import byte_lines as text
from pitplan.core.decimals import Exact, at_factor

short = st.decimals(-(10**7), 10**7, places=6, allow_nan=False)


@given(st.lists(short, min_size=1, max_size=20))
def test_a_float_is_the_decimal_it_was_written_as(numbers):
    exact = Exact.of_floats(np.array([float(str(number)) for number in numbers]))
    assert [Decimal(int(whole)).scaleb(-exact.places) for whole in exact.whole] == numbers


@pytest.mark.parametrize("number", [0.1, 1e-7, 123456.789012345, 0.30000000000000004, 5e-324, 1e22, 2.5, 0.0])
def test_odd_floats_are_their_shortest_decimal(number):
    exact = Exact.of_floats(np.array([number]))
    assert Decimal(int(exact.whole[0])).scaleb(-exact.places) == Decimal(repr(number))


@given(st.lists(st.tuples(short, short), min_size=1, max_size=10))
def test_products_and_sums_are_exact(pairs):
    left, right = (Exact.of_decimals([pair[k] for pair in pairs]) for k in (0, 1))
    product, total = left.times(right), left.plus(right)
    for k, (a, b) in enumerate(pairs):
        assert Decimal(int(product.whole[k])).scaleb(-product.places) == a * b
        assert Decimal(int(total.whole[k])).scaleb(-total.places) == a + b


# Numbers of which some products and sums fit 64 bits and others do not, by some hairs.
wide = st.one_of(
    st.integers(-3, 3),
    st.sampled_from([s * 2**k + d for k in (31, 32, 53, 62, 63, 64) for s in (1, -1) for d in (-1, 0, 1)]),
)
decimals = st.builds(lambda whole, places: Decimal(whole).scaleb(-places), wide, st.integers(0, 12))


@given(st.lists(st.tuples(decimals, decimals, decimals), min_size=1, max_size=6), st.integers(0, 20))
def test_what_64_bits_do_not_hold_is_as_exact(rows, places):
    first, second, third = (Exact.of_decimals([row[k] for row in rows]) for k in range(3))
    found = first.times(second).minus(third)
    with localcontext(Context(prec=200)):
        expected = [a * b - c for a, b, c in rows]
        assert [Decimal(int(whole)).scaleb(-found.places) for whole in found.whole] == expected
        assert [
            Decimal(int(whole)).scaleb(-(found.places + places)) for whole in found.at(found.places + places)
        ] == expected
        rounded, said = found.rounded(places)
        nearest = [number.quantize(Decimal(1).scaleb(-places), ROUND_HALF_EVEN) for number in expected]
        assert [Decimal(int(whole)).scaleb(-places) for whole in rounded] == nearest
        assert (said.changed, said.largest) == (
            sum(a != b for a, b in zip(expected, nearest)),
            max(abs(a - b) for a, b in zip(expected, nearest)),
        )
    assert found.floats().tolist() == [float(number) for number in expected]


@pytest.mark.parametrize("places", range(17, 23))
def test_nothing_may_have_any_number_of_places(places):
    """Times a power of ten that is beyond 63 bits, or beyond 64, it is still a whole number, and so is its sum with another."""
    number = Decimal(98765432109876543).scaleb(-places)
    for found in (Exact.of(0, 1).plus(Exact.of_decimals([number])), Exact.of_decimals([number]).minus(Exact.of(0, 1))):
        assert [int(whole) for whole in found.whole] == [98765432109876543] and found.places == places


@given(
    st.lists(st.tuples(st.integers(0, 10**17), st.integers(0, 10**17)), min_size=1, max_size=6),
    st.integers(0, 100_000),
)
def test_values_at_a_factor_are_exact(amounts, factor):
    revenue, cost = np.array(amounts, dtype=np.int64).T
    assert at_factor(factor / 1000, revenue, cost).tolist() == [factor * a - 1000 * b for a, b in amounts]


@given(st.lists(short, min_size=1, max_size=20), st.integers(0, 6))
def test_rounding_goes_to_the_even_and_is_counted(numbers, places):
    rounded, said = Exact.of_decimals(numbers).rounded(places)
    expected = [number.quantize(Decimal(1).scaleb(-places), ROUND_HALF_EVEN) for number in numbers]
    assert [Decimal(int(whole)).scaleb(-places) for whole in rounded] == expected
    assert said.changed == sum(a != b for a, b in zip(numbers, expected))
    assert said.largest == max(abs(a - b) for a, b in zip(numbers, expected))


def test_whole_numbers_of_any_size_are_told_in_smaller_places_exactly():
    """Ninety bits are more than a float holds."""
    rounded, said = Exact.of_decimals([Decimal(2**90 + 1), Decimal(-3)]).rounded(6)
    assert list(rounded) == [(2**90 + 1) * 10**6, -3 * 10**6] and all(type(number) is int for number in rounded)
    assert (said.values, said.changed, said.largest) == (2, 0, 0)


def test_halves_go_to_the_even_one():
    halves = [Decimal(text) for text in ("0.5", "1.5", "2.5", "-0.5", "-1.5", "-2.5")]
    rounded, said = Exact.of_decimals(halves).rounded(0)
    assert list(rounded) == [0, 2, 2, 0, -2, -2]
    assert (said.values, said.changed, said.largest) == (6, 6, Decimal("0.5"))


def test_noise_of_floats_is_no_rounding():
    tonnes, price = Exact.of_floats(np.array([0.1, 0.7, 1.1])), Exact.of(Decimal("0.1"), 3)
    assert 0.7 * 0.1 != 0.07 and 1.1 * 0.1 != 0.11
    rounded, said = tonnes.times(price).rounded(2)
    assert list(rounded) == [1, 7, 11] and said.changed == 0 and said.largest == 0


@given(st.lists(st.integers(-(10**18) + 1, 10**18 - 1), min_size=1, max_size=30))
def test_decimals_are_written_exactly(millionths):
    written = text.lines([text.decimals(np.array(millionths))]).decode().split("\n")[:-1]
    assert [Decimal(field) for field in written] == [Decimal(number).scaleb(-6) for number in millionths]
    assert not any(field.startswith("-0") and not field.strip("-0.") for field in written)
    for field in written:
        whole, _, fraction = field.lstrip("-").partition(".")
        assert 1 <= len(whole) <= 12 and len(fraction) <= 6 and (fraction or "." not in field)


@given(st.lists(st.integers(0, 10**10), min_size=1, max_size=30))
def test_whole_numbers_are_written_without_leading_zeros(numbers):
    assert text.lines([text.whole(np.array(numbers))]).decode().split("\n")[:-1] == [str(number) for number in numbers]


def test_ragged_lines_leave_out_what_is_absent():
    many = np.array([[-1, 5, -1], [7, 10, 120], [-1, -1, 0]])
    assert text.ragged([text.whole(np.array([1, 20, 3]))], many, -1) == b"1 5\n20 7 10 120\n3 0\n"
