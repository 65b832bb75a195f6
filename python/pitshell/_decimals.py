"""Exact decimals, at any precision, rounding and traps that the caller's decimal context has."""

from __future__ import annotations

import operator
from decimal import MAX_EMAX, MAX_PREC, MIN_EMIN, ROUND_HALF_EVEN, Context, Decimal, InvalidOperation

import numpy as np

# Every operation of this package fits these limits, so nothing but the rounding to millionths rounds.
EXACT = Context(
    prec=MAX_PREC, rounding=ROUND_HALF_EVEN, Emin=MIN_EMIN, Emax=MAX_EMAX, clamp=0, traps=[InvalidOperation]
)
PLACES = 6
# A number of more digits before the point fits no 64 bits of millionths; one that begins so far behind the point rounds to 0.
MOST_DIGITS, LEAST_PLACE = 13, -8


def scaled(whole: int, places: int) -> Decimal:
    """`whole` divided by 10 to the power of `places`, exact."""
    return EXACT.scaleb(Decimal(whole), -places)


def of_number(number: object) -> Decimal:
    """The same number as a decimal, exact.

    Raises TypeError where it is no number; True and False do not count.
    """
    if isinstance(number, Decimal):
        return number
    if isinstance(number, (bool, np.bool_)):
        raise TypeError(f"{number} is no number")
    if isinstance(number, (float, str)):
        try:
            return Decimal(number, EXACT)
        except InvalidOperation as error:
            raise TypeError(f"{number!r} is no number") from error
    if isinstance(number, np.floating):
        return of_binary(number)
    return Decimal(operator.index(number))  # type: ignore[arg-type]


def of_binary(number: np.floating) -> Decimal:
    """A binary fraction of any width as a decimal, exact."""
    if not np.isfinite(number):
        return Decimal(float(number), EXACT)
    numerator, denominator = number.as_integer_ratio()
    twos = denominator.bit_length() - 1
    return scaled(numerator * 5**twos, twos)


def millionths_of(number: Decimal) -> tuple[int, bool]:
    """The nearest whole number of millionths, a tie to the even one, and whether the number is another.

    Raises OverflowError where it has more than 13 digits before the point.
    """
    if not number:
        return 0, False
    # First by the exponent: of an absurd one the digits themselves would fill the memory.
    if number.adjusted() >= MOST_DIGITS:
        raise OverflowError(f"{number} has more than {MOST_DIGITS} digits before the point")
    if number.adjusted() <= LEAST_PLACE:
        return 0, True
    exact = EXACT.scaleb(number, PLACES)
    whole = EXACT.to_integral_value(exact)
    return int(whole), whole != exact
