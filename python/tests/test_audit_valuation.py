"""The audit's rates of return and paybacks, by cash flows whose values are worked out by hand."""

from types import SimpleNamespace

import numpy as np
import pytest

from planaudit.inputs.project import Calendar
from planaudit.schedules.valuation import Periods

NAN = float("nan")
PROJECT = SimpleNamespace(
    project=SimpleNamespace(calendar=Calendar(), shells={"discounting": "end_of_year", "discount_rate": 0.1})
)


def periods(cash, capex=()):
    return Periods(PROJECT, np.array(cash, dtype=float), np.array([*capex, *[0.0] * (len(cash) - len(capex))]))


# A pays b back a year later, at the rate b / a - 1; with cash at the ends of both years, so at any discount.
@pytest.mark.parametrize(
    "cash, irr",
    [
        ([-1, 1.25], 0.25),
        ([-4, 5], 0.25),
        ([-1, 3], 2.0),
        ([-1, 10.5], 9.5),
        # 1.5 is paid back after two years: the rate is the root of 1.5.
        ([-1, 0, 1.5], 1.5**0.5 - 1),
    ],
)
def test_a_rate_of_return_is_where_the_npv_is_0(cash, irr):
    # Of so many thousands that the rounding of tables does not matter.
    found = periods(1000 * np.array(cash))
    assert found.is_return(irr) and not found.is_return(NAN), "it has one"
    assert not found.is_return(irr + 0.01) and not found.is_return(irr - 0.01)


@pytest.mark.parametrize(
    "cash, capex",
    [
        ([-5, 1], ()),  # loses at any rate
        ([-1, 1], ()),  # gains nothing at 0
        ([5, 5], ()),  # costs nothing
        ([0, 0], ()),
        ([-1, 11.5], ()),  # 1,050 %, above the 1,000 % up to which one is sought
        ([1], (2,)),
    ],
)
def test_none_is_where_no_rate_up_to_1000_percent_has_an_npv_of_0(cash, capex):
    assert periods(cash, capex).is_return(NAN)


def test_capex_is_spent_at_the_start_of_its_period():
    """10 at the start of the first year, 12 at its end."""
    assert periods([12], [10]).is_return(0.2) and not periods([12], [10]).is_return(0.21)


@pytest.mark.parametrize(
    "cash, payback",
    [
        ([-3, 6], 1.5),
        ([-3, 3], 2.0),
        ([-2, 1, 4], 2.25),
        # Above 0 at first, then below: only the way back from below counts.
        ([0.5, -2, 3], 2.5),
        ([3, -5, 4], 2.5),
        ([5, 5], 0.0),
        ([0.5, 1], 0.0),
        ([-5, 1], NAN),
        ([1, -5], NAN),
    ],
)
def test_payback_is_when_the_cumulative_cash_flow_is_first_back_at_0(cash, payback):
    found, slack = periods(cash).payback()
    assert found == pytest.approx(payback, nan_ok=True) and 1e-6 <= slack < 0.01


@pytest.mark.parametrize("cash, payback", [([1, 6], 1.5), ([5], 0.8), ([1, 2], NAN)])
def test_capex_at_the_start_of_the_first_year_is_paid_back_too(cash, payback):
    assert periods(cash, [4]).payback()[0] == pytest.approx(payback, nan_ok=True)
