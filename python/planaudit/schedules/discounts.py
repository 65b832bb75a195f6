"""Discount factors of the periods of a schedule, and what they cost."""

from __future__ import annotations

from planaudit.inputs.answer import Answer
from planaudit.money.discounts import at_start, factor
from planaudit.money.period_costs import capex, fixed_cost


def discount(answer: Answer, year: int) -> float:
    """Returns the discount factor of the cash flow of a period, from 1."""
    return factor(answer.project, year)


def present_costs(answer: Answer, year: int) -> float:
    """Returns fixed cost and capex of a whole period, discounted."""
    of_year = fixed_cost(answer.project, year) * discount(answer, year)
    return of_year + capex(answer.project, year) * at_start(answer.project, year)
