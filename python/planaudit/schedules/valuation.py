"""Verifies closure, depreciation and tax of cash_flow.csv, and valuation.csv: NPVs, internal rates of return and payback."""

from __future__ import annotations

from collections.abc import Iterator
from dataclasses import dataclass

import numpy as np
import pandas as pd

from planaudit.inputs.answer import Answer
from planaudit.inputs.tables import read_table
from planaudit.money.discounts import factor

FILE = "valuation.csv"
AMOUNT, RATE, YEAR = 0.6e-3, 1e-9, 1e-6
OF_TAX = ("closure_cost", "depreciation", "taxable_income", "tax", "free_cash_flow", "discounted_free_cash_flow")


@dataclass(frozen=True)
class Periods:
    """The cash of periods without their capex, and the capex at their start; both of shape (periods,)."""

    answer: Answer
    cash: np.ndarray
    capex: np.ndarray

    @property
    def ends(self) -> np.ndarray:
        return ends_of(self.answer, len(self.cash))

    @property
    def starts(self) -> np.ndarray:
        return np.append(0.0, self.ends)[:-1]

    def present(self, rate: float) -> np.ndarray:
        """Returns the discounted cash flow of each period."""
        return self.of_rates(np.array([rate]))[0]

    def of_rates(self, rates: np.ndarray) -> np.ndarray:
        """Returns the discounted cash flow of each period at each rate, shape (rates, periods)."""
        factors = [factor(self.answer.project, number, rate=rates) for number in range(1, len(self.cash) + 1)]
        of_cash = np.array(factors).reshape(len(self.cash), len(rates)).T
        return self.cash * of_cash - self.capex * (1 + rates[:, None]) ** -self.starts

    def npv(self, rate: float) -> float:
        return float(self.present(rate).sum())

    def is_return(self, said: float) -> bool:
        """Whether a rate is where the NPV becomes 0; nan if none above 0."""
        slight = AMOUNT * (len(self.cash) + 2)
        if np.isnan(said):
            return self.npv(0.0) <= slight or self.npv(10.0) > -slight
        rates = np.array([*np.linspace(0.0, said, 50)[:-1], said - RATE, said + RATE])
        *before, after = self.of_rates(rates).sum(axis=1).tolist()
        return min(before) > -slight and after < slight

    def payback(self) -> tuple[float, float]:
        """Returns the years until the cumulative cash flow is first 0 after it was negative; 0 if it never is, nan if it stays so; and their
        tolerance."""
        after = np.cumsum(self.cash - self.capex)
        low = np.append(0.0, after[:-1]) - self.capex
        back = np.flatnonzero((low < 0) & (after >= 0))
        if not len(back):
            return (float("nan") if (np.append(low, after) < 0).any() else 0.0), YEAR
        first, at = back[0], [self.starts[back[0]], self.ends[back[0]]]
        slack = YEAR + AMOUNT * (len(low) + 2) * (at[1] - at[0]) / (after[first] - low[first])
        return float(np.interp(0.0, [low[first], after[first]], at)), slack


def ends_of(answer: Answer, count: int) -> np.ndarray:
    """Returns the end of each period in years, shape (count,)."""
    return answer.project.calendar.lengths(count).cumsum()


def taxed(answer: Answer, said: pd.DataFrame) -> dict[str, np.ndarray]:
    """Returns closure, depreciation, tax and free cash flow of a method, as far as the project has them, from its other lines."""
    rules, operating = answer.project.cash_flow, said["operating_cash_flow"].to_numpy()
    capex = said["capex"].to_numpy() if "capex" in said else np.zeros(len(said))
    closure, tax, found = np.zeros(len(said)), np.zeros(len(said)), {}
    if rules["closure_cost"]:
        closure[-1:] = float(rules["closure_cost"])
        found["closure_cost"] = closure
    if rules["tax_rate"]:
        depreciation, income, losses = depreciated(answer, said, capex), np.zeros(len(said)), 0.0
        for row, gain in enumerate(operating - depreciation - closure):
            income[row], losses = max(gain - losses, 0.0), max(losses - gain, 0.0)
        tax = income * float(rules["tax_rate"])
        found |= {"depreciation": depreciation, "taxable_income": income, "tax": tax}
    cash = said["cash_flow"].to_numpy() + capex - closure - tax
    periods = Periods(answer, cash, capex)
    present = periods.present(answer.project.shells["discount_rate"])
    return found | {"free_cash_flow": cash - capex, "discounted_free_cash_flow": present}


def depreciated(answer: Answer, said: pd.DataFrame, capex: np.ndarray) -> np.ndarray:
    """Returns the depreciation of capex; what is left at the end belongs to the last period."""
    years, ends, feed = answer.project.cash_flow["depreciation"], ends_of(answer, len(said)), said["feed_tonnes"]
    starts, found = np.append(0.0, ends)[:-1], np.zeros(len(capex))
    if years is not None:
        for start, spent in zip(starts, capex):
            lasts = np.minimum(ends, start + float(years)) - np.maximum(starts, start)
            found += spent * np.maximum(lasts, 0.0) / float(years)
    else:
        for row in range(len(capex)):
            left = feed[row:].sum()
            found[row] = (capex[: row + 1].sum() - found[:row].sum()) * (feed[row] / left if left > 0 else 0.0)
    found[-1:] += capex.sum() - found.sum()
    return found


def differences(answer: Answer, cash_flow: pd.DataFrame, methods: list[str]) -> Iterator[str]:
    """Yields rows of valuation.csv that do not follow from cash_flow.csv."""
    said = read_table(answer.folder / "tables" / FILE, ["method"])
    rules, base = answer.project.cash_flow, answer.project.shells["discount_rate"]
    rates = sorted({base, *map(float, rules["discount_rates"])})
    expected = [(method, rate) for method in methods for rate in rates]
    if list(zip(said["method"], said["discount_rate"])) != expected:
        yield f"{FILE}: methods and rates are not {expected}"
        return
    for row in said.itertuples():
        lines = cash_flow[cash_flow["method"] == row.method]
        capex = lines["capex"].to_numpy() if "capex" in lines else np.zeros(len(lines))
        for kind, column in (("", "cash_flow"), ("_after_tax", "free_cash_flow")):
            cash = lines[column].to_numpy() + capex
            it = Periods(answer, cash, capex)
            at = f"{FILE}: {row.method} at {row.discount_rate:.10g}"
            npv, payback, (due, slack) = getattr(row, f"npv{kind}"), getattr(row, f"payback{kind}"), it.payback()
            if abs(npv - it.npv(row.discount_rate)) > AMOUNT * (len(lines) + 2) + 1e-9 * abs(npv):
                yield f"{at}: npv{kind} {npv:.12g} for {it.npv(row.discount_rate):.12g}"
            if not it.is_return(getattr(row, f"irr{kind}")):
                yield f"{at}: irr{kind} {getattr(row, f'irr{kind}'):.10g} is not where the NPV is 0"
            if not np.isclose(payback, due, rtol=0, atol=slack, equal_nan=True):
                yield f"{at}: payback{kind} {payback:.10g} for {due:.10g}"
