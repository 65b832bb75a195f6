"""Scenarios of a schedule over mean-reverting prices: the price of each metal in each period of each path, and what the schedule earns there.

The logarithm X of a price follows the one-factor model of Schwartz (1997): dX = k (a - X) dt + s dW. Between two times it is normal, with

    mean      X exp(-k t) + a (1 - exp(-k t))
    variance  s^2 (1 - exp(-2 k t)) / (2 k)

so that paths are exact for any length of a period. A period has the price at its middle. The mine follows its schedule on every path: what is
mined, and where it goes, stays.
"""

from __future__ import annotations

from dataclasses import dataclass, replace
from functools import cached_property

import numpy as np
import pandas as pd
from numpy.typing import NDArray

from pitplan.config.economics import BOTH, Metal
from pitplan.config.project import Project
from pitplan.config.studies import PricePath, PricePaths
from pitplan.economics.smelter_terms import PARTICIPATION, charges, net
from pitplan.scheduling.cash_flow.lines import Operation
from pitplan.scheduling.cash_flow.tables import Finance

QUANTILES = (0.1, 0.5, 0.9)
# A price step from which slopes of prices are taken, so that their rounding does not matter.
STEP = 10**6
# Arrays of shape (paths, periods).
Paths = NDArray[np.float64]


def prices_of(path: PricePath, start: float, times: NDArray[np.float64], seed: tuple[int, int], *, count: int) -> Paths:
    """Returns the prices of paths at some times.

    Parameters
    ----------
    path : PricePath
    start : float
        The price at time 0.
    times : array
        Rising, in years.
    seed : pair of int
        That of the paths, and the number of the metal. A path has random numbers of its own, so that further times do not change earlier ones.
    count : int
        The number of paths.
    """
    speed, volatility, mean = float(path.speed), float(path.volatility), float(np.log(float(path.long_term)))
    steps = np.diff(times, prepend=0.0)
    decay = np.exp(-speed * steps)
    spread = volatility * np.sqrt(-np.expm1(-2 * speed * steps) / (2 * speed))
    noise = np.stack([np.random.default_rng([*seed, number]).standard_normal(len(times)) for number in range(count)])
    found, value = np.empty((count, len(times))), np.full(count, np.log(start))
    for place in range(len(times)):
        value = mean + (value - mean) * decay[place] + spread[place] * noise[:, place]
        found[:, place] = value
    return np.exp(found)


def net_at(metal: Metal, royalty: float, prices: Paths) -> Paths:
    """Returns what a recovered tonne or gram earns at prices, less royalty and charges: linear in the price, except for price participation."""
    terms = metal.smelter
    plain = replace(metal, smelter=replace(terms, price_participation=None)) if terms else metal
    at_zero, at_step = (float(net(plain, plain.price * 0 + price, plain.price * 0)) for price in (0, STEP))
    found = at_zero + (at_step - at_zero) / STEP * prices * (1 - royalty)
    if terms and terms.price_participation:
        rule = terms.price_participation
        share, above = float(charges(metal, rule.base + STEP)[PARTICIPATION]) / STEP, prices - float(rule.base)
        found = found - share * (above if rule.applies == BOTH else np.maximum(above, 0.0))
    return np.asarray(found)


@dataclass(frozen=True)
class PriceScenarios:
    """A schedule on all paths.

    Attributes
    ----------
    rules : PricePaths
    operation : Operation
        What the schedule recovers.
    finance : Finance
        Its cash flow at the project's prices.
    """

    rules: PricePaths
    operation: Operation
    finance: Finance

    @property
    def project(self) -> Project:
        return self.finance.project

    @property
    def times(self) -> NDArray[np.float64]:
        """The middles of the periods, in years."""
        it = self.finance.statement
        return np.asarray((it.starts + it.ends) / 2)

    @cached_property
    def prices(self) -> dict[str, Paths]:
        """By metal the price of each path and period, in the unit of its price."""
        found = {}
        for number, metal in enumerate(self.project.metals):
            if metal.name in self.rules.metals:
                path, seed = self.rules.metals[metal.name], (self.rules.seed, number)
                found[metal.name] = prices_of(path, float(metal.price), self.times, seed, count=self.rules.count)
        return found

    @cached_property
    def cash(self) -> Paths:
        """The cash flow of each path and period."""
        it, royalty = self.finance.statement, float(self.project.economics.royalty)
        found = np.tile(it.cash_flow, (self.rules.count, 1))
        for number, metal in enumerate(self.project.metals):
            if metal.name not in self.prices:
                continue
            base, recovered = it.prices[f"price_{metal.name}"], self.operation.recovered(metal.name)
            for alone, amounts in zip(self.project.by_process, recovered):
                of_process = alone.metals[number]
                gain = net_at(of_process, royalty, self.prices[metal.name]) - net_at(of_process, royalty, base)
                found = found + amounts * gain
        return np.asarray(found)

    @cached_property
    def discounted(self) -> Paths:
        """The same, discounted."""
        it = self.finance.statement
        factors = self.finance.factors(self.project.shells.discount_rate)[0]
        return np.asarray(it.discounted + (self.cash - it.cash_flow) * factors)

    @property
    def npv(self) -> NDArray[np.float64]:
        """The NPV of each path."""
        return np.asarray(self.discounted.sum(axis=1))


def path_table(found: PriceScenarios) -> pd.DataFrame:
    """Returns one row per path and period: path, year, price_METAL, cash_flow and discounted_cash_flow."""
    count, periods = found.cash.shape
    columns = {"path": np.repeat(np.arange(1, count + 1), periods), "year": np.tile(np.arange(1, periods + 1), count)}
    columns |= {f"price_{name}": values.ravel() for name, values in found.prices.items()}
    return pd.DataFrame(columns | {"cash_flow": found.cash.ravel(), "discounted_cash_flow": found.discounted.ravel()})


def quantile_table(found: PriceScenarios, method: str) -> pd.DataFrame:
    """Returns one row: the method, the number of paths, the NPV at the project's prices, mean, least, quantiles and greatest NPV of the paths, and
    the share of paths below 0."""
    npv = found.npv
    spread = {f"npv_quantile_{share}": float(np.quantile(npv, share)) for share in QUANTILES}
    row = {
        "method": method,
        "paths": len(npv),
        "npv": float(found.finance.statement.discounted.sum()),
        "npv_mean": float(npv.mean()),
        "npv_least": float(npv.min()),
        **spread,
        "npv_greatest": float(npv.max()),
        "share_below_zero": float((npv < 0).mean()),
    }
    return pd.DataFrame([row])
