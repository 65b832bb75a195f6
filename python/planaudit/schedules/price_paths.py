"""Verifies price_paths.csv and price_path_quantiles.csv: the prices of each path by the exact mean and spread at each time, and what follows."""

from __future__ import annotations

import math
from collections.abc import Iterator

import numpy as np
import pandas as pd

from planaudit.inputs.answer import Answer
from planaudit.inputs.project import Section
from planaudit.inputs.tables import read_table
from planaudit.money.period_costs import price_in
from planaudit.money.prices import converted
from planaudit.money.smelter import PARTICIPATION, charged, net, paid_share
from planaudit.rules import TOLD, Rule, rule
from planaudit.schedules.discounts import discount
from planaudit.schedules.lots import MILL
from planaudit.schedules.valuation import ends_of

FILE, QUANTILES = "price_paths.csv", "price_path_quantiles.csv"
PRICE, AMOUNT, SHARE = 0.6e-6, 0.6e-3, 0.6e-9
# Recovered metal in files has three decimals.
DECIMALS = 0.6e-3


def verify(answer: Answer, method: str, recovered: dict[str, np.ndarray]) -> Rule:
    """Verifies both tables.

    Parameters
    ----------
    answer : Answer
    method : str
        The method that is shown.
    recovered : dict of str to array
        By metal what each process recovers in each period, shape (processes, periods).
    """
    assert answer.years is not None
    years = answer.years[answer.years["case"] == method]
    found: list[str] = []
    # A schedule that mines nothing has no tables.
    if len(years):
        said = read_table(answer.folder / "tables" / FILE)
        found += [*unlike(answer, said, years, recovered), *unlike_quantiles(answer, said, years, method)]
    holds = "the price of each path follows from its random numbers, and cash flows, NPVs and quantiles follow from it"
    return rule("price paths", holds, found[:TOLD], len(found))


def path_of(given: Section, start: float, times: np.ndarray, seed: list[int]) -> np.ndarray:
    """Returns the price of one path at some times, step by step."""
    draws = np.random.Generator(np.random.PCG64(np.random.SeedSequence(seed))).standard_normal(len(times))
    speed, volatility, log_mean = float(given["speed"]), float(given["volatility"]), math.log(float(given["long_term"]))
    log_price, before, found = math.log(start), 0.0, []
    for time, draw in zip(times, draws):
        share = math.exp(-speed * (time - before))
        spread = volatility * math.sqrt((1 - share * share) / (2 * speed))
        log_price, before = share * log_price + (1 - share) * log_mean + spread * draw, time
        found.append(math.exp(log_price))
    return np.array(found)


def unlike(answer: Answer, said: pd.DataFrame, years: pd.DataFrame, recovered: dict[str, np.ndarray]) -> Iterator[str]:
    """Yields prices and cash flows of paths that differ."""
    rules, project, count = answer.project.price_paths, answer.project, len(years)
    assert rules is not None
    paths = rules["count"]
    places = [(path, year) for path in range(1, paths + 1) for year in years["year"]]
    if list(zip(said["path"], said["year"])) != places:
        yield f"{FILE}: has {len(said):,} rows, expected {paths:,} paths of {count} periods"
        return
    ends = ends_of(answer, count)
    times = (np.append(0.0, ends[:-1]) + ends) / 2
    cash = np.tile(years["cash_flow"].to_numpy(), (paths, 1))
    slack = np.full(count, AMOUNT * 3)
    for number, metal in enumerate(project.metals):
        given = rules["metals"].get(metal["name"])
        if given is None:
            continue
        seeds = [[rules["seed"], number, path] for path in range(paths)]
        due = np.stack([path_of(given, float(metal["price"]), times, seed) for seed in seeds])
        prices = said[f"price_{metal['name']}"].to_numpy().reshape(due.shape)
        yield from differing(f"price_{metal['name']}", prices, due, PRICE + 1e-9 * due)
        for alone, amounts in zip(project.by_process, recovered[metal["name"]]):
            of_process = alone.metals[number]
            base = [
                float(net(of_process, price_in(project, metal, year), project.economics["royalty"]))
                for year in years["year"]
            ]
            gain = earned(of_process, due, float(project.economics["royalty"])) - np.array(base)
            cash, slack = cash + amounts * gain, slack + DECIMALS * np.abs(gain).max(axis=0)
    yield from differing(
        "cash_flow", said["cash_flow"].to_numpy().reshape(cash.shape), cash, slack + 1e-9 * np.abs(cash)
    )
    factors = np.array([discount(answer, int(year)) for year in years["year"]])
    present = years["discounted_cash_flow"].to_numpy() + (cash - years["cash_flow"].to_numpy()) * factors
    found = said["discounted_cash_flow"].to_numpy().reshape(cash.shape)
    yield from differing("discounted_cash_flow", found, present, slack + 1e-9 * np.abs(cash))


def earned(metal: Section, prices: np.ndarray, royalty: float) -> np.ndarray:
    """Returns what a recovered tonne or gram earns at prices, after royalty and charges."""
    unit = float(converted(metal, metal["price"] * 0 + 1))
    found = prices * unit * float(paid_share(metal)) * (1 - royalty)
    terms = metal["smelter"]
    fixed = float(sum(it for name, it in charged(metal, metal["price"]).items() if name != PARTICIPATION))
    if terms and terms["price_participation"] is not None:
        part = terms["price_participation"]
        above = prices - float(part["base"])
        kept = np.where((above > 0) | (part["applies"] == "both"), above * float(part["share"]), 0.0)
        found = found - kept * unit * float(paid_share(metal))
    return np.asarray(found - fixed)


def differing(name: str, said: np.ndarray, due: np.ndarray, slack: np.ndarray) -> Iterator[str]:
    for path, period in np.argwhere(~(np.abs(said - due) <= slack)):
        yield f"{FILE}: path {path + 1}, period {period + 1}: {name} {said[path, period]:.10g} for {due[path, period]:.10g}"


def unlike_quantiles(answer: Answer, said: pd.DataFrame, years: pd.DataFrame, method: str) -> Iterator[str]:
    """Yields amounts of the distribution that do not follow from the paths."""
    row = read_table(answer.folder / "tables" / QUANTILES, ["method"])
    npv = np.sort(said.groupby("path")["discounted_cash_flow"].sum().to_numpy())
    due = {"paths": float(len(npv)), "npv": float(years["discounted_cash_flow"].sum()), "npv_mean": float(npv.mean())}
    due |= {"npv_least": npv[0], "npv_greatest": npv[-1], "share_below_zero": float((npv < 0).sum() / len(npv))}
    due |= {f"npv_quantile_{share}": interpolated(npv, share) for share in (0.1, 0.5, 0.9)}
    if row["method"].tolist() != [method] or not set(due) <= set(row.columns):
        yield f"{QUANTILES}: expected one row of {method} with {sorted(due)}"
        return
    for name, value in due.items():
        slack = SHARE if name == "share_below_zero" else AMOUNT * (len(years) + 2) + 1e-9 * abs(value)
        if not abs(row[name].iloc[0] - value) <= slack:
            yield f"{QUANTILES}: {name} {row[name].iloc[0]:.12g} for {value:.12g}"


def interpolated(rising: np.ndarray, share: float) -> float:
    """Returns a quantile of numbers that rise, between two of them by their distance."""
    place = share * (len(rising) - 1)
    low = math.floor(place)
    high = min(low + 1, len(rising) - 1)
    return float(rising[low] + (place - low) * (rising[high] - rising[low]))


def of_feed(answer: Answer, method: str) -> dict[str, np.ndarray]:
    """Returns by metal what each process recovers in each period, by feed.csv."""
    feed = read_table(answer.folder / "tables/feed.csv", ["method", "process"])
    mine = feed[feed["method"] == method]
    names = [it["name"] for it in answer.project.processes] or [MILL]
    return {
        metal["name"]: np.stack(
            [mine.loc[mine["process"] == name, f"recovered_{metal['name']}"].to_numpy() for name in names]
        )
        for metal in answer.project.metals
    }
