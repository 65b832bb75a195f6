"""Verifies the table of shells by sums over blocks, and the solver's value of each shell exactly."""

from __future__ import annotations

import math
from collections.abc import Callable
from decimal import Decimal

import numpy as np

from planaudit.inputs.answer import Answer
from planaudit.pits import mineralised
from planaudit.revenue_factors import BASE_PRICE, PER_MILLE, factor_text, per_mille
from planaudit.rules import TOLD, Rule, rule, unlike

CASH, GROSS = "undiscounted_cash_flow", "gross"
# The limits up to which floats and int64 hold every whole number.
EXACT_WHOLE, MOST_WHOLE = 2**53, 2**63


def verify(answer: Answer) -> Rule:
    """Verifies tonnes, grades, ratios, metal and cash flow of each shell."""
    said = dict(zip(answer.shells.index, answer.shells.to_dict("records")))
    differences = []
    for factor, due in zip(answer.shells.index, of_shells(answer)):
        differences += unlike(f"revenue factor {factor_text(factor)}", said[factor], due, slack_of(due.pop(GROSS)))
    return rule(
        "shells",
        "blocks, tonnes, grades, strip ratios, metal and cash flow of each shell are the sums over its blocks",
        differences,
    )


def slack_of(gross: float) -> Callable[[str, float], float]:
    """Returns the tolerance of an amount in shells.csv; a difference of large gains and costs has the error of these."""

    def slack(name: str, amount: float) -> float:
        return 0.6 * smallest(name) + 1e-9 * abs(amount) + (1e-12 * gross if name == CASH else 0.0)

    return slack


def smallest(name: str) -> float:
    """Returns the last decimal place of a column of shells.csv."""
    return 1e-6 if name.startswith("head_grade_") or name in ("strip_ratio", "years") else 1e-3


def within(answer: Answer, factor: float) -> np.ndarray:
    """Returns the rows of the blocks in the shell of a revenue factor."""
    rows, first = answer.mined
    found: np.ndarray = rows[first <= factor]
    return found


def of_shells(answer: Answer) -> list[dict[str, float]]:
    """Returns the amounts of each shell of `answer.shells`, and its absolute cash flow as GROSS."""
    factors, feed = answer.shells.index.to_numpy(dtype=float), answer.feed
    first, processed = (answer.said[name].to_numpy() for name in ("revenue_factor", "process_revenue_factor"))
    rising = np.sort(factors)
    found = {name: amounts.cumsum() for name, amounts in added(answer, number_in(rising, first), len(rising)).items()}
    later = number_in(rising, processed)
    found["processed_at_revenue_factor"] = np.bincount(later, feed, len(rising) + 1)[: len(rising)].cumsum()
    place = {factor: number for number, factor in enumerate(rising.tolist())}
    return [
        with_ratios({name: float(amounts[place[factor]]) for name, amounts in found.items()})
        | mineralised.tonnes_in(answer, within(answer, factor), factor)
        for factor in factors.tolist()
    ]


def number_in(rising: np.ndarray, factor: np.ndarray) -> np.ndarray:
    """Returns for each block the number of the first of rising factors that is not below its own; for a factor of 0 their number."""
    found, some = np.full(len(factor), len(rising)), np.flatnonzero(factor > 0)
    found[some] = np.searchsorted(rising, factor[some])
    return found


def added(answer: Answer, group: np.ndarray, count: int) -> dict[str, np.ndarray]:
    """Returns the sums over the blocks of each group, by the number of the group from 0; blocks of other numbers are passed over."""
    rows = np.flatnonzero(group < count)
    ore, tonnes, worths = answer.ore[rows], answer.tonnes[rows], answer.worths[rows]
    found = {"blocks": tonnes > 0, "tonnes": tonnes, "feed_tonnes": np.where(ore, answer.feed[rows], 0.0)}
    found |= {"in_situ_ore_tonnes": np.where(ore, tonnes, 0.0), "waste_tonnes": np.where(ore, 0.0, tonnes)}
    found |= {CASH: worths, GROSS: np.abs(worths)} | {name: amounts[rows] for name, amounts in answer.feeds.items()}
    undiluted = np.where(ore, answer.undiluted[rows], 0.0)
    for metal in answer.project.metals:
        found[f"head_grade_{metal['name']}"] = undiluted * answer.rows[metal["column"]].to_numpy()[rows]
        found[f"recovered_{metal['name']}"] = np.where(ore, answer.quantities[metal["name"]][rows], 0.0)
    return {name: np.bincount(group[rows], amounts, count) for name, amounts in found.items()}


def with_ratios(found: dict[str, float]) -> dict[str, float]:
    """Returns sums with the strip ratio, and head grades in place of the contents of ore."""
    feed, in_situ = found["feed_tonnes"], found["in_situ_ore_tonnes"]
    grades = {name: it / feed if feed else math.nan for name, it in found.items() if name.startswith("head_grade_")}
    return found | grades | {"strip_ratio": (found["tonnes"] - in_situ) / in_situ if in_situ else math.nan}


def verify_worth(answer: Answer) -> Rule:
    """Verifies that the solver's value of each shell equals the sum over its blocks at the prices of the revenue factor, exactly, and that a
    mined block is processed from the first factor at which that pays."""
    differences, count = late(answer)
    other = unlike_worth(answer)
    holds = "the solver's value of each shell equals the sum over its blocks, to the last digit of blocks.csv"
    return rule("values", holds, [*differences, *other], count + len(other))


def unlike_worth(answer: Answer) -> list[str]:
    """Returns differences between the solver's values and the sums of block values at each revenue factor."""
    mining, lost, differences = millionths(answer, "mining_cost"), lost_digits(answer), []
    for factor in answer.shells.index:
        inside = within(answer, float(factor))
        revenue, processing = chosen(answer, float(factor), inside)
        gain, cost = per_mille(factor) * total(revenue), PER_MILLE * (total(processing) + total(mining[inside]))
        said = Decimal(answer.shells["value_at_revenue_factor"][factor]).scaleb(9)
        if abs(said - (gain - cost)) > lost * (gain + cost):
            differences.append(
                f"revenue factor {factor_text(factor)}: value_at_revenue_factor {said.scaleb(-9)} for {Decimal(gain - cost).scaleb(-9)}"
            )
    return differences


def chosen(answer: Answer, factor: float, rows: np.ndarray) -> tuple[np.ndarray, np.ndarray]:
    """Returns revenue and processing cost of blocks in the best process at a revenue factor; 0 if none pays. With a cut-off at the base price the
    process is that of the base price."""
    is_moving = answer.project.economics["cutoff"] == "per_revenue_factor"
    ways, price = (answer.amounts_of_ways, factor) if is_moving else ([("revenue", "processing_cost")], BASE_PRICE)
    revenue = processing = gain = np.zeros(len(rows), dtype=np.int64)
    for names in ways:
        first, second = (millionths(answer, name)[rows] for name in names)
        worth = per_mille(price) * first - PER_MILLE * second
        better = np.asarray(worth > gain, dtype=bool)
        revenue, processing, gain = (
            np.where(better, new, old) for new, old in ((first, revenue), (second, processing), (worth, gain))
        )
    return revenue, processing


def lost_digits(answer: Answer) -> Decimal:
    """Returns the relative error that a sum may have: 0, unless amounts have more digits than a float of blocks.csv holds."""
    names = ["mining_cost", *(name for pair in answer.amounts_of_ways for name in pair)]
    greatest = max(float(answer.said[name].max()) for name in names)
    return Decimal(0) if greatest * 10 ** answer.project.economics["decimals"] < EXACT_WHOLE else Decimal("1e-15")


def millionths(answer: Answer, name: str) -> np.ndarray:
    """Returns amounts in millionths: int64, or Python's integers if 64 bits could not hold them at every revenue factor. They have no more
    decimals than the project keeps."""
    if name not in answer.whole:
        decimals = answer.project.economics["decimals"]
        whole = np.rint(answer.said[name].to_numpy() * 10**decimals).astype(np.int64)
        factors = (*answer.factors, *map(float, answer.shells.index))
        most = int(np.abs(whole).max(initial=0)) * 10 ** (6 - decimals) * max(PER_MILLE, *map(per_mille, factors))
        answer.whole[name] = (whole if most < MOST_WHOLE else whole.astype(object)) * 10 ** (6 - decimals)
    return answer.whole[name]


def total(amounts: np.ndarray) -> int:
    """Returns the exact sum of whole numbers of any size."""
    if amounts.dtype == object:
        return int(amounts.sum())
    # The sums of the upper and of the lower halves fit into 64 bits.
    return (int((amounts >> 32).sum()) << 32) + int((amounts & 0xFFFFFFFF).sum())


def first_processed(answer: Answer) -> np.ndarray:
    """Returns for each block the least revenue factor at which it is mined and processing it pays; 0 if none exists."""
    first = answer.said["revenue_factor"].to_numpy()
    expected = np.zeros(len(first))
    if answer.project.economics["cutoff"] == "per_revenue_factor":
        for factor in sorted(answer.factors, reverse=True):
            inside = within(answer, factor)
            expected[inside[np.asarray(chosen(answer, factor, inside)[0] > 0, dtype=bool)]] = factor
        return expected
    every = np.arange(len(first))
    return np.where(np.asarray(chosen(answer, BASE_PRICE, every)[0] > 0, dtype=bool), first, 0)


def late(answer: Answer) -> tuple[list[str], int]:
    """Returns the first ten differences of process_revenue_factor, and their number."""
    expected, said = first_processed(answer), answer.said["process_revenue_factor"].to_numpy()
    off = np.flatnonzero(expected != said)
    return [
        f"{answer.called(row)}: process_revenue_factor {factor_text(said[row])} for {factor_text(expected[row])}"
        for row in off[:TOLD]
    ], len(off)
