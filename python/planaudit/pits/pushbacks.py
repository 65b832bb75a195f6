"""Verifies pushbacks: they keep slopes and constraints, are nested, and add up from the blocks."""

from __future__ import annotations

import numpy as np
import pandas as pd

from planaudit.blocks import constraints
from planaudit.errors import demanded
from planaudit.ground import slopes
from planaudit.inputs.answer import Answer
from planaudit.pits import mineralised, pushback_widths, sums
from planaudit.revenue_factors import BASE_PRICE, factor_text, factor_texts
from planaudit.rules import TOLD, Checks, Rule, rule, unlike

CENT = 0.01


def checks_of(answer: Answer) -> Checks:
    """Returns the checks of pushbacks. Since each block has one pushback, the pits up to each number are nested by construction."""
    as_shells = by_pushback(answer)
    return {
        "pushback of blocks": lambda: [verify_places(answer)],
        "pushback slopes": lambda: [of_pushbacks(slopes.verify(as_shells))],
        "pushback constraints": lambda: [of_pushbacks(constraints.verify(as_shells))],
        "pushbacks": lambda: [verify_sums(answer)],
        "pushback widths": lambda: [pushback_widths.verify(answer)],
    }


def of_pushbacks(of_shells: Rule) -> Rule:
    """Returns the results of rules of shells, in words of pushbacks."""
    holds = of_shells.holds.replace("of any shell", "of the pushbacks up to any").replace(
        "in every shell", "in pushback 1"
    )
    differences = tuple(
        text.replace("from revenue factor", "from pushback").replace("mined at revenue factor", "in pushback")
        for text in of_shells.differences
    )
    return Rule(f"pushback {of_shells.name}", holds, differences, of_shells.count)


def by_pushback(answer: Answer) -> Answer:
    """Returns the results with pushback numbers in place of revenue factors, so that rules of shells apply."""
    said, numbers = answer.said.assign(revenue_factor=answer.said["pushback"]), table_of(answer).index
    return answer.of_same_blocks(said, factors=tuple(float(number) for number in numbers))


def table_of(answer: Answer) -> pd.DataFrame:
    """Returns pushbacks.csv by number. Raises AuditError without it."""
    table: pd.DataFrame = demanded(answer.pushbacks, pushback_widths.PUSHBACKS)
    return table


def verify_places(answer: Answer) -> Rule:
    """Verifies that pushbacks are numbered from 1, one per shell, and that each block has the pushback of the first shell that holds it."""
    table, factors = table_of(answer), sorted(answer.factors)
    numbers, differences = table.index.tolist(), []
    if numbers != list(range(1, len(factors) + 1)) or table["revenue_factor"].tolist() != factors:
        differences.append(
            f"pushbacks {numbers} of revenue factors {factor_texts(table['revenue_factor'])} for the shells {factor_texts(factors)}"
        )
    differences += unlike_rules(answer, factors)
    first, said = answer.said["revenue_factor"].to_numpy(), answer.said["pushback"].to_numpy()
    expected = np.array([0, *range(1, len(factors) + 1), -1])[np.searchsorted([0, *factors], first)]
    holds = "each block is in the pushback of the first shell that holds it"
    off = np.flatnonzero(expected != said)
    if answer.project.pushbacks is not None and (
        answer.project.pushbacks["min_mining_width"] or answer.project.pushbacks["min_bottom_width"]
    ):
        holds = "there is a pushback for each shell, and each block is in one of them or in none"
        off = np.flatnonzero((said < 0) | (said > len(factors)))
    differences += [f"{answer.called(row)}: pushback {said[row]} for {expected[row]}" for row in off[:TOLD]]
    return rule("pushback of blocks", holds, differences, len(differences) + max(0, len(off) - TOLD))


def unlike_rules(answer: Answer, factors: list[float]) -> list[str]:
    """Returns differences of the revenue factors of pushbacks from the project."""
    asked = answer.project.pushbacks
    if asked is None:
        return ["the project has no pushbacks"]
    found = []
    last = asked["ultimate_pit"] or answer.project.shells["selected"] or BASE_PRICE
    if asked["revenue_factors"] is not None:
        last = max(asked["revenue_factors"])
        found += [
            f"revenue factor {factor_text(factor)} is not in the project"
            for factor in factors
            if factor not in asked["revenue_factors"]
        ]
    if asked["mining_cost_added"] and len(factors) != len(asked["mining_cost_added"]):
        found.append(f"{len(factors)} pushbacks, expected {len(asked['mining_cost_added'])} as in mining_cost_added")
    if asked["count"] is not None and len(factors) > asked["count"]:
        found.append(f"{len(factors)} pushbacks, expected at most {asked['count']}")
    if factors[-1] > last:
        found.append(f"the last pushback is of revenue factor {factor_text(factors[-1])} for {factor_text(last)}")
    return found


def verify_sums(answer: Answer) -> Rule:
    """Verifies blocks, tonnes, grades, ratios, metal and cash flow of each pushback."""
    table, differences = table_of(answer), list[str]()
    pushback, count = answer.said["pushback"].to_numpy(), len(table)
    group = np.where((pushback > 0) & (pushback <= count), pushback - 1, count)
    whole, more = sums.added(answer, group, count), np.bincount(group, answer.worths - answer.earned, count + 1)
    until = whole[sums.CASH].cumsum()
    for number, said in zip(table.index.tolist(), table.to_dict("records")):
        place = min(max(int(number), 1), count) - 1
        lost = float(answer.worths[sums.within(answer, said["revenue_factor"])].sum() - until[place])
        is_last = number == table.index[-1]
        due = {"deferred_value": 0.0 if is_last else lost, "value_lost_to_width": lost if is_last else 0.0}
        if answer.project.pushbacks and answer.project.pushbacks["mining_cost_added"]:
            due["mining_cost_added"] = float(more[place])
            said = {"mining_cost_added": np.nan, **said}
        where, mine = f"pushback {number}", pushback == number
        differences += unlike(where, said, due, lambda _, amount: 1e-9 * abs(amount) + CENT)
        own = sums.with_ratios({name: float(amounts[place]) for name, amounts in whole.items()})
        gross = own.pop(sums.GROSS)
        differences += unlike(
            where, said, own | mineralised.tonnes_in(answer, np.flatnonzero(mine)), sums.slack_of(gross)
        )
    return rule(
        "pushbacks",
        "blocks, tonnes, grades, strip ratios, metal and cash flow of each pushback are the sums over its blocks",
        differences,
    )
