"""Verifies a schedule by block from the years of blocks, the project and its table: order, limits, annual sums, and NPV."""

from __future__ import annotations

import json
import math
from dataclasses import replace
from itertools import product
from typing import Any

import numpy as np
import pandas as pd

from planaudit.blocks import constraints
from planaudit.ground import slopes
from planaudit.inputs.answer import Answer
from planaudit.inputs.tables import YEAR
from planaudit.money.period_costs import capex, fixed_cost, has_costs
from planaudit.rules import TOLD, Checks, Rule, rule
from planaudit.schedules import block_flow, block_grades, bounds, certificate, methods as ways_table
from planaudit.schedules.discounts import discount, present_costs
from planaudit.schedules.limits import limits_of, minima_of, shares_of, stocked_of
from planaudit.schedules.material_flow import MaterialFlow
from planaudit.schedules.mixed_reclaim import npv_at_mean_grade
from planaudit.schedules.periods import counted
from planaudit.schedules.pushback_schedule import CENT

FILE, CASE = "block_schedule.json", block_flow.CASE
SLIGHT = 1e-6


def checks_of(answer: Answer) -> Checks:
    """Returns the checks of constraints, order, limits and values, and of the tables of money and material."""
    told = counted(json.loads((answer.folder / FILE).read_text(encoding="utf-8")), answer.project)
    flow = block_flow.flow_of(answer)
    return {
        "block order": lambda: [verify_order(answer, told)],
        "block limits": lambda: [verify_limits(flow, told)],
        "block constraints": lambda: verify_fixed(answer),
        "block value": lambda: [verify_value(flow, told)],
        "upper bound": lambda: [bounds.verify(answer, told)],
        **block_flow.checks_of(flow, told),
        "certificate": lambda: certificate.verify(answer, told),
    }


def verify_fixed(answer: Answer) -> list[Rule]:
    """Verifies that must-mine blocks are mined, and excluded blocks and those that depend on them are not, if the project has constraints."""
    if answer.project.constraints is None:
        return []
    year, (must, never) = answer.said[YEAR].to_numpy(), constraints.demanded(answer, answer.project.constraints)
    # Of a block that is mined out already nothing is left to mine.
    left, mined = np.flatnonzero(must & (answer.tonnes > 0) & (year == 0)), np.flatnonzero(never & (year > 0))
    differences = [f"{answer.called(row)} is must-mine, and is in no year" for row in left[:TOLD]]
    differences += [f"{answer.called(row)} is excluded, and is in year {year[row]}" for row in mined[:TOLD]]
    holds = "must-mine blocks are mined in some year, and excluded blocks in none"
    return [rule("block constraints", holds, differences, len(left) + len(mined))]


def verify_order(answer: Answer, told: dict[str, Any]) -> Rule:
    """Verifies that no block is mined before its whole cone or after the last year, and that its shares sum to at most 1."""
    year = answer.said[YEAR].to_numpy()
    dated = replace(answer, said=answer.said.assign(revenue_factor=year))
    found = slopes.verify(dated)
    differences = [
        difference.replace("mined at revenue factor", "mined in year", 1) for difference in found.differences
    ]
    wrong = (year < 0) | (year > told["years"])
    shares = [share for _, share in (*shares_of(answer), *stocked_of(answer))]
    whole = np.sum(shares, axis=0)
    wrong |= (whole > 1 + SLIGHT) | (np.min(shares, axis=0) < -SLIGHT)
    wrong |= (year == 0) & (whole > SLIGHT)
    rows = np.flatnonzero(wrong)[:TOLD]
    differences += [f"{answer.called(row)}: year {year[row]}, share processed {whole[row]:.6g}" for row in rows]
    late = answer.reclaims["year"] > told["years"]
    differences += [
        f"{answer.called(int(row))}: reclaimed after year {told['years']}" for row in answer.reclaims["row"][late]
    ]
    too_late = int((answer.opened["year"] > told["years"]).sum())
    differences += [f"reclaims.csv: {too_late} rows without id are after year {told['years']}"] if too_late else []
    holds = "no block is mined before all blocks of its slope cone"
    return rule("block order", holds, differences, found.count + int(wrong.sum()) + int(late.sum()) + too_late)


def verify_limits(flow: MaterialFlow, told: dict[str, Any]) -> Rule:
    """Verifies that no year exceeds a limit, ramp-up included, or falls below a minimum."""
    answer, sums, differences = flow.answer, block_flow.of_years(flow), []
    for name, ramps, most in limits_of(answer):
        if told["limits"].get(name) != most:
            differences.append(f"limit of {name} is recorded as {told['limits'].get(name)} for {most:.10g}")
        for year, amount in sums[name].items():
            allowed = most * ramps[min(int(year), len(ramps)) - 1]
            if amount > allowed * (1 + 1e-8) + CENT:
                differences.append(f"year {year}: {name} {amount:.10g} above {allowed:.10g}")
    rules = answer.project.schedule
    expected = {"ramp_up": list(rules["ramp_up"]) if rules else [1.0]} | (
        {"years": rules["years"]} if rules and rules["years"] else {}
    )
    said = told | {"years": answer.project.calendar.end(told["years"])}
    differences += [
        f"{FILE}: {name} {said[name]} for {amount}" for name, amount in expected.items() if said[name] != amount
    ]
    due = {name: base for name, base, _ in minima_of(answer)}
    if told.get("least", {}) != due:
        differences.append(f"minimums are recorded as {told.get('least', {})} for {due}")
    for (name, _, by_year), year in product(minima_of(answer), range(1, told["years"] + 1)):
        amount, owed = float(sums[name].get(year, 0.0)), by_year[min(year, len(by_year)) - 1]
        if amount < owed * (1 - 1e-8) - CENT:
            differences.append(f"year {year}: {name} {amount:.10g} below {owed:.10g}")
    return rule(
        "block limits",
        "no year exceeds a limit of feed, total material, metal, a sum or a head grade, nor falls below a minimum",
        [
            *differences,
            *block_grades.differences(answer, told, lambda name: block_flow.used(flow, name, told["years"])[0]),
        ],
    )


def with_costs(answer: Answer, sums: pd.DataFrame) -> pd.DataFrame:
    """Returns the sums of years with the discounted cash flow, and with period costs if there are any, which both cash flows pay."""
    years = sums.index.tolist()
    present = sums["cash_flow"] * [discount(answer, year) for year in years] - [
        present_costs(answer, year) for year in years
    ]
    sums = sums.assign(discounted_cash_flow=present)
    if not has_costs(answer.project):
        return sums
    costs = {
        "fixed_cost": np.array([fixed_cost(answer.project, year) for year in years], dtype=float),
        "capex": np.array([capex(answer.project, year) for year in years], dtype=float),
    }
    return sums.assign(**costs, cash_flow=sums["cash_flow"] - costs["fixed_cost"] - costs["capex"])


def verify_value(flow: MaterialFlow, told: dict[str, Any]) -> Rule:
    """Verifies that years.csv has the sums of blocks and discounted cash flow, and that the NPV is their sum and at most the bound."""
    answer, sums = flow.answer, block_flow.of_years(flow)
    assert answer.years is not None
    said = answer.years[answer.years["case"] == CASE].set_index("year")
    last = int(sums.index.max()) if len(sums) else 0
    differences = (
        [] if said.index.tolist() == list(range(1, last + 1)) else [f"years {said.index.tolist()} for 1 to {last}"]
    )
    sums = with_costs(answer, sums.reindex(range(1, last + 1), fill_value=0.0))
    for name in sums.columns:
        off = (said[name].reindex(sums.index) - sums[name]).abs() > CENT + 1e-9 * sums[name].abs()
        pairs = [(year, said[name].get(year, math.nan), sums[name][year]) for year in sums.index[off]]
        differences += [f"year {year}: {name} {told_of:.12g} for {expected:.12g}" for year, told_of, expected in pairs]
    value, bound = sums["discounted_cash_flow"].sum(), told["upper_bound"]
    if abs(told["npv"] - value) > CENT + 1e-9 * abs(value):
        differences.append(f"value {told['npv']:.12g} for {value:.12g}")
    if value > bound + CENT + 1e-9 * abs(bound):
        differences.append(f"value {value:.12g} is above bound {bound:.12g}")
    gap = (bound - told["npv"]) / abs(bound) if bound else 0.0
    if abs(told["gap"] - gap) > 1e-6:
        differences.append(f"gap {told['gap']:.9g} for {gap:.9g}")
    mined = int(((answer.said[YEAR] > 0) & (answer.tonnes > 0)).sum())
    record, loose = {"npv": told["npv"], "upper_bound": bound, "blocks": mined}, {}
    if flow.blocks.stockpiles:
        record["npv_at_mean_grade"], loose[CASE] = npv_at_mean_grade(flow, CASE, told["npv"])
    differences += ways_table.differences(answer, {CASE: record}, loose)
    holds = "cash flows are discounted as in the project, years and NPV are sums over blocks, and the NPV is within its bound"
    return rule("block value", holds, differences)
