"""Verifies a schedule of pushbacks from its rows, the pushbacks of blocks and the project: order, limits, amounts, and NPV."""

from __future__ import annotations

import functools
import json
import math
from collections.abc import Iterator
from dataclasses import dataclass
from functools import cached_property
from typing import Any, Optional

import numpy as np
import pandas as pd
from pandas.core.groupby import DataFrameGroupBy

from planaudit.inputs.answer import Answer
from planaudit.inputs.project import Section
from planaudit.inputs.tables import read_table, some
from planaudit.money.period_costs import capex, fixed_cost, mining_factor
from planaudit.revenue_factors import factor_texts
from planaudit.rules import TOLD, Checks, Rule, rule
from planaudit.schedules import (
    cash_flow,
    dumps,
    grade_tonnage,
    inventory,
    limit_table,
    material_flow,
    methods as ways_table,
    price_paths,
    pushback_bounds,
    pushback_certificate,
)
from planaudit.schedules.discounts import discount, present_costs
from planaudit.schedules.grade_limits import grade_limits, most_of
from planaudit.schedules.limits import least_of
from planaudit.schedules.material_flow import PIT, UNKNOWN, MaterialFlow
from planaudit.schedules.mixed_reclaim import npv_at_mean_grade
from planaudit.schedules.opening import FIRST
from planaudit.schedules.periods import capacities_of_feed, counted, maxima_of_periods, minima_of_periods

FILE = "schedule.json"
CENT, SLIGHT = 0.01, 1e-6
# The last decimal places of amounts and shares in schedule.csv.
AMOUNT, SHARE = 0.6e-3, 0.6e-9


@dataclass(frozen=True)
class Way:
    """The schedule of one method.

    rows  the rows of schedule.csv, with the `level` of their bench, from 0 at the top; -1 if none exists
    said  its entry in schedule.json
    """

    answer: Answer
    name: str
    rows: pd.DataFrame
    said: dict[str, Any]

    @property
    def project_rules(self) -> Optional[Section]:
        return self.answer.project.schedule

    @cached_property
    def last(self) -> int:
        return int(self.rows["year"].max()) if len(self.rows) else 0

    @cached_property
    def by_year(self) -> DataFrameGroupBy:
        return self.rows.groupby("year")

    @cached_property
    def done(self) -> np.ndarray:
        """The share of each bench that is mined by the end of each year, shape (pushbacks from 0, levels, years from 0)."""
        pushbacks, levels = int(self.answer.said["pushback"].max()), self.answer.shape[0]
        mined = np.zeros((pushbacks + 1, levels, self.last + 1))
        place = tuple(self.rows[name].to_numpy() for name in ("pushback", "level", "year"))
        np.add.at(mined, place, self.rows["share"].to_numpy())
        return mined.cumsum(axis=2)


def checks_of(answer: Answer) -> Checks:
    """Returns the checks of order, amounts, flows, limits, values, the bound, and the years of blocks."""
    told = counted(json.loads((answer.folder / FILE).read_text(encoding="utf-8")), answer.project)
    told["methods"] = {name: counted(method, answer.project) for name, method in told["methods"].items()}
    flow, strange = material_flow.read(answer)
    sums = sums_of_benches(flow)
    misplaced, rows = levelled(answer, told)
    ways = [Way(answer, name, rows[rows["method"] == name], said) for name, said in told["methods"].items()]
    return {
        "schedule amounts": lambda: [verify_amounts(ways, flow, sums, misplaced)],
        "material flow": lambda: [material_flow.verify(flow, rows, strange)],
        "schedule order": lambda: [verify_order(ways, sums)],
        "schedule limits": lambda: [verify_limits(ways, told, flow)],
        "schedule value": lambda: [verify_value(ways, told, sums, flow)],
        "cash flow": lambda: [cash_flow.verify(flow, list(told["methods"]))],
        "inventory": lambda: [inventory.verify(flow, told["shown"])],
        "grade tonnage": lambda: [grade_tonnage.verify(answer)],
        "upper bound": lambda: [pushback_bounds.verify(answer, told, by_year(answer, int(told["years"])))],
        "certificate": lambda: verify_certificate(answer, told, flow),
        "years of blocks": lambda: [verify_years_of_blocks(ways, told, sums)],
        "price paths": lambda: verify_prices(answer, told["shown"]),
    }


def verify_certificate(answer: Answer, told: dict[str, Any], flow: MaterialFlow) -> list[Rule]:
    """Verifies the certificate, if there is one."""
    years = int(told["years"])
    bound = pushback_bounds.Bound(
        answer, pd.DataFrame(columns=["limit", "side", "year", "price"]), years, by_year(answer, years)
    )
    return pushback_certificate.verify(bound, told, flow)


def verify_prices(answer: Answer, shown: str) -> list[Rule]:
    """Verifies price paths, if the project has any."""
    return [price_paths.verify(answer, shown, price_paths.of_feed(answer, shown))] if answer.project.price_paths else []


def levelled(answer: Answer, told: dict[str, Any]) -> tuple[list[str], pd.DataFrame]:
    """Returns rows of schedule.csv with an unknown place, as differences, and the other rows with the level of their bench."""
    assert answer.schedule is not None
    rows = answer.schedule.copy()
    # Ore that is reclaimed is of no bench, and mines nothing.
    reclaimed = (rows["pushback"] == 0) & rows["bench"].isna() & (rows["share"] == 0) & (rows["feed_tonnes"] > 0)
    steps = ((answer.toes[0] - rows["bench"]) / answer.size[2]).where(~reclaimed, FIRST).fillna(UNKNOWN)
    rows["level"] = np.rint(steps).astype(int)
    lost = (abs(steps - rows["level"]) > SLIGHT) | (rows["year"] < 1)
    mined = rows["level"].between(0, answer.shape[0] - 1) & (rows["share"] > 0)
    lost |= ~(mined & rows["pushback"].between(1, answer.said["pushback"].max()) | reclaimed)
    differences = [
        f"{row.method}, year {row.year}: no bench {row.bench:.10g} of pushback {row.pushback}, or no share {row.share:g}"
        for row in some(rows, lost)
    ]
    if not set(rows["method"]) <= set(told["methods"]):
        differences.append(f"methods {sorted(set(rows['method']))} for {sorted(told['methods'])}")
    return differences, rows[~lost]


def sums_of_benches(flow: MaterialFlow) -> pd.DataFrame:
    """Returns total material and the cash flow of mining of each bench, by pushback and level."""
    lots = flow.blocks.lots[["total_tonnes", "mining_cash"]]
    return lots.groupby(level=["pushback", "level"]).sum().rename(columns={"mining_cash": "cash_flow"})


def by_year(answer: Answer, years: int) -> dict[str, tuple[np.ndarray, np.ndarray]]:
    """Returns the minimum and maximum of each limited amount in each period."""
    rules, nothing, lengths = answer.project.schedule, np.zeros(years), answer.project.calendar.lengths(years)
    ramp_up = rules["ramp_up"] if rules else (1.0,)
    ramp = np.array([ramp_up[min(year, len(ramp_up) - 1)] for year in range(years)])

    def of_years(name: str, amount: float) -> np.ndarray:
        return amount * (ramp if name.startswith("feed_tonnes") else np.ones(years))

    own = maxima_of_periods(answer.project, years)
    own |= {it.name: most_of(answer.project, it, years) for it in grade_limits(answer.project)}
    found = {name: (nothing, own.get(name, of_years(name, most))) for name, most in maxima_of(answer).items()}
    minima = {name: of_years(name, least) for name, least in least_of(answer)} | minima_of_periods(
        answer.project, years
    )
    for name, least_of_years in minima.items():
        found[name] = least_of_years, found.get(name, (nothing, np.full(years, np.inf)))[1]
    return {name: (least * lengths, most * lengths) for name, (least, most) in found.items()}


def maxima_of(answer: Answer) -> dict[str, float]:
    """Returns the annual maximum of each limited amount, with the full capacity of processes; 0 of head grades."""
    rules, shells = answer.project.schedule, answer.project.shells
    found = capacities_of_feed(answer.project)
    found |= {"total_tonnes": (rules and rules["mining_capacity"]) or shells["mining_capacity"] or math.inf}
    found |= {f"recovered_{name}": most for name, most in (rules["max_metal_per_year"] if rules else {}).items()}
    found |= {f"sum_{it['name']}": it["max"] for it in (rules["limits"] if rules else ()) if it["max"] is not None}
    found |= {it.name: 0.0 for it in grade_limits(answer.project)}
    return {name: most for name, most in found.items() if most < math.inf}


def verify_amounts(ways: list[Way], flow: MaterialFlow, sums: pd.DataFrame, misplaced: list[str]) -> Rule:
    """Verifies that each row is the share of its bench and the sum of its flows, and that the shares of a bench sum to at most 1."""
    differences = list(misplaced)
    for way in ways:
        rows = way.rows.reset_index(drop=True)
        whole = sums.reindex(pd.MultiIndex.from_frame(rows[["pushback", "level"]])).fillna(0.0).reset_index(drop=True)
        whole["cash_flow"] *= [mining_factor(way.answer.project, int(year)) for year in rows["year"]]
        mined, slack = whole.mul(rows["share"], axis=0), AMOUNT + SHARE * whole.abs()
        flowed, loose = flows_of(way, rows, flow)
        expected = flowed.assign(total_tonnes=mined["total_tonnes"], cash_flow=flowed["cash_flow"] + mined["cash_flow"])
        loose["total_tonnes"] = 0.0
        for name in [name for name in expected if name in rows]:
            said, due = rows[name].to_numpy(), expected[name].to_numpy()
            open_to = slack[name].to_numpy() if name in slack else AMOUNT
            off = np.abs(said - due) > open_to + loose[name].to_numpy() + 1e-9 * np.abs(due)
            differences += [
                f"{place(row)}: {name} {said[row.Index]:.10g} for {due[row.Index]:.10g}" for row in some(rows, off)
            ]
        twice = np.argwhere(way.done[:, :, -1] > 1 + SLIGHT)
        differences += [
            f"{way.name}: pushback {pushback}, level {level} is mined {way.done[pushback, level, -1]:.9g} times"
            for pushback, level in twice
        ]
    holds = "each row of the schedule is a share of its bench with the flows of its ore, and no tonne is mined twice"
    return rule("schedule amounts", holds, differences[:TOLD], len(differences))


def flows_of(way: Way, rows: pd.DataFrame, flow: MaterialFlow) -> tuple[pd.DataFrame, pd.DataFrame]:
    """Returns the sums of flows.csv for each row of schedule.csv, and their tolerances."""
    mine = flow.rows[flow.rows["method"] == way.name]
    # What a stockpile takes is no mill feed yet.
    mine = mine.assign(feed_tonnes=mine["feed_tonnes"].where(mine["destination"].isin(flow.names), 0.0))
    names = ["feed_tonnes", *(f"recovered_{metal['name']}" for metal in way.answer.project.metals), "cash_flow"]
    keys = ["year", "pushback", "level"]
    of_pit = mine["source"] == PIT
    mine = mine.assign(pushback=mine["pushback"].where(of_pit, 0), level=mine["level"].where(of_pit, FIRST))
    at = pd.MultiIndex.from_frame(rows[keys])
    groups = mine.groupby(keys)
    found = groups[names].sum().reindex(at).fillna(0.0).reset_index(drop=True)
    for process in way.answer.project.processes:
        of_one = mine[mine["destination"] == process["name"]].groupby(keys)["feed_tonnes"].sum()
        found[f"feed_tonnes_{process['name']}"] = of_one.reindex(at).fillna(0.0).to_numpy()
    count = groups.size().reindex(at).fillna(0).to_numpy()
    return found, pd.DataFrame({name: AMOUNT * count for name in found})


def place(row: Any) -> str:
    return f"{row.method}, year {row.year}, pushback {row.pushback}, bench {row.bench:.10g}"


def verify_order(ways: list[Way], sums: pd.DataFrame) -> Rule:
    """Verifies that no bench starts before all benches above it in its pushback, and those of earlier pushbacks down to `lag` below it, are mined."""
    differences = []
    for way in ways:
        lag = way.project_rules["bench_lag"] if way.project_rules else 0
        is_there = np.zeros(way.done.shape[:2], dtype=bool)
        is_there[tuple(np.array(sums.index.to_list()).T)] = True
        # The smallest mined share from the top of each pushback down; a level without a bench delays nothing.
        least = np.minimum.accumulate(np.where(is_there[:, :, None], way.done, 1.0), axis=1)
        for row in way.rows[way.rows["pushback"] > 0].itertuples():
            down = min(row.level + lag, least.shape[1] - 1)
            waited = [
                1.0,
                *([least[row.pushback, row.level - 1, row.year]] if row.level else []),
                *least[: row.pushback, down, row.year],
            ]
            if min(waited) < 1 - SLIGHT:
                differences.append(f"{place(row)}: begins when a predecessor is mined to {min(waited):.6g}")
    holds = "no bench begins before its predecessors are complete"
    return rule("schedule order", holds, differences[:TOLD], len(differences))


def unlike_limits(way: Way, told: dict[str, Any]) -> Iterator[str]:
    """Yields differences of limits and years in schedule.json from the project."""
    rules = way.project_rules
    due: dict[str, Any] = {"limits": maxima_of(way.answer)}
    least = dict.fromkeys(minima_of_periods(way.answer.project, 1), 0.0) | dict(least_of(way.answer))
    due |= {"least": least} if least else {}
    due |= {
        "ramp_up": list(rules["ramp_up"]) if rules else [1.0],
        "lag": rules["bench_lag"] if rules else 0,
        "vertical_advance_rate": rules and rules["vertical_advance_rate"],
    }
    due |= {"years": rules["years"]} if rules and rules["years"] else {}
    said = told | {"years": way.answer.project.calendar.end(told["years"])}
    yield from (
        f"schedule.json: {name} {said[name]} for {amount}" for name, amount in due.items() if said[name] != amount
    )


def verify_limits(ways: list[Way], told: dict[str, Any], flow: MaterialFlow) -> Rule:
    """Verifies that each year keeps all limits, ramp-up, head grades and vertical advance rate included, or the last year, and that the record
    has these limits."""
    differences = list(unlike_limits(ways[0], told)) if ways else []
    for way in ways:
        limits, deepest = by_year(way.answer, max(way.last, 1)), (
            way.project_rules and way.project_rules["vertical_advance_rate"]
        )
        for name, (least, most) in limits.items():
            used, slack = used_of(way, flow, name)
            for year, amount in used.items():
                if amount > most[year - 1] * (1 + 1e-8) + CENT + slack.get(year, 0.0):
                    differences.append(f"{way.name}, year {year}: {name} {amount:.10g} above {most[year - 1]:.10g}")
            differences += [
                f"{way.name}, year {year}: {name} {used.get(year, 0.0):.10g} below {due:.10g}"
                for year, due in enumerate(least, 1)
                if due > 0 and used.get(year, 0.0) < due * (1 - 1e-6) - CENT - slack.get(year, 0.0)
            ]
        sunk = way.rows.groupby(["pushback", "year"])["share"].sum()
        differences += [
            f"{way.name}: pushback {at[0]} advances {by:.9g} benches in year {at[1]}"
            for at, by in sunk.items()
            if by > (deepest or math.inf) * way.answer.project.calendar.length(at[1]) + SLIGHT
        ]
        if way.last > told["years"]:
            differences.append(f"{way.name}: material is mined in year {way.last}")
    differences += unlike_limit_table(ways, told, flow)
    holds = "no year exceeds a limit of feed, total material, metal, sums, head grades or vertical advance, or misses a minimum"
    return rule("schedule limits", holds, differences[:TOLD], len(differences))


def unlike_limit_table(ways: list[Way], told: dict[str, Any], flow: MaterialFlow) -> Iterator[str]:
    """Yields differences of limits.csv, and of the cut-offs of feed.csv, from the prices of the limits."""
    if not ways:
        return
    rows, prices = limit_table.read(ways[0].answer)
    feed = read_table(ways[0].answer.folder / "tables/feed.csv", ["method", "process"])
    for way in ways:
        limits = by_year(way.answer, max(way.last, 1))
        mine = rows[rows["method"] == way.name]
        used = functools.partial(used_rounded, way, flow)
        table = limit_table.LimitTable(way.answer, limits, prices, int(told["years"]))
        yield from table.unlike(way.name, mine, used, way.last)
        yield from table.unlike_cutoffs(feed[feed["method"] == way.name])


def used_of(way: Way, flow: MaterialFlow, name: str) -> tuple[pd.Series, pd.Series]:
    """Returns by year a limited amount, what a pushback advances, or as `feed K` the feed of a process; and its tolerance."""
    nothing = pd.Series(dtype=float)
    if name in way.rows:
        return way.by_year[name].sum(), nothing
    if name.startswith(limit_table.ADVANCE):
        mine = way.rows[way.rows["pushback"] == int(name.removeprefix(limit_table.ADVANCE))]
        return mine.groupby("year")["share"].sum(), nothing
    if name.startswith(limit_table.STOCK):
        return flow.lying(name.removeprefix(limit_table.STOCK), way.name, way.last)
    if name.startswith((dumps.DUMP, dumps.DUMPED)):
        return dumps.used(flow, name, way.name, way.last)
    if name.startswith("feed "):
        mine = flow.rows[(flow.rows["method"] == way.name) & (flow.process == int(name.removeprefix("feed ")))]
        return mine.groupby("year")["feed_tonnes"].sum(), nothing
    return flow.used(name, way.name, way.rows.set_index(["year", "pushback", "level"])["share"])


def used_rounded(way: Way, flow: MaterialFlow, name: str) -> tuple[pd.Series, pd.Series]:
    """Returns the same with the tolerance of amounts whose rows are rounded."""
    used, slack = used_of(way, flow, name)
    return used, AMOUNT * way.by_year.size() if name in way.rows else slack


def verify_value(ways: list[Way], told: dict[str, Any], sums: pd.DataFrame, flow: MaterialFlow) -> Rule:
    """Verifies discounting, the sums of values and years.csv, and that no NPV exceeds the bound."""
    differences = []
    for way in ways:
        rows = way.rows
        present = rows["cash_flow"] * rows["year"].map(lambda year: discount(way.answer, int(year)))
        off = (rows["discounted_cash_flow"] - present).abs() > 2 * AMOUNT + 1e-9 * present.abs()
        differences += [
            f"{place(row)}: discounted_cash_flow {row.discounted_cash_flow:.10g} for {present[row.Index]:.10g}"
            for row in some(rows, off)
        ]
        left = sums["total_tonnes"].sum() - rows["total_tonnes"].sum()
        costs = sum(present_costs(way.answer, year) for year in range(1, way.last + 1))
        expected = {"npv": rows["discounted_cash_flow"].sum() - costs, "years": way.last, "unmined_tonnes": left}
        for name, amount in expected.items():
            if abs(way.said[name] - amount) > CENT + AMOUNT * len(rows) + 1e-9 * abs(amount):
                differences.append(f"{way.name}: {name} {way.said[name]:.12g} for {amount:.12g}")
        if (
            way.name == "rule"
            and not (way.project_rules and way.project_rules["years"])
            and left > CENT + AMOUNT * len(rows)
        ):
            differences.append(f"{way.name} leaves {left:.10g} t")
        for name in ("upper_bound", "milp_upper_bound"):
            if told[name] is not None and way.said["npv"] > told[name] + CENT + 1e-7 * abs(told[name]):
                differences.append(f"{way.name}: value {way.said['npv']:.12g} is above {name} {told[name]:.12g}")
        differences += unlike_years(way, told["revenue_factor"])
    if ways:
        of_record = {
            way.name: {
                "npv": way.said["npv"],
                "upper_bound": told["upper_bound"],
                "unmined_tonnes": way.said["unmined_tonnes"],
            }
            for way in ways
        }
        loose: dict[str, float] = {}
        for name, of_way in of_record.items() if flow.blocks.stockpiles else ():
            of_way["npv_at_mean_grade"], loose[name] = npv_at_mean_grade(flow, name, of_way["npv"])
        differences += ways_table.differences(ways[0].answer, of_record, loose)
    holds = "cash flows are discounted as in the project, NPVs and years are their sums, and no NPV exceeds its bound"
    return rule("schedule value", holds, differences[:TOLD], len(differences))


def unlike_years(way: Way, factor: float) -> list[str]:
    """Returns differences between years.csv and the sums of a method's rows."""
    assert way.answer.years is not None
    said = way.answer.years[way.answer.years["case"] == way.name].set_index("year")
    found = (
        []
        if set(said["revenue_factor"]) <= {factor}
        else [f"{way.name}: years of revenue factors {factor_texts(sorted(set(said['revenue_factor'])))}"]
    )
    if said.index.tolist() != list(range(1, way.last + 1)):
        return [*found, f"{way.name}: years {said.index.tolist()} for 1 to {way.last}"]
    for name in [name for name in said.columns if name not in ("case", "revenue_factor")]:
        written, total = said[name].to_numpy(), of_years(way, name)
        off = np.abs(written - total) > CENT + AMOUNT * len(way.rows) + 1e-9 * np.abs(total)
        found += [
            f"{way.name}, year {row + 1}: {name} {written[row]:.12g} for {total[row]:.12g}"
            for row in np.flatnonzero(off)
        ]
    return found


def of_years(way: Way, name: str) -> np.ndarray:
    """Returns an amount of years.csv from year 1: the sum of the schedule's rows, with period costs."""
    project, years = way.answer.project, range(1, way.last + 1)
    fixed = np.array([fixed_cost(project, year) for year in years], dtype=float)
    spent = np.array([capex(project, year) for year in years], dtype=float)
    if name in ("fixed_cost", "capex"):
        return fixed if name == "fixed_cost" else spent
    total = np.bincount(way.rows["year"], way.rows[name], minlength=way.last + 1)[1:]
    if name == "cash_flow":
        return total - fixed - spent
    return total - [present_costs(way.answer, year) for year in years] if name == "discounted_cash_flow" else total


def verify_years_of_blocks(ways: list[Way], told: dict[str, Any], sums: pd.DataFrame) -> Rule:
    """Verifies that each block has the year in which its bench is completed, by the method with the highest NPV."""
    values = {name: way["npv"] for name, way in told["methods"].items()}
    best = max(values, key=values.__getitem__)
    # Methods whose values differ by rounding only may be in either order.
    differences = (
        [] if values.get(told["shown"], -math.inf) > values[best] - CENT else [f"shown is {told['shown']} for {best}"]
    )
    for way in ways:
        if way.name != told["shown"]:
            continue
        through = way.done > 1 - SLIGHT
        year = np.where(through.any(axis=2), through.argmax(axis=2), 0)
        expected = year[way.answer.said["pushback"].to_numpy(), way.answer.cells[0]]
        off = np.flatnonzero(expected != way.answer.said["year"].to_numpy())
        differences += [
            f"{way.answer.called(row)}: year {way.answer.said['year'][row]} for {expected[row]}" for row in off
        ]
    holds = f"each block has the year in which its bench is complete, by the method {told['shown']}"
    return rule("years of blocks", holds, differences[:TOLD], len(differences))
