"""Verifies years and NPVs: benches are mined one after the other, and a year ends when one of its capacities is used up."""

from __future__ import annotations

from collections.abc import Iterator

import numpy as np
import pandas as pd

from planaudit.inputs.answer import Answer
from planaudit.money.yearly_flows import Amounts
from planaudit.pits.capacities import capacities_by_year, mining_by_year
from planaudit.pits.cases import BEST, CENT, Benches, Pit, cases_of, pits_of
from planaudit.revenue_factors import factor_text
from planaudit.rules import Rule, rule, unlike

# By case and revenue factor.
Pits = dict[tuple[str, float], Pit]


def verify(answer: Answer) -> Rule:
    """Verifies that no year exceeds a capacity, that each sums the benches mined in it, and that NPVs follow from them."""
    benches, factors = Benches.of(answer), [float(factor) for factor in answer.shells.index]
    pits = {
        (case, factor): pit
        for case in cases_of(answer.project)
        for factor, pit in zip(factors, pits_of(benches, case, factors))
    }
    npv = verify_npv(answer, pits)
    if answer.years is None:
        return npv
    # The years of a schedule are verified with it.
    ways = [] if answer.schedule is None else answer.schedule["method"].unique().tolist()
    of_shells = answer.years[~answer.years["case"].isin([*ways, *(["block"] if answer.is_by_block else [])])]
    differences = [*over_capacity(answer, of_shells), *unlike_years(of_shells, pits)]
    holds = f"no year exceeds a capacity, each sums the benches mined in it, and {npv.holds}"
    return rule(npv.name, holds, [*differences, *npv.differences], len(differences) + npv.count)


def over_capacity(answer: Answer, years: pd.DataFrame) -> list[str]:
    project, found = answer.project, []
    of_processes = capacities_by_year(project)
    limits = {"feed_tonnes": of_processes.sum(axis=1), "total_tonnes": mining_by_year(project)}
    limits |= {f"feed_tonnes_{process['name']}": of_processes[:, k] for k, process in enumerate(project.processes)}
    for name, by_year in limits.items():
        most = by_year[np.minimum(years["year"].to_numpy(dtype=np.int64), len(by_year)) - 1]
        for row in np.flatnonzero(years[name].to_numpy() > most * (1 + 1e-9) + CENT):
            it = years.iloc[row]
            where = f"{it['case']} case of revenue factor {factor_text(it['revenue_factor'])}, year {it['year']}"
            found.append(f"{where}: {name} {it[name]:.10g} above {most[row]:.10g}")
    return found


def unlike_years(years: pd.DataFrame, pits: Pits) -> Iterator[str]:
    """Yields differences of the years of each case, missing and surplus years included."""
    columns: Amounts = {str(name): years[name].to_numpy() for name in years}
    groups = list(zip(columns["case"].tolist(), columns["revenue_factor"].tolist()))
    due = {pit: it for pit, it in pits.items() if it.years}
    yield from (
        f"{case} case of revenue factor {factor_text(factor)}: has years, but no such shell"
        for case, factor in set(groups) - set(due)
    )
    for pit, expected in due.items():
        rows = np.array([row for row, group in enumerate(groups) if group == pit], dtype=np.int64)
        named = f"{pit[0]} case of revenue factor {factor_text(pit[1])}"
        if len(rows):
            said = {name: column[rows] for name, column in columns.items()}
            yield from (f"{named}{difference}" for difference in unlike_rows(said, expected))
        else:
            yield f"{named}: has no years"


def unlike_rows(said: Amounts, expected: Pit) -> Iterator[str]:
    """Yields differences between rows by year and the expected ones."""
    years, due = said["year"].tolist(), len(expected.years["cash_flow"])
    if years != list(range(1, due + 1)):
        yield f": years {years} for 1 to {due}"
        return
    for name, amounts in expected.years.items():
        there = said.get(name, np.full(due, np.nan))
        off = ~(np.abs(there - amounts) <= expected.slack + 1e-9 * np.abs(amounts))
        yield from (
            f", year {row + 1}: {name} {there[row]:.12g} for {amounts[row]:.12g}" for row in np.flatnonzero(off)
        )


def verify_npv(answer: Answer, pits: Pits) -> Rule:
    """Verifies the NPVs and the life of each shell, by following its benches."""
    differences: list[str] = []
    for factor in answer.shells.index:
        best = pits[BEST, float(factor)]
        due = {f"npv_{case}": pits[case, float(factor)].npv for case in cases_of(answer.project)}
        due |= {"years": answer.project.calendar.time(best.life)}
        said = {name: answer.shells[name][factor] for name in due}

        def slack(name: str, amount: float, of_npv: float = best.slack) -> float:
            return (1e-5 if name == "years" else of_npv) + 1e-9 * abs(amount)

        differences += unlike(f"revenue factor {factor_text(factor)}", said, due, slack)
    return rule("years", "the NPVs follow from them", differences)
