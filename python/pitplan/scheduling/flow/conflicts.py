"""Which limits conflict if no schedule meets the minimums: by elastic programmes and their dual values.

Each minimum, and each maximum of a stockpile, may be missed at the cost of the share that is missed. The dual values of the optimum prove that
so much is missed: the limits that have one conflict with each other, for any values of the other limits (Farkas' lemma). A deletion filter leaves out
those of them that the conflict does not need.
"""

from __future__ import annotations

from collections.abc import Callable, Iterable, Iterator
from dataclasses import dataclass, replace
from functools import cached_property
from typing import Optional

import numpy as np
from numpy.typing import NDArray
from scipy.sparse import csr_matrix, hstack

from pitplan.config.schedule import Effort
from pitplan.core.tolerances import SOLVER_SUM, SUM_ERROR
from pitplan.scheduling.highs import Optimum, Programme
from pitplan.scheduling.highs_process import solve
from pitplan.scheduling.limits import ADVANCE, DUMPED, GRADE, MAX, MIN, STOCK, Limit

from .model import FlowModel
from .programme import FlowLimit, FlowProgramme

# Irreducible sets of conflicting limits, by a deletion filter over elastic programmes (Chinneck and Dravnieks,
# Locating minimal infeasible constraint sets in linear programs, ORSA Journal on Computing 3(2), 1991).
#
# The limits that have dual values in the elastic programme conflict, but some of them may do so without the others.
# The filter leaves out parts of them, half at first and single ones at the end. If the rest still conflicts, it goes
# on with those of the rest that have dual values.

# This many programmes are solved at most.
MOST_PROGRAMMES = 40
# The year of limits that hold in all years at a time: the vertical advance, and the capacity of a dump.
ALL = -1


@dataclass(frozen=True, order=True)
class LimitOfYear:
    """A limit in a year, numbered from 0, or in all years."""

    year: int
    name: str
    side: str


@dataclass(frozen=True)
class ConflictSet:
    """Limits that no schedule keeps together.

    Attributes
    ----------
    units : tuple of LimitOfYear
        Rising by year.
    is_irreducible : bool
        Whether the limits are known to conflict no more once any of them is left out.
    """

    units: tuple[LimitOfYear, ...]
    is_irreducible: bool


def unit_of(name: str, side: str, year: int) -> LimitOfYear:
    """Returns the unit that a limit in a year, numbered from 0, is part of."""
    if name.startswith(ADVANCE):
        return LimitOfYear(ALL, ADVANCE, MAX)
    return LimitOfYear(ALL if name.startswith(DUMPED) else year, name, side)


def smallest(
    units: Iterable[LimitOfYear],
    conflicting: Callable[[tuple[LimitOfYear, ...]], Optional[set[LimitOfYear]]],
    most: int = MOST_PROGRAMMES,
) -> ConflictSet:
    """Returns a set of limits that conflict with each other; irreducible if the programmes suffice.

    Parameters
    ----------
    units : iterable of LimitOfYear
        Limits that conflict.
    conflicting : function
        Returns which of some limits have dual values in their elastic programme; None if they do not conflict.
    most : int
        How many programmes may be solved.
    """
    found, solved, is_shown = tuple(sorted(units)), 0, False
    size = max(1, len(found) // 2)
    while True:
        # The last years are left out first, so that the first years in which limits conflict remain.
        end = len(found)
        while end > 0:
            if solved == most:
                return ConflictSet(found, is_irreducible=False)
            rest = found[: max(0, end - size)] + found[end:]
            solved += 1
            used = conflicting(rest) if rest else None
            end = max(0, end - size)
            if used is not None:
                before, is_shown = found[:end], True
                found = tuple(it for it in rest if it in used) or rest
                end = sum(it in found for it in before)
        if size == 1:
            return ConflictSet(found, is_shown or conflicting(found) is not None)
        size = max(1, min(size, len(found)) // 2)


def with_units(model: FlowModel, units: Iterable[LimitOfYear]) -> FlowModel:
    """Returns the model with these limits alone."""
    kept, limits = set(units), model.problem.limits

    def within(limit: Limit) -> Limit:
        return limit.within(np.array([unit_of(limit.name, limit.side, year) in kept for year in range(model.years)]))

    limits = replace(
        limits,
        most={name: within(it) for name, it in limits.most.items()},
        least={name: within(it) for name, it in limits.least.items()},
        advance=limits.advance if LimitOfYear(ALL, ADVANCE, MAX) in kept else None,
        places={key: within(it) for key, it in limits.places.items()},
    )
    return replace(model, problem=replace(model.problem, limits=limits))


def of_mining(model: FlowModel) -> Iterator[LimitOfYear]:
    """Yields the limits of mining, from which rows of whole benches follow that have no name."""
    for name in model.of_mining.most:
        yield from (LimitOfYear(year, name, MAX) for year in range(model.years))
    if model.of_mining.advance is not None:
        yield LimitOfYear(ALL, ADVANCE, MAX)


SIDES = {MAX: "maximum", MIN: "minimum"}


@dataclass(frozen=True)
class Conflict:
    """The elastic programme of a programme without a solution."""

    flow: FlowProgramme

    @property
    def elastic(self) -> list[int]:
        """The numbers of the limits that may be missed."""
        return [number for number, it in enumerate(self.flow.limits) if it.side == MIN or it.name.startswith(STOCK)]

    def rows_of(self, number: int) -> NDArray[np.int64]:
        """Returns the rows of a limit by its number."""
        return self.flow.first_limit + number * self.flow.years + np.arange(self.flow.years)

    @cached_property
    def programme(self) -> Programme:
        given = self.flow.programme
        at = np.concatenate([np.zeros(0, dtype=np.int64), *(self.rows_of(number) for number in self.elastic)])
        missed = csr_matrix((-np.ones(len(at)), (at, np.arange(len(at)))), shape=(given.matrix.shape[0], len(at)))
        return Programme(
            np.concatenate([np.zeros(len(given.gain)), -np.ones(len(at))]),
            csr_matrix(hstack([given.matrix, missed])),
            given.most,
            np.concatenate([given.upper, np.full(len(at), np.inf)]),
            np.zeros(len(given.gain) + len(at), dtype=bool),
        )

    @cached_property
    def found(self) -> Optimum:
        return solve(self.programme, Effort())

    @property
    def missed(self) -> list[tuple[FlowLimit, NDArray[np.float64]]]:
        """The limits that are missed, and by how much in each year."""
        assert self.found.unknowns is not None
        shares = self.found.unknowns[len(self.flow.programme.gain) :].reshape(len(self.elastic), self.flow.years)
        limits = [self.flow.limits[number] for number in self.elastic]
        return [
            (limit, np.where(share > SOLVER_SUM, share * limit.scale, 0.0))
            for limit, share in zip(limits, shares)
            if (share > SOLVER_SUM).any()
        ]

    @property
    def priced(self) -> dict[tuple[str, str], NDArray[np.bool_]]:
        """By name and side of a limit whether it has a dual value in each year."""
        assert self.found.prices is not None
        slight = SOLVER_SUM * float(self.found.prices.max(initial=0.0))
        found = {
            (it.name, it.side): (self.found.prices[self.rows_of(number)] > slight) & it.holds
            for number, it in enumerate(self.flow.limits)
        }
        for key, years in self.reaching(slight).items():
            found[key] = found.get(key, np.zeros(self.flow.years, dtype=bool)) | years
        return {key: years for key, years in found.items() if years.any()}

    def reaching(self, slight: float) -> dict[tuple[str, str], NDArray[np.bool_]]:
        """Returns the limits of mining that keep benches from being mined in time, where that has a dual value, by year."""
        flow, benches, programme = self.flow, self.flow.model.benches, self.programme
        size = flow.sizes[0]
        reduced = (programme.gain - programme.matrix.T @ self.found.prices)[:size].reshape(len(benches), flow.years)
        held = (reduced > slight) & (programme.upper[:size].reshape(reduced.shape) < 1 - SUM_ERROR)
        limits, found = flow.model.of_mining, dict[tuple[str, str], NDArray[np.bool_]]()
        for bench, year in np.argwhere(held):
            before = [*np.flatnonzero(benches.before[bench]), bench]
            for name, until in zip(limits.most, limits.of_years(flow.years).cumsum(axis=0).T):
                if flow.model.mined(name)[before].sum() > until[year]:
                    found.setdefault((name, MAX), np.zeros(flow.years, dtype=bool))[: year + 1] = True
            above = [other for other in before if benches.pushback[other] == benches.pushback[bench]]
            if len(above) > limits.sinking(flow.years).cumsum()[year]:
                name = f"{ADVANCE}{benches.pushback[bench]}"
                found.setdefault((name, MAX), np.zeros(flow.years, dtype=bool))[: year + 1] = True
        return found

    @property
    def units(self) -> set[LimitOfYear]:
        """The limits that conflict in this programme, by year; with rows of whole benches, which have no names, also those of mining."""
        found = {
            unit_of(name, side, int(year))
            for (name, side), years in self.priced.items()
            for year in np.flatnonzero(years)
        }
        return found | (set(of_mining(self.flow.model)) if self.flow.paced else set())

    @cached_property
    def smallest(self) -> tuple[Conflict, ConflictSet]:
        """The elastic programme of the smallest conflict that is found, and its limits."""
        last = self

        def conflicting(units: tuple[LimitOfYear, ...]) -> Optional[set[LimitOfYear]]:
            nonlocal last
            tried = replace(self, flow=replace(self.flow, model=with_units(self.flow.model, units)))
            if not tried.missed:
                return None
            last = tried
            return tried.units

        found = smallest(self.units, conflicting)
        return last, found

    def message(self) -> str:
        """Says which limits are missed by how much at least, and the smallest conflict that is found; "" if no limit is missed."""
        missed = self.missed
        if not missed:
            return ""
        word = self.flow.model.problem.settings.calendar.word
        parts = [
            f"the {SIDES[limit.side]} of {limit.name} in {word} {year + 1} by {by[year]:,.6g} of {self.given(limit)[year]:,.6g}"
            for limit, by in missed
            for year in np.flatnonzero(by)
        ]
        return f"infeasible: the limits cannot all be met. Smallest shortfall: {'; '.join(parts)}. {self.conflict()}"

    def conflict(self) -> str:
        """Names the limits of the smallest conflict that is found, with their years and amounts."""
        last, found = self.smallest
        years = last.years_of(found)
        named = ", ".join(self.named(name, side, years[name, side]) for name, side in sorted(years))
        advice = "relax one" if found.is_irreducible else "perhaps with more limits than it takes"
        return f"Conflict, {advice}: {named}"

    def years_of(self, conflict: ConflictSet) -> dict[tuple[str, str], NDArray[np.bool_]]:
        """Returns the years of the limits of a conflict, by name and side; where one holds in all years, those that have dual values."""
        found, units = dict[tuple[str, str], NDArray[np.bool_]](), set(conflict.units)
        for (name, side), years in self.priced.items():
            kept = [bool(of) and unit_of(name, side, year) in units for year, of in enumerate(years)]
            if any(kept):
                found[name, side] = np.array(kept)
        have = {
            unit_of(name, side, int(year)) for (name, side), years in found.items() for year in np.flatnonzero(years)
        }
        # Limits of mining that hold by rows of whole benches alone have no dual value of their own.
        for unit in units - have:
            of_unit = found.setdefault((unit.name, unit.side), np.zeros(self.flow.years, dtype=bool))
            of_unit[slice(None) if unit.year == ALL else unit.year] = True
        return found

    def named(self, name: str, side: str, years: NDArray[np.bool_]) -> str:
        """Returns a limit in words, with years and amounts."""
        found = [self.given(it)[years] for it in self.flow.limits if (it.name, it.side) == (name, side)]
        # The programme limits the advance of each pushback, not of all at once.
        advance = self.flow.model.problem.limits.advance
        rate = [] if advance is None else [advance.amount]
        amounts = [f"{amount:,.6g}" for amount in dict.fromkeys(np.concatenate(found).tolist() if found else rate)]
        # A limit on a head grade is kept as an excess of metal, whose limit is zero: the amount says nothing.
        how_much = "" if name.startswith(GRADE) else f" ({', '.join(amounts)})"
        when = in_words(years, self.flow.model.problem.settings.calendar.word)
        return f"the {SIDES[side]} of {name.rstrip('_')} in {when}{how_much}"

    def given(self, limit: FlowLimit) -> NDArray[np.float64]:
        """Returns a limit as the project gives it; of a stockpile with what lies there at the start."""
        return limit.amount + self.flow.model.lay(limit.name)


def in_words(years: NDArray[np.bool_], word: str) -> str:
    """Returns years, numbered from 1, as runs: years 1 to 3 and 7."""
    numbers = np.flatnonzero(years) + 1
    runs = np.split(numbers, np.flatnonzero(np.diff(numbers) > 1) + 1)
    texts = [f"{run[0]}" if len(run) == 1 else f"{run[0]} to {run[-1]}" for run in runs]
    listed = texts[0] if len(texts) == 1 else f"{', '.join(texts[:-1])} and {texts[-1]}"
    return f"{word}{'s' * (len(numbers) > 1)} {listed}"
