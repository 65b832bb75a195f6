"""Recomputes the cases of pit-by-pit analysis: the years of each shell, mined shell by shell, bench by bench, or by specified pushbacks."""

from __future__ import annotations

from dataclasses import dataclass
from functools import cached_property

import numpy as np

from planaudit.inputs.answer import Answer
from planaudit.inputs.project import MOST_YEARS, Project
from planaudit.money import dump_costs, ore_costs
from planaudit.money.period_costs import differing, mining_factors, premiums
from planaudit.money.yearly_flows import Amounts, money_of, parts_of, shares_of
from planaudit.pits.capacities import Capacity, Wait, capacities, capacities_by_year, mining_by_year
from planaudit.pits.ore_kinds import Kinds, Ore, has_choice, shipped

CENT = 0.01
BEST, WORST, SPECIFIED = "best", "worst", "specified"
# NPVs that differ by less are equal: of equals the shorter life counts.
EQUAL, TINY = 1e-9, 1e-3


def cases_of(project: Project) -> tuple[str, ...]:
    return (BEST, WORST, *([SPECIFIED] if project.shells["specified"] else []))


@dataclass(frozen=True)
class Benches:
    """Each shell's part of each level, by revenue factor and then from the top.

    Attributes
    ----------
    answer : Answer
    factor, level : array, shape (benches,)
    amounts : dict of str to array, shape (benches,)
        total_tonnes, feed, metals and cash flow of ore in its best process.
    gross : array, shape (benches,)
        Absolute cash flow, which sets the error of sums.
    mining, dumping : array, shape (benches,)
        Cash flow of mining alone, and of dumps if all is waste.
    kinds : Kinds, optional
        The ore by kind, if it may go elsewhere than to its best process.
    """

    answer: Answer
    factor: np.ndarray
    level: np.ndarray
    amounts: Amounts
    gross: np.ndarray
    mining: np.ndarray
    dumping: np.ndarray
    kinds: Kinds | None

    @staticmethod
    def of(answer: Answer) -> Benches:
        rows, first = answer.mined
        cash, is_ore = answer.earned[rows], answer.ore[rows]
        factors, number = np.unique(first, return_inverse=True)
        place = number * answer.shape[0] + answer.cells[0][rows]
        there, piece = np.unique(place, return_inverse=True)
        revenue, cost = (answer.said[name].to_numpy()[rows] for name in ("revenue", "processing_cost"))
        gain, dumped = np.where(is_ore, revenue - cost, 0.0), dump_costs.as_waste(answer)[rows]
        columns = {"total_tonnes": answer.tonnes[rows], "feed_tonnes": np.where(is_ore, answer.feed[rows], 0.0)}
        metals = {f"recovered_{name}": metal for name, metal in answer.quantities.items()}
        columns |= {name: np.where(is_ore, metal[rows], 0.0) for name, metal in metals.items()}
        columns |= {name: amounts[rows] for name, amounts in (answer.feeds | ore_costs.at_best(answer)).items()}
        columns |= {"gross": np.abs(cash) + dumped, "mining": cash - gain, "dumping": -dumped}
        columns["cash_flow"] = cash - np.where(is_ore, 0.0, dumped)
        sums = {name: np.bincount(piece, column) for name, column in columns.items()}
        gross, mining, dumping = (sums.pop(name) for name in ("gross", "mining", "dumping"))
        kinds = None
        if has_choice(answer.project):
            kinds = Ore(answer, rows[is_ore]).sums(piece[is_ore], len(there))
        levels = answer.shape[0]
        return Benches(answer, factors[there // levels], there % levels, sums, gross, mining, dumping, kinds)

    @cached_property
    def waits(self) -> list[Wait]:
        """The capacities that a year may use up, for each set of processes that the mine may wait for."""
        project = self.answer.project
        rock, most = self.amounts["total_tonnes"], project.shells["mining_capacity"]
        mining = [] if most is None else [Capacity(rock / most, mining_by_year(project) / most)]
        by_year, base = capacities_by_year(project), capacities(project)
        if self.kinds is None:
            of_mill = Capacity(self.amounts["feed_tonnes"] / base.sum(), by_year.sum(axis=1) / base.sum())
            return [Wait.of([of_mill, *mining])]
        found = [Wait.of([*some, *mining]) for some in self.kinds.waits(base, by_year)]
        lives = [self.life(wait) for wait in found]
        bearable = [wait for wait, life in zip(found, lives) if life <= MOST_YEARS]
        return bearable or [found[int(np.argmin(lives))]]

    def life(self, wait: Wait) -> float:
        """Returns the life of the best case of all benches in years, more than MOST_YEARS if it is longer."""
        if not len(wait.uses):
            return 0.0
        parts = parts_of(wait.uses.tolist(), wait.shares.tolist())
        whole = np.bincount(parts.piece, parts.share, minlength=len(wait.uses)).min()
        return parts.life if whole > 1 - 1e-6 else MOST_YEARS + float(wait.uses.sum(axis=0).max())

    def groups(self, case: str, factor: float) -> Pieces:
        """Returns the pieces of a shell in the order of mining."""
        inside = np.flatnonzero(self.factor <= factor)
        if case == BEST:
            return Pieces(inside, np.arange(len(inside)))
        pushback = np.zeros(len(inside), dtype=np.int64)
        rules = self.answer.project.shells["specified"]
        if case == SPECIFIED and rules is not None:
            pushback = (self.factor[inside][:, None] > np.array(rules["pushbacks"]) + 1e-9).sum(axis=1)
        turn = self.level[inside] + (rules["bench_lag"] if case == SPECIFIED and rules is not None else 0) * pushback
        _, piece = np.unique(np.column_stack([turn, pushback, self.level[inside]]), axis=0, return_inverse=True)
        return Pieces(inside, piece.ravel())


@dataclass(frozen=True)
class Pieces:
    """The benches of a shell by number, and for each the number of the piece with which it is mined."""

    bench: np.ndarray
    piece: np.ndarray

    @property
    def count(self) -> int:
        return int(self.piece.max(initial=-1)) + 1

    def sums(self, amounts: np.ndarray) -> np.ndarray:
        """Returns the sums of amounts of benches, shape (benches, columns), by piece."""
        found = np.zeros((self.count, amounts.shape[1]))
        np.add.at(found, self.piece, amounts[self.bench])
        return found

    def of_benches(self, shares: np.ndarray, count: int) -> np.ndarray:
        """Returns shares of pieces, shape (years, pieces), as shares of this many benches."""
        found = np.zeros((len(shares), count))
        found[:, self.bench] = shares[:, self.piece]
        return found


@dataclass(frozen=True)
class Pit:
    """The years of a pit: amounts by year, the life in periods, and the error of sums. A pit without tonnes has no amounts."""

    years: Amounts
    life: float
    slack: float

    @property
    def npv(self) -> float:
        """The NPV, period costs included."""
        return float(self.years["discounted_cash_flow"].sum()) if self.years else 0.0


@dataclass(frozen=True)
class Mined:
    """What a shell mines in each year: shares of benches, shape (years, benches), and its life in periods."""

    shares: np.ndarray
    life: float


def mined_of(pieces: Pieces, wait: Wait) -> Mined:
    """Returns what is mined when pieces are mined one after the other."""
    parts = parts_of(pieces.sums(wait.uses).tolist(), wait.shares.tolist())
    return Mined(pieces.of_benches(shares_of(parts, pieces.count), len(wait.uses)), parts.life)


def pits_of(benches: Benches, case: str, factors: list[float]) -> list[Pit]:
    """Returns the years of each shell, with the wait that has the highest NPV; of equal ones the shortest life."""
    pieces = [benches.groups(case, factor) for factor in factors]
    slack = [CENT + 1e-12 * float(benches.gross[benches.factor <= factor].sum()) for factor in factors]
    tonnes = [float(benches.amounts["total_tonnes"][it.bench].sum()) for it in pieces]
    found: list[list[Pit]] = [[] for _ in factors]
    some = [place for place, amount in enumerate(tonnes) if amount]
    for wait in benches.waits:
        mined = [mined_of(pieces[place], wait) for place in some]
        for place, it, years in zip(some, mined, earned(benches, mined)):
            found[place].append(Pit(years, it.life, slack[place]))
    return [shortest_best(pits) if pits else Pit({}, 0.0, off) for pits, off in zip(found, slack)]


def shortest_best(pits: list[Pit]) -> Pit:
    most = max(pit.npv for pit in pits)
    return min((pit for pit in pits if pit.npv >= most - EQUAL * abs(most) - TINY), key=lambda pit: pit.life)


def earned(benches: Benches, mined: list[Mined]) -> list[Amounts]:
    """Returns the amounts and the money of the years of each shell."""
    project = benches.answer.project
    if benches.kinds is None or not mined:
        return [money_of(as_mined(benches, it.shares), it.life, project) for it in mined]
    shares = np.concatenate([it.shares for it in mined])
    number = np.concatenate([np.arange(len(it.shares)) for it in mined])
    part = np.concatenate([np.clip(it.life - np.arange(len(it.shares)), 0.0, 1.0) for it in mined])
    amounts = processed(benches, benches.kinds.of(shares), shares, number + 1, part)
    ends = np.cumsum([len(it.shares) for it in mined])[:-1]
    split = {name: np.split(values, ends) for name, values in amounts.items()}
    return [
        money_of({name: values[place] for name, values in split.items()}, it.life, project)
        for place, it in enumerate(mined)
    ]


def as_mined(benches: Benches, shares: np.ndarray) -> Amounts:
    """Returns the amounts of years whose ore all goes to its best process, with the mining costs of the years."""
    found = {name: shares @ amounts for name, amounts in benches.amounts.items()}
    dearer = mining_factors(benches.answer.project, len(shares)) - 1
    return {**found, "cash_flow": found["cash_flow"] + dearer * (shares @ benches.mining)}


def processed(benches: Benches, ore: Kinds, shares: np.ndarray, year: np.ndarray, part: np.ndarray) -> Amounts:
    """Returns the amounts of years, at the base price, whose ore goes to its best destinations at the prices of the year."""
    project = benches.answer.project
    more = [premiums(project, int(number)) for number in year]
    names = [*(f"recovered_{metal['name']}" for metal in project.metals), *differing(project)]
    gains = np.array([[it.get(name, 0.0) for name in names] for it in more]).reshape(len(year), len(names))
    gain = ore.amounts[:, 0] + np.einsum("ym,ymkp->ykp", gains, ore.amounts[:, 1:])
    by_year = capacities_by_year(project)
    flows = shipped(ore, gain, part[:, None] * by_year[np.minimum(year, len(by_year)) - 1])
    fed = np.einsum("yk,ykp->yp", ore.feed, flows)
    sums = np.einsum("ymkp,ykp->ym", ore.amounts, flows)
    found = {"total_tonnes": shares @ benches.amounts["total_tonnes"], "feed_tonnes": fed.sum(axis=1)}
    found |= {f"feed_tonnes_{process['name']}": fed[:, number] for number, process in enumerate(project.processes)}
    found |= {name: sums[:, number + 1] for number, name in enumerate(names)}
    factors = mining_factors(project, int(year.max()))[year - 1]
    return {**found, "cash_flow": factors * (shares @ benches.mining) + shares @ benches.dumping + sums[:, 0]}
