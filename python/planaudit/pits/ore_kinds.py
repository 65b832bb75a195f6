"""Recomputes where the ore of each year goes in pit-by-pit analysis with a choice of destinations.

Blocks that pay in the same processes, earn most in the same ones and are in the same value bin are one kind of ore. In each year a linear
programme ships the kinds to processes within their capacities.
"""

from __future__ import annotations

from dataclasses import dataclass
from functools import cached_property
from itertools import combinations

import numpy as np

from planaudit.inputs.answer import Answer
from planaudit.inputs.project import GRADE_UNITS, Project
from planaudit.money import dump_costs, ore_costs
from planaudit.money.feed import recovered
from planaudit.money.period_costs import premiums, years_of_prices
from planaudit.pits.capacities import Capacity

# Value bins of each process; net values per tonne are rounded to this many decimals; and amounts of money are whole millionths.
BINS, DECIMALS, MILLIONTHS = 8, 6, 1e6
# Decimals to which two shares of tonnage are equally near.
NEAR = 9
# Of more different processes than these the mine waits for each one alone, or for all.
MOST_WAITING = 3


def has_choice(project: Project) -> bool:
    """Whether ore may go elsewhere than to its best process at the base price."""
    years = range(1, 1 + years_of_prices(project))
    return len(project.by_process) > 1 or any(more < 0 for year in years for more in premiums(project, year).values())


@dataclass(frozen=True)
class Ore:
    """The ore of a plan, block by block.

    Attributes
    ----------
    answer : Answer
    rows : int array
        The rows of blocks of ore in some shell.
    """

    answer: Answer
    rows: np.ndarray

    @cached_property
    def gain(self) -> np.ndarray:
        """Revenue less processing cost in each process, in whole millionths, shape (processes, blocks)."""
        said = self.answer.said

        def whole(name: str) -> np.ndarray:
            return np.rint(said[name].to_numpy()[self.rows] * MILLIONTHS).astype(np.int64)

        return np.stack([whole(revenue) - whole(cost) for revenue, cost in self.answer.amounts_of_ways])

    @property
    def pays(self) -> np.ndarray:
        return self.gain > 0

    @property
    def best(self) -> np.ndarray:
        """Whether each process earns most with a block, shape (processes, blocks); several may."""
        return self.pays & (self.gain == self.gain.max(axis=0, initial=0))

    @property
    def feed(self) -> np.ndarray:
        return self.answer.feed[self.rows]

    @cached_property
    def metal(self) -> np.ndarray:
        """Recovered metal, and the costs that periods multiply, shape (amounts, processes, blocks)."""
        answer = self.answer
        found = [
            np.stack([recovered(way.metals[number], answer.rows, way)[self.rows] for way in answer.project.by_process])
            * (answer.undiluted[self.rows] * float(GRADE_UNITS[metal["unit"]]))
            for number, metal in enumerate(answer.project.metals)
        ]
        found += [costs[:, self.rows] for costs in ore_costs.of_blocks(answer).values()]
        return np.stack(found)

    @property
    def bins(self) -> np.ndarray:
        """The value bin of each block among those that are best in the same process, the first one of equals."""
        first, found = self.best.argmax(axis=0), np.zeros(len(self.rows), dtype=np.int64)
        feed = self.feed
        for process in np.unique(first):
            mine = np.flatnonzero(first == process)
            a_tonne = np.round(
                self.gain[process, mine] / MILLIONTHS / np.where(feed[mine] > 0, feed[mine], np.inf), DECIMALS
            )
            values, place = np.unique(a_tonne, return_inverse=True)
            until = np.bincount(place, feed[mine]).cumsum()
            edges = set()
            for part in range(1, BINS) if len(values) > 1 else ():
                last = int(np.round(np.abs(until[:-1] / (until[-1] or 1.0) - part / BINS), NEAR).argmin())
                edges.add((values[last] + values[last + 1]) / 2)
            found[mine] = np.searchsorted(sorted(edges), a_tonne)
        return found

    @cached_property
    def keys(self) -> tuple[np.ndarray, np.ndarray]:
        """The different kinds, in rows of whether they pay and are best in each process and of their bin; and the kind of each block."""
        rows = np.vstack([self.pays, self.best, self.bins]).T.astype(np.int64)
        kinds, place = np.unique(rows, axis=0, return_inverse=True)
        return kinds, place.ravel()

    def sums(self, piece: np.ndarray, count: int) -> Kinds:
        """Returns the sums of kinds by piece."""
        kinds, kind = self.keys
        processes, place = len(self.gain), piece * len(kinds) + kind

        def summed(amounts: np.ndarray) -> np.ndarray:
            return np.bincount(place, amounts, minlength=count * len(kinds)).reshape(count, len(kinds))

        saved = dump_costs.as_waste(self.answer)[self.rows]
        amounts = np.concatenate([self.gain[None] / MILLIONTHS + saved, self.metal])
        by_process = np.array([[summed(row) for row in rows] for rows in amounts])
        same = [[int(np.array_equal(one, other)) for other in self.gain] for one in self.gain]
        return Kinds(
            kinds[:, :processes].astype(bool),
            kinds[:, processes : 2 * processes].astype(bool),
            np.array(same, dtype=bool),
            summed(self.feed),
            np.moveaxis(by_process, (0, 1), (1, 3)),
        )


@dataclass(frozen=True)
class Kinds:
    """Ore by kind, of pieces or of years.

    Attributes
    ----------
    pays, best : bool array, shape (kinds, processes)
    same : bool array, shape (processes, processes)
        Whether two processes earn the same with each block.
    feed : array, shape (pieces, kinds)
        In tonnes.
    amounts : array, shape (pieces, 1 + amounts, kinds, processes)
        Revenue less processing cost with what ore saves that goes to no dump, recovered metals, and costs that periods multiply, if all of the kind goes to the process.
    """

    pays: np.ndarray
    best: np.ndarray
    same: np.ndarray
    feed: np.ndarray
    amounts: np.ndarray

    def of(self, shares: np.ndarray) -> Kinds:
        """Returns the sums over pieces with these shares, shape (years, pieces)."""
        amounts = np.tensordot(shares, self.amounts, axes=1)
        return Kinds(self.pays, self.best, self.same, shares @ self.feed, amounts)

    def waits(self, most: np.ndarray, by_year: np.ndarray) -> list[list[Capacity]]:
        """Returns for each set of processes that the mine may wait for the joint capacities that pieces use.

        Parameters
        ----------
        most : array, shape (processes,)
            Yearly capacities.
        by_year : array, shape (years, processes)
            Those of each year.
        """
        found = []
        for some in self.sets():
            own = [self.pays & some, self.best & (self.best & some).any(axis=1)[:, None]]
            found += [self.used(open_to, most, by_year) for open_to in own]
        return found

    def sets(self) -> list[np.ndarray]:
        """Returns the sets of processes, as masks; two that earn the same are both in a set, or neither."""
        groups = np.unique(self.same, axis=0)
        counts = range(1, len(groups) + 1) if len(groups) <= MOST_WAITING else (1, len(groups))
        return [groups[list(some)].any(axis=0) for count in counts for some in combinations(range(len(groups)), count)]

    def used(self, open_to: np.ndarray, most: np.ndarray, by_year: np.ndarray) -> list[Capacity]:
        """Returns the use of the joint capacity of each set of processes by ore that is open to no other process."""
        found, processes = [], range(len(most))
        waited = open_to.any(axis=1)
        for count in range(1, len(most) + 1):
            for chosen in combinations(processes, count):
                some = np.array(chosen)
                others = [it for it in processes if it not in chosen]
                bound = waited & ~open_to[:, others].any(axis=1)
                joint = most[some].sum()
                found.append(Capacity(self.feed[:, bound].sum(axis=1) / joint, by_year[:, some].sum(axis=1) / joint))
        return found


def shipped(ore: Kinds, gain: np.ndarray, most: np.ndarray) -> np.ndarray:
    """Returns the shares of kinds that processes take in the best shipment of each year, shape (years, kinds, processes).

    Parameters
    ----------
    ore : Kinds
        Of years.
    gain : array, shape (years, kinds, processes)
        At the prices of each year.
    most : array, shape (years, processes)
        Capacities, in tonnes.
    """
    allowed = ore.pays & (gain > 0) & (most[:, None, :] > 0)
    found = np.zeros_like(gain)
    best = np.where(allowed, gain, 0.0).argmax(axis=2)
    np.put_along_axis(
        found, best[:, :, None], np.take_along_axis(allowed, best[:, :, None], axis=2).astype(float), axis=2
    )
    used = np.einsum("yk,ykp->yp", ore.feed, found)
    full = np.flatnonzero((used > most * (1 + 1e-12)).any(axis=1))
    if len(full):
        found[full] = of_programme(ore.feed[full], np.where(allowed, gain, 0.0)[full], most[full])
    return found


def of_programme(feed: np.ndarray, gain: np.ndarray, most: np.ndarray) -> np.ndarray:
    """Returns the shares of a linear programme over all these years; where nothing is gained they are 0."""
    # Here, since it takes a tenth of a second and few projects have a choice of destinations.
    from scipy.optimize import linprog
    from scipy.sparse import coo_matrix, vstack

    year, kind, process = np.nonzero(gain > 0)
    size = len(year)
    unit = float(gain.max())
    of_kind = coo_matrix(
        (np.ones(size), (year * gain.shape[1] + kind, np.arange(size))), shape=(gain[:, :, 0].size, size)
    )
    scaled = feed[year, kind] / most[year, process]
    of_process = coo_matrix((scaled, (year * gain.shape[2] + process, np.arange(size))), shape=(most.size, size))
    right = np.concatenate([np.ones(of_kind.shape[0]), np.ones(of_process.shape[0])])
    answer = linprog(
        -gain[year, kind, process] / unit,
        A_ub=vstack([of_kind, of_process], format="csr"),
        b_ub=right,
        bounds=(0, 1),
        method="highs-ds",
    )
    found = np.zeros_like(gain)
    found[year, kind, process] = np.clip(answer.x, 0.0, 1.0)
    return found
