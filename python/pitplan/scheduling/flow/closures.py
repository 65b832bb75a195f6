"""The shares of benches by year that are worth most if they keep an order, by the library of pits; without the library by a linear programme."""

from __future__ import annotations

import numpy as np
from numpy.typing import NDArray
from scipy.optimize import linprog
from scipy.sparse import csr_matrix, eye
from scipy.sparse.csgraph import connected_components

from pitplan.core.tolerances import SUM_ERROR
from pitplan.scheduling.highs_process import demand_solved
from pitplan.solver import library

# The whole number that the greatest value becomes: a float has as many digits.
GREATEST = 2.0**52
# What `pitshell.solve` takes for an unknown that a closure must not have.
BARRED = 2


def precedences_of(rows: csr_matrix) -> csr_matrix:
    """Returns rows with a 1 and a -1, each at most 0, as a matrix of precedences: True where the unknown of a row is at most that of a column."""
    users, others = (csr_matrix(rows > 0).indices, csr_matrix(rows < 0).indices)
    count = rows.shape[1]
    return csr_matrix((np.ones(len(users), dtype=bool), (users, others)), shape=(count, count))


def best_shares(gain: NDArray[np.float64], precedences: csr_matrix, most: NDArray[np.float64]) -> NDArray[np.float64]:
    """Returns the unknowns from 0 to `most` that keep the precedences and earn most, shape (unknowns,).

    The unknowns above a level are a closure without those whose most is below it. So between two neighbouring values of `most` the best closure is the
    same at each level, and the optimum is the sum of these closures, each times the difference of the two values.

    Parameters
    ----------
    gain : array, shape (unknowns,)
    precedences : csr matrix, shape (unknowns, unknowns)
        See `precedences_of`.
    most : array, shape (unknowns,)
    """
    count, part = connected_components(precedences, connection="strong")
    if count < len(gain):
        return in_parts(gain, precedences, most, part)[part]
    unit = float(np.abs(gain).max(initial=0.0)) or 1.0
    pitshell = library.package()
    if pitshell is None:
        return by_programme(gain / unit, precedences, most)
    values = np.rint(gain / unit * GREATEST).astype(np.int64)
    result, below = np.zeros(len(gain)), 0.0
    for level in np.unique(most[most > SUM_ERROR]):
        barred = np.where(most < level, BARRED, 0).astype(np.uint8)
        closure = pitshell.solve(values, (precedences.indptr, precedences.indices), barred, millionths=True)
        result += (level - below) * closure.in_pit
        below = level
    return result


def in_parts(
    gain: NDArray[np.float64], precedences: csr_matrix, most: NDArray[np.float64], part: NDArray[np.int64]
) -> NDArray[np.float64]:
    """Returns the shares of parts, shape (parts,); `part` has that of each unknown. Unknowns that are at most each other, as in a year without mining
    capacity, are one part: they are equal."""
    of_parts, pairs = np.full(int(part.max()) + 1, np.inf), precedences.tocoo()
    np.minimum.at(of_parts, part, most)
    row, column = part[pairs.row], part[pairs.col]
    apart = row != column
    places = row[apart], column[apart]
    between = csr_matrix((np.ones(int(apart.sum()), dtype=bool), places), shape=(len(of_parts), len(of_parts)))
    return best_shares(np.bincount(part, gain).astype(np.float64), between, of_parts)


def by_programme(gain: NDArray[np.float64], precedences: csr_matrix, most: NDArray[np.float64]) -> NDArray[np.float64]:
    """Returns the same by HiGHS."""
    pairs, bounds = precedences.tocoo(), np.column_stack([np.zeros(len(gain)), most])
    each = eye(len(gain), format="csr")
    rows = each[pairs.row] - each[pairs.col]
    found = linprog(-gain, A_ub=rows, b_ub=np.zeros(rows.shape[0]), bounds=bounds, method="highs-ds")
    return np.asarray(demand_solved(found, "closure of benches").x)
