"""The most that a year's ore can earn in processes, by dual prices of the limits."""

from __future__ import annotations

import numpy as np

HAIR = 1e-9


def most_earned(gain: np.ndarray, takes: np.ndarray, most: np.ndarray) -> float:
    """Returns the most that blocks can earn beyond waste within limits, by linear programming duality.

    At any non-negative prices of the limits no selection earns more than the value of the limits plus the gains above the prices of what blocks
    use. At the optimal prices some selection of shares earns exactly that.

    Parameters
    ----------
    gain : array, shape (blocks, processes)
        Gain of each block in each process.
    takes : array, shape (limits, blocks, processes)
        Amount of each limit that a block uses there beyond what it uses as waste.
    most : array, shape (limits,)
        The limits, less what all blocks use as waste.
    """
    best = at_best(gain)
    reached = np.flatnonzero((takes * best).sum(axis=(1, 2)) > most + HAIR * np.abs(most))
    if len(reached) == 0:
        return float((gain * best).sum())
    if len(reached) == 1 and gain.shape[1] == 1 and (takes >= 0).all():
        return at_price_of_one(np.maximum(gain[:, 0], 0.0), takes[reached[0], :, 0], float(most[reached[0]]))
    # Here, since most verifications need no linear programme.
    from scipy.optimize import linprog
    from scipy.sparse import csr_matrix, eye, hstack, kron

    limits = np.flatnonzero(takes.any(axis=(1, 2)))
    unit = np.abs(takes[limits]).max(axis=(1, 2))
    of_prices = csr_matrix(-(takes[limits] / unit[:, None, None]).reshape(len(limits), -1).T)
    of_blocks = kron(-eye(len(gain)), np.ones((gain.shape[1], 1)))
    costs = np.append(most[limits] / unit, np.ones(len(gain)))
    found = linprog(costs, A_ub=hstack([of_prices, of_blocks], format="csr"), b_ub=-gain.ravel(), method="highs")
    return float(found.fun) if found.status == 0 else np.nan


def at_best(gain: np.ndarray) -> np.ndarray:
    """Returns the shares that send each block where it gains most, or nowhere if it gains nothing, shape (blocks, processes)."""
    return np.eye(gain.shape[1])[gain.argmax(axis=1)] * (gain.max(axis=1) > 0)[:, None]


def at_price_of_one(gain: np.ndarray, takes: np.ndarray, most: float) -> float:
    """Returns the same for one limit. Its optimal price is the gain per unit of the first block without room, by descending gain per unit."""
    some = takes > 0
    yields = gain[some] / takes[some]
    falling = np.argsort(-yields)
    place = np.searchsorted(np.cumsum(takes[some][falling]), most, side="right")
    price = yields[falling][place]
    return price * most + float(np.maximum(gain - price * takes, 0.0).sum())
