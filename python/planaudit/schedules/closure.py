"""Maximum closures by maximum flow (Picard 1976), with scipy."""

from __future__ import annotations

from dataclasses import dataclass

import numpy as np

# The sum of all capacities as scipy takes them, whole numbers of 32 bits; and more than any flow.
TOTAL, UNLIMITED = 2**30, 2**30 + 1


@dataclass(frozen=True)
class Closure:
    """A closed set of nodes.

    Attributes
    ----------
    inside : array of bool, shape (nodes,)
        The nodes of the set.
    value : float
        The sum of their values.
    slack : float
        By how much the maximum may be larger, since capacities are rounded.
    """

    inside: np.ndarray
    value: float
    slack: float


def maximum_closure(values: np.ndarray, nodes: np.ndarray, needed: np.ndarray) -> Closure:
    """Returns a closed set of nodes of maximum value.

    Parameters
    ----------
    values : array, shape (nodes,)
        The value of each node.
    nodes, needed : array of int, shape (arcs,)
        Each arc once: a node, and one that it needs.
    """
    # Here, since it takes a tenth of a second and only the bounds of schedules need it.
    from scipy.sparse import csr_matrix
    from scipy.sparse.csgraph import breadth_first_order, maximum_flow

    count, gain = len(values), float(values[values > 0].sum())
    if not gain:
        return Closure(np.zeros(count, dtype=bool), 0.0, 0.0)
    unit = gain / (TOTAL - count)
    size = np.ceil(np.minimum(np.abs(values) / unit, UNLIMITED)).astype(np.int64)
    pays, costs = np.flatnonzero(values > 0), np.flatnonzero(values < 0)
    source, sink = count, count + 1
    rows = np.concatenate([np.full(len(pays), source), costs, nodes])
    columns = np.concatenate([pays, np.full(len(costs), sink), needed])
    room = np.concatenate([size[pays], size[costs], np.full(len(nodes), UNLIMITED)])
    graph = csr_matrix((room.astype(np.int32), (rows, columns)), shape=(count + 2, count + 2))
    left = graph - maximum_flow(graph, source, sink).flow
    left.eliminate_zeros()
    reached = breadth_first_order(left, source, return_predecessors=False)
    inside = np.zeros(count + 2, dtype=bool)
    inside[reached] = True
    return Closure(inside[:count], float(values[inside[:count]].sum()), count * unit)
