"""The smallest closed set of greatest value: by the least minimum cut of a maximum flow, and for a few blocks by trying every set."""

from __future__ import annotations

from collections import deque
from collections.abc import Hashable, Iterable, Mapping
from itertools import combinations
from typing import TypeVar

import numpy as np
from scipy.sparse import csr_matrix
from scipy.sparse.csgraph import maximum_flow

Block = TypeVar("Block", bound=Hashable)
# maximum_flow takes capacities of 32 bits.
MOST = 2**31 - 1


def closure(start: Iterable[Block], leads: Mapping[Block, Iterable[Block]]) -> set[Block]:
    """All blocks that are reached from some."""
    found = set(start)
    queue = list(found)
    while queue:
        new = set(leads[queue.pop()]) - found
        found |= new
        queue += new
    return found


def least_best_pit(values: Mapping[Block, int], needs: Mapping[Block, Iterable[Block]]) -> set[Block]:
    """The smallest set of greatest value that holds what its blocks need; values are whole."""
    places = list(values)
    number = {place: at for at, place in enumerate(places)}
    source, sink, most = len(places), len(places) + 1, sum(value for value in values.values() if value > 0) + 1
    edges = [(number[u], number[p], most) for u in places for p in needs[u] if p in number]
    edges += [(source, number[u], value) for u, value in values.items() if value > 0]
    edges += [(number[u], sink, -value) for u, value in values.items() if value < 0]
    rest = (rest_by_scipy if max(most, *(-value for value in values.values())) <= MOST else rest_by_paths)(
        edges, sink + 1
    )
    reached, queue = {source}, deque([source])
    while queue:
        new = {to for to, free in rest[queue.popleft()].items() if free > 0} - reached
        reached |= new
        queue += new
    return {places[at] for at in reached if at < len(places)}


def rest_by_scipy(edges: list[tuple[int, int, int]], count: int) -> list[dict[int, int]]:
    """What a maximum flow from the last node but one to the last leaves free on each edge and against it."""
    tail, head, capacity = (np.array(part) for part in zip(*edges))
    graph = csr_matrix((capacity.astype(np.int32), (tail, head)), shape=(count, count))
    left = (graph - maximum_flow(graph, count - 2, count - 1).flow).tolil()
    return [dict(zip(heads, free)) for heads, free in zip(left.rows, left.data)]


def rest_by_paths(edges: list[tuple[int, int, int]], count: int) -> list[dict[int, int]]:
    """The same for numbers of any size: along shortest paths, layer by layer (Dinic 1970)."""
    rest: list[dict[int, int]] = [{} for _ in range(count)]
    for tail, head, capacity in edges:
        rest[tail][head] = rest[tail].get(head, 0) + capacity
        rest[head].setdefault(tail, 0)
    source, sink = count - 2, count - 1
    while sink in (layer := layers(rest, source)):
        onward = [
            [to for to in heads if layer.get(to) == layer[at] + 1] if at in layer else []
            for at, heads in enumerate(rest)
        ]
        path = [source]
        while path:
            at = path[-1]
            if at == sink:
                links = list(zip(path, path[1:]))
                sent = min(rest[tail][head] for tail, head in links)
                for tail, head in links:
                    rest[tail][head] -= sent
                    rest[head][tail] += sent
                path = [source]
                continue
            while onward[at] and not rest[at][onward[at][-1]]:
                onward[at].pop()
            if onward[at]:
                path.append(onward[at][-1])
            else:
                path.pop()
                if path:
                    onward[path[-1]].pop()
    return rest


def layers(rest: list[dict[int, int]], source: int) -> dict[int, int]:
    """The least number of free edges from the source to each node that is reached."""
    found, queue = {source: 0}, deque([source])
    while queue:
        at = queue.popleft()
        for to, free in rest[at].items():
            if free > 0 and to not in found:
                found[to] = found[at] + 1
                queue.append(to)
    return found


def least_best_by_trying(values: Mapping[Block, int], needs: Mapping[Block, Iterable[Block]]) -> set[Block]:
    """The same as `least_best_pit` by trying every set, of at most a dozen blocks."""
    places, worth = list(values), 0
    best: set[Block] = set()
    for count in range(1, len(places) + 1):
        for chosen in combinations(places, count):
            some = set(chosen)
            total = sum(values[it] for it in some)
            if total > worth and all(to in some or to not in values for it in some for to in needs[it]):
                best, worth = some, total
    return best
