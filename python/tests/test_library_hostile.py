"""Arrays of any lengths with any numbers, handed to the library's functions as they are: each answers 0 or a refusal that is there, and
where it refuses no output array has changed and each single output is set."""

import ctypes
import random

import numpy as np
import pytest

pitshell = pytest.importorskip("pitshell", reason="make library builds it")
from pitshell import _library  # noqa: E402

ROUNDS = 3_000
FILL = 7
# Refusals that lie at no place.
PLACELESS = (0, 7, 14, 17, 19)


def handed(arrays):
    return [part for array in arrays for part in (array, len(array))]


def rows(rng, blocks):
    """Starts and needs of so many blocks, sound or not."""
    pairs = rng.randint(0, 6)
    starts = sorted(rng.randint(0, pairs) for _ in range(blocks + 1))
    if rng.random() < 0.8 and starts:
        starts[0], starts[-1] = 0, pairs
    if rng.random() < 0.1:
        rng.shuffle(starts)
    needs = [rng.randrange(max(blocks, 1)) if rng.random() < 0.95 else 2**32 - 1 for _ in range(pairs)]
    return np.array(starts, dtype=np.uint32), np.array(needs, dtype=np.uint32)


def fault_of_rows(starts, needs, blocks):
    """What the rows are refused by, by plain loops: all refusals that are there."""
    if (
        len(starts) != blocks + 1
        or starts[0] != 0
        or starts[-1] != len(needs)
        or any(a > b for a, b in zip(starts, starts[1:]))
    ):
        return {7}
    lists = [needs[starts[u] : starts[u + 1]].tolist() for u in range(blocks)]
    found = set()
    if any(p >= blocks for row in lists for p in row):
        found.add(8)
    if any(u in row for u, row in enumerate(lists)):
        found.add(9)
    if any(len(set(row)) < len(row) for row in lists):
        found.add(10)
    if not found and is_cyclic(lists):
        found.add(14)
    return found


def is_cyclic(lists):
    left = set(range(len(lists)))
    while free := {u for u in left if not set(lists[u]) & left}:
        left -= free
    return bool(left)


def arrays_of(rng):
    blocks = rng.randint(0, 5)
    starts, needs = rows(rng, blocks)
    return blocks, starts, needs, off(rng, blocks), off(rng, len(needs))


def off(rng, length):
    """A length that is mostly right."""
    return length if rng.random() < 0.9 else max(0, length + rng.choice([-1, 1]))


@pytest.mark.parametrize("seed", range(3))
def test_nested_pits(seed):
    rng = random.Random(seed)
    told = set()
    for _ in range(ROUNDS):
        blocks, starts, needs, counted, _ = arrays_of(rng)
        least = -1 if rng.random() < 0.1 else 0
        revenues, costs = (
            np.array([rng.choice([least, 0, 3, 10**18 + (rng.random() < 0.05)]) for _ in range(n)], dtype=np.int64)
            for n in (blocks, off(rng, blocks))
        )
        factors = [rng.randint(0, 3) * 500 for _ in range(rng.randint(0, 3))]
        listed = np.array(sorted(set(factors)) if rng.random() < 0.8 else factors, dtype=np.uint32)
        firsts = np.full(counted, FILL, dtype=np.uint32)
        high, low = np.full(off(rng, len(listed)), FILL, dtype=np.int64), np.full(
            off(rng, len(listed)), FILL, dtype=np.uint64
        )
        place = ctypes.c_uint32(FILL)
        number = _library.shells(
            *handed((revenues, costs, starts, needs, listed, firsts, high, low)), ctypes.byref(place)
        )
        wrong = fault_of_rows(starts, needs, blocks)
        wrong |= {17} if {len(costs), counted} != {blocks} or {len(high), len(low)} != {len(listed)} else set()
        wrong |= {15} if (revenues < 0).any() or (costs < 0).any() else set()
        wrong |= {4} if (revenues > 10**18).any() or (costs > 10**18).any() else set()
        wrong |= {19} if any(b <= a for a, b in zip(listed, listed[1:])) else set()
        assert number in wrong if wrong else number == 0
        if number:
            assert all((array == FILL).all() for array in (firsts, high, low))
        if number == 15:
            assert revenues[place.value] < 0 or costs[place.value] < 0
        if number in PLACELESS:
            assert place.value == 0
        told.add(number)
    assert told >= {0, 4, 7, 8, 9, 10, 14, 15, 17, 19}


@pytest.mark.parametrize("seed", range(3))
def test_pits(seed):
    rng = random.Random(seed)
    refused = set()
    for _ in range(ROUNDS):
        blocks, starts, needs, counted, _ = arrays_of(rng)
        values = np.array([rng.choice([-5, -1, 0, 4, 2**63 - 1]) for _ in range(blocks)], dtype=np.int64)
        fixed = np.array(
            [rng.choice([0, 0, 0, 1, 2, 3]) for _ in range(off(rng, blocks))] if rng.random() < 0.5 else [],
            dtype=np.uint8,
        )
        marks, found = np.full(counted, FILL, dtype=np.uint8), _library.Found(FILL, FILL, FILL)
        number = _library.solve(
            *handed((values, starts, needs, fixed)), rng.random() < 0.5, marks, counted, ctypes.byref(found)
        )
        if number:
            assert (marks == FILL).all() and found.worth == 0
            assert found.place == 0 or number not in PLACELESS
            refused.add(number)
        else:
            assert found.worth == sum(int(value) for value in values[marks == 1]) and found.place == 0
    assert refused >= {3, 7, 8, 9, 10, 14, 17}


@pytest.mark.parametrize("seed", range(3))
def test_certificates_and_their_check(seed):
    rng = random.Random(seed)
    told = set()
    for _ in range(ROUNDS):
        blocks, starts, needs, counted, flows = arrays_of(rng)
        values = np.array([rng.choice([-5, -1, 0, 4, 2**63 - 1]) for _ in range(blocks)], dtype=np.int64)
        marks = np.full(counted, FILL, dtype=np.uint8)
        high, low = np.full(flows, FILL, dtype=np.int64), np.full(off(rng, flows), FILL, dtype=np.uint64)
        found = _library.Found(FILL, FILL, FILL)
        number = _library.certificate(*handed((values, starts, needs, marks, high, low)), ctypes.byref(found))
        wrong = fault_of_rows(starts, needs, blocks)
        falls = (
            any(
                starts[u] < k < starts[u + 1] and needs[k] < needs[k - 1]
                for u in range(blocks)
                for k in range(len(needs))
            )
            if 7 not in wrong
            else False
        )
        wrong |= {7} if falls and not wrong else set()
        wrong |= {17} if counted != blocks or {len(high), len(low)} != {len(needs)} else set()
        assert number in wrong if wrong else number == 0
        if number:
            assert all((array == FILL).all() for array in (marks, high, low)) and found.worth == 0
        if number in PLACELESS:
            assert found.place == 0
        bent = rng.random()
        if bent < 0.3 and len(high):
            high[rng.randrange(len(high))] = rng.choice([-1, 0, 2**62])
        is_marked = 0.3 <= bent < 0.4 and len(marks) > 0
        if is_marked:
            marks[rng.randrange(len(marks))] = 2
        yes, place = ctypes.c_bool(True), ctypes.c_uint32(FILL)
        answer = _library.check(
            *handed((values, starts, needs, marks, high, low)), ctypes.byref(yes), ctypes.byref(place)
        )
        if number == 0 and is_marked:
            assert answer == 3 and marks[place.value] == 2 and not yes.value
        elif number == 0 and bent >= 0.4:
            assert answer == 0 and yes.value
        elif number:
            assert answer in wrong | {3, 4, 15} and not yes.value
        if answer in PLACELESS:
            assert place.value == 0
        told |= {number, answer}
    assert told >= {0, 3, 4, 7, 8, 9, 10, 14, 15, 17}


@pytest.mark.parametrize("seed", range(3))
def test_cycles(seed):
    rng = random.Random(seed)
    lengths = set()
    for _ in range(ROUNDS):
        blocks, starts, needs, room, _ = arrays_of(rng)
        cycle = np.full(room, FILL, dtype=np.uint32)
        count, place = ctypes.c_size_t(FILL), ctypes.c_uint32(FILL)
        words = (starts, len(starts), needs, len(needs), cycle, len(cycle))
        number = _library._cycle(blocks, *words, ctypes.byref(count), ctypes.byref(place))
        wrong = fault_of_rows(starts, needs, blocks)
        if wrong <= {14}:
            assert number == 0 and (count.value > 0) == bool(wrong)
            if room >= count.value > 0:
                named = cycle[: count.value].tolist()
                after = named[1:] + named[:1]
                assert len(set(named)) == len(named) and all(
                    p in needs[starts[u] : starts[u + 1]] for u, p in zip(named, after)
                )
            lengths.add(count.value)
        else:
            assert number in wrong and (cycle == FILL).all() and count.value == 0
            assert place.value == 0 or number not in PLACELESS
    assert lengths >= {0, 2, 3}
