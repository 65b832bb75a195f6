"""Certificates by the library on arrays: a flow is judged as the definition of a certificate, written down here, judges it."""

import random
from decimal import Decimal

import numpy as np
import pytest

pitshell = pytest.importorskip("pitshell", reason="make library builds it")

# Block 1 earns 7 and needs block 0, which costs 4; block 2 earns 1 and needs it too.
VALUES, NEEDS = [-4, 7, 1], [[1, 0], [2, 0]]
MILLION = 1_000_000


def certifies(values, pairs, in_pit, flow):
    """The conditions of a certificate (Picard 1976), as they are defined: closed; no negative amount; inside no block lacks and each is
    reached; outside none has any left; and nothing flows in."""
    n = len(values)
    excess = [int(value) for value in values]
    for (u, p), amount in zip(pairs, flow):
        excess[u] -= amount
        excess[p] += amount
    reached = {u for u in range(n) if in_pit[u] and excess[u] > 0}
    grown = True
    while grown:
        steps = {p for (u, p) in pairs if u in reached and in_pit[p]}
        steps |= {u for (u, p), amount in zip(pairs, flow) if p in reached and in_pit[u] and amount > 0}
        grown = not steps <= reached
        reached |= steps
    return (
        all(in_pit[p] or not in_pit[u] for u, p in pairs)
        and all(amount >= 0 for amount in flow)
        and all(amount == 0 for (u, p), amount in zip(pairs, flow) if in_pit[p] and not in_pit[u])
        and all(excess[u] >= 0 and u in reached if in_pit[u] else excess[u] <= 0 for u in range(n))
    )


def random_mine(rng):
    n = rng.randint(1, 7)
    values = [rng.randint(-5, 5) for _ in range(n)]
    order = rng.sample(range(n), n)
    pairs = [(order[i], order[j]) for i in range(n) for j in range(i) if rng.random() < 0.4]
    rng.shuffle(pairs)
    return values, pairs


def test_a_block_that_pays_for_what_two_need():
    found = pitshell.certificate(VALUES, NEEDS)
    assert found.in_pit.tolist() == [True, True, True] and found.worth == Decimal(4)
    assert certifies([value * MILLION for value in VALUES], NEEDS, found.in_pit, found.flow.tolist())


@pytest.mark.parametrize("seed", range(10))
def test_a_certificate_is_one_by_definition_and_passes(seed):
    rng = random.Random(seed)
    for _ in range(60):
        values, pairs = random_mine(rng)
        needs = np.array(pairs, dtype=np.int64).reshape(-1, 2)
        found = pitshell.certificate(values, needs)
        assert certifies([value * MILLION for value in values], pairs, found.in_pit, found.flow.tolist())
        assert found.in_pit.tolist() == pitshell.solve(values, needs).in_pit.tolist()
        assert pitshell.check(values, needs, found.in_pit, found.flow)


@pytest.mark.parametrize("seed", range(10))
def test_a_bent_certificate_is_judged_as_the_definition_does(seed):
    rng = random.Random(100 + seed)
    told = set()
    for _ in range(100):
        values, pairs = random_mine(rng)
        needs = np.array(pairs, dtype=np.int64).reshape(-1, 2)
        found = pitshell.certificate(np.array(values), needs, millionths=True)
        in_pit, flow = found.in_pit.copy(), found.flow.copy()
        if len(flow) and rng.random() < 0.7:
            flow[rng.randrange(len(flow))] = rng.randint(0, 6)
        else:
            in_pit[rng.randrange(len(in_pit))] ^= True
        answer = pitshell.check(np.array(values), needs, in_pit, flow, millionths=True)
        assert answer == certifies(values, pairs, in_pit, flow.tolist())
        told.add(answer)
    assert told == {True, False}


def test_amounts_of_more_than_64_bits():
    # Twelve blocks of 9 * 10^18 rest on a chain of two, the lower of which costs 10^20 in all.
    tops, most = 12, 9 * 10**18
    values = np.array([most] * tops + [0] + [-most] * 11, dtype=np.int64)
    needs = [[top, tops] for top in range(tops)] + [[tops, tops + 1 + low] for low in range(11)]
    found = pitshell.certificate(values, needs, millionths=True)
    assert found.in_pit.all() and found.worth == Decimal(most).scaleb(-6)
    assert pitshell.check(values, needs, found.in_pit, found.flow, millionths=True)
    # One amount past 64 bits: the whole sum through one pair.
    chain = np.array([most] * tops + [0, 0] + [-most] * 11, dtype=np.int64)
    through = (
        [[top, tops] for top in range(tops)] + [[tops, tops + 1]] + [[tops + 1, tops + 2 + low] for low in range(11)]
    )
    found = pitshell.certificate(chain, through, millionths=True)
    assert found.flow.dtype == object and max(found.flow) > 2**64
    assert certifies(chain.tolist(), through, found.in_pit, found.flow.tolist())
    assert pitshell.check(chain, through, found.in_pit, found.flow, millionths=True)


@pytest.mark.parametrize(
    "in_pit, flow, number",
    [
        ([1, 1], [4, 0], 17),
        ([1, 1, 1], [4], 17),
        ([1, 1, 2], [4, 0], 3),
        ([1, 1, 1], [4, -1], 15),
        ([1, 1, 1], [4, 10**30 + 1], 4),
        ([1, 1, 1], [4, 2**200], 4),
    ],
)
def test_what_is_no_candidate_is_refused(in_pit, flow, number):
    with pytest.raises(pitshell.Refusal) as refused:
        pitshell.check(VALUES, NEEDS, in_pit, flow, millionths=True)
    assert refused.value.number == number
    if number == 3:
        assert refused.value.block == 2
    if number in (4, 15):
        assert refused.value.need == 1


def test_needs_in_any_order_have_their_own_amounts():
    found = pitshell.certificate(VALUES, NEEDS)
    turned = pitshell.certificate(VALUES, NEEDS[::-1])
    assert found.flow.tolist() == turned.flow.tolist()[::-1]
    assert pitshell.check(VALUES, NEEDS[::-1], turned.in_pit, turned.flow)


def test_a_refused_mine_names_its_cycle():
    for call in (pitshell.solve, pitshell.certificate):
        with pytest.raises(pitshell.Refusal, match="error 14: cycle: blocks 1, 2, 3") as refused:
            call([1, 1, 1, 1], [[0, 1], [1, 2], [2, 3], [3, 1]])
        assert refused.value.cycle == [1, 2, 3]
