"""Shares of benches that are worth most: closures by the library of pits next to the linear programme, and by hand."""

import numpy as np
import pytest
from helpers.random_tests import seeds
from scipy.sparse import csr_matrix

from pitplan.scheduling.flow.closures import best_shares, by_programme, precedences_of


def rows_of(pairs, count):
    """Rows by which the first unknown of each pair is at most the second."""
    rows = np.zeros((len(pairs), count))
    for row, (less, more) in zip(rows, pairs):
        row[less], row[more] = 1, -1
    return csr_matrix(rows)


def test_shares_by_hand():
    """Ore of 10 under waste of 4. Waste can be mined whole and the ore to three tenths, so three tenths of both are, and earn 1.8."""
    precedences = precedences_of(rows_of([(1, 0)], 2))
    assert best_shares(np.array([-4.0, 10.0]), precedences, np.array([1.0, 0.3])) == pytest.approx([0.3, 0.3])
    assert best_shares(np.array([4.0, 10.0]), precedences, np.array([1.0, 0.3])) == pytest.approx([1.0, 0.3])
    assert best_shares(np.array([-11.0, 10.0]), precedences, np.array([1.0, 0.3])) == pytest.approx([0.0, 0.0])


@pytest.mark.parametrize("seed", seeds(10, 200))
def test_the_closures_of_all_levels_are_the_optimum_of_the_linear_programme(seed):
    draw = np.random.default_rng(seed)
    count = int(draw.integers(1, 30))
    # A year without mining capacity makes two shares at most each other.
    equal = {(low, low - 1) for low in range(1, count) if draw.random() < 0.1}
    pairs = [(low, high) for low in range(count) for high in range(low) if (low, high) in equal or draw.random() < 0.2]
    pairs += [(high, low) for low, high in equal]
    precedences = precedences_of(rows_of(pairs, count))
    gain, most = draw.normal(0.2, 1, count) * 1e8, draw.choice([0.0, 0.25, 0.4, 1.0], count)
    found, programme = best_shares(gain, precedences, most), by_programme(gain / 1e8, precedences, most)
    assert gain @ found == pytest.approx(gain @ programme, rel=1e-6, abs=1)
    assert (found >= 0).all() and (found <= most + 1e-12).all()
    assert all(found[low] <= found[high] + 1e-12 for low, high in pairs)
