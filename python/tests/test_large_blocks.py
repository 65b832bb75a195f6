"""Schedules by block whose blocks hold more metal or feed than a year takes: a part of the block is processed, and the rest is waste."""

import pandas as pd
import pytest
from helpers.six_blocks import RICH, six_blocks
from helpers.verified import wrong
from helpers.writings import UNVERIFIED

import pitplan

METAL = ("[schedule]\nyears = 3", "[schedule]\nyears = 6\nmax_metal_per_year = { copper = 9 }")


def by_block(path):
    found = pitplan.write_block_schedule(path, writing=UNVERIFIED)
    folder = path.parent / "plan/block_schedule"
    assert wrong(folder) == set()
    return found, folder


def test_a_block_with_more_metal_than_a_year_takes_is_processed_in_part(tmp_path):
    """The first block holds 20 t of copper and a year takes 9: 45 % of it, worth 0.45 * 190,000 - 1,000 in year 1. In each later year the next block
    with 9 t of its own copper."""
    found, folder = by_block(six_blocks(tmp_path, RICH, "", METAL))
    shares = [9 / (10 * grade) for grade in RICH]
    cash = [share * 1000 * (100 * grade - 10) - 1000 for share, grade in zip(shares, RICH)]
    assert float(found["npv"].iloc[0]) >= sum(it / 1.1**year for year, it in enumerate(cash, 1)) - 0.01
    assert float(found["optimality_gap"].iloc[0]) < 0.05
    blocks = pd.read_csv(folder / "tables/blocks.csv")
    assert (blocks["year"] > 0).all() and blocks["share_mill"].between(0.01, 0.99).all()


def test_a_block_with_more_feed_than_a_year_takes_is_processed_in_part(tmp_path):
    found, folder = by_block(six_blocks(tmp_path, RICH, "", ("[schedule]", "[schedule]\nprocessing_capacity = 600")))
    years = pd.read_csv(folder / "tables/years.csv")
    assert years.query("case == 'block'")["feed_tonnes"].tolist() == pytest.approx([600, 600, 600])
    cash = [600 * (100 * grade - 10) - 1000 for grade in RICH[:3]]
    assert float(found["npv"].iloc[0]) >= sum(it / 1.1**year for year, it in enumerate(cash, 1)) - 0.01
