"""The NPV of a schedule whose stockpiles give back the mean of what lies there, by hand and by its verification."""

import json
import shutil

import numpy as np
import pandas as pd
import pytest
from helpers.six_blocks import six_blocks
from helpers.verified import differing, wrong
from helpers.writings import UNVERIFIED

import pitplan
from pitplan.scheduling.flow.mixed_reclaim import Pile

PILE = '[[schedule.stockpiles]]\nname = "low"\nreclaim_cost = 1\n'


def test_a_pile_of_two_parcels_by_hand():
    """100 t of 30 a tonne and 300 t of 10 lie there from year 1 on. In year 2 the schedule takes the 100 t of 30, in year 3 200 t of 10. The mean
    is 15 in both years: 1,500 for 3,000 in year 2, and 3,000 for 2,000 in year 3."""
    stocked, out = np.zeros((2, 3)), np.zeros((1, 2, 3))
    stocked[:, 0] = 1
    out[0, 0, 1], out[0, 1, 2] = 1, 200 / 300
    gain = np.repeat(np.array([[[3000.0], [3000.0]]]), 3, axis=2)
    pile = Pile(np.array([100.0, 300.0]), stocked, out, gain, np.zeros(2))
    assert pile.lost.tolist() == pytest.approx([0, 1500, -1000])


def test_what_lies_there_at_the_start_is_part_of_the_pile():
    """Half of 100 t of 30 a tonne, placed in year 1, is reclaimed in year 2 from beside 300 t of 10 that lay there: 50 t of 15."""
    stocked, out = np.array([[1.0, 0], [0, 0]]), np.zeros((1, 2, 2))
    out[0, 0, 1] = 0.5
    gain = np.repeat(np.array([[[3000.0], [3000.0]]]), 2, axis=2)
    pile = Pile(np.array([100.0, 300.0]), stocked, out, gain, np.array([0.0, 1.0]))
    assert pile.lost.tolist() == pytest.approx([0, 50 * (30 - 15)])


@pytest.fixture(scope="module")
def stocked(tmp_path_factory):
    """A mine of one bench whose mill is too small in its two years of mining: the poorer ore of two grades waits, and the better of it leaves first."""
    grades = (2.0, 2.0, 1.0, 1.0, 0.6, 0.6)
    changes = (("mining_capacity = 2000", "mining_capacity = 3000"), ("[schedule]\nyears = 3", "[schedule]\nyears = 6"))
    path = six_blocks(tmp_path_factory.mktemp("stocked"), grades, PILE, *changes)
    methods = pitplan.write_schedule(path, writing=UNVERIFIED).set_index("method")
    return path.parent, methods


def test_a_schedule_has_its_npv_at_mean_grade_in_tables_and_notes(stocked):
    folder, methods = stocked
    assert wrong(folder / "plan/schedule") == set()
    lp = methods.loc["lp"]
    assert (
        lp["npv_at_mean_grade"] < lp["npv"] and methods.loc["rule", "npv_at_mean_grade"] == methods.loc["rule", "npv"]
    )
    piles = pd.read_csv(folder / "plan/schedule/tables/stockpiles.csv").query("method == 'lp'")
    taken = piles[piles["out_tonnes"] > 0]
    mean = piles["grade_copper"].shift(1)[taken.index]
    assert (taken["reclaimed_grade_copper"] > mean).any()
    notes = json.loads((folder / "plan/schedule/plan.json").read_text())["notes"]
    (grades,) = [note for note in notes if note.startswith("stockpile low: reclaimed grade of copper")]
    (value,) = [note for note in notes if "gives back the mean of what lies there" in note]
    assert f"{lp['npv_at_mean_grade']:,.0f}" in value and "in brackets the mean of the pile" in grades


@pytest.mark.parametrize(
    ("table", "column", "rule"),
    [("methods", "npv_at_mean_grade", "schedule value"), ("stockpiles", "reclaimed_grade_copper", "material flow")],
)
def test_another_number_is_found(stocked, tmp_path, table, column, rule):
    folder = shutil.copytree(stocked[0], tmp_path / "bent") / "plan/schedule"
    path = folder / f"tables/{table}.csv"
    found = pd.read_csv(path)
    row = found.index[(found["method"] == "lp") & found[column].notna()][-1]
    found.loc[row, column] *= 1.01
    found.to_csv(path, index=False)
    assert differing(folder, rule)
