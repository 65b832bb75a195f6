"""Shells against every closed set of small mines, and the numbers of shells against sums done by hand."""

from dataclasses import replace
from decimal import Decimal
from pathlib import Path

import numpy as np
import pytest
from conftest import PROJECT, rows
from helpers.random_tests import examples
from helpers.shells import BOX, CLOSED, SMALL, best_by_trying, grades, project_of
from hypothesis import given, strategies as st

import pitplan
from pitplan.config import keys
from pitplan.config.geometry import Slopes
from pitplan.config.toml_text import Section


@SMALL
@given(grades)
def test_shells_are_the_best_of_all_closed_sets(tmp_path, by_id):
    """100 t a block: mining 200, processing 1000, and 40,000 for each per cent of copper."""
    table = rows(*BOX, cu=lambda i, j, k: by_id[(2 - k) * 3 + i])
    plan = pitplan.Plan.from_project(project_of(tmp_path), table=table)
    solution = plan.shells().solution
    for factor in plan.project.shells.revenue_factors:
        gains = [Decimal(str(factor)) * Decimal(str(grade)) * 4000 - 1000 for grade in by_id]
        worth, pit = best_by_trying(CLOSED, [max(gain, Decimal(0)) - 200 for gain in gains])
        assert solution.worth[factor] == worth
        assert set(np.flatnonzero((solution.entry[:9] > 0) & (solution.entry[:9] <= factor))) == pit
        processed = pitplan.Shells(plan, solution).cells.processed
        expected = {block for block in pit if gains[block] > 0}
        assert set(np.flatnonzero((processed > 0) & (processed <= factor))) == expected


@SMALL
@given(grades)
def test_a_fixed_cutoff_is_the_best_with_ore_settled_at_1000(tmp_path, by_id):
    table = rows(*BOX, cu=lambda i, j, k: by_id[(2 - k) * 3 + i])
    plan = pitplan.Plan.from_project(project_of(tmp_path, cutoff="base_price"), table=table)
    solution = plan.shells().solution
    for factor in plan.project.shells.revenue_factors:
        yields = [Decimal(str(grade)) * 4000 for grade in by_id]
        values = [Decimal(str(factor)) * y - 1200 if y > 1000 else Decimal(-200) for y in yields]
        worth, pit = best_by_trying(CLOSED, values)
        assert solution.worth[factor] == worth
        assert set(np.flatnonzero((solution.entry > 0) & (solution.entry <= factor))) == pit


@examples(15)
@given(
    st.integers(0, 10**6),
    st.sampled_from(["1:5", "1:9", "40"]),
    st.sampled_from(["per_revenue_factor", "base_price"]),
)
def test_trimmed_needs_give_the_same_shells(seed, domains, cutoff):
    rng = np.random.default_rng(seed)
    table = rows(9, 8, 5, tonnes=lambda i, j, k: 100 if k < 4 or i % 3 else 0)
    table["cu"] = np.where(rng.random(len(table)) < 0.06, rng.random(len(table)).round(3) * 8, 0.0)
    project = project_of(Path("."), cutoff=cutoff)
    domain = {"angle": Decimal(domains)} if domains.isdigit() else {"pattern": domains}
    slopes = keys.read(Slopes, Section("test", "slopes", {"precedence_benches": 3, "domains": [domain]}))
    plan = pitplan.Plan.from_project(replace(project, slopes=slopes), table=table)
    trimmed = plan.shells().solution
    assert plan.used.sum() < plan.grid.count
    plan.used[:] = True
    whole = plan.shells().solution
    assert (trimmed.entry == whole.entry).all() and (trimmed.worth == whole.worth).all()


def test_the_table_of_shells_by_hand(tmp_path):
    """A pillar of three blocks: waste, poor ore at 0.4 %, and at the floor rich ore at 1.5 %."""
    table = rows(1, 1, 3, cu=lambda i, j, k: [1.5, 0.4, 0][k])
    plan = pitplan.Plan.from_project(project_of(tmp_path, factors=(0.2, 0.5, 1.0)), table=table)
    shells = plan.shells().table.set_index("revenue_factor")
    # At the price as given processing the rich block gains 6000 - 1000, the poor one 1600 - 1000. At 0.5 the poor one
    # is mined and thrown away: 800 does not pay its processing. At 0.2 the rich one gains 200, and mining costs 600.
    assert shells["blocks"].tolist() == [0, 3, 3]
    assert shells["tonnes"].tolist() == [0, 300, 300]
    assert shells["feed_tonnes"].tolist() == [0, 200, 200] and shells["waste_tonnes"].tolist() == [0, 100, 100]
    assert shells["processed_at_revenue_factor"].tolist() == [0, 100, 200]
    assert shells["strip_ratio"][1.0] == 0.5 and np.isnan(shells["strip_ratio"][0.2])
    assert shells["head_grade_copper"][1.0] == pytest.approx(0.95) and shells["recovered_copper"][1.0] == pytest.approx(
        0.95
    )
    assert shells["undiscounted_cash_flow"].tolist() == [0, 5000, 5000]
    assert shells["value_at_revenue_factor"].tolist() == [Decimal(0), Decimal(1400), Decimal(5000)]
    # At 100 t of ore a year the waste and the poor block, -200 + 400, are the first year's and the rich one's 4800 the second's.
    npv = 200 / 1.1 + 4800 / 1.1**2
    assert shells["npv_best"][1.0] == pytest.approx(npv) and shells["npv_worst"][1.0] == pytest.approx(npv)
    assert shells["years"].tolist() == [0, 2, 2]


def test_best_and_worst_case_by_hand(plan_folder):
    """Two pillars: the east one is so poor that it comes in at 1.0 alone. Rock is dug at 100 t a year."""
    table = rows(2, 1, 2, cu=lambda i, j, k: 0 if k else [4, 0.4][i])
    upright = ('pattern = "1:5"', "angle = 90")
    changes = [upright, ("processing_capacity = 100", "processing_capacity = 100\nmining_capacity = 100")]
    plan = pitplan.Plan.from_project(plan_folder(table, PROJECT, *changes))
    shells = plan.shells().table.set_index("revenue_factor")
    assert shells["blocks"].to_dict() == {0.5: 2, 1.0: 4, 1.5: 4}
    # The rich floor is worth 16000 - 1000 - 200, the poor one 1600 - 1000 - 200. In the best case each block takes a year;
    # in the worst case each level takes two.
    rich, poor, top = 14800, 400, -200
    first, second, third, fourth = (1.1**-year for year in (1, 2, 3, 4))
    best = top * first + rich * second + top * third + poor * fourth
    worst = top * (first + second) + (rich + poor) / 2 * (third + fourth)
    assert shells["npv_best"][0.5] == pytest.approx(top * first + rich * second)
    assert shells["npv_best"][1.0] == pytest.approx(best) and shells["npv_worst"][1.0] == pytest.approx(worst)
    assert shells["years"][1.0] == 4


def test_pits_that_touch_the_model_are_warned_of(plan_folder):
    table = rows(5, 5, 3, cu=lambda i, j, k: 8 if (i, j, k) == (1, 2, 0) else 0)
    plan = pitplan.Plan.from_project(plan_folder(table))
    notes = plan.shells().notes
    touched = [note.split(" of the block model")[0] for note in notes]
    assert touched == [
        f"WARNING: the largest shell reaches the {side}" for side in ("west side", "south side", "north side", "floor")
    ]
    said = "blocks, from revenue factor 0.50), beyond which no slope is kept: extend the model"
    assert all(note.endswith(said) for note in notes)


def test_pits_inside_the_model_have_no_word_of_its_edge(plan_folder):
    """Precedences of blocks near the edge leave the model, and no shell mines them."""
    table = rows(9, 9, 4, cu=lambda i, j, k: 8 if (i, j, k) == (4, 4, 2) else 0)
    plan = pitplan.Plan.from_project(plan_folder(table))
    assert plan.shells().notes == []
    assert not [note for note in plan.notes if "edge" in note or "leave the block model" in note]


def test_factor_1000_is_always_there(plan_folder):
    plan = pitplan.Plan.from_project(plan_folder(rows(2, 2, 2), PROJECT, ("[0.5, 1.0, 1.5]", "[0.9, 0.5]")))
    assert plan.project.shells.revenue_factors == (0.5, 0.9, 1.0)
    assert "revenue factor 1.0, the base price, was added to the revenue factors" in plan.notes
