"""The capacity of a stockpile is kept if waste costs something elsewhere, or if something must lie there."""

import numpy as np
import pandas as pd
import pytest
from conftest import rows
from helpers.benches import benches_of, problem_of, yearly_limits
from helpers.pushbacks import PUSHBACKS
from helpers.six_blocks import POOR, six_blocks
from helpers.verified import wrong
from helpers.writings import UNVERIFIED

import pitplan
from pitplan.config.material import Stockpile
from pitplan.scheduling.flow.bound import Lagrangian
from pitplan.scheduling.flow.material import Ore
from pitplan.scheduling.flow.model import FlowModel, OpeningOre
from pitplan.scheduling.flow.programme import FlowProgramme

PILE = '[[schedule.stockpiles]]\nname = "s"\nreclaim_cost = 1\ncapacity = 500\n'
DUMP = '[[dumps]]\nname = "d"\ncost = 0.5\n'


def scheduled(tmp_path, more):
    path = six_blocks(tmp_path, POOR, more)
    methods = pitplan.write_schedule(path, writing=UNVERIFIED).set_index("method")
    assert wrong(path.parent / "plan/schedule") == set()
    tables = path.parent / "plan/schedule/tables"
    piles = pd.read_csv(tables / "stockpiles.csv").query("method == 'lp'")
    return methods.loc["lp"], piles["closing_tonnes"].tolist()


def test_ore_that_would_cost_a_dump_fills_the_stockpile_to_its_capacity(tmp_path):
    """The mine moves 2,000 t of its bench a year, of which a sixth has 2 %, and mills 1,000 t. A tonne of 2 % earns 190, one of 0.3 % earns 20, and each
    costs 1 to mine. In year 1 500 t of 0.3 % lie on the stockpile, which saves their dump, and 500 t go there; in each later year 1,000 t.
    """
    lp, closing = scheduled(tmp_path, PILE + DUMP)
    assert closing == pytest.approx([500, 500, 500])
    milled = 2000 / 6 * 190 + (1000 - 2000 / 6) * 20 - 2000
    cash = [milled - 250, milled - 500, milled - 500]
    assert lp["npv"] == pytest.approx(sum(it / 1.1**year for year, it in enumerate(cash, 1)), abs=0.01)
    assert lp["npv"] == pytest.approx(lp["upper_bound"], abs=0.01)


def test_a_stockpile_with_a_minimum_keeps_its_capacity(tmp_path):
    limited = "[[periods]]\nstockpiles = { s = { min = 300, max = 500 } }\n"
    _, closing = scheduled(tmp_path, PILE + limited)
    assert all(300 - 1e-6 <= it <= 500 + 1e-6 for it in closing)


def test_ore_that_does_not_pay_may_keep_a_minimum(plan_folder):
    """A pillar: 100 t of 0.1 %, which earn 4 - 10 a tonne, over 100 t of 1 %, which earn 40 - 10. Both are mined in a year at 2 a tonne. 40 t of the upper
    ore, which lie on the stockpile for nothing, keep its minimum, so that all ore below them is milled in the first year.
    """
    text = PUSHBACKS.replace("count = 3", "count = 1") + "[schedule]\nyears = 2\n" + PILE
    path = plan_folder(
        rows(1, 1, 2, cu=lambda i, j, k: 0.1 if k else 1), text + "[[periods]]\nstockpiles = { s = { min = 40 } }\n"
    )
    found = pitplan.write_schedule(path, path.parent / "out", writing=UNVERIFIED).set_index("method").loc["lp"]
    assert wrong(path.parent / "out") == set()
    assert found["npv"] == pytest.approx((100 * 30 - 200 * 2) / 1.1, abs=0.01) == found["upper_bound"]


def test_no_process_frees_a_stockpile_of_ore_that_it_does_not_take():
    """A tonne on the stockpile costs 2 a year. The mill, at 100 a tonne, loses; the other process takes none of the ore, so it stays to the end."""
    whole, nothing = np.array([[100.0]]), np.zeros(1, dtype=np.int64)
    amounts = {"feed_tonnes": np.vstack([whole, 0 * whole]), "feed_tonnes_mill": np.vstack([whole, 0 * whole])}
    ore = Ore(nothing, nothing + 1, np.array([[1000.0], [0.0]]), amounts)
    problem = problem_of(benches_of((1, 0, 100, 0, 0)), yearly_limits({"feed_tonnes_mill": 50.0}), rate=0.0)
    model = FlowModel(problem, ore, 3, (Stockpile(1.0, capacity=100.0),), OpeningOre(ore, nothing))
    prices = {("stockpile_stockpile", "max"): np.full(3, 2.0), ("feed_tonnes_mill", "max"): np.full(3, 100.0)}
    relaxation = Lagrangian(FlowProgramme(model), prices)
    assert relaxation.waiting[0].value[0].tolist() == [-600, -400, -200]
    assert not relaxation.earned_by_lots.max(initial=0.0)
