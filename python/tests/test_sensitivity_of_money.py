"""What the shown pit hangs on where a project has several processes, recoveries by grade, prices of years and benches; by hand."""

import zipfile
from decimal import Decimal

import pandas as pd
import pytest
from conftest import PROJECT, rows
from helpers.processes import WITH
from helpers.writings import PLAIN

import pitplan
from pitplan import PlanError, load
from pitplan.config.economics import Curve
from pitplan.studies import sensitivity

BY = "processing_capacity = 100", "processing_capacity = 100\nselected = 1.0"
RULES = "\n[sensitivity]\nchanges = [-0.1, 0.2]\n"


def two_blocks():
    """Two blocks of 100 t at the surface, of 6 % and of 0.3 %, which cost 200 each to dig."""
    return rows(5, 3, 1, cu=lambda i, j, k: {(1, 1): 6, (3, 1): 0.3}.get((i, j), 0))


def worths(path):
    """By number and share."""
    return pitplan.write_sensitivity(path, writing=PLAIN).set_index(["parameter", "change"])["undiscounted_cash_flow"]


def test_several_processes(plan_folder):
    """In the mill the blocks sell for 43,200 and 2,160 and cost 1,300 each; leaching the poor one gains less, 960 - 300. Of the recovery of
    0.9 no more than all can be more: 1 is a ninth more."""
    path = plan_folder(
        two_blocks(), PROJECT + RULES, *WITH, ("discount_rate = 0.1", "discount_rate = 0.1\nselected = 1.0")
    )
    worth = worths(path)
    assert worth[("", 0.0)] == pytest.approx(43_200 + 2_160 - 2 * 1_500)
    assert worth[("processing_cost", 0.2)] == pytest.approx(45_360 - 2 * 1_760)
    assert worth[("recovery", 0.2)] == pytest.approx(48_000 + 2_400 - 2 * 1_500)
    assert worth[("price", -0.1)] == pytest.approx(0.9 * 45_360 - 2 * 1_500)
    assert worth[("capacity", 0.2)] == worth[("", 0.0)]


def test_recoveries_by_grade_and_prices_of_years(plan_folder):
    """6 % recover 0.8, and a fifth more 0.96; 0.3 % recover 0.5 and 0.6. Each costs 1,200."""
    changes = [
        ("recovery = 0.5", "recovery = [[0.3, 0.5], [6, 0.8]]"),
        ("price = 8000", "price = 8000\nprices = [8000, 9000]"),
        BY,
    ]
    fixed = ("mining_cost = 2\n", "mining_cost = 2\nfixed_cost_per_year = 70\ncapex = [[1, 500]]\n")
    worth = worths(plan_folder(two_blocks(), PROJECT + RULES, *changes, fixed))
    assert worth[("", 0.0)] == pytest.approx(38_400 - 1_200)  # the poor block sells for 1,200 and costs as much
    assert worth[("recovery", 0.2)] == pytest.approx(46_080 + 1_440 - 2 * 1_200)
    assert worth[("price", 0.2)] == pytest.approx(1.2 * 39_600 - 2 * 1_200)


def test_prices_of_years_go_with_the_price(plan_folder):
    project = load(plan_folder(two_blocks(), PROJECT, ("price = 8000", "price = 8000\nprices = [8000, 9000]")))
    (metal,) = sensitivity.price(project, Decimal("1.5"), "").metals
    assert metal.price == 12_000 and metal.prices == (12_000, 13_500)


def test_recoveries_by_grade_end_at_all():
    curve = Curve(((Decimal(1), Decimal("0.5")), (Decimal(2), Decimal("0.9"))))
    assert sensitivity.recovered({"R": curve}, Decimal("1.2")) == {
        "R": Curve(((Decimal(1), Decimal("0.60")), (Decimal(2), Decimal(1))))
    }


def test_walls_of_benches(plan_folder):
    """Both looks agree of walls that are a fifth steeper and a tenth flatter than the benches' own."""
    domain = (
        '[[slopes.domains]]\npattern = "1:5"',
        "[[slopes.domains]]\nbench = { height = 20, face_angle = 65, berm_width = 9 }",
    )
    table = rows(9, 9, 3, cu=lambda i, j, k: 30 if (i, j, k) == (4, 4, 0) else 0)
    found = pitplan.write_sensitivity(plan_folder(table, PROJECT + RULES, domain, BY), writing=PLAIN).set_index(
        ["parameter", "change"]
    )["blocks"]
    assert found[("slopes", 0.2)] < found[("", 0.0)] <= found[("slopes", -0.1)]


def test_a_reblocked_table(plan_folder):
    """Both looks agree."""
    reblock = ('file = "blocks.csv"', 'file = "blocks.csv"\nreblock = [2, 1, 1]')
    path = plan_folder(two_blocks(), PROJECT + RULES, reblock, BY)
    assert worths(path)[("", 0.0)] == pytest.approx(24_000 - 2 * 1_200)  # beside each block one of waste is in it


def test_a_model_that_is_too_large_is_refused(plan_folder, monkeypatch):
    """What shells reach of it would be another in each case."""
    monkeypatch.setattr(pitplan.blockmodel.grid, "MOST_BLOCKS", 40)
    table = rows(12, 3, 2, cu=lambda i, j, k: 9 if (i, j, k) == (2, 1, 0) else 0)
    with pytest.raises(PlanError, match="each case would be cropped differently"):
        pitplan.write_sensitivity(plan_folder(table, PROJECT + RULES, BY), writing=PLAIN)


def test_a_zipped_table_is_written_back(plan_folder):
    path = plan_folder(two_blocks(), PROJECT, ('"blocks.csv"', '"blocks.zip"'))
    with zipfile.ZipFile(path.parent / "blocks.zip", "w") as packed:
        packed.write(path.parent / "blocks.csv", "blocks.csv")
    pitplan.write_shells(path, writing=PLAIN)
    written = pd.read_csv(pitplan.write_export(path.parent / "plan", "table"))
    assert written["name"].tolist() == two_blocks()["name"].tolist() and (written["revenue_factor"] > 0.0).sum() == 2
