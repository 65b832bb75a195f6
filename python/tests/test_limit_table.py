"""limits.csv: what years use of limits, and shadow prices worked by hand."""

import pandas as pd
import pytest
from conftest import PROJECT, rows
from helpers.processes import deposit
from helpers.verified import differing, wrong
from helpers.writings import UNVERIFIED

import pitplan

SCHEDULE = "[pushbacks]\ncount = 1\nultimate_pit = 1.0\n[schedule]\nyears = 4\n"


def limits_of(folder):
    return pd.read_csv(folder / "tables/limits.csv").set_index(["method", "limit", "year"])


@pytest.fixture
def scheduled(plan_folder):
    """Schedules a project, and demands that its folder is right; gives the folder."""

    def write(table, more="", *changes):
        path = plan_folder(table, PROJECT + SCHEDULE + more, *changes)
        pitplan.write_schedule(path, folder=path.parent / "plan", writing=UNVERIFIED)
        assert wrong(path.parent / "plan") == set()
        return path.parent / "plan"

    return write


def test_shadow_prices_of_a_mill_by_hand(scheduled):
    """100 t of ore earn 3200 - 1000 - 200: 20 a tonne, in years 1 to 3 with 40 t a year. A tonne more of the mill in year 1 is processed two
    years earlier, in year 2 one year, and in year 3 nothing waits."""
    folder = scheduled(
        rows(1, 1, 1, cu=lambda i, j, k: 0.8), "", ("processing_capacity = 100", "processing_capacity = 40")
    )
    table = limits_of(folder).loc["lp"].loc["feed_tonnes"]
    assert table["used"].tolist() == pytest.approx([40, 40, 20]) and table["maximum"].tolist() == [40, 40, 40]
    assert table["utilisation"].tolist() == pytest.approx([1, 1, 0.5]) and table["minimum"].isna().all()
    assert table["shadow_price"].tolist() == pytest.approx([20 - 20 / 1.21, 20 - 20 / 1.1, 0], abs=1e-5)


def test_the_price_of_a_minimum_by_hand(scheduled):
    """100 t of ore, all of which would be processed in year 1. A minimum of 30 t in year 2 costs what they lose by waiting a year."""
    more = "[[periods]]\n[[periods]]\nminimum = { feed = 30 }\n[[periods]]\n"
    table = limits_of(scheduled(rows(1, 1, 1, cu=lambda i, j, k: 0.8), more)).loc["lp"].loc["feed_tonnes"]
    assert table["used"].tolist() == pytest.approx([70, 30]) and table["minimum"].tolist() == [0, 30]
    assert table["shadow_price"].tolist() == pytest.approx([0, -(20 * 1.1 - 20)], abs=1e-5)


def test_the_advance_of_pushbacks_and_unused_limits(scheduled):
    table = limits_of(
        scheduled(rows(1, 1, 2, cu=lambda i, j, k: 0.8), "vertical_advance_rate = 1\nmining_capacity = 1000\n")
    )
    rock, advance = (table.loc["lp"].loc[name] for name in ("total_tonnes", "vertical_advance_1"))
    assert advance["used"].tolist() == pytest.approx([1, 1]) and advance["utilisation"].tolist() == pytest.approx(
        [1, 1]
    )
    assert rock["utilisation"].tolist() == pytest.approx([0.1, 0.1]) and rock["shadow_price"].tolist() == [0, 0]


GRADES = "[schedule.feed]\nas_ppm = { max = 140 }\n"


def test_a_head_grade_has_its_grade_and_a_price_per_unit_of_it(scheduled):
    """50 t with 200 ppm and 100 t with 80 are blended to at most 140: the whole of both has 120, so that the limit costs nothing."""
    table = rows(3, 1, 1, cu=lambda i, j, k: 0.8, as_ppm=lambda i, j, k: 200 if i == 0 else 80)
    table["tonnes"] = [50, 50, 50]
    found = limits_of(scheduled(table, GRADES, ("processing_capacity = 100", "processing_capacity = 150"))).loc["lp"]
    grade = found.loc["grade_as_ppm_max"]
    assert grade["used"].tolist() == pytest.approx([120]) and grade["maximum"].tolist() == [140]
    assert grade["utilisation"].isna().all() and grade["shadow_price"].tolist() == pytest.approx([0], abs=1e-6)


def test_a_binding_head_grade_has_a_price_by_hand(scheduled):
    """100 t with 200 ppm and 50 t with 80 in one year of one bench: x t of the first with 200 x + 80 * 50 = 140 (x + 50), so 50 t. A ppm more
    lets 100 / 60 t more of them in, each worth 32 less 10."""
    table = rows(2, 1, 1, cu=lambda i, j, k: 0.8, as_ppm=lambda i, j, k: 200 if i == 0 else 80)
    table["tonnes"] = [100, 50]
    more = GRADES.replace("[schedule.feed]", "[schedule.feed]")
    changes = [("processing_capacity = 100", "processing_capacity = 150"), ("years = 4", "years = 1")]
    found = limits_of(scheduled(table, more, *changes)).loc["lp"].loc["grade_as_ppm_max"]
    assert found["used"].tolist() == pytest.approx([140]) and found["shadow_price"].tolist() == pytest.approx(
        [100 / 60 * 22]
    )


def test_a_changed_number_is_found(scheduled):
    """In each column of numbers."""
    changes = [("mining_cost = 2\n", "mining_cost = 0.3\n"), ("processing_capacity = 100", "processing_capacity = 400")]
    folder = scheduled(deposit(), "minimum = { feed = 1 }\nmining_capacity = 20000\n[[periods]]\n", *changes)
    path = folder / "tables/limits.csv"
    table = pd.read_csv(path)
    for column in ("used", "minimum", "maximum", "utilisation", "shadow_price"):
        bent = table.copy()
        at = table.index[table[column].notna() & (table["limit"] == "feed_tonnes")][0]
        bent.loc[at, column] += 0.01
        bent.to_csv(path, index=False)
        (rule,) = [rule for rule in pitplan.verify(folder) if rule.differences]
        assert rule.name == "schedule limits" and "limits.csv: lp, year" in rule.differences[0], column


def test_a_missing_row_is_found(scheduled):
    folder = scheduled(rows(1, 1, 1, cu=lambda i, j, k: 0.8))
    path = folder / "tables/limits.csv"
    pd.read_csv(path).iloc[1:].to_csv(path, index=False)
    assert differing(folder, "schedule limits")


def test_a_share_of_a_material_in_the_feed_is_a_head_grade_of_a_calculated_column(scheduled):
    """At most 40 % of the feed is of rock S. The mill takes 50 t of R and as much of S as two thirds of that."""
    table = rows(2, 1, 1, cu=lambda i, j, k: 0.8, rock=lambda i, j, k: "RS"[i])
    table["tonnes"] = 50
    more = "[schedule.feed]\nis_s = { max = 0.4 }\n"
    calculated = ('rock_type = "rock"\n', 'rock_type = "rock"\ncalculate = { is_s = "if(rock == \'S\', 1, 0)" }\n')
    folder = scheduled(table, more, calculated, ("years = 4", "years = 1"))
    found = limits_of(folder).loc["lp"]
    assert found.loc["grade_is_s_max"]["used"].tolist() == pytest.approx([0.4])
    assert found.loc["feed_tonnes"]["used"].tolist() == pytest.approx([50 + 50 * 2 / 3])
