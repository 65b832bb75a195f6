"""`pitplan schedule --by block` with `[schedule.feed]` and `[processes.feed]`: by hand, and the verification."""

import json
import shutil

import pandas as pd
import pytest
from conftest import rows
from helpers.block_commands import WIDE, named_mill, rewrite, scheduled, with_processes, wrong, years_of
from helpers.pushbacks import pillars
from helpers.verified import differing
from helpers.writings import PLAIN

import pitplan

# The ore of three pillars of 1, 0.7 and 0.5 % copper, of 100 t each.
DIRTY = {"as_ppm": lambda i, j, k: 0 if k else (200, 100, 50)[i]}
FEED = "[schedule]\nyears = 3\n[schedule.feed]\nas_ppm = { max = 110 }\n"


def ores(copper, arsenic):
    """The pillars with other grades of their ore."""
    table = pillars(as_ppm=lambda i, j, k: 0 if k else arsenic[i])
    return table.assign(cu=rows(3, 1, 2, cu=lambda i, j, k: 0 if k else copper[i])["cu"])


def shares(folder, name="mill"):
    """The share of each pillar's ore that goes to a process."""
    blocks = pd.read_csv(folder / "tables/blocks.csv").set_index("name")
    return blocks[f"share_{name}"][["b0-0-0", "b1-0-0", "b2-0-0"]].tolist()


def test_a_maximum_by_hand(plan_folder):
    """90 ppm too much in the first ore, 10 and 60 too little in the others: 7/9 of the first go with them, and the rest is waste. Milled, a
    tonne of it is worth 30. The bound has 7/9 of its pillar mined."""
    row, folder = scheduled(plan_folder, FEED, WIDE, pillars(**DIRTY))
    value = (2600 + 1400 + 600 - 2 / 9 * 3000) / 1.1
    assert row["npv"] == pytest.approx(value)
    assert row["upper_bound"] == pytest.approx((7 / 9 * 2600 + 1400 + 600) / 1.1)
    assert shares(folder) == pytest.approx([7 / 9, 1, 1]) and years_of(folder)["head_grade_as_ppm"].tolist() == [110]
    assert json.loads((folder / "block_schedule.json").read_text())["feed"] == {"grade_as_ppm_max": 110}


def test_a_minimum_by_hand(plan_folder):
    """0.8 % copper: the first ore has 0.2 % more, the second 0.1 % less. What is left lets a third of the last one be milled, which does not
    pay for its mining."""
    row, folder = scheduled(plan_folder, "[schedule.feed]\ncu = { min = 0.8 }\n", WIDE)
    assert row["npv"] == pytest.approx(4000 / 1.1) and row["upper_bound"] >= row["npv"]
    assert shares(folder) == [1, 1, 0] and years_of(folder)["head_grade_cu"].tolist() == [0.85]


def test_clean_ore_that_does_not_pay_is_fed_for_the_grade(plan_folder):
    """The last ore holds 0.2 % copper: milled it loses 200, and mined 400 more. With it 1/2 of the first ore is milled, not 1/9: 7/18 of 3000 are
    more. The bound has half of its pillar mined."""
    table = ores([1, 0.7, 0.2], [200, 100, 75])
    row, folder = scheduled(plan_folder, FEED, WIDE, table)
    assert shares(folder) == pytest.approx([1 / 2, 1, 1])
    assert row["npv"] == pytest.approx((1500 - 400 + 1400 - 200 - 400) / 1.1)
    assert row["upper_bound"] == pytest.approx((2600 / 2 + 1400 - 200 - 400) / 1.1)


def test_barren_rock_is_not_fed_for_the_grade(plan_folder):
    """It recovers no copper, so it is never milled, however clean it is."""
    table = ores([1, 0, 0], [200, 0, 0])
    row, folder = scheduled(plan_folder, FEED, WIDE, table)
    assert row["npv"] == row["years"] == 0 and row["upper_bound"] == pytest.approx(0, abs=1e-6)


def test_dirty_ore_goes_to_the_process_without_a_limit(plan_folder):
    """A block earns 3000, 1800 and 1000 more in the mill than by leach, all together 6140 there; mining costs 1200."""
    text = with_processes().replace("capacity = 100\n", "capacity = 300\n")
    assert text.count('name = "mill"\n') == 1
    text = text.replace('name = "mill"\n', 'name = "mill"\nfeed = { as_ppm = { max = 110 } }\n')
    row, folder = scheduled(plan_folder, "[schedule]\nyears = 2\n", text, pillars(**DIRTY))
    assert row["npv"] == pytest.approx((6140 + 7 / 9 * 3000 + 2800 - 1200) / 1.1)
    assert shares(folder) == pytest.approx([7 / 9, 1, 1]) and shares(folder, "leach") == pytest.approx([2 / 9, 0, 0])
    assert years_of(folder)["head_grade_mill_as_ppm"].tolist() == [110]


def test_both_notations_of_one_mine_have_the_same_value_and_bound(plan_folder):
    plain, _ = scheduled(plan_folder, FEED, table=pillars(**DIRTY))
    words = "feed = { as_ppm = { max = 110 } }\n[schedule]\nyears = 3\n"
    named, folder = scheduled(plan_folder, words, named_mill(), pillars(**DIRTY))
    assert plain["npv"] == pytest.approx(named["npv"]) and plain["upper_bound"] == pytest.approx(named["upper_bound"])
    # Year 1 mills the second ore. Year 2 mines the waste over the others. Year 3 mills 40 t of the first and 60 t of the third ore: 110 ppm.
    assert shares(folder) == pytest.approx([0.4, 1, 0.6])
    assert plain["npv"] == pytest.approx(1400 / 1.1 - 400 / 1.21 + 1400 / 1.331)


# At most 110 ppm in the first year, and 200 from the second on.
OF_PERIODS = (
    "[schedule]\nyears = 3\n[[periods]]\nfeed = { as_ppm = { max = 110 } }\n"
    "[[periods]]\nfeed = { as_ppm = { max = 200 } }\n"
)


def test_a_maximum_by_period_by_hand(plan_folder):
    """The first ore has 200 ppm and waits for year 2: 2000 / 1.1 + 2600 / 1.21 is more than 3933 / 1.1 with 7/9 of it in year 1. The bound mines 7/9 of
    its pillar in year 1, and the rest in year 2."""
    row, folder = scheduled(plan_folder, OF_PERIODS, WIDE, pillars(**DIRTY))
    assert row["npv"] == pytest.approx(2000 / 1.1 + 2600 / 1.21)
    assert row["upper_bound"] == pytest.approx((7 / 9 * 2600 + 2000) / 1.1 + 2 / 9 * 2600 / 1.21)
    assert years_of(folder)["head_grade_as_ppm"].tolist() == [75, 200]
    assert json.loads((folder / "block_schedule.json").read_text())["feed"] == {
        "grade_as_ppm_max@110": 110,
        "grade_as_ppm_max@200": 200,
    }
    prices = pd.read_csv(folder / "tables/bound.csv").query("limit == 'grade_as_ppm_max@110'")
    assert prices["side"].tolist() == ["max"] * 3 and prices["price"].tolist()[1:] == [0, 0]


def test_periods_alike_are_one_limit(plan_folder):
    """Two periods with the limit of all years have its value and bound."""
    words = "[schedule]\nyears = 3\n" + 2 * "[[periods]]\nfeed = { as_ppm = { max = 110 } }\n"
    plain, _ = scheduled(plan_folder, FEED, table=pillars(**DIRTY))
    row, _ = scheduled(plan_folder, words, table=pillars(**DIRTY))
    assert row["npv"] == plain["npv"] and row["upper_bound"] == plain["upper_bound"]


def test_a_share_by_period(plan_folder):
    """The third pillar is of rock S, which may be a third of the feed in year 2 alone: in year 1 there is none. It waits, and so does one of the others,
    which goes with it, or it is left."""
    table = pillars().assign(rock=lambda it: ["S" if name.startswith("b2") else "R" for name in it["name"]])
    words = "[schedule]\nyears = 2\n[[periods]]\nfeed = { rock_type = { S = { max = 0 } } }\n[[periods]]\nfeed = { rock_type = { S = { max = 1 } } }\n"
    row, folder = scheduled(plan_folder, words, WIDE, table)
    assert row["npv"] == pytest.approx((2600 + 1400) / 1.1 + 600 / 1.21)
    assert years_of(folder)["head_grade_rock_type_S"].tolist() == [0, 1]


def test_another_limit_of_a_period_is_found(plan_folder):
    """A folder whose project has 70 ppm in year 1, where its schedule has 75."""
    _, folder = scheduled(plan_folder, OF_PERIODS, WIDE, pillars(**DIRTY))
    path = folder / "project-as-run.toml"
    text = path.read_text()
    assert text.count("max = 110") == 1
    path.write_text(text.replace("max = 110", "max = 70"))
    assert differing(folder, "block limits", "upper bound") == {"block limits", "upper bound"}


@pytest.fixture(scope="module")
def written(tmp_path_factory):
    place = tmp_path_factory.mktemp("mixed")
    pillars(**DIRTY).to_csv(place / "blocks.csv", index=False)
    (place / "project.toml").write_text(WIDE + FEED)
    pitplan.write_block_schedule(place / "project.toml", writing=PLAIN)
    return place


@pytest.fixture
def mixed(written, tmp_path):
    return shutil.copytree(written, tmp_path / "mine") / "plan" / "block_schedule"


def test_a_head_grade_above_its_limit_is_found(mixed):
    rewrite(mixed / "tables/blocks.csv", lambda table: table.__setitem__("share_mill", (table["cu"] > 0) * 1.0))
    assert differing(mixed, "block limits")


def test_a_head_grade_that_is_not_that_of_the_blocks_is_found(mixed):
    rewrite(mixed / "tables/years.csv", lambda table: table.__setitem__("head_grade_as_ppm", 109.9))
    assert wrong(mixed) == {"block limits"}


def test_another_recorded_limit_is_found(mixed):
    told = json.loads((mixed / "block_schedule.json").read_text())
    (mixed / "block_schedule.json").write_text(json.dumps(told | {"feed": {"grade_as_ppm_max": 120}}))
    assert wrong(mixed) == {"block limits"}


@pytest.mark.parametrize("change", [lambda price: price * 0.5, lambda price: price + 0.1, lambda price: -price])
def test_other_multipliers_of_a_head_grade_are_found(mixed, change):
    """Those of the first year, in which all is mined."""
    table = pd.read_csv(mixed / "tables/bound.csv", float_precision="round_trip")
    mine = (table["limit"] == "grade_as_ppm_max") & (table["year"] == 1)
    assert mine.sum() == 1 and (table["price"][mine] > 0).all()
    table.loc[mine, "price"] = change(table["price"][mine])
    table.to_csv(mixed / "tables/bound.csv", index=False)
    assert wrong(mixed) == {"upper bound", "feed and limits"}
