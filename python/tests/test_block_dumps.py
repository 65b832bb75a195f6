"""`[[dumps]]` of schedules by block: the cases of `test_dumps.py`, worked by hand, refusals, and what the verification finds."""

import pandas as pd
import pytest
from conftest import rows
from helpers.block_commands import YEARLY, rewrite, scheduled, wrong, years_of
from helpers.dumps import BOTH, CASH, FAR, NEAR, THREE_YEARS, of_rocks, present
from helpers.pushbacks import pillars
from helpers.writings import PLAIN

import pitplan
from pitplan import PlanError, load


def taken(folder):
    """By dump what it takes in each year."""
    table = pd.read_csv(folder / "tables/dumps.csv")
    return {name: it["in_tonnes"].tolist() for name, it in table.groupby("dump")}


def shares(folder):
    """The shares of each block that is mined, by destination and name."""
    blocks = pd.read_csv(folder / "tables/blocks.csv").set_index("name").query("year > 0")
    return blocks.filter(like="share_").round(6)


def test_the_near_dump_fills_and_the_far_one_costs_more_by_hand(plan_folder):
    """One block lies in both dumps, half in each."""
    row, folder = scheduled(plan_folder, THREE_YEARS + BOTH)
    assert row["npv"] == pytest.approx(present(*CASH), abs=0.01) == row["upper_bound"]
    assert taken(folder) == {"near": [100, 50, 0], "far": [0, 50, 100]}
    dumps = pd.read_csv(folder / "tables/dumps.csv").set_index(["dump", "year"])
    assert dumps.loc["near", "closing_tonnes"].tolist() == [100, 150, 150]
    assert dumps.loc["near", "room_tonnes"].tolist() == [50, 0, 0] and dumps.loc["far", "room_tonnes"].isna().all()
    assert sorted(shares(folder)["share_near"]) == [0, 0, 0, 0, 0.5, 1]
    lines = pd.read_csv(folder / "tables/cash_flow.csv")
    assert lines["dump_cost"].tolist() == pytest.approx([100, 200, 300])
    assert lines["cash_flow"].tolist() == pytest.approx(CASH) == years_of(folder)["cash_flow"].tolist()
    inventory = pd.read_csv(folder / "tables/inventory.csv")
    assert set(inventory["destination"]) == {"near", "far", "mill"} and set(inventory["category"]) == {"ore", "waste"}


def test_the_price_of_a_capacity_is_what_a_tonne_of_room_saves(plan_folder):
    """In the second year, 3 - 1."""
    _, folder = scheduled(plan_folder, THREE_YEARS + BOTH)
    bound = pd.read_csv(folder / "tables/bound.csv").query("limit == 'dumped_near'")
    assert bound[["side", "year"]].to_numpy().tolist() == [["max", 0]]
    assert bound["price"].tolist() == pytest.approx([2 / 1.21], abs=1e-5)


def test_limits_of_periods_by_hand(plan_folder):
    """Near takes 60 t in the first year, 100 in the second, and the far one at least 70 in the third."""
    periods = "[[periods]]\ndumps = { near = { max = 60 } }\n[[periods]]\n[[periods]]\ndumps = { far = { min = 70 } }\n"
    row, folder = scheduled(plan_folder, THREE_YEARS + NEAR + FAR + periods)
    assert taken(folder) == {"near": [60, 100, 30], "far": [40, 0, 70]}
    value = present(2600 - 60 - 120, 1400 - 100, 600 - 30 - 210)
    assert row["npv"] == pytest.approx(value, abs=0.01) and row["upper_bound"] == pytest.approx(value, abs=0.01)
    bound = pd.read_csv(folder / "tables/bound.csv")
    limits = bound[bound["limit"].str.startswith("dump")].groupby(["limit", "side"]).size().to_dict()
    assert limits == {("dump_far", "min"): 3, ("dump_near", "max"): 3}


def test_rock_that_pays_nothing_may_be_mined_for_a_minimum(plan_folder):
    """One pillar has ore. Near takes at least 100 t in the third year: waste of another pillar, for 200 + 100, while the ore is mined at once."""
    table = pillars().assign(cu=lambda it: it["cu"].where(it["x"] == 5, 0))
    rules = f"{THREE_YEARS}milp = {{ gap = 0.0001, seconds = 60 }}\n"
    words = f"{rules}{NEAR}[[periods]]\n[[periods]]\n[[periods]]\ndumps = {{ near = {{ min = 100 }} }}\n"
    row, folder = scheduled(plan_folder, words, table=table)
    value = present(2600 - 100, 0, -300)
    assert row["npv"] == pytest.approx(value, abs=0.01) and row["upper_bound"] == pytest.approx(value, abs=0.01)
    assert taken(folder) == {"near": [100, 0, 100]}


def test_half_years_have_half_of_the_limits(plan_folder):
    """Near takes 60 t a year, which are 30 in a half-year."""
    words = "[[periods]]\nperiod_months = 6\ndumps = { near = { max = 60 } }\n"
    _, folder = scheduled(plan_folder, THREE_YEARS + NEAR + FAR + words)
    assert max(taken(folder)["near"]) == 30


def test_dumps_accept_rock_by_code_and_grade(plan_folder):
    """Near accepts fresh rock alone, and clean one up to 0.3 % of sulphur; the sulphur of the second pillar goes far."""
    clean = '[[dumps]]\nname = "clean"\ncost = 2\naccepts = { s_pct = { max = 0.3 } }\n'
    near = NEAR + 'accepts = { rock_type = "FR" }\ncapacity = 100\n'
    row, folder = scheduled(plan_folder, THREE_YEARS + near + clean + FAR, table=of_rocks())
    assert taken(folder) == {"near": [100, 0, 0], "clean": [0, 0, 100], "far": [0, 100, 0]}
    assert row["npv"] == pytest.approx(present(2500, 1400 - 300, 600 - 200), abs=0.01)


def test_the_mine_ends_when_its_dump_is_full(plan_folder):
    """With room for 150 t the waste of the second pillar finds none, so its ore is not reached."""
    row, folder = scheduled(plan_folder, THREE_YEARS + NEAR + "capacity = 150\n")
    assert row["npv"] == pytest.approx(2500 / 1.1, abs=0.01) and taken(folder) == {"near": [100]}
    # Half of the second pillar: its waste, then its ore.
    assert row["upper_bound"] == pytest.approx(present(2500, (1400 - 100) / 2), abs=0.01)


def test_ore_is_milled_at_a_loss_that_is_less_than_its_dump(plan_folder):
    """100 t of 0.2 % earn 800 - 1000 in the mill, and cost 300 in the dump. They lie over ore that pays 3000."""
    table = rows(1, 1, 2, cu=lambda i, j, k: (1.0, 0.2)[k])
    text = YEARLY.replace("processing_capacity = 100", "processing_capacity = 200")
    row, folder = scheduled(plan_folder, "[schedule]\nyears = 1\n" + FAR, text, table)
    assert row["npv"] == pytest.approx((3000 - 200 - 400) / 1.1, abs=0.01) and taken(folder) == {"far": [0]}
    row, _ = scheduled(plan_folder, "[schedule]\nyears = 1\n" + NEAR, text, table)
    assert row["npv"] == pytest.approx((3000 - 100 - 400) / 1.1, abs=0.01)


def test_barren_rock_is_not_milled_to_save_its_dump(plan_folder):
    """A dump costs more than milling would, but waste has no feed."""
    row, folder = scheduled(plan_folder, THREE_YEARS + '[[dumps]]\nname = "dear"\ncost = 20\n')
    assert taken(folder) == {"dear": [100]} and row["npv"] == pytest.approx((2600 - 2000) / 1.1, abs=0.01)


def test_a_free_dump_changes_no_value(plan_folder):
    found = []
    for words in ("", '[[dumps]]\nname = "any"\n'):
        row, folder = scheduled(plan_folder, THREE_YEARS + words)
        found.append([row["npv"], row["upper_bound"], *years_of(folder)["cash_flow"]])
    assert found[0] == pytest.approx(found[1], rel=1e-9)


def test_rock_that_no_dump_accepts_is_refused(plan_folder):
    words = THREE_YEARS + NEAR + 'accepts = { rock_type = "FR" }\n'
    project = load(plan_folder(of_rocks(), YEARLY + words))
    with pytest.raises(PlanError, match="none of near accepts 400 t of rock type OX"):
        pitplan.write_block_schedule(project, writing=PLAIN)


@pytest.mark.filterwarnings("error::RuntimeWarning")
def test_rock_outside_the_pit_needs_no_dump(plan_folder):
    """The third pillar's ore earns 80, less than its waste costs to mine; no dump accepts that waste, which stays."""
    table = pillars(rock=lambda i, j, k: "X" if k and i == 2 else "FR")
    table.loc[table["name"] == "b2-0-0", "cu"] = 0.32
    words = THREE_YEARS + NEAR + 'accepts = { rock_type = "FR" }\n'
    text = YEARLY.replace("[0.5, 1.0, 1.5]", "[0.5, 1.0]")
    row, folder = scheduled(plan_folder, words, text, table)
    assert row["npv"] == pytest.approx(present(2500, 1300), abs=0.01) and taken(folder) == {"near": [100, 100]}


@pytest.mark.parametrize(
    ("file", "column", "change", "rule"),
    [
        ("dumps.csv", "in_tonnes", lambda it: it + 1, "dumps"),
        ("dumps.csv", "room_tonnes", lambda it: it + 1, "dumps"),
        ("blocks.csv", "share_near", lambda it: it * 0.5, "dumps"),
        ("cash_flow.csv", "dump_cost", lambda it: it + 1, "cash flow"),
        ("bound.csv", "price", lambda it: it * 1.1, "upper bound"),
    ],
)
def test_the_verification_finds_a_changed_table(plan_folder, file, column, change, rule):
    _, folder = scheduled(plan_folder, THREE_YEARS + BOTH)
    rewrite(folder / f"tables/{file}", lambda table: table.__setitem__(column, change(table[column])))
    assert rule in wrong(folder)


def all_near(blocks):
    """Puts all waste into the near dump."""
    blocks["share_near"] += blocks["share_far"]
    blocks["share_far"] = 0.0


def test_the_verification_finds_a_dump_above_its_capacity(plan_folder):
    _, folder = scheduled(plan_folder, THREE_YEARS + BOTH)
    rewrite(folder / "tables/blocks.csv", all_near)
    assert {"dumps", "block value"} <= wrong(folder)


def test_the_verification_finds_rock_in_a_dump_that_does_not_accept_it(plan_folder):
    near = NEAR + 'accepts = { rock_type = "FR" }\n'
    _, folder = scheduled(plan_folder, THREE_YEARS + near + FAR, table=of_rocks())
    rewrite(folder / "tables/blocks.csv", all_near)
    assert "dumps" in wrong(folder)
