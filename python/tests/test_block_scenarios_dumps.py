"""`scenarios --by block` with `[[dumps]]`: cases worked by hand, refusals, and what the verification finds."""

import json
import shutil

import numpy as np
import pandas as pd
import pytest
from helpers.block_scenarios import COLUMNS, TWO_YEARS, pillars, prepared, solved_in_turn
from helpers.dumps import BOTH, FAR, NEAR
from helpers.verified import wrong
from helpers.verified_scenarios import answer_of, bend
from helpers.writings import PLAIN

import pitplan
from pitplan import PlanError
from pitplan.studies.scenarios import worker

RICH, POOR = [1, 0.5, 1], [0, 0.5, 0]
# The codes of rock and the domains of three pillars: the middle one is of another.
ROCKS, DOMAINS = ["FR", "OX", "FR"] * 2, ["1", "2", "1"] * 2


def answered(plan_folder, table, words, *changes):
    return solved_in_turn(prepared(plan_folder(table, TWO_YEARS + words, *changes)))


def rows_of(folder, name="schedules"):
    return pd.read_csv(folder / f"tables/{name}.csv")


def years_of(folder, model):
    return rows_of(folder, "common_schedule_years").query("realisation == @model").set_index("year")


def shares_of(folder):
    return rows_of(folder, "common_schedule").set_index("name").query("year > 0").filter(like="share_").round(6)


def test_the_near_dump_fills_and_the_far_one_costs_more_by_hand(plan_folder):
    """The own schedule of each model mines a pillar in each of two years, with 100 t of waste each; the near dump has room for 150 t. The common
    schedule mines the outer pillars first: 300 t of waste and 100 t of ore in each model, and then 100 t of waste."""
    folder = answered(plan_folder, pillars([1, 0.5, 0], [0, 0.5, 1]), BOTH)
    table, record = rows_of(folder), json.loads((folder / "common_schedule.json").read_text())
    assert table["npv"].tolist() == pytest.approx([2500 / 1.1 + 400 / 1.21] * 2) == table["upper_bound"].tolist()
    assert table[["dump_near", "dump_far"]].to_numpy().tolist() == [[150, 50]] * 2
    common = (3000 - 800 - 150 - 450) / 1.1 + (600 - 300) / 1.21
    assert table["common_npv"].tolist() == pytest.approx([common] * 2)
    assert record["npv_as_planned"] == pytest.approx(common, abs=1e-3)
    assert record["dumps"] == {"near": 150, "far": 250} and not table["common_excess_waste_tonnes"].any()
    years = years_of(folder, "sim_1")
    assert years[["dump_near", "dump_far"]].to_numpy().tolist() == [[150, 150], [0, 100]]
    assert years["cash_flow"].tolist() == pytest.approx([1600, 300])
    found = shares_of(folder)
    assert found["share_mill"].tolist() == [0, 0, 0, 1, 1, 1]
    assert (found["share_near"] + found["share_far"]).tolist() == [1] * 6


def test_a_scenario_with_more_waste_than_its_dump_holds_by_hand(plan_folder):
    """The outer pillars are rich in one model and waste in the other: 300 t of waste in the first year, or 400; and 100 t in the second. The dump has room
    for 400 t. The second model overfills it by 100 t in the second year, and is named in a warning."""
    path = plan_folder(pillars(RICH, POOR), TWO_YEARS + NEAR + "capacity = 400\n")
    folder = solved_in_turn(prepared(path))
    with pytest.warns(pitplan.PlanWarning, match="in 1 scenario the dumps take more than their limits, up to 100 t"):
        pitplan.gather(folder, writing=PLAIN)
    table = rows_of(folder)
    assert table["common_excess_waste_tonnes"].tolist() == [0, 100]
    assert table["common_npv"].tolist() == pytest.approx([1900 / 1.1 + 500 / 1.21, -1200 / 1.1 + 500 / 1.21])
    years = years_of(folder, "sim_2")
    assert years[["dump_near", "excess_waste_tonnes"]].to_numpy().tolist() == [[400, 0], [100, 100]]


def test_ore_of_some_models_falls_back_on_the_dump_with_room(plan_folder):
    """Near takes 100 t a year: the waste of the pillar. The ore of one model is waste of the other, which goes to the far dump there."""
    words = NEAR + FAR + "[[periods]]\ndumps = { near = { max = 100 } }\n"
    folder = answered(plan_folder, pillars([1, 0, 0], [0, 0, 0]), words, ("years = 2", "years = 1"))
    gains = [3000 - 400 - 100, -400 - 100 - 300]
    assert rows_of(folder)["common_npv"].tolist() == pytest.approx([it / 1.1 for it in gains])
    record = json.loads((folder / "common_schedule.json").read_text())
    assert record["npv_as_planned"] == pytest.approx(sum(gains) / 2 / 1.1, abs=1e-3)
    assert record["dumps"] == {"near": 100, "far": 50}
    found = shares_of(folder)
    assert found.loc["b0-0-0", ["share_mill", "share_far"]].tolist() == [1, 1]
    assert found["share_near"].tolist() == [1, 0]


@pytest.mark.parametrize("words", ['rock_type = ["FR"]', 'domain = ["1"]', "s_pct = { max = 0.3 }"])
def test_a_dump_takes_what_it_accepts_in_each_scenario(plan_folder, words):
    """Near does not accept the middle pillar: its waste costs 3 a tonne."""
    table = pillars([1, 0.5, 0], [1, 0.5, 0]).assign(rock=ROCKS, region=DOMAINS, s_pct=[0.1, 0.4, 0.1] * 2)
    folder = answered(plan_folder, table, f"{NEAR}accepts = {{ {words} }}\n{FAR}")
    assert rows_of(folder)["npv"].tolist() == pytest.approx([2500 / 1.1 + 300 / 1.21] * 2)
    assert rows_of(folder)["common_npv"].tolist() == pytest.approx([2500 / 1.1 + 300 / 1.21] * 2)
    assert rows_of(folder)[["dump_near", "dump_far"]].to_numpy().tolist() == [[100, 100]] * 2
    found = shares_of(folder)
    assert found.loc[["b0-0-1", "b1-0-1"], ["share_near", "share_far"]].to_numpy().tolist() == [[1, 0], [0, 1]]


def test_a_dump_may_accept_by_a_simulated_grade(plan_folder):
    """Near accepts rock with at most 0.1 % of copper. Ore of 0.15 % does not pay: it is far in one model, and near in that without it."""
    words = f"{NEAR}accepts = {{ cu = {{ max = 0.1 }} }}\n{FAR}"
    table = pillars([0.15, 1, 0], [0, 1, 0]).assign(must=[1, 0, 0, 0, 0, 0])
    folder = answered(plan_folder, table, words + '[constraints]\nmust_mine = "must"\n')
    assert rows_of(folder)[["dump_near", "dump_far"]].to_numpy().tolist() == [[200, 100], [300, 0]]
    assert years_of(folder, "sim_2")["dump_far"].sum() == 0 and years_of(folder, "sim_1")["dump_far"].sum() == 100


def test_ore_is_milled_at_a_loss_if_its_dump_costs_more(plan_folder):
    """At 0.24 % a block yields 960 for 1000; the dump costs 300."""
    folder = answered(
        plan_folder,
        pillars([1, 0, 0.24], [1, 0, 0.24]).assign(must=[0, 0, 1, 0, 0, 0]),
        FAR + '[constraints]\nmust_mine = "must"\n',
    )
    assert rows_of(folder)["feed_tonnes"].tolist() == [200, 200] and rows_of(folder)["dump_far"].tolist() == [200, 200]


def test_rock_that_no_dump_accepts_is_named_with_its_scenario(plan_folder):
    table = pillars([1, 0.5, 0], [1, 0, 0]).assign(rock=ROCKS)
    shared = prepared(plan_folder(table, TWO_YEARS + NEAR + 'accepts = { rock_type = ["FR"] }\n'))
    one, other, _ = [worker.solve(str(shared.folder), job.number) for job in shared.jobs]
    assert "sim_1: " in one.why and "[[dumps]] accepts: none of near accepts 200 t of rock type OX" in one.why
    assert "let a dump accept it, or add a dump without accepts" in one.why and other.why == ""


def test_the_minimum_of_a_dump_is_refused(plan_folder):
    path = plan_folder(pillars(RICH), TWO_YEARS + NEAR + "[[periods]]\ndumps = { near = { min = 10 } }\n")
    with pytest.raises(
        PlanError, match=r"\[\[periods\]\] dumps min: a common schedule cannot meet it in each scenario: remove it"
    ):
        prepared(path)


def test_a_process_may_accept_by_domain(plan_folder):
    """The middle pillar is of another domain, which the mill does not take."""
    mill = '[[processes]]\nname = "mill"\ncost = 10\nrecovery = { copper = 0.5 }\ncapacity = 100\naccepts = { domain = ["1"] }\n'
    changes = [("processing_cost = 10\n", ""), ("recovery = 0.5\n", ""), ("processing_capacity = 100\n", "")]
    table = pillars([1, 0.5, 0], [1, 0.5, 0]).assign(region=DOMAINS)
    folder = answered(plan_folder, table, "", *changes, (COLUMNS, COLUMNS + mill))
    assert rows_of(folder)["npv"].tolist() == pytest.approx([2600 / 1.1] * 2)


@pytest.fixture(scope="module")
def gathered(tmp_path_factory):
    """Two models, a near dump with a limit of periods and a far one of fresh rock; one model exceeds the limits by 80 t."""
    place = tmp_path_factory.mktemp("dumped")
    pillars(RICH, POOR).assign(rock=ROCKS).to_csv(place / "blocks.csv", index=False)
    far = FAR + 'capacity = 100\naccepts = { rock_type = ["FR"] }\n'
    periods = "[[periods]]\ndumps = { near = { max = 250 } }\n"
    (place / "project.toml").write_text(TWO_YEARS + NEAR + "capacity = 320\n" + far + periods)
    with pytest.warns(pitplan.PlanWarning, match="in 1 scenario the dumps take more than their limits"):
        solved_in_turn(prepared(place / "project.toml"))
    return place


@pytest.fixture
def copied(gathered, tmp_path):
    return shutil.copytree(gathered, tmp_path / "mine") / "plan" / "block_scenarios"


def test_what_is_written_is_verified(copied):
    assert wrong(copied) == set()


@pytest.mark.parametrize(
    ("name", "column", "rule"),
    [
        ("schedules", "dump_near", "tables"),
        ("schedules", "common_excess_waste_tonnes", "tables"),
        ("common_schedule", "share_near", "tables"),
        ("common_schedule_years", "dump_near", "one schedule"),
        ("common_schedule_years", "dump_far", "one schedule"),
        ("common_schedule_years", "excess_waste_tonnes", "one schedule"),
        ("common_schedule_years", "cash_flow", "one schedule"),
        ("common_schedule_years", "feed_tonnes", "one schedule"),
    ],
)
def test_each_number_that_is_bent_is_found(copied, name, column, rule):
    table = rows_of(copied, name)
    at = table.index[table[column] > 0][-1]
    table[column] = table[column].where(table.index != at, table[column] + 0.05)
    table.to_csv(copied / f"tables/{name}.csv", index=False)
    assert rule in wrong(copied)


def test_the_record_of_what_dumps_take_is_verified(copied):
    path = copied / "common_schedule.json"
    said = json.loads(path.read_text())
    path.write_text(json.dumps(said | {"dumps": said["dumps"] | {"far": 1.0}}))
    assert wrong(copied) == {"tables"}


@pytest.mark.parametrize(
    ("old", "new"),
    [("capacity = 320", "capacity = 90"), ("max = 250", "max = 60"), ("cost = 1\n", "cost = 1.5\n"), ('"FR"', '"OX"')],
)
def test_a_project_with_other_dumps_is_found(copied, old, new):
    path = copied / "project.toml"
    text = path.read_text()
    assert old in text
    path.write_text(text.replace(old, new))
    assert "block value" in wrong(copied)


def test_a_block_that_is_lost_on_the_way_is_found(copied):
    bend(answer_of(copied, 1), share=lambda it: it * np.where(np.arange(len(it)) == 0, 0.5, 1.0)[:, None])
    assert "block order" in wrong(copied)


def test_two_prices_of_room_are_no_error(plan_folder):
    """A year's limit of 0 leaves a dump without room: waste waits for the next year."""
    words = NEAR + "[[periods]]\ndumps = { near = { max = 0 } }\n[[periods]]\ndumps = { near = { max = 300 } }\n"
    folder = answered(plan_folder, pillars([1, 0.5, 0], [1, 0.5, 0]), words)
    assert rows_of(folder)["common_npv"].tolist() == pytest.approx([2500 / 1.21] * 2)


def test_dumps_are_part_of_the_key_of_a_result(plan_folder):
    table, keys = pillars([1, 0.5, 0]), []
    for words in ("", NEAR, NEAR + "capacity = 150\n"):
        keys.append([job.key for job in prepared(plan_folder(table, TWO_YEARS + words)).jobs])
    assert len({key for of_run in keys for key in of_run}) == 6


def test_scenarios_that_lack_a_common_schedule_are_no_tables(plan_folder):
    """Must-mine blocks find no room in the dump, so the common schedule is infeasible."""
    words = NEAR + 'capacity = 50\n[constraints]\nmust_mine = "must"\n'
    table = pillars([0, 0, 0], [0, 0, 0]).assign(must=[1, 0, 0, 0, 0, 0])
    shared = prepared(plan_folder(table, TWO_YEARS + words))
    assert all("infeasible" in worker.solve(str(shared.folder), job.number).why for job in shared.jobs)
    with pytest.raises(PlanError, match="schedules have no result, first sim_1: infeasible"):
        pitplan.gather(shared.folder, writing=PLAIN)
