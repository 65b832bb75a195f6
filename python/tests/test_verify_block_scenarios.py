"""The second look at schedules over scenarios: what is right passes, and each wrong answer, number and mistake in the code is found."""

import json
import re
import shutil
from dataclasses import replace

import numpy as np
import pandas as pd
import pytest
from conftest import PROJECT
from helpers.block_problems import problem_of
from helpers.block_scenarios import TWO_YEARS, pillars, prepared, solved_in_turn
from helpers.random_projects import pick, project_of, table_of
from helpers.random_tests import seeds
from helpers.verified import TEXT, wrong
from helpers.verified_scenarios import SETS, answer_of, bend, simulated
from helpers.writings import PLAIN

from pitplan import PlanError, gather, verify as verify_folder
from pitplan.cli import main
from pitplan.scheduling.blocks import filling
from pitplan.studies.scenarios import worker as work
from pitplan.studies.scenarios.blocks import tables, worker
from planaudit.schedules.best_ore import most_earned

LIMITS = ("processing_capacity = 150\nmining_capacity = 1000", "processing_capacity = 300\nmining_capacity = 9000")
YEARLY = TEXT.replace("discount_rate = 0.1", 'discount_rate = 0.1\ndiscounting = "mid_year"').replace(*LIMITS)
RULES = ["blocks", "missing blocks", "slope error", "scenarios", "block order", "block value", "one schedule", "tables"]


@pytest.fixture(scope="module")
def gathered(tmp_path_factory):
    """Three models of a hill at two sets of prices, with fixed blocks, two metals, a ramp-up and a limit of metal."""
    place = tmp_path_factory.mktemp("scheduled")
    simulated().to_csv(place / "blocks.csv", index=False)
    text = YEARLY + "[schedule]\nramp_up = [0.5, 1.0]\nyears = 4\nmax_metal_per_year = { gold = 60 }\n"
    (place / "project.toml").write_text(text + '[scenarios]\ncolumns = { copper = "cu_*" }\n' + SETS)
    solved_in_turn(prepared(place / "project.toml"))
    return place


@pytest.fixture
def copied(gathered, tmp_path):
    return shutil.copytree(gathered, tmp_path / "mine") / "plan" / "block_scenarios"


def one_of(folder):
    return folder / "done" / f"{json.loads((folder / 'scenarios.json').read_text())['mean']['key']}.npz"


def test_what_is_right_is_told_rule_by_rule(copied, capsys):
    assert main(["verify", str(copied)]) == 0
    *lines, verdict = capsys.readouterr().out.splitlines()
    assert verdict == f"verified: all {len(RULES)} rules hold"
    assert [line.split(":")[0] for line in lines] == RULES
    said = json.loads((copied / "gathered.json").read_text())
    assert said["answers"] == [1, 2, 3, 4, 5, 6] and said["verified"] == lines
    table = pd.read_csv(copied / "tables/schedules.csv")
    assert (table["common_unprocessed_tonnes"] > 0).all() and (table["npv"] > 0).sum() == 4
    assert "in the common schedule and 6 of 6 others no block is mined before its slope cone" in lines[4]


def top_last(year):
    """A block of the highest level that is dug in the first year is dug in the last, behind those that need it."""
    bent = year.copy()
    bent[np.flatnonzero(year == 1)[-1]] = 4
    return bent


def first_amount(by):
    """The value, which stands first."""
    return lambda amounts: amounts + by * (np.arange(len(amounts)) == 0)


@pytest.mark.parametrize(
    ("number", "changed", "found"),
    [
        (1, {"year": top_last}, {"block order", "block value"}),
        (2, {"share": lambda it: it * 0.9}, {"block value"}),
        (4, {"share": lambda it: it + 0.5 * (it > 0)}, {"block order", "block value"}),
        (4, {"year": lambda it: it + 9 * (it == it.max())}, {"block order", "block value"}),
        (4, {"amounts": first_amount(1.0)}, {"block value", "tables"}),
    ],
)
def test_each_wrong_answer_is_found_and_not_gathered(copied, capsys, number, changed, found):
    bend(answer_of(copied, number), **changed)
    assert found <= wrong(copied)
    before = (copied / "tables/schedules.csv").read_bytes()
    assert main(["gather", str(copied), "--quiet", "--no-figures"]) == 1
    assert "pitplan: " in capsys.readouterr().err and (copied / "tables/schedules.csv").read_bytes() == before


def test_a_bound_below_what_is_earned_is_found(copied):
    """That of the first scenario is half of what it was."""

    def half(amounts):
        return np.where(np.arange(len(amounts)) == 1, amounts / 2, amounts)

    bend(answer_of(copied, 1), amounts=half)
    found = {rule.name: rule.differences for rule in verify_folder(copied)}
    assert any("is above bound" in said for said in found["block value"])
    assert any(
        "the common schedule has an NPV of" in said and "above the bound" in said for said in found["one schedule"]
    )


@pytest.mark.parametrize(
    "changed", [{"year": top_last}, {"share": lambda it: it * 0.9}, {"amounts": first_amount(1.0)}]
)
def test_a_wrong_schedule_for_all_is_found(copied, changed):
    bend(one_of(copied), **changed)
    assert {"block value", "tables"} <= wrong(copied)


@pytest.mark.parametrize(
    ("old", "new"), [("mining_capacity = 9000", "mining_capacity = 3000"), ("gold = 60", "gold = 20")]
)
def test_a_year_above_a_limit_is_found(copied, old, new):
    """By a project whose limit is less than that by which schedules were made."""
    path = copied / "project.toml"
    text = path.read_text()
    assert text.count(old) == 1
    path.write_text(text.replace(old, new))
    (rule,) = [rule for rule in verify_folder(copied) if rule.name == "block value"]
    name = "total_tonnes" if "mining" in old else "recovered_gold"
    assert any(f": {name} " in said and f"above {new.split()[-1]}" in said for said in rule.differences)


@pytest.mark.parametrize(("column", "year"), [("must", 0), ("never", 1)])
def test_a_fixed_block_that_is_not_kept_is_found(copied, column, year):
    """One of the highest level, over which no block stands, in the one schedule."""
    row = np.flatnonzero(simulated()[column] == 1)[-1]
    bend(one_of(copied), year=lambda it: np.where(np.arange(len(it)) == row, year, it).astype(it.dtype))
    (rule,) = [rule for rule in verify_folder(copied) if rule.name == "block order"]
    assert rule.differences == (
        f"the common schedule: block {simulated()['name'].iloc[row]}: year {year}, share processed 0",
    )


def test_the_schedule_of_another_scenario_is_found(copied):
    """That of the same model at other prices, under the key of the one."""
    with np.load(answer_of(copied, 2)) as answer:
        arrays = {**answer, "key": answer_of(copied, 1).stem}
    np.savez_compressed(answer_of(copied, 1), **arrays)
    assert "block value" in wrong(copied)


@pytest.mark.parametrize(
    ("file", "column", "rule"),
    [
        ("tables/common_schedule.csv", "id", "blocks"),
        ("tables/common_schedule.csv", "year", "tables"),
        ("tables/common_schedule.csv", "share_mill", "tables"),
        *(
            ("tables/schedules.csv", name, "tables")
            for name in ("price_gold", "npv", "upper_bound", "optimality_gap", "years", "blocks", "tonnes")
        ),
        *(
            ("tables/schedules.csv", name, "tables")
            for name in ("feed_tonnes", "recovered_gold", "common_npv", "common_feed_tonnes", "common_years_short")
        ),
        ("tables/schedules.csv", "common_unprocessed_tonnes", "tables"),
        *(
            ("tables/common_schedule_years.csv", name, "one schedule")
            for name in ("total_tonnes", "feed_tonnes", "planned_feed_tonnes", "cash_flow")
        ),
        ("tables/common_schedule_years.csv", "discounted_cash_flow", "one schedule"),
        ("tables/common_schedule_years.csv", "price_copper", "tables"),
        *(
            ("tables/quantiles.csv", name, "tables")
            for name in ("realisations", "npv_mean", "upper_bound_least", "common_npv_greatest")
        ),
        *(("tables/quantiles.csv", f"common_npv_quantile_{share}", "tables") for share in (0.1, 0.5, 0.9)),
    ],
)
def test_each_number_that_is_bent_is_found(copied, file, column, rule):
    """A little more in the last row that has the number."""
    table = pd.read_csv(copied / file)
    at = table.index[table[column] > 0][-1]
    bent = table.loc[at, column] + (
        1 if column in ("blocks", "id", "realisations", "years", "year", "common_years_short") else 0.05
    )
    table[column] = table[column].where(table.index != at, bent)
    table.to_csv(copied / file, index=False)
    assert rule in wrong(copied)


def test_statuses_none_of_which_is_so_are_found(copied):
    pd.read_csv(copied / "tables/schedules.csv", dtype=str).assign(status="killed").to_csv(
        copied / "tables/schedules.csv", index=False
    )
    assert "tables" in wrong(copied)


def test_a_status_and_a_model_that_are_not_so_are_found(copied):
    table = pd.read_csv(copied / "tables/schedules.csv", dtype=str)
    for column in ("status", "realisation"):
        table.assign(**{column: table[column].where(table.index != 2, "other")}).to_csv(
            copied / "tables/schedules.csv", index=False
        )
        assert "tables" in wrong(copied)


@pytest.mark.parametrize(
    ("name", "change"),
    [
        ("perfect_information", lambda it: it + 1),
        ("npv_as_planned", lambda it: it + 1),
        ("upper_bound_as_planned", lambda it: it + 1),
        ("years", lambda it: it + 1),
        ("answered", lambda it: it - 1),
        ("ramp_up", lambda it: [1.0]),
        ("limits", lambda it: it | {"feed_tonnes": 5.0}),
        *((name, lambda it: it | {"mean": it["mean"] + 1}) for name in ("npv", "upper_bound", "common_npv")),
    ],
)
def test_each_number_of_the_record_that_is_bent_is_found(copied, name, change):
    told = json.loads((copied / "common_schedule.json").read_text())
    (copied / "common_schedule.json").write_text(json.dumps(told | {name: change(told[name])}))
    assert wrong(copied) == {"tables"}


def test_a_table_that_has_changed_is_found(copied):
    path = copied.parent.parent / "blocks.csv"
    table = pd.read_csv(path)
    ore = table["cu_a"].idxmax()
    table.assign(cu_a=table["cu_a"].where(table.index != ore, 1.0)).to_csv(path, index=False)
    assert {"block value", "one schedule"} <= wrong(copied)


def solved(plan_folder, table, text=TWO_YEARS):
    shared = prepared(plan_folder(table, text))
    for job in shared.missing():
        assert work.solve(str(shared.folder), job.number).status == 0
    return shared.folder


RICH, POOR = [1, 0.5, 1], [0, 0.5, 0]


def worth_less(amounts):
    """The amounts with a tenth less cash."""
    return replace(amounts, flows=amounts.flows | {"cash_flow": amounts.flows["cash_flow"] * 0.9})


def test_a_mean_of_something_else_is_found(plan_folder, monkeypatch):
    monkeypatch.setattr(worker, "mean_of", lambda shared: worth_less(block_work_mean(shared)))
    folder = solved(plan_folder, pillars(RICH, POOR))
    with pytest.raises(PlanError, match="block value: the common schedule, as planned: value "):
        gather(folder, writing=PLAIN)
    assert not (folder / "tables/schedules.csv").exists()


block_work_mean = worker.mean_of


def test_milling_more_than_the_mill_takes_is_found(plan_folder, monkeypatch):
    monkeypatch.setattr(tables.CommonInScenario, "kept", lambda *given: given[1])
    monkeypatch.setattr(tables, "best_shares", lambda problem, blocks, year, share: np.array([0, 1]) * (share + 1))
    folder = solved(plan_folder, pillars(RICH, POOR))
    with pytest.raises(PlanError, match="one schedule: sim_1|one schedule: scenario 1, sim_1"):
        gather(folder, writing=PLAIN)


def test_milling_less_than_the_best_is_found(plan_folder, monkeypatch):
    best = tables.best_shares
    monkeypatch.setattr(
        tables, "best_shares", lambda *given: best(*given) * [1, 0.99] + best(*given)[:, 1:] * [0.01, 0]
    )
    folder = solved(plan_folder, pillars(RICH, POOR))
    with pytest.raises(PlanError, match="one schedule: scenario 1, sim_1, year 1: feed_tonnes 99 for 100"):
        gather(folder, writing=PLAIN)


def test_prices_that_are_passed_over_are_found(plan_folder, monkeypatch):
    monkeypatch.setattr(work, "priced", lambda project, prices: project)
    sets = "[[scenarios.prices]]\ncopper = 8000\n[[scenarios.prices]]\ncopper = 12_000\n"
    folder = solved(plan_folder, pillars(RICH, POOR), TWO_YEARS + sets)
    with pytest.raises(PlanError, match="block value: scenario 2, sim_1 at copper 12000: value "):
        gather(folder, writing=PLAIN)


def test_amounts_in_the_middle_of_two_are_rounded_as_they_are_written(plan_folder):
    """Mining costs 2.135 a tonne and 213.5 a block, in whole money the even 214; by floats 100 x 2.135 is less than 213.5."""
    assert 100 * 2.135 < 213.5
    folder = solved(
        plan_folder, pillars(RICH, POOR), TWO_YEARS.replace("mining_cost = 2\n", "mining_cost = 2.135\ndecimals = 0\n")
    )
    gather(folder, writing=PLAIN)
    years = pd.read_csv(folder / "tables/common_schedule_years.csv")
    assert years[years["realisation"] == "sim_2"]["cash_flow"].tolist() == [-4 * 214, 1000 - 2 * 214]


def test_ground_is_looked_at_too(copied):
    """A record that says that the grid lies elsewhere."""
    record = json.loads((copied / "scenarios.json").read_text())
    record["scenarios"][1]["prices"]["copper"] = "9000"
    (copied / "scenarios.json").write_text(json.dumps(record))
    assert wrong(copied) == {"scenarios"}


@pytest.mark.parametrize("seed", range(30))
def test_the_dual_of_milling_is_worth_what_the_best_choice_is(seed):
    """By numbers at random, of one limit and of two, in one process and in two; the best choice of two blocks by hand."""
    by_hand = np.array([[3.0], [2.0]]), np.array([[[1.0], [1.0]]]), np.array([1.5])
    assert most_earned(*by_hand) == pytest.approx(4.0)
    rng = np.random.default_rng(seed)
    processes, limits = rng.integers(1, 3), rng.integers(1, 3)
    gain, takes = rng.uniform(-1, 10, (8, processes)), rng.uniform(0, 3, (limits, 8, processes))
    most = rng.uniform(1, 12, limits)
    values, amounts = (np.concatenate([np.zeros_like(it[..., :1]), it], axis=-1) for it in (gain, takes))
    problem = problem_of(values[:, :, None], [], *((amounts[k], [most[k]]) for k in range(limits)))
    shares = filling.best_shares(problem, np.arange(8), 0, np.tile(np.eye(processes + 1)[0], (8, 1)))
    assert (values * shares).sum() == pytest.approx(most_earned(gain, takes, most), rel=1e-6)


HAULAGE = "[haulage]\npit_exit = [400, 60, 60]\nramp_gradient = 0.1\ncost = { ore = 1.4, waste = 1.1 }\nex_pit_distance = 300\n"
REFUSED = re.compile(r"^(prices|reblock) = .*\n", re.MULTILINE)


@pytest.mark.slow
@pytest.mark.parametrize("seed", seeds(3, 60))
def test_schedules_of_random_projects_are_right(plan_folder, seed):
    """With many keys at once, but for those that are refused; gathering looks a second time by itself."""
    rng = np.random.default_rng(seed)
    changes, _ = project_of(rng)
    text = PROJECT
    for old, new in changes:
        assert text.count(old) == 1
        text = text.replace(old, REFUSED.sub("", new))
    table = table_of(rng)
    for name in ("cu_1", "cu_2", "cu_3"):
        table[name] = (table["cu"] * rng.lognormal(0, 0.7, len(table))).round(2)
    limits = "[schedule]\nyears = 5\nramp_up = [0.6, 1]\n" + pick(
        rng, "", "max_metal_per_year = { copper = 15, gold = 300 }\n"
    )
    text += limits + pick(rng, "", HAULAGE) + pick(rng, "", '[constraints]\nmust_mine = "must"\nexclude = "never"\n')
    sets = pick(rng, "", "[[scenarios.prices]]\ncopper = 6500\n[[scenarios.prices]]\ngold = 75\n")
    text += '[scenarios]\ncolumns = { copper = "cu_*" }\n' + sets
    folder = solved_in_turn(prepared(plan_folder(table.drop(columns="cu"), text)))
    rows = pd.read_csv(folder / "tables/schedules.csv")
    assert (rows["common_npv"] <= rows["upper_bound"] + 0.01).all() and rows["blocks"].max() > 0
