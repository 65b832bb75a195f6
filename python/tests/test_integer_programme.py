"""The best schedule that can be dug, against the tests' own statement of it."""

import json
import time
from types import SimpleNamespace

import numpy as np
import pandas as pd
import pytest
from conftest import rows
from helpers.benches import THREE, benches_of, demand_minable, problem_of, random_benches, without_flows, yearly_limits
from helpers.programmes import integer_optimum, limits, small
from helpers.pushbacks import PUSHBACKS, pillars, with_pushbacks
from helpers.random_tests import examples
from helpers.writings import PLAIN, UNVERIFIED
from hypothesis import given, strategies as st
from scipy.sparse import csr_matrix

import pitplan
from pitplan import PlanError, load, verify
from pitplan.config.schedule import Effort
from pitplan.results.folder import read_record
from pitplan.scheduling import highs, highs_process
from pitplan.scheduling.flow import scheduler


@examples(12)
@given(small, limits, st.integers(0, 1))
def test_it_is_the_best_schedule_of_all(pit, limits, lag):
    benches, years = random_benches(pit, lag), 5
    model = without_flows(problem_of(benches, limits), years)
    flows, bound = scheduler.best_schedule(model, Effort(0.0, 60.0))
    best, slack = integer_optimum(benches, limits, years), 2e-6 * max(1.0, np.abs(benches.of("cash_flow")).sum())
    assert flows is not None
    demand_minable(benches, limits, flows.mined)
    assert flows.value == pytest.approx(best, abs=slack) and bound == pytest.approx(best, abs=slack)


@pytest.mark.parametrize(
    ("shares", "is_kept"),
    [
        ([[1, 0], [1, 0], [0, 1]], True),
        ([[1, 0], [0.9, 0.1], [0, 0.9]], True),
        # The ore before its waste is through; the mill above its limit; the shovels above theirs.
        ([[0.9, 0.1], [1, 0], [0, 1]], False),
        ([[1, 0], [0.5, 0.5], [0, 0.6]], False),
        ([[1, 0], [0.6, 0.4], [0.5, 0.5]], False),
    ],
)
def test_what_keeps_to_the_rules_by_hand(shares, is_kept):
    problem = problem_of(benches_of(*THREE), yearly_limits({"feed_tonnes": 100, "total_tonnes": 200}))
    assert scheduler.keeps(without_flows(problem, 2), np.array(shares, dtype=float)) == is_kept


def test_a_pushback_that_sinks_too_fast_does_not_keep_to_the_rules():
    problem = problem_of(benches_of(*THREE), yearly_limits({"feed_tonnes": 1000}, rate=1.5))
    assert scheduler.keeps(without_flows(problem, 2), np.array([[1, 0], [0.5, 0.5], [1, 0]]))
    assert not scheduler.keeps(without_flows(problem, 2), np.array([[1, 0], [0.6, 0.4], [1, 0]]))


def test_an_integer_programme_is_the_same_in_a_process_of_its_own(highs_apart):
    problem = problem_of(benches_of(*THREE), yearly_limits({"feed_tonnes": 100, "total_tonnes": 200}))
    flows, bound = scheduler.best_schedule(without_flows(problem, 3), Effort(0.0, 60.0))
    assert bound == pytest.approx(800 / 1.1 + 500 / 1.21) == flows.value


def test_pushbacks_sink_each_by_itself():
    """Of three pushbacks each digs its one bench in the same year."""
    benches = benches_of(*((pushback, 0, 100, 100, 500) for pushback in (1, 2, 3)))
    problem = problem_of(benches, yearly_limits({"feed_tonnes": 1000}, rate=1.5))
    assert scheduler.keeps(without_flows(problem, 2), np.ones((3, 1)))


@pytest.mark.parametrize(("seconds", "more"), [(5.0, {"time_limit": 5.0}), (None, {})])
def test_the_solver_is_told_the_gap_and_the_seconds(monkeypatch, seconds, more):
    asked = []
    found = SimpleNamespace(status=0, x=np.ones(1), mip_dual_bound=-2.0)
    monkeypatch.setattr(highs, "milp", lambda *given, options, **named: asked.append(options) or found)
    whole = highs.Programme(np.ones(1), csr_matrix([[1.0]]), np.ones(1), np.ones(1), np.ones(1, dtype=bool))
    assert highs.optimum_of(whole, 0.1, seconds).bound == 2
    # Its presolve is wrong of some programmes.
    assert asked == [{"mip_rel_gap": 0.1, "presolve": False} | more]


def test_a_programme_that_goes_on_when_its_time_is_up_is_ended(highs_apart, monkeypatch, tmp_path):
    """It would sleep for a minute: it has a quarter of a second, twice that, and half a second more."""
    (tmp_path / "highs.py").write_text("import time\ntime.sleep(60)\n")
    monkeypatch.setattr(highs_process.highs, "__file__", str(tmp_path / "highs.py"))
    monkeypatch.setattr(scheduler, "LATE", 0.5)
    began = time.monotonic()
    problem = problem_of(benches_of(*THREE), yearly_limits({"feed_tonnes": 100, "total_tonnes": 200}))
    assert scheduler.best_schedule(without_flows(problem, 3), Effort(0.0, 0.25)) == (None, np.inf)
    assert 1.0 <= time.monotonic() - began < 20


def test_it_is_written_as_a_way_of_its_own(plan_folder):
    project = load(plan_folder(pillars(), PUSHBACKS + "[schedule]\nmilp = { gap = 0.001, seconds = 60 }\n"))
    table = pitplan.write_schedule(project, writing=UNVERIFIED).set_index("method")
    value = 2600 / 1.1 + 1400 / 1.21 + 600 / 1.331
    assert table.index.tolist() == ["rule", "lp", "milp"] and table["npv"]["milp"] == pytest.approx(value, rel=1e-4)
    folder = project.folder / "schedule"
    told = json.loads((folder / "schedule.json").read_text())
    assert told["milp_upper_bound"] == pytest.approx(value, rel=1.1e-3) and set(
        pd.read_csv(folder / "tables/years.csv")["case"]
    ) == {"best", "worst", *told["methods"]}
    assert [rule.name for rule in verify(folder) if rule.differences] == []
    notes = read_record(folder)["notes"]
    assert any("upper bound of milp on schedules by these value bins" in note for note in notes)


def test_where_none_is_found_in_time_the_others_stand(plan_folder, monkeypatch):
    monkeypatch.setattr(scheduler, "solve", lambda programme, effort, patience: highs.Optimum(None, np.inf))
    project = load(plan_folder(pillars(), PUSHBACKS + "[schedule]\nmilp = { seconds = 1 }\n"))
    assert pitplan.write_schedule(project, writing=PLAIN)["method"].tolist() == ["rule", "lp"]
    assert "WARNING: milp found no schedule within its time limit" in read_record(project.folder / "schedule")["notes"]
    assert json.loads((project.folder / "schedule" / "schedule.json").read_text())["milp_upper_bound"] is None


@pytest.mark.parametrize(
    ("words", "said"),
    [
        ("milp = true", "[schedule.milp] must be a section of its own"),
        ("milp = { gap = 0.1 }", "[schedule.milp] seconds: is missing"),
        (
            "milp = { gap = 1, seconds = 5 }",
            "[schedule.milp] gap: found 1, expected 0 to below 1, such as 0.01 for 1 %",
        ),
        ("milp = { time = 5, seconds = 5 }", "[schedule.milp] time: unknown key"),
    ],
)
def test_what_is_refused(plan_folder, words, said):
    with pytest.raises(PlanError) as error:
        load(plan_folder(rows(2, 2, 2), with_pushbacks("count = 2") + f"[schedule]\n{words}\n"))
    assert said in str(error.value)
