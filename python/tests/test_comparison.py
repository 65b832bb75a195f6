"""`pitplan compare`: differences of inputs, results and periods, and bridges whose steps are runs of their own."""

import json
from dataclasses import replace
from pathlib import Path

import pandas as pd
import pytest
from conftest import PROJECT, plan_in
from helpers.periods import column
from helpers.pushbacks import PUSHBACKS, pillars
from helpers.writings import UNVERIFIED

import pitplan
from pitplan import PlanError
from pitplan.cli import main
from pitplan.commands import plans
from pitplan.core.atomic_files import hash_of
from pitplan.figures import comparison as figures
from pitplan.studies.comparison import KeyChange, changes, names_of

CHEAP = ("mining_cost = 2\n", "mining_cost = 1\n")
DEAR = ("price = 8000\n", "price = 9000\n")
LATE = ("discount_rate = 0.1\n", "discount_rate = 0.2\n")


@pytest.fixture
def run(tmp_path):
    """Writes the shells of a project into a folder of its own, and gives this."""

    def write(name, *edits, table=None, text=PROJECT, by=pitplan.write_shells):
        place = tmp_path / f"{name} project"
        place.mkdir(exist_ok=True)
        path = plan_in(place)(column() if table is None else table, text, *edits)
        by(path, folder=tmp_path / name, writing=UNVERIFIED)
        return tmp_path / name

    return write


def npv(folder):
    """The NPV of the selected shell: the mean of best and worst case."""
    record = json.loads((folder / "plan.json").read_text())
    row = pd.read_csv(folder / "tables/shells.csv").set_index("revenue_factor").loc[record["shells"]["selected"]]
    return (row["npv_best"] + row["npv_worst"]) / 2


def test_each_step_of_a_bridge_is_a_run_with_the_changes_so_far(run):
    base, other = run("base"), run("other", CHEAP, DEAR, LATE)
    found = pitplan.compare([base, other], writing=UNVERIFIED)
    assert found.bridge["key"].tolist() == [
        "base",
        "economics mining_cost",
        "metals copper price",
        "shells discount_rate",
    ]
    runs = [npv(base), npv(run("one", CHEAP)), npv(run("two", CHEAP, DEAR)), npv(other)]
    assert found.bridge["npv"].tolist() == pytest.approx(runs)
    assert found.bridge["npv_change"].tolist() == pytest.approx([0, *(b - a for a, b in zip(runs, runs[1:]))], abs=2e-3)
    assert found.bridge["npv_change"].sum() == pytest.approx(runs[-1] - runs[0])
    assert found.results["npv_change"].tolist() == pytest.approx([0, runs[-1] - runs[0]], abs=2e-3)


def test_a_step_that_differs_from_its_recalculation_is_refused(run, monkeypatch):
    """A shell table with another NPV in the step between; without verification it would be in the bridge."""
    base, other = run("base"), run("other", CHEAP, DEAR)
    write = plans.write_shells

    def bent(project, folder, writing):
        write(project, folder, writing)
        path = Path(folder) / "tables/shells.csv"
        table = pd.read_csv(path)
        table["npv_best"] += 5
        table.to_csv(path, index=False)
        record = json.loads((Path(folder) / "plan.json").read_text())
        record["files"]["tables/shells.csv"] = hash_of(path)
        (Path(folder) / "plan.json").write_text(json.dumps(record))

    monkeypatch.setattr(plans, "write_shells", bent)
    with pytest.raises(PlanError, match="verification failed|differ"):
        pitplan.compare([base, other], writing=replace(UNVERIFIED, verifies=True))
    assert not (base.parent / "comparison").exists()
    found = pitplan.compare([base, other], writing=replace(UNVERIFIED, verifies=False)).bridge["npv"]
    assert found.iloc[1] == pytest.approx(npv(run("between", CHEAP)) + 2.5)


def test_inputs_key_by_key(run):
    base = run("base")
    other = run(
        "other",
        ("mining_cost = 2\n", "mining_cost = 2.5\nroyalty = 0.03\n"),
        text=PROJECT + '[figures]\nformats = ["svg"]\n',
    )
    found = pitplan.compare([base, other], bridges=False, writing=UNVERIFIED)
    rows = {row.key: (row.base, row.value) for row in found.inputs.itertuples()}
    assert rows["economics mining_cost"] == ("2", "2.5") and rows["economics royalty"] == ("0", "0.03")
    assert rows["figures"][0] == "" and "svg" in rows["figures"][1]
    assert set(rows) == {"economics mining_cost", "economics royalty", "figures"}


def test_a_file_with_other_content_is_named_by_its_hash(tmp_path):
    """The same project before and after its table is changed."""
    path = plan_in(tmp_path)(column())
    pitplan.write_shells(path, folder=tmp_path / "before", writing=UNVERIFIED)
    column().assign(cu=0.9).to_csv(tmp_path / "blocks.csv", index=False)
    pitplan.write_shells(path, folder=tmp_path / "after", writing=UNVERIFIED)
    found = pitplan.compare([tmp_path / "before", tmp_path / "after"], bridges=False, writing=UNVERIFIED)
    (row,) = found.inputs.itertuples()
    assert row.key == "file blocks.csv" and len(row.base) == len(row.value) == 12 and row.base != row.value
    with pytest.raises(
        PlanError, match=r"blocks.csv: is not as it was for this run.*: run .*before again, or compare with --no-bridge"
    ):
        pitplan.compare([tmp_path / "before", tmp_path / "after"], writing=UNVERIFIED)


def test_changes_that_are_only_valid_together_are_one_step(run):
    """The mill becomes one of [[processes]]: its cost, recovery and capacity move there, none of which goes alone."""
    named = '[[processes]]\nname = "mill"\ncost = 9\ncapacity = 100\nrecovery = { copper = 0.5 }\n'
    edits = [(words, "") for words in ("processing_cost = 10\n", "recovery = 0.5\n", "processing_capacity = 100\n")]
    base, other = run("base"), run("other", *edits, DEAR, text=PROJECT + named)
    steps = pitplan.compare([base, other], writing=UNVERIFIED).bridge
    assert len(steps) == 2 and steps["npv"].iloc[-1] == pytest.approx(npv(other))
    assert set(steps["key"].iloc[1].split(", ")) >= {"economics processing_cost", "metals copper recovery", "processes"}


def test_periods_and_their_changes(run):
    base, slow = run("base"), run("slow", ("processing_capacity = 100\n", "processing_capacity = 50\n"))
    found = pitplan.compare([base, slow], bridges=False, writing=UNVERIFIED).periods.set_index(["run", "year"])
    assert found.loc["base", "feed_tonnes"].tolist() == [100] * 4 + [0] * 4
    assert found.loc["slow", "feed_tonnes_change"].tolist() == [-50] * 4 + [50] * 4
    assert (found.loc["base"].filter(like="_change") == 0).all(axis=None)


def test_runs_with_periods_of_other_lengths_have_no_changes(run):
    base, halves = run("base"), run("halves", text=PROJECT + "[[periods]]\nperiod_months = 6\n")
    found = pitplan.compare([base, halves], bridges=False, writing=UNVERIFIED).periods
    assert "period" in found and "year" not in found and found.filter(like="_change").isna().all(axis=None)


def of_method(folder):
    return pd.read_csv(folder / "tables/methods.csv").set_index("method")["npv"].max()


def test_a_bridge_of_schedules_with_head_grades(run):
    by = pitplan.write_schedule
    base = run("base", table=pillars(), text=PUSHBACKS, by=by)
    other = run("other", CHEAP, DEAR, table=pillars(), text=PUSHBACKS, by=by)
    found = pitplan.compare([base, other], writing=UNVERIFIED)
    between = run("between", CHEAP, table=pillars(), text=PUSHBACKS, by=by)
    assert found.bridge["npv"].tolist() == pytest.approx([of_method(it) for it in (base, between, other)])
    assert found.periods["head_grade_copper"].dropna().max() == pytest.approx(1.0)


def test_a_bridge_of_schedules_by_block(run):
    text = PUSHBACKS.replace("[pushbacks]\ncount = 3\n", "")
    by = pitplan.write_block_schedule
    base, other, between = (
        run(name, *edits, table=pillars(), text=text, by=by)
        for name, edits in (("base", ()), ("other", (CHEAP, DEAR)), ("between", (CHEAP,)))
    )
    found = pitplan.compare([base, other], writing=UNVERIFIED)
    assert found.bridge["npv"].tolist() == pytest.approx([of_method(it) for it in (base, between, other)])


def test_several_runs_have_a_bridge_each_and_figures(run):
    base, one, two = run("base"), run("one", CHEAP), run("two", DEAR)
    found = pitplan.compare([base, one, two], writing=pitplan.Writing())
    assert found.bridge.groupby("run").size().to_dict() == {"one": 2, "two": 2}
    names = {path.name for path in (found.folder / "figures").iterdir()}
    assert names == {"periods.png", "bridge-1.png", "bridge-2.png"}
    pitplan.compare([base, one], writing=UNVERIFIED, bridges=False)
    assert not (found.folder / "figures").exists() and not (found.folder / "tables/bridge.csv").exists()
    record = json.loads((found.folder / "comparison.json").read_text())
    assert [it["name"] for it in record["runs"]] == ["base", "one"] and record["bridge"] is False


def test_a_bridge_begins_at_zero_unless_its_changes_are_small():
    steps = [figures.near(pd.Series(npvs).to_numpy()) for npvs in ([66.0, 80.0], [66.0, 66.5], [-5.0, 3.0])]
    assert steps[0][0] == 0 and 60 < steps[1][0] < 66 and steps[2][0] < -5


def test_the_command_prints_what_differs(run, capsys):
    base, other = run("base"), run("other", CHEAP)
    assert main(["compare", str(base), str(other), "--quiet", "--no-figures"]) == 0
    told = capsys.readouterr().out
    assert "economics mining_cost  2     1" in told and str(base.parent / "comparison") in told
    assert main(["compare", str(base), str(other), "--quiet", "--no-figures", "--no-bridge", "--json"]) == 0
    answer = json.loads(capsys.readouterr().out)
    assert answer["path"].endswith("comparison/tables/results.csv") and answer["table"][1]["run"] == "other"


def test_what_cannot_be_compared_is_named(run, tmp_path):
    base, other = run("base"), run("other", CHEAP)
    cases = [
        ([base], {}, "found 1 folders to compare, expected 2 to 21"),
        ([base, tmp_path], {}, "plan.json: cannot be read: expected a folder of pitplan shells or schedule"),
        ([base, other], {"folder": other}, "other: is one of the runs: give another folder with --out"),
    ]
    for folders, more, said in cases:
        with pytest.raises(PlanError, match=said):
            pitplan.compare(folders, writing=UNVERIFIED, **more)
    (other / "tables/shells.csv").write_text((base / "tables/shells.csv").read_text())
    with pytest.raises(PlanError, match="shells.csv: has changed since the run: run pitplan shells again"):
        pitplan.compare([base, other], writing=UNVERIFIED)


def test_runs_of_other_kinds_or_currencies_are_refused(run):
    base = run("base", table=pillars(), text=PUSHBACKS)
    euro = run("euro", ("[economics]\n", '[economics]\ncurrency = "EUR"\n'), table=pillars(), text=PUSHBACKS)
    scheduled = run("scheduled", table=pillars(), text=PUSHBACKS, by=pitplan.write_schedule)
    parts = run("parts", table=pillars(), text=PUSHBACKS, by=pitplan.write_pushbacks)
    for other, said in (
        (scheduled, "found a run of pitplan schedule, expected one of pitplan shells"),
        (parts, "parts: found no shells or schedule"),
        (euro, "euro: found the currency EUR, expected"),
    ):
        with pytest.raises(PlanError, match=said):
            pitplan.compare([base, other], writing=UNVERIFIED)


def test_changes_of_sections_by_hand():
    base = {
        "title": "one",
        "economics": {"a": 1, "b": 2},
        "metals": [{"name": "x", "p": 1}, {"name": "y", "p": 1}],
        "periods": [{"years": 1}],
    }
    other = {
        "title": "one",
        "economics": {"a": 1, "c": 3},
        "metals": [{"name": "x", "p": 2}, {"name": "z"}],
        "pushbacks": {"k": 1},
    }
    found = changes(base, other)
    assert [(it.key, it.base, it.value) for it in found] == [
        ("economics b", 2, None),
        ("economics c", None, 3),
        ("metals x p", 1, 2),
        ("metals y", {"name": "y", "p": 1}, None),
        ("metals z", None, {"name": "z"}),
        ("periods", [{"years": 1}], None),
        ("pushbacks", None, {"k": 1}),
    ]
    made = base
    for change in found:
        made = change.made_in(made)
    assert made == other and base["economics"] == {"a": 1, "b": 2}
    order = changes({"metals": base["metals"]}, {"metals": base["metals"][::-1]})
    assert [it.key for it in order] == ["metals"] and order[0].made_in(base)["metals"] == base["metals"][::-1]
    assert KeyChange(("title",), "one", "two").matters is False and found[0].matters


def test_names_of_folders(tmp_path):
    places = [tmp_path / "a" / "plan", tmp_path / "b" / "plan"]
    assert names_of(places) == ["a/plan", "b/plan"] and names_of(places[:1]) == ["plan"]
    assert names_of([places[0], places[0]]) == ["plan 1", "plan 2"]
