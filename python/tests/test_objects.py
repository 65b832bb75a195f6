"""Block model, plan, shells, pushbacks and schedules as objects: against the subcommands, and with what they refuse."""

import json
import warnings
from decimal import Decimal
from pathlib import Path

import numpy as np
import pandas as pd
import pytest
import tomllib
from conftest import PROJECT, files_in, rows
from helpers.writings import PLAIN, UNVERIFIED

import pitplan
from pitplan import BlockModel, InputWarning, Plan, PlanError, PlanWarning, Project, ResultWarning
from pitplan.cli import main
from pitplan.config.toml_text import as_toml

GRADES = {(4, 4, 1): 6, (6, 4, 1): 2.5, (4, 7, 2): 0.8, (5, 3, 0): 9}
ORE = {"cu": lambda i, j, k: GRADES.get((i, j, k), 0)}
MORE = "[pushbacks]\ncount = 2\nultimate_pit = 1.5\n[schedule]\nmining_capacity = 2000\nyears = 20\n"
SECTIONS = {
    "economics": {"mining_cost": 2, "processing_cost": 10},
    "metals": [{"name": "copper", "column": "cu", "unit": "percent", "price": 8000, "recovery": 0.5}],
    "slopes": {"precedence_benches": 3, "domains": [{"pattern": "1:5"}]},
    "shells": {"revenue_factors": [0.5, 1.0, 1.5], "discount_rate": 0.1, "processing_capacity": 100},
}
COLUMNS = {"id": "name", "rock_type": "rock", "domain": "region", "size": (10, 10, 10)}


def table():
    return rows(10, 9, 5, **ORE)


@pytest.fixture
def project(plan_folder):
    return plan_folder(table(), PROJECT + MORE)


WRITERS = {
    "shells": (pitplan.write_shells, lambda plan: plan.shells()),
    "pushbacks": (pitplan.write_pushbacks, lambda plan: plan.shells().pushbacks()),
    "schedule": (pitplan.write_schedule, lambda plan: plan.shells().pushbacks().schedule()),
    "block_schedule": (pitplan.write_block_schedule, lambda plan: plan.block_schedule()),
}


@pytest.mark.parametrize("solver", ["library", "program"])
@pytest.mark.parametrize("name", WRITERS)
def test_objects_write_what_the_subcommand_writes(project, name, solver, tmp_path):
    """Byte for byte, the record and the report too."""
    function, made = WRITERS[name]
    asked = pitplan.load(project, overrides=['output.folder="out"'])
    asked = asked.changed("shells", {"discount_rate": 0.09}, keeps_others=True)
    object.__setattr__(asked, "solver", solver)
    function(asked, tmp_path / "by_function", PLAIN)
    assert made(Plan.from_project(asked)).write(tmp_path / "by_object", PLAIN) == tmp_path / "by_object"
    one, two = files_in(tmp_path / "by_function"), files_in(tmp_path / "by_object")
    assert one.keys() == two.keys() and len(one) >= 6
    assert [key for key in one if one[key] != two[key]] == []


def test_the_default_folders_are_those_of_the_subcommands(project):
    plan = Plan.from_project(project)
    shells = plan.shells()
    places = [it.write(writing=UNVERIFIED) for it in (shells, shells.pushbacks())]
    assert places == [plan.project.folder, plan.project.folder / "pushbacks"]


def test_a_frame_gives_what_its_file_gives(project, tmp_path):
    """Both by the same sections; what was written can be verified, and planned again from its own inputs."""
    by_file = Plan.from_project(project).shells()
    plan = Plan.from_model(BlockModel.from_frame(table(), **COLUMNS), title="Test hill", **SECTIONS)
    shells = plan.shells()
    pd.testing.assert_frame_equal(shells.table, by_file.table)
    pd.testing.assert_frame_equal(shells.blocks, by_file.blocks)
    out = shells.write(tmp_path / "out", PLAIN)
    assert sorted(path.name for path in (out / "inputs").iterdir()) == ["block_model.csv", "project.toml"]
    assert all(not rule.differences for rule in pitplan.verify(out))
    pitplan.write_shells(out / "inputs/project.toml", tmp_path / "again", PLAIN)
    for name in ("shells.csv", "years.csv", "blocks.csv"):
        assert (tmp_path / "again/tables" / name).read_bytes() == (out / "tables" / name).read_bytes()


def test_the_record_has_the_hashes_of_inputs_that_were_made_in_python(tmp_path):
    from pitplan.core.atomic_files import hash_of

    plan = Plan.from_model(BlockModel.from_frame(table(), **COLUMNS), **SECTIONS)
    out = plan.shells().write(tmp_path / "out", PLAIN)
    record = json.loads((out / "plan.json").read_text())
    assert record["project"] == "inputs/project.toml"
    assert record["inputs"] == {name: hash_of(out / "inputs" / name) for name in ("project.toml", "block_model.csv")}


def test_a_changed_frame_is_not_that_of_the_project(project, tmp_path):
    """A project of a file with another frame: the record names the frame that was planned, not the project's file."""
    richer = table().assign(cu=lambda it: 2 * it["cu"])
    out = Plan.from_project(project, table=richer).shells().write(tmp_path / "out", PLAIN)
    assert pd.read_csv(out / "inputs/block_model.csv")["cu"].tolist() == richer["cu"].tolist()
    assert all(not rule.differences for rule in pitplan.verify(out))


def test_a_frame_is_copied():
    frame = table()
    model = BlockModel.from_frame(frame, **COLUMNS)
    frame["cu"] = 0.0
    assert model.frame["cu"].max() == 9


def test_a_model_in_a_file_is_read_from_where_it_is(tmp_path, monkeypatch):
    table().to_csv(tmp_path / "model.csv", index=False)
    monkeypatch.chdir(tmp_path)
    model = BlockModel.from_csv("model.csv", **COLUMNS)
    plan = Plan.from_model(model, folder="elsewhere", **SECTIONS)
    assert plan.project.table.file == tmp_path / "model.csv" and plan.source == str(tmp_path / "model.csv")
    out = plan.shells().write(tmp_path / "out", PLAIN)
    assert all(not rule.differences for rule in pitplan.verify(out))
    assert [path.name for path in (out / "inputs").iterdir()] == ["project.toml"]


def test_keys_replace_those_of_the_project(project, plan_folder):
    """As if the file had them."""
    plan = Plan.from_project(project)
    fewer = plan.shells(revenue_factors=[0.5, 1.0])
    assert fewer.table["revenue_factor"].tolist() == [0.5, 1.0]
    assert plan.shells().table["revenue_factor"].tolist() == [0.5, 1.0, 1.5], "the plan is as it was"
    one = fewer.pushbacks(revenue_factors=[1.0])
    assert one.table["revenue_factor"].tolist() == [1.0] and len(plan.shells().pushbacks().table) == 2
    slow = one.schedule(mining_capacity=500)
    assert slow.pushbacks.plan.project.schedule.mining_capacity == 500
    assert (slow.years["total_tonnes"] <= 500 + 1e-6).all()
    path = plan_folder(
        table(),
        PROJECT.replace("[0.5, 1.0, 1.5]", "[0.5, 1.0]") + "[pushbacks]\nrevenue_factors = [1.0]\n"
        "[schedule]\nmining_capacity = 500\n",
    )
    pd.testing.assert_frame_equal(Plan.from_project(path).shells().pushbacks().schedule().table, slow.table)


def test_arguments_are_the_files_words(project):
    """Numbers of numpy and paths too."""
    plan = Plan.from_project(project)
    found = plan.shells(revenue_factors=np.array([0.3, 0.7, 1.0]), discount_rate=np.float64(0.05))
    assert found.table["revenue_factor"].tolist() == [0.3, 0.7, 1.0] and found.plan.project.shells.discount_rate == 0.05


def test_a_factor_that_is_added_is_noted_once(project):
    plan = Plan.from_project(project)
    note = "revenue factor 1.0, the base price, was added to the revenue factors"
    assert note in plan.shells(revenue_factors=[0.5]).plan.notes
    assert note not in plan.shells(discount_rate=0.02).plan.notes
    assert note in plan.shells(revenue_factors=[0.5]).pushbacks(count=1).plan.notes


REFUSED = {
    "unknown key": (lambda plan: plan.shells(factors=[1.0]), r"\[shells\] factors: unknown key"),
    "share above 1": (lambda plan: plan.shells(discount_rate=8), r"\[shells\] discount_rate: found 8, expected 0 to 1"),
    "two ways": (lambda plan: plan.shells().pushbacks(count=2, tonnes=1e6), r"\[pushbacks\] tonnes: give exactly one"),
    "no number": (
        lambda plan: plan.shells().pushbacks(count=2).schedule(mining_capacity="much"),
        r"\[schedule\] mining_capacity: 'much' is not a number",
    ),
    "a frame": (
        lambda plan: plan.shells(selected=object()),
        r"shells.selected: found a value of type object, expected",
    ),
    "nan": (lambda plan: plan.shells(discount_rate=float("nan")), "shells.discount_rate: found nan, expected a finite"),
}


@pytest.mark.parametrize("name", REFUSED)
def test_a_wrong_argument_is_refused_by_its_key(project, name):
    call, said = REFUSED[name]
    with pytest.raises(PlanError, match=said):
        call(Plan.from_project(project))


def test_a_wrong_column_or_section_is_refused():
    with pytest.raises(PlanError, match=r"block model: \[table\] tonns: unknown key: did you mean tonnes"):
        BlockModel.from_frame(table(), tonns="tonnes")
    with pytest.raises(PlanError, match=r"block model: \[grid\] size: must be a list of 3 numbers"):
        BlockModel.from_frame(table(), size=10)
    model = BlockModel.from_frame(table(), **COLUMNS)
    with pytest.raises(PlanError, match=r"project: econmics: unknown key: did you mean economics"):
        Plan.from_model(model, econmics=SECTIONS["economics"], **SECTIONS)
    with pytest.raises(PlanError, match=r"project: \[metals 1\] recovery: found .*, expected 0 to 1"):
        Plan.from_model(model, **SECTIONS | {"metals": [SECTIONS["metals"][0] | {"recovery": 5}]})


def test_pushbacks_without_rules_are_refused(plan_folder):
    plan = Plan.from_project(plan_folder(table()))
    with pytest.raises(PlanError, match=r"\[pushbacks\] is missing"):
        plan.shells().pushbacks()


def test_a_file_that_changes_under_a_plan_is_refused(project):
    shells = Plan.from_project(project).shells()
    table().assign(cu=lambda it: it["cu"] + 1).to_csv(project.parent / "blocks.csv", index=False)
    with pytest.raises(PlanError, match="has changed since the plan was made of it: make the plan again"):
        shells.pushbacks(count=3)


def test_a_solution_of_another_plan_makes_no_shells(project):
    plan = Plan.from_project(project)
    other = Plan.from_project(project, overrides=["metals.copper.price=9000"])
    with pytest.raises(PlanError, match="the solution is of another plan"):
        pitplan.Shells(plan, other.shells().solution)


def test_warnings_have_categories_and_name_the_caller(plan_folder):
    """The hill of this file touches the model's floor; a price of 8 per tonne pays for nothing."""
    path = plan_folder(table())
    with pytest.warns(ResultWarning, match="the largest shell reaches the floor of the block model") as caught:
        Plan.from_project(path).shells()
    assert {Path(it.filename).name for it in caught} == {Path(__file__).name}
    with pytest.warns(InputWarning, match="no block pays for its processing"):
        Plan.from_project(path, overrides=["metals.copper.price=8"])
    with pytest.warns(ResultWarning, match="the largest shell reaches the floor"):
        pitplan.write_shells(path, writing=PLAIN)
    assert issubclass(InputWarning, PlanWarning) and issubclass(ResultWarning, PlanWarning)


def test_a_warning_about_the_model_comes_once(plan_folder, recwarn):
    plan = Plan.from_project(plan_folder(table(), PROJECT + MORE), overrides=["metals.copper.price=8"])
    plan.shells(discount_rate=0.2)
    said = [str(it.message) for it in recwarn.list if issubclass(it.category, InputWarning)]
    assert len(said) == 1 and said[0].startswith("no block pays for its processing")


def test_the_command_line_prints_warnings_once(project, capsys, recwarn):
    assert main(["shells", str(project), "--no-figures", "--quiet"]) == 0
    out, err = capsys.readouterr()
    assert (out + err).count("the largest shell reaches the floor") == 1
    assert [it for it in recwarn.list if issubclass(it.category, PlanWarning)] == []


def test_objects_say_what_they_are(project):
    model = BlockModel.from_frame(table(), **COLUMNS)
    assert repr(Plan.from_model(model, **SECTIONS)).startswith("Plan of Block model\n  450 blocks of 10 x 10 x 10 m")
    assert repr(model) == "BlockModel of 450 rows (id='name', rock_type='rock', domain='region')"
    plan = Plan.from_project(project)
    shells = plan.shells()
    assert repr(shells).startswith("3 shells of Test hill; selected: revenue factor ")
    assert repr(shells.pushbacks()).startswith("2 pushbacks of Test hill: ")
    assert repr(shells.pushbacks().schedule()).startswith("Schedule of 2 pushbacks; NPV: rule ")
    assert repr(plan.block_schedule()).startswith("Schedule of ")
    assert plan != Plan.from_project(project) and plan == plan and len({plan, shells}) == 2


def test_values_of_python_are_those_of_toml():
    """Against TOML's own reader."""
    given = {"a": (1, np.int64(2)), "b": {"c": 0.1, "d": None}, "e": Path("x/y"), "f": np.float32(0.5), "g": True}
    text = 'a = [1, 2]\ne = "x/y"\nf = 0.5\ng = true\n[b]\nc = 0.1\n'
    assert as_toml(given, "k") == tomllib.loads(text, parse_float=Decimal)


def test_a_project_from_sections_is_that_of_the_file(project):
    data = tomllib.loads(project.read_text(), parse_float=float)
    assert Project.from_dict(data, project.parent).to_toml() == pitplan.load(project).to_toml()


def test_figures_are_drawn_on_given_axes(project):
    from matplotlib.figure import Figure

    shells = Plan.from_project(project).shells()
    ax = Figure().subplots()
    assert shells.plot(ax) is ax and ax.has_data()
    schedule = shells.pushbacks().schedule()
    axes = schedule.plot(Figure().subplots(1, len(schedule.methods), squeeze=False))
    assert len(axes) == len(schedule.methods) and all(it.has_data() for it in axes)


def test_warnings_can_be_errors(project):
    with warnings.catch_warnings():
        warnings.simplefilter("error", ResultWarning)
        with pytest.raises(ResultWarning, match="extend the model"):
            Plan.from_project(project).shells()
