"""Grade-tonnage curves by part and class, against sums with pandas and cut-offs worked out by hand."""

import json
import shutil

import pandas as pd
import pytest
from conftest import PROJECT, rows
from helpers import worked_cash_flow
from helpers.verified import differing
from helpers.writings import PLAIN
from matplotlib.figure import Figure

import pitplan
from pitplan import verify
from pitplan.figures import pits
from pitplan.pits.grade_tonnage import nice

GRADES = {(3, 4, 1): 6, (7, 4, 1): 2, (5, 2, 2): 0.9, (3, 3, 2): 1.5, (8, 4, 2): 1.8, (6, 4, 1): 0.7, (4, 4, 1): 3}


def wrong(folder):
    return {rule.name for rule in verify(folder) if rule.differences}


@pytest.fixture(scope="module")
def written(tmp_path_factory):
    """A hill of two classes, in two pushbacks, with a quarter of dilution."""
    place = tmp_path_factory.mktemp("grade_tonnage")
    text = PROJECT.replace("[table]\n", '[table]\nclass = "cls"\n') + "[pushbacks]\ncount = 2\n"
    text = text.replace("[economics]\n", "[economics]\ndilution = 0.25\nmining_recovery = 0.8\n")
    varied = {"cls": lambda i, j, k: "indicated" if i < 6 else "inferred", "tonnes": lambda i, j, k: 97.3 + i}
    rows(11, 9, 4, cu=lambda i, j, k: GRADES.get((i, j, k), 0), **varied).to_csv(place / "blocks.csv", index=False)
    (place / "project.toml").write_text(text)
    pitplan.write_schedule(place / "project.toml", writing=PLAIN)
    return place / "plan" / "schedule"


def table(folder):
    return pd.read_csv(folder / "tables/grade_tonnage.csv", keep_default_na=False, na_values={"grade_copper": ""})


def test_tonnes_above_each_cutoff_are_those_of_the_blocks(written):
    blocks, found = pd.read_csv(written / "tables/blocks.csv"), table(written)
    parts = {"model": blocks["id"] >= 0, "pit": blocks["pushback"] > 0}
    parts |= {f"pushback {number}": blocks["pushback"] == number for number in (1, 2)}
    assert set(found["part"]) == set(parts) and set(found["class"]) == {"indicated", "inferred"}
    for row in found.itertuples():
        some = blocks[parts[row.part] & (blocks["cls"] == row[2]) & (blocks["cu"] >= row.cutoff_grade)]
        copper = (some["tonnes"] * some["cu"]).sum() / 100
        assert (row.tonnes, row.in_situ_copper) == pytest.approx((some["tonnes"].sum(), copper), abs=0.001)
    assert wrong(written) == set()


@pytest.mark.parametrize("write", [pitplan.write_shells, pitplan.write_pushbacks])
def test_shells_and_pushbacks_have_the_curves_too(written, tmp_path, write):
    """Above a cut-off of 0 the pit holds the tonnes of its shell, or of all pushbacks; a changed number, another pit and a missing class are found."""
    shutil.copytree(written.parent.parent, tmp_path, dirs_exist_ok=True, ignore=shutil.ignore_patterns("plan"))
    write(tmp_path / "project.toml", tmp_path / "out", writing=PLAIN)
    found, path = table(tmp_path / "out"), tmp_path / "out/tables/grade_tonnage.csv"
    pit = found[(found["part"] == "pit") & (found["cutoff_grade"] == 0) & (found["mark"] == "")]
    if write is pitplan.write_shells:
        selected = json.loads((tmp_path / "out/plan.json").read_text())["shells"]["selected"]
        due = pd.read_csv(tmp_path / "out/tables/shells.csv").set_index("revenue_factor").loc[selected, "tonnes"]
        assert found["part"].unique().tolist() == ["model", "pit"]
    else:
        due = pd.read_csv(tmp_path / "out/tables/pushbacks.csv")["tonnes"].sum()
        assert found["part"].unique().tolist() == ["model", "pit", "pushback 1", "pushback 2"]
    assert set(pit["class"]) == {"indicated", "inferred"} and pit["tonnes"].sum() == pytest.approx(due, abs=0.01)
    assert wrong(tmp_path / "out") == set()
    for changed in (
        found.assign(tonnes=found["tonnes"].where(found.index != pit.index[0], 1.0)),
        found[(found["part"] != "pit") | (found["class"] != "inferred")],
    ):
        changed.to_csv(path, index=False)
        assert differing(tmp_path / "out", "grade tonnage")


def test_marked_cutoffs_are_as_worked_out_by_hand(written):
    """A per cent of feed earns 40 USD. 10 USD of processing need 0.25 %, in situ a quarter more; mining a tonne of feed, 2 USD."""
    found = table(written).query("part == 'model' and mark != ''").drop_duplicates("mark").set_index("mark")
    assert found["cutoff_grade"].to_dict() == {"marginal mill R": 0.3125, "break_even mill R": 0.375}


def test_each_metal_has_its_curve_and_its_marks(tmp_path):
    """A tonne of sulphide feed: 64 x 0.97 less 5 of selling per per cent of copper for 10.5 USD; gold is recovered from sulphide alone."""
    worked_cash_flow.table().to_csv(tmp_path / "blocks.csv", index=False)
    (tmp_path / "project.toml").write_text(worked_cash_flow.TEXT)
    pitplan.write_schedule(tmp_path / "project.toml", writing=PLAIN)
    found = table(tmp_path / "plan" / "schedule").query("part == 'pit' and mark != ''").set_index(["metal", "mark"])
    assert set(found["class"]) == {"all"}
    grades = found["cutoff_grade"].to_dict()
    assert grades["copper", "marginal mill SUL"] == pytest.approx(1.25 * 10.5 / (0.8 * (80 * 0.97 - 5)), abs=1e-6)
    assert grades["gold", "marginal mill SUL"] == pytest.approx(1.25 * 10.5 / (0.5 * (60 * 0.97 - 2)), abs=1e-6)
    assert {mark for metal, mark in grades if metal == "gold"} == {"marginal mill SUL", "break_even mill SUL"}
    assert ("copper", "break_even leach OX") in grades and ("copper", "marginal leach SUL") not in grades


@pytest.mark.parametrize(("step", "expected"), [(0.011, 0.02), (0.02, 0.02), (0.021, 0.025), (3, 5), (70, 100)])
def test_steps_are_round(step, expected):
    assert nice(step) == pytest.approx(expected)


@pytest.mark.parametrize("name", ["cutoff_grade", "tonnes", "grade_copper", "in_situ_copper", "class", "mark"])
@pytest.mark.parametrize("mark", ["", "marginal mill R"])
def test_a_changed_number_is_found(written, tmp_path, name, mark):
    folder = shutil.copytree(written.parent.parent, tmp_path / "mine") / "plan" / "schedule"
    found = table(folder)
    row = found.index[(found["mark"] == mark) & (found["part"] == "pit") & (found["tonnes"] > 0)][0]
    found.loc[row, name] = "measured" if name in ("class", "mark") else found.loc[row, name] + 0.02
    found.to_csv(folder / "tables/grade_tonnage.csv", index=False)
    assert wrong(folder) == {"grade tonnage"}


def test_lines_of_cutoffs_name_their_rock_type_and_process():
    """Of three rock types the lowest and the highest cut-off, each in the process in which it is lowest."""
    marks = {"leach OX": 0.07, "mill OX": 0.4, "mill SUL": 0.17, "leach SUL": 0.5, "leach MIX": 0.1, "mill MIX": 0.2}
    rows = [{"mark": f"marginal {place}", "cutoff_grade": grade} for place, grade in marks.items()]
    lines = lines_of(pd.DataFrame([*rows, {"mark": "", "cutoff_grade": 0.0}]))
    assert lines == {"marginal: OX, leach": 0.07, "marginal: SUL, mill": 0.17}
    assert lines_of(pd.DataFrame({"mark": ["break_even mill"], "cutoff_grade": [0.3]})) == {"break-even": 0.3}
    two = pd.DataFrame({"mark": ["break_even mill R", "break_even mill S"], "cutoff_grade": [0.3, 0.4]})
    assert lines_of(two) == {"break-even: R": 0.3, "break-even: S": 0.4}


def lines_of(table):
    axis = Figure().subplots()
    pits.mark(axis, table)
    return {line.get_label(): line.get_xdata()[0] for line in axis.lines}


def test_the_figure_is_written(written, tmp_path):
    metal = pitplan.load(written.parent.parent / "project.toml").metals[0]
    pits.write(table(written), metal, tmp_path / "picture.png")
    assert (tmp_path / "picture.png").stat().st_size > 5_000
