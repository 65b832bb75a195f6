"""The skin of a pit by hand: two blocks of ore at the surface, of which the poor one comes in from a factor on."""

import json

import numpy as np
import pandas as pd
import pytest
from conftest import PROJECT, rows
from helpers.writings import PLAIN

import pitplan
from pitplan import PlanError, load, verify as verify_folder
from pitplan.cli import main

# Of 100 t each: 24,000 and 2,000 of revenue, 1,000 for processing and 200 for mining. The poor one breaks even at 1,200 / 2,000.
ORE = {"cu": lambda i, j, k: {(1, 1): 6, (3, 1): 0.5}.get((i, j), 0)}


@pytest.fixture
def project(plan_folder):
    def write(words=""):
        text = PROJECT.replace("processing_capacity = 100", "processing_capacity = 100\nselected = 1.0")
        return plan_folder(rows(5, 3, 1, **ORE), f"{text}\n[sensitivity]\n{words}\n")

    return write


def record_of(path):
    return json.loads((load(path).folder / "sensitivity" / "sensitivity.json").read_text())


def test_what_the_skin_earns_in_each_case(project):
    path = project("changes = [-0.1, 0.1]")
    table = pitplan.write_sensitivity(path, writing=PLAIN).set_index(["parameter", "change"])["skin_value"]
    due = {
        ("", 0.0): 800,
        ("price", -0.1): 600,
        ("price", 0.1): 1000,
        ("mining_cost", -0.1): 820,
        ("mining_cost", 0.1): 780,
    }
    due |= {
        ("processing_cost", -0.1): 900,
        ("processing_cost", 0.1): 700,
        ("recovery", -0.1): 600,
        ("recovery", 0.1): 1000,
    }
    assert table.to_dict() == pytest.approx(due | {("capacity", -0.1): 800, ("capacity", 0.1): 800})
    assert record_of(path)["skin"] == {
        "revenue_factor": 0.6,
        "tonnes": 100,
        "share": 0.5,
        "undiscounted_cash_flow": 800,
    }


def test_a_greater_share_reaches_a_lesser_shell(project):
    """A shell of at most 80 of 200 t has neither block; the rich one breaks even at 1,200 / 24,000."""
    path = project('changes = [0.1]\nparameters = "price"\nskin = 0.6')
    assert pitplan.write_sensitivity(path, writing=PLAIN)["skin_value"].tolist() == pytest.approx(
        [23_600, 23_600 + 2_600]
    )
    assert record_of(path)["skin"] == {
        "revenue_factor": 0.05,
        "tonnes": 200,
        "share": 1.0,
        "undiscounted_cash_flow": 23_600,
    }


def test_a_pit_that_no_lesser_factor_divides_is_all_skin(plan_folder):
    """The one block of ore pays at every factor."""
    text = PROJECT.replace("processing_capacity = 100", "processing_capacity = 100\nselected = 1.0").replace(
        "price = 8000", "price = 80000000"
    )
    path = plan_folder(rows(5, 3, 1, **ORE), text + '\n[sensitivity]\nchanges = [0.1]\nparameters = "mining_cost"\n')
    pitplan.write_sensitivity(path, writing=PLAIN)
    assert (record_of(path)["skin"]["revenue_factor"], record_of(path)["skin"]["tonnes"]) == (0, 200)


def test_where_walls_move_nothing_is_told_of_it(plan_folder):
    text = PROJECT.replace("processing_capacity = 100", "processing_capacity = 100\nselected = 1.0")
    path = plan_folder(
        rows(5, 3, 1, **ORE),
        text.replace('pattern = "1:5"', "angle = 45") + '\n[sensitivity]\nchanges = [0.2]\nparameters = "slopes"\n',
    )
    worth = pitplan.write_sensitivity(path, writing=PLAIN)["skin_value"]
    assert worth[0] == pytest.approx(800) and np.isnan(worth[1])


def test_the_command_line_tells_of_it(project, capsys):
    path = project('changes = [0.1]\nparameters = "price"')
    assert main(["sensitivity", str(path), "--no-figures"]) == 0
    told, notes = capsys.readouterr().err.splitlines(), record_of(path)["notes"]
    skin = "pit skin, 50.0 % of its tonnes, beyond the shell of revenue factor 0.60: undiscounted cash flow 800"
    assert [line for line in told if "skin" in line] == [line for line in told if line.startswith(skin)] != []
    assert set(notes) <= set(told) and "15 blocks lie on a grid of 5 x 3 x 1 = 15 cells" in notes
    assert main(["sensitivity", str(path), "--quiet", "--no-figures"]) == 0
    quiet = capsys.readouterr().err.splitlines()
    assert quiet == [note for note in notes if note.startswith("WARNING: ")]


@pytest.mark.parametrize("share", ["0", "1", "-0.1", '"some"'])
def test_what_is_no_share_is_refused(project, share):
    with pytest.raises(PlanError, match=r"\[sensitivity\] skin"):
        load(project(f"skin = {share}"))


def wrong(folder):
    return {rule.name for rule in verify_folder(folder) if rule.differences}


def test_the_second_look_finds_another_skin(project):
    """One that lacks a block, one that takes more than it may, and one whose tonnes are others."""
    path = project("changes = [0.1]")
    pitplan.write_sensitivity(path, writing=PLAIN)
    folder = load(path).folder / "sensitivity"
    assert wrong(folder) == set()
    record = folder / "sensitivity.json"
    said = json.loads(record.read_text())
    for bent in (
        {"tonnes": 90},
        {"share": said["skin"]["share"] + 0.001},
        {"undiscounted_cash_flow": said["skin"]["undiscounted_cash_flow"] + 0.01},
    ):
        record.write_text(json.dumps(said | {"skin": said["skin"] | bent}))
        assert wrong(folder) == {"skin's shell"}
    record.write_text(json.dumps(said))
    answer = folder / "cases" / f"{said['cases'][0]['key']}.npz"
    arrays = dict(np.load(answer))
    np.savez_compressed(answer, **arrays | {"skin": np.zeros_like(arrays["skin"])})
    assert wrong(folder) == {"skin's shell", "skin"}
    np.savez_compressed(answer, **arrays | {"skin": arrays["entry"] == 0})
    assert {"skin's shell", "skin"} <= wrong(folder)


def test_the_second_look_finds_a_skin_that_others_need(plan_folder):
    """A block above one that stays may not be the skin's."""
    text = PROJECT.replace("processing_capacity = 100", "processing_capacity = 100\nselected = 1.0")
    path = plan_folder(
        rows(5, 5, 2, cu=lambda i, j, k: {(2, 2, 0): 9}.get((i, j, k), 0)),
        text + '\n[sensitivity]\nchanges = [0.1]\nparameters = "price"\n',
    )
    pitplan.write_sensitivity(path, writing=PLAIN)
    folder = load(path).folder / "sensitivity"
    said = json.loads((folder / "sensitivity.json").read_text())
    answer = folder / "cases" / f"{said['cases'][0]['key']}.npz"
    arrays = dict(np.load(answer))
    blocks = pd.read_csv(folder / "tables/blocks.csv")
    above = np.zeros_like(arrays["skin"])
    above[blocks["id"][(blocks["revenue_factor"] > 0.0) & (blocks["z"] == blocks["z"].max())].to_numpy()[:1]] = True
    np.savez_compressed(answer, **arrays | {"skin": above})
    assert "skin's shell" in wrong(folder)
