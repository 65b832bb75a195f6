"""What processes accept: blocks by rock type, domain, resource class and grade."""

import numpy as np
import pandas as pd
import pytest
from conftest import PROJECT, rows
from helpers.processes import WITH, deposit
from helpers.writings import PLAIN, UNVERIFIED

import pitplan
from pitplan import PlanError
from pitplan.economics import block_values

MUST = '[constraints]\nmust_mine = "must"\n'


def blocks_of(path):
    folder = path.parent / "plan"
    return pd.read_csv(folder / "tables/blocks.csv", keep_default_na=False).set_index("name"), folder


def accepting(text):
    return ("capacity = 300\n", f"capacity = 300\naccepts = {text}\n")


@pytest.mark.parametrize(
    ("text", "leached"),
    [
        ('{ rock_type = "R" }', ["b0-0-0", "b2-0-0"]),
        ('{ rock_type = ["S"] }', ["b1-0-0"]),
        ('{ domain = ["1", "3"] }', ["b0-0-0", "b1-0-0"]),
        ("{ cu = { min = 0.19 } }", ["b1-0-0", "b2-0-0"]),
        ("{ cu = { min = 0.18, max = 0.2 } }", ["b0-0-0", "b2-0-0"]),
        ('{ rock_type = "R", cu = { max = 0.19 } }', ["b0-0-0"]),
    ],
)
def test_blocks_that_a_leach_accepts_by_hand(plan_folder, text, leached):
    """Three blocks of 0.18, 0.21 and 0.20 %, which earn most in the leach if it accepts them; what it does not accept has no revenue there."""
    table = rows(
        3, 1, 1, cu=lambda i, j, k: [0.18, 0.21, 0.2][i], rock=lambda i, j, k: "RSR"[i], region=lambda i, j, k: "132"[i]
    )
    path = plan_folder(table.assign(must=1), PROJECT + MUST, *WITH, accepting(text))
    pitplan.write_shells(path, writing=UNVERIFIED)
    blocks, folder = blocks_of(path)
    assert blocks.index[blocks["process"] == "leach"].tolist() == leached
    assert blocks.index[blocks["revenue_leach"] > 0].tolist() == leached
    assert (blocks["processing_cost_leach"] > 0).tolist() == (blocks["revenue_leach"] > 0).tolist()
    assert not [rule for rule in pitplan.verify(folder) if rule.differences]


def test_inferred_material_of_a_process_by_its_class(plan_folder):
    """A class that is ore in one process alone: the mill accepts it, the leach does not."""
    table = rows(2, 1, 1, cu=lambda i, j, k: 0.2, cls=lambda i, j, k: ["measured", "indicated"][i]).assign(must=1)
    classed = ('rock_type = "rock"\n', 'rock_type = "rock"\nclass = "cls"\n')
    path = plan_folder(table, PROJECT + MUST, *WITH, classed, accepting('{ class = ["measured"] }'))
    pitplan.write_shells(path, writing=PLAIN)
    assert blocks_of(path)[0]["process"].tolist() == ["leach", "mill"]


def test_schedules_keep_to_what_processes_accept(plan_folder):
    more = "[pushbacks]\ncount = 2\n"
    changes = [*WITH, ("mining_cost = 2\n", "mining_cost = 0.3\n"), accepting('{ rock_type = "S", cu = { max = 2 } }')]
    path = plan_folder(deposit(), PROJECT + more, *changes)
    pitplan.write_schedule(path, folder=path.parent / "plan", writing=UNVERIFIED)
    flows = pd.read_csv(path.parent / "plan" / "tables/flows.csv")
    leached = flows[flows["destination"] == "leach"]
    assert len(leached) and set(leached["rock"]) == {"S"}
    assert not [rule for rule in pitplan.verify(path.parent / "plan") if rule.differences]


def test_what_is_accepted_against_the_rules_is_found(plan_folder, monkeypatch):
    monkeypatch.setattr(block_values, "accepted_by", lambda process, frame, project: np.ones(len(frame), dtype=bool))
    path = plan_folder(
        deposit(), PROJECT, *WITH, ("mining_cost = 2\n", "mining_cost = 0.3\n"), accepting('{ rock_type = "S" }')
    )
    pitplan.write_shells(path, writing=UNVERIFIED)
    assert "money" in {rule.name for rule in pitplan.verify(path.parent / "plan") if rule.differences}


@pytest.mark.parametrize(
    ("text", "said"),
    [
        ('{ class = "measured" }', r"leach accepts: has class, and \[table\] class names no column: name it"),
        ("{ au = { min = 1 } }", r"leach accepts: found au, expected one of rock_type, domain, class, cu"),
        ("{ cu = { min = 2, max = 1 } }", r"accepts\] cu: min 2 is above max 1"),
        ("{ cu = {} }", r"accepts\] cu: expected min, max or both, such as \{ min = 0.1 \}"),
        ("{ rock_type = [] }", r"accepts\] rock_type: must be a code or a list of codes"),
        ("{ cu = { least = 2 } }", r"accepts.cu\] least: unknown key"),
    ],
)
def test_what_is_wrong_is_named(plan_folder, text, said):
    with pytest.raises(PlanError, match=said):
        pitplan.load(plan_folder(rows(1, 1, 1), PROJECT, *WITH, accepting(text)))


def test_the_record_reads_back(plan_folder):
    text = '{ rock_type = ["R", "S"], domain = "1", cu = { min = 0.15 } }'
    project = pitplan.load(plan_folder(rows(1, 1, 1), PROJECT, *WITH, accepting(text)))
    again = pitplan.load(plan_folder(rows(1, 1, 1), project.to_toml()))
    assert again.processes == project.processes and project.processes[0].accepts.domain == ("1",)
