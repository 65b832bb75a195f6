"""The audit finds what the planner misreads or misrecords: errors that code shared by both would hide."""

import json
import os
from dataclasses import replace
from decimal import Decimal

import numpy as np
import pandas as pd
import pytest
from conftest import PROJECT, rows
from helpers.writings import PLAIN, REPORTED

import pitplan
import planaudit
from pitplan import BlockModel, Plan, PlanError, load
from pitplan.blockmodel import row_rules
from pitplan.config import project_writer
from pitplan.results.folder import read_record
from planaudit.schedules.closure import maximum_closure

ORE = {"cu": lambda i, j, k: {(3, 3, 1): 6, (4, 3, 1): 2.5, (3, 4, 0): 9}.get((i, j, k), 0)}
GROUND = "x,y,z\n-50,-50,28\n120,-50,28\n-50,120,28\n120,120,28\n"


def differences(folder):
    return {rule.name: list(rule.differences) for rule in pitplan.verify(folder) if rule.differences}


def test_a_text_that_is_read_as_0_fails_the_run(tmp_path, monkeypatch):
    """The planner's reader as it once was: in a column of pandas' own texts "n/a" became an empty field, and that 0."""
    frame = rows(6, 5, 3, **ORE)
    frame["cu"] = frame["cu"].astype(str).replace("6.0", "n/a").astype("string")
    monkeypatch.setattr(
        row_rules,
        "numbers_of",
        lambda column, *_: pd.to_numeric(column, errors="coerce").to_numpy(float, na_value=np.nan),
    )
    model = BlockModel.from_frame(frame, id="name", rock_type="rock", domain="region", empty="zero", size=[10, 10, 10])
    sections = load_sections()
    plan = Plan.from_model(model, tmp_path, **sections)
    with pytest.raises(PlanError, match=r'block_model.csv row \d+ column cu: "n/a" is not a number'):
        plan.shells().write(tmp_path / "out", PLAIN)
    assert not (tmp_path / "out" / "tables").exists()


def load_sections():
    """The sections of PROJECT but those of the table."""
    import tomllib

    data = tomllib.loads(PROJECT, parse_float=Decimal)
    return {name: data[name] for name in ("economics", "metals", "slopes", "shells")}


def test_a_run_that_records_another_project_fails(plan_folder, monkeypatch):
    """The record as it once was: the text of the file, and not the project that was changed in Python."""
    path = plan_folder(rows(6, 5, 3, **ORE))
    project = load(path)
    dearer = replace(project, metals=(replace(project.metals[0], price=Decimal(12000)),))
    write = project_writer.write
    monkeypatch.setattr(project_writer, "write", lambda _, *places: write(project, *places))
    with pytest.raises(PlanError, match="verification failed") as said:
        pitplan.write_shells(dearer, path.parent / "out", writing=PLAIN)
    assert "money: " in str(said.value)


def test_an_input_without_a_hash_in_the_report_is_found(plan_folder):
    """The report as it once was: hashes by base name, so that the table's gave way to that of tables/blocks.csv."""
    path = plan_folder(rows(6, 5, 3, **ORE))
    pitplan.write_shells(path, writing=REPORTED)
    page, record = path.parent / "plan" / "report.html", read_record(path.parent / "plan")
    assert differences(path.parent / "plan") == {}
    page.write_text(page.read_text().replace(record["inputs"]["blocks.csv"], record["files"]["tables/blocks.csv"]))
    assert differences(path.parent / "plan") == {"inputs": ["report.html has no hash of blocks.csv"]}


def test_two_inputs_of_one_name_have_two_hashes(plan_folder):
    """The record as it once was: of two files ground.csv one hash."""
    text = PROJECT.replace('domain = "region"', 'domain = "region"\ntopography = "a/ground.csv"')
    text += '[constraints]\nas_mined = "b/ground.csv"\n'
    path = plan_folder(rows(6, 5, 3, **ORE), text)
    for name in ("a", "b"):
        (path.parent / name).mkdir()
        (path.parent / name / "ground.csv").write_text(GROUND.replace("28", "28" if name == "a" else "27"))
    pitplan.write_shells(path, writing=PLAIN)
    folder = path.parent / "plan"
    assert differences(folder) == {}
    record = json.loads((folder / "plan.json").read_text())
    del record["inputs"][os.path.join("b", "ground.csv")]
    (folder / "plan.json").write_text(json.dumps(record))
    assert differences(folder) == {"inputs": ["plan.json has no hash of b/ground.csv"]}


def test_a_survey_that_changed_since_the_run_is_found(plan_folder):
    text = PROJECT.replace('domain = "region"', 'domain = "region"\ntopography = "ground.csv"')
    path = plan_folder(rows(6, 5, 3, **ORE), text)
    (path.parent / "ground.csv").write_text(GROUND)
    pitplan.write_shells(path, writing=PLAIN)
    (path.parent / "ground.csv").write_text(GROUND + "0,0,28\n")
    assert list(differences(path.parent / "plan")) == ["inputs"]


def test_an_input_that_is_gone_or_no_table_is_named(plan_folder):
    text = PROJECT.replace('domain = "region"', 'domain = "region"\ntopography = "ground.csv"')
    path = plan_folder(rows(6, 5, 3, **ORE), text)
    (path.parent / "ground.csv").write_text(GROUND)
    pitplan.write_shells(path, writing=PLAIN)
    (path.parent / "ground.csv").write_text("x,y\n1,2\n")
    with pytest.raises(PlanError, match="ground.csv: cannot be read as a table of x, y, z: .*z.*: export it again"):
        pitplan.verify(path.parent / "plan")
    (path.parent / "ground.csv").unlink()
    with pytest.raises(PlanError, match="ground.csv: cannot be read: No such file or directory: put the input back"):
        pitplan.verify(path.parent / "plan")


@pytest.mark.parametrize("sign", [";", "\t"])
def test_a_model_from_python_keeps_no_format_of_a_file(plan_folder, sign):
    """A DataFrame takes the place of a table with other separators and decimals; it is written with commas among the inputs."""
    changes = ('domain = "region"', f"domain = \"region\"\nseparator = {json.dumps(sign)}\ndecimal = ','")
    path = plan_folder("", PROJECT, changes)
    plan = Plan.from_project(path, rows(6, 5, 3, **ORE))
    assert differences(plan.shells().write(path.parent / "out", PLAIN)) == {}


def best_by_trying(values, nodes, needed):
    """The value of the best closed set of all."""
    best = 0.0
    for number in range(2 ** len(values)):
        inside = np.array([number >> place & 1 for place in range(len(values))], dtype=bool)
        if (inside[nodes] <= inside[needed]).all():
            best = max(best, float(values[inside].sum()))
    return best


def test_closures_are_those_of_trying_all():
    rng = np.random.default_rng(7)
    for _ in range(200):
        count = int(rng.integers(1, 9))
        values = np.round(rng.normal(size=count) * 100, 1)
        pairs = {(int(a), int(b)) for a, b in rng.integers(0, count, (12, 2)) if a > b}
        nodes, needed = (np.array([pair[k] for pair in sorted(pairs)], dtype=np.int64) for k in (0, 1))
        found = maximum_closure(values, nodes, needed)
        assert (found.inside[nodes] <= found.inside[needed]).all()
        assert found.value == pytest.approx(values[found.inside].sum())
        assert found.value == pytest.approx(best_by_trying(values, nodes, needed), abs=1e-6 + found.slack)


def test_an_error_of_the_audit_has_its_details_on_lines_of_their_own():
    error = planaudit.AuditError("two\nlines", ["one", "another"])
    assert str(error) == "two\\nlines\n  one\n  another"
