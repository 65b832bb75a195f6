"""Hashes of what a run has read and written: each file by its own place, all in the report; and a sensitivity of other inputs is none of it."""

import hashlib
import json
import re
import shutil

import pandas as pd
import pytest
from conftest import PROJECT, rows
from helpers.writings import UNVERIFIED, UNVERIFIED_REPORT

import pitplan
from pitplan import PlanError

ORE = {"cu": lambda i, j, k: {(3, 3, 1): 6, (4, 3, 1): 2.5, (3, 4, 0): 9}.get((i, j, k), 0)}
CUT = ('domain = "region"\n', 'domain = "region"\ntopography = "a/ground.csv"\n')
MINED = ("[shells]", '[constraints]\nas_mined = "b/ground.csv"\n[shells]')
VARIED = ("[slopes]\n", '[sensitivity]\nchanges = [0.1]\nparameters = "price"\n[slopes]\n')


def sha256(path):
    return hashlib.sha256(path.read_bytes()).hexdigest()


def ground(path, height):
    path.parent.mkdir(exist_ok=True)
    points = [(x, y, height) for x in (-10, 100) for y in (-10, 100)]
    pd.DataFrame(points, columns=["x", "y", "z"]).to_csv(path, index=False)


@pytest.fixture
def two_grounds(plan_folder, tmp_path):
    """A mine whose original ground and as-mined surface are two files of one name; its project."""
    ground(tmp_path / "a" / "ground.csv", 28)
    ground(tmp_path / "b" / "ground.csv", 27)
    return plan_folder(rows(8, 7, 3, **ORE), PROJECT, CUT, MINED, VARIED)


def test_two_inputs_of_one_name_have_a_hash_each(two_grounds):
    place = two_grounds.parent
    pitplan.write_shells(two_grounds, writing=UNVERIFIED)
    pitplan.write_sensitivity(two_grounds, writing=UNVERIFIED)
    names = ("project.toml", "blocks.csv", "a/ground.csv", "b/ground.csv")
    for record in (place / "plan" / "plan.json", place / "plan" / "sensitivity" / "sensitivity.json"):
        assert json.loads(record.read_text())["inputs"] == {name: sha256(place / name) for name in names}


def test_an_input_elsewhere_is_named_by_its_way_from_the_project(plan_folder, tmp_path):
    path = plan_folder(rows(8, 7, 3, **ORE), PROJECT, ('file = "blocks.csv"', 'file = "../table/blocks.csv"'))
    (tmp_path / "mine").mkdir()
    (tmp_path / "table").mkdir()
    shutil.move(tmp_path / "blocks.csv", tmp_path / "table" / "blocks.csv")
    project = shutil.move(path, tmp_path / "mine" / "project.toml")
    pitplan.write_shells(project, tmp_path / "elsewhere", writing=UNVERIFIED)
    inputs = json.loads((tmp_path / "elsewhere" / "plan.json").read_text())["inputs"]
    assert inputs == {"project.toml": sha256(project), "../table/blocks.csv": sha256(tmp_path / "table" / "blocks.csv")}
    assert pitplan.write_report(tmp_path / "elsewhere").is_file()
    assert len(pd.read_csv(pitplan.write_export(tmp_path / "elsewhere", "table"))) == 168


def digests(page, heading):
    """The names and hashes of a table of the page below a heading."""
    part = page.partition(f"<h3>{heading}</h3>")[2].partition("</table>")[0]
    return dict(re.findall(r'<td class="text">([^<]*)</td><td class="text"><code>([0-9a-f]{64})</code>', part))


def test_the_report_has_the_hashes_of_inputs_and_outputs_apart(two_grounds):
    """The table and an output are both called blocks.csv."""
    place = two_grounds.parent
    pitplan.write_shells(two_grounds, writing=UNVERIFIED_REPORT)
    page = (place / "plan" / "report.html").read_text()
    names = ("project.toml", "blocks.csv", "a/ground.csv", "b/ground.csv")
    assert digests(page, "Input files and their SHA-256") == {name: sha256(place / name) for name in names}
    written = digests(page, "Output files and their SHA-256")
    assert {"tables/blocks.csv", "tables/shells.csv", "tables/years.csv"} < {*written}
    del written[next(name for name in written if name.startswith(("pitshell ", "libpitshell ")))]
    assert written == {name: sha256(place / "plan" / name) for name in written}
    assert sha256(place / "blocks.csv") != sha256(place / "plan" / "tables/blocks.csv")


def test_an_audit_has_the_hashes_of_inputs_and_outputs_apart(two_grounds):
    place = two_grounds.parent
    pitplan.write_shells(two_grounds, writing=UNVERIFIED)
    record = json.loads((pitplan.audit(place / "plan", 1.0) / "audit.json").read_text())
    assert record["inputs"]["blocks.csv"] == sha256(place / "blocks.csv")
    assert record["plan"]["tables/blocks.csv"] == sha256(place / "plan" / "tables/blocks.csv")


@pytest.mark.parametrize("name", ["a/ground.csv", "b/ground.csv", "blocks.csv", "project.toml"])
def test_a_sensitivity_of_another_input_is_no_part_of_a_report(two_grounds, name):
    place = two_grounds.parent
    pitplan.write_sensitivity(two_grounds, writing=UNVERIFIED_REPORT)
    pitplan.write_shells(two_grounds, writing=UNVERIFIED_REPORT)
    assert "<h2>Sensitivity</h2>" in (place / "plan" / "report.html").read_text()
    other = place / name
    if name.endswith("ground.csv"):
        ground(other, 26 if name[0] == "b" else 29)
    else:
        other.write_text(other.read_text().replace("mining_cost = 2", "mining_cost = 3") + "\n")
    pitplan.write_shells(two_grounds, writing=UNVERIFIED_REPORT)
    page = (place / "plan" / "report.html").read_text()
    said = f"is a sensitivity of other inputs ({name})"
    assert f"{said}, and is left out here." in page and "<h2>Sensitivity</h2>" not in page
    with pytest.raises(PlanError, match=re.escape(f"{said}: run pitplan sensitivity again")):
        pitplan.write_report(place / "plan", place / "plan" / "sensitivity")


@pytest.mark.parametrize("name", ["a/ground.csv", "b/ground.csv"])
def test_a_report_of_a_ground_that_has_changed_is_refused(two_grounds, name):
    pitplan.write_shells(two_grounds, writing=UNVERIFIED)
    ground(two_grounds.parent / name, 25)
    with pytest.raises(PlanError, match=f"{name}: has changed since .* was written: run pitplan again"):
        pitplan.write_report(two_grounds.parent / "plan")
