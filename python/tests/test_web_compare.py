"""The page that compares runs."""

import re
import time

import pandas as pd
import pytest
from helpers.pushbacks import UPRIGHT, pillars
from helpers.writings import PLAIN
from starlette.testclient import TestClient

import pitplan
from pitplan.web import output_pages
from pitplan.web.jobs import Jobs
from pitplan.web.run_form import WrongForm
from pitplan.web.security import Access
from pitplan.web.server import make_app
from pitplan.web.workspace import NotThere, Workspace

PORT = 8124


@pytest.fixture(scope="module")
def root(tmp_path_factory):
    """A folder with a project that was run at two prices."""
    folder = tmp_path_factory.mktemp("served").resolve()
    pillars().to_csv(folder / "blocks.csv", index=False)
    (folder / "project.toml").write_text(UPRIGHT)
    for name, price in (("low", 8000), ("high", 9000)):
        project = pitplan.load(folder / "project.toml", overrides=[f"metals.copper.price={price}"])
        pitplan.write_shells(project, folder / name, writing=PLAIN)
    return folder


@pytest.fixture
def client(root):
    access = Access(PORT)
    found = TestClient(make_app(root, access), base_url=f"http://127.0.0.1:{PORT}")
    found.follow_redirects = False
    assert found.get(f"/enter?token={access.token}").status_code == 200
    return found


def test_runs_are_chosen_and_compared(root, client):
    """The price is 1,000 higher, so the revenue of 100 t of 1 % and half recovered is 500 higher."""
    text = client.get("/compare").text
    assert re.findall(r'name="other-\d" value="(\w+)"', text) == ["high", "low"]
    form = {"base": "low", "other-1": "high", "other-2": "low", "folder": "both", "bridge": "on"}
    answer = client.post("/compare", data=form, headers={"origin": f"http://127.0.0.1:{PORT}"})
    number, jobs, end = int(answer.headers["location"].rpartition("=")[2]), Jobs(root), time.monotonic() + 60
    while not jobs.read(number).has_ended:
        jobs.pump()
        assert time.monotonic() < end
        time.sleep(0.1)
    assert jobs.read(number).words == ("compare", "low", "high", "--out=both")
    assert jobs.read(number).status == "done", jobs.log(number)
    assert "Asked for" in client.get(f"/job?number={number}").text
    page = client.get("/result?name=both").text
    assert (
        "Comparison: both" in page
        and "Not verified" not in page
        and "/table?name=both/tables/bridge.csv" in page
        and "/figures/" in page
    )
    inputs = pd.read_csv(root / "both/tables/inputs.csv", dtype=str)
    assert inputs.astype(str).apply(lambda row: {"8000", "9000"} <= set(row), axis=1).any()


@pytest.mark.parametrize(
    ("form", "why"),
    [
        ({}, "Base: found none"),
        ({"base": "low"}, "found no run, expected at least one other than the base"),
        ({"base": "low", "other-1": "low"}, "found no run, expected at least one other than the base"),
        ({"base": "low", "other-1": "high", "folder": "../out"}, "expected a folder below the one that is served"),
        ({"base": "low", "other-1": "high", "folder": ".out"}, "expected a folder below the one that is served"),
        ({"base": "low", "other-1": "high", "folder": "high"}, "is a file or one of the runs"),
        ({"base": "low", "other-1": "high", "folder": "project.toml"}, "is a file or one of the runs"),
        (
            {"base": "low", **{f"other-{number}": f"x{number}" for number in range(21)}},
            "found 21 runs, expected at most 20",
        ),
    ],
)
def test_a_wrong_choice_is_refused_with_the_field(root, form, why):
    with pytest.raises(WrongForm, match=why):
        output_pages.comparison(form, Workspace(root))


def test_a_run_outside_is_not_there(root):
    with pytest.raises(NotThere):
        output_pages.comparison({"base": "low", "other-1": "../elsewhere"}, Workspace(root))


def test_without_a_bridge_nothing_is_run(root):
    found = output_pages.comparison({"base": "low", "other-1": "high"}, Workspace(root))
    assert found.words == ("compare", "low", "high", "--out=low-compared", "--no-bridge")


def test_a_folder_with_one_run_says_what_to_do(tmp_path):
    access = Access(PORT)
    client = TestClient(make_app(tmp_path.resolve(), access), base_url=f"http://127.0.0.1:{PORT}")
    client.get(f"/enter?token={access.token}")
    assert "run it into two output folders" in client.get("/compare").text
