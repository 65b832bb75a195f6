"""The short programs in Python of docs/planning run; their results are compared with tables of the same run."""

import re
import shutil

import pandas as pd
import pytest
from conftest import ROOT
from helpers.documentation import blocks
from helpers.writings import UNVERIFIED

import pitplan

PLANNING, HILL = ROOT / "docs" / "planning", ROOT / "docs" / "recipes"


def program(page, number):
    """The text of a block of Python of a page."""
    text = (PLANNING / page).read_text(encoding="utf-8")
    return [it.text for it in blocks(text) if it.language in ("python", "py")][number]


def test_a_block_model_from_pandas():
    frame = pd.read_csv(HILL / "blocks.csv").rename(columns={"id": "block", "region": "domain"})
    names = {"pitplan": pitplan, "frame": frame}
    exec(program("notebook.md", 1), names)
    plan = names["plan"]
    assert len(plan.blocks) == len(frame) == 530
    assert plan.blocks["mining_cost"].sum() == pytest.approx(2.2 * frame["tonnes"].sum())
    assert plan.shells().table["revenue_factor"].tolist() == [round(0.3 + 0.1 * k, 1) for k in range(10)]


def test_reserves_from_the_blocks(tmp_path, monkeypatch, capsys):
    """They are those of the flows, which have no dilution here, by pushback; and no block of a waste class is among them."""
    shutil.copytree(HILL, tmp_path, dirs_exist_ok=True)
    project = tmp_path / "project.toml"
    text = project.read_text().replace("[economics]", 'class = "class"\n[classes]\nnone = "waste"\n[economics]')
    project.write_text(text.replace("[schedule]\n", "[schedule]\nbench_lag = 1\n"))
    pitplan.write_schedule(project, tmp_path / "build" / "schedule", writing=UNVERIFIED)
    monkeypatch.chdir(tmp_path)
    names: dict = {}
    exec(program("reserves.md", 0), names)
    by_class = names["ore"].groupby("class")["feed_tonnes"].sum()
    assert set(by_class.index) == {"measured", "indicated"} and "recovered_copper" in capsys.readouterr().out
    names = {}
    exec(program("reserves.md", 1), names)
    sums = names["tonnes"].groupby(names["keys"]).sum()
    flows = pd.read_csv("build/schedule/tables/flows.csv")
    fed = flows[(flows["method"] == "lp") & (flows["destination"] == "mill")].groupby("pushback")
    assert sums.groupby(level=0).sum().to_dict() == pytest.approx(fed["feed_tonnes"].sum().to_dict(), rel=1e-6)
    metal = names["copper"].groupby(names["keys"]).sum().groupby(level=0).sum().to_dict()
    assert metal == pytest.approx(fed["contained_copper"].sum().to_dict(), rel=1e-5)
    assert sums.groupby(level=1).sum().to_dict() == pytest.approx(by_class.to_dict(), rel=1e-6)
    assert re.search(r"measured +\d", capsys.readouterr().out)
