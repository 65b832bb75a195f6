"""A sensitivity of a block model whose table has rules is that of the table after them."""

import pandas as pd
import pytest
from conftest import PROJECT, rows
from helpers.writings import PLAIN, UNVERIFIED

import pitplan

RULES = """
class = "cat"
density = "sg"
null_values = [-99]
nulls = { cu_raw = "zero" }
map = { cat = { 1 = "indicated", 2 = "inferred" }, rock = { 7 = "R" } }
calculate = { cu = "cu_raw / 10" }
filter = "zone > 0"
rock_percent = "pct"
"""
STUDY = """
[sensitivity]
changes = [-0.2, 0.2]
parameters = ["price", "mining_cost", "slopes"]
[[sensitivity.hill]]
parameter = "economics.mining_cost"
values = [2, 3]
[[sensitivity.hill]]
parameter = "metals.copper.price"
values = [7000, 9000]
"""
GRADES = {(3, 3, 1): 6, (5, 3, 1): 2, (4, 2, 2): 0.9}


def table():
    """Blocks of 1,000 m3 with 2.5 t/m3, half of them rock, and of two classes."""
    return rows(
        8, 7, 3, cu=lambda i, j, k: GRADES.get((i, j, k), 0), cat=lambda i, j, k: "indicated" if i < 5 else "inferred"
    )


def sensitivity(place, frame, text):
    place.mkdir()
    frame.to_csv(place / "blocks.csv", index=False)
    (place / "project.toml").write_text(text)
    pitplan.write_sensitivity(place / "project.toml", writing=PLAIN)
    folder = place / "plan" / "sensitivity" / "tables"
    return pd.read_csv(folder / "sensitivity.csv"), pd.read_csv(folder / "hill_of_value.csv")


def test_rules_of_the_table_apply_once_in_each_case(tmp_path):
    """Codes, a calculated grade, a filter, density and a percent of rock; each case is verified, and is that of the table without rules."""
    plain = table().assign(tonnes=1250)
    raw = plain.drop(columns=["tonnes", "cu"]).assign(
        sg=2.5,
        pct=50,
        zone=1,
        cat=plain["cat"].map({"indicated": 1, "inferred": 2}),
        rock=7,
        cu_raw=(10 * plain["cu"]).replace(0, -99),
    )
    text = PROJECT + STUDY
    given = text.replace('file = "blocks.csv"\n', f'file = "blocks.csv"{RULES}')
    due = sensitivity(
        tmp_path / "plain", plain, text.replace('file = "blocks.csv"\n', 'file = "blocks.csv"\nclass = "cat"\n')
    )
    beyond = raw.iloc[[0]].assign(name="beyond", x=-5.0, zone=0)
    for found, expected in zip(sensitivity(tmp_path / "ruled", pd.concat([raw, beyond]), given), due):
        pd.testing.assert_frame_equal(found, expected)
        assert len(found) > 3 and (found["npv"] > 0).all() and found["npv"].nunique() > 3


@pytest.mark.parametrize("reblock", ["[2, 2, 1]", "{ size = [20, 20, 10], corner = [0, 0, 0] }"])
def test_codes_of_reblocked_models_are_mapped_once(tmp_path, reblock):
    """The base case has the pit of the shells."""
    raw = table().assign(cat=lambda it: it["cat"].map({"indicated": 1, "inferred": 2}))
    rules = f'file = "blocks.csv"\nclass = "cat"\nmap = {{ cat = {{ 1 = "indicated", 2 = "inferred" }} }}\nreblock = {reblock}\n'
    text = (
        (PROJECT + STUDY).replace('file = "blocks.csv"\n', rules).replace("size = [10, 10, 10]\n", "tolerance = 0.01\n")
    )
    cases, _ = sensitivity(tmp_path / "mine", raw, text)
    pitplan.write_shells(tmp_path / "mine/project.toml", writing=UNVERIFIED)
    shells = pd.read_csv(tmp_path / "mine/plan/tables/shells.csv").set_index("revenue_factor")
    assert cases["tonnes"][0] in shells["tonnes"].tolist() and cases["npv"].nunique() > 3
