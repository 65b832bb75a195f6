"""The audit's reader of projects: defaults, and one form for each spelling of a value."""

from decimal import Decimal

import pytest
import tomllib

from planaudit.errors import AuditError
from planaudit.inputs.project_file import of_data

LEAST = """
[table]
file = "blocks.csv"
[economics]
mining_cost = 2
[[metals]]
name = "copper"
column = "cu"
unit = "percent"
price = 8000
[slopes]
domains = [{ angle = 45 }]
[shells]
revenue_factors = [0.5]
discount_rate = 0.1
processing_capacity = 1000
"""


def read(tmp_path, text="", old="", new=""):
    """The project of LEAST with more sections, and with one text in place of another."""
    data = tomllib.loads(LEAST.replace(old, new) + text if old else LEAST + text, parse_float=Decimal)
    return of_data(data, tmp_path.joinpath, "a.toml")


def test_keys_that_are_left_out_have_their_defaults(tmp_path):
    project = read(tmp_path)
    assert project.table["x"] == "x" and project.table["missing_blocks"] == "refuse"
    assert project.table["file"] == tmp_path / "blocks.csv" and project.table["reblock"] is None
    assert project.economics["mining_cost"] == Decimal(2) and project.economics["mining_recovery"] == Decimal(1)
    assert project.economics["decimals"] == 6 and project.economics["capex"] == ()
    assert project.metals[0]["selling_cost"] == Decimal(0) and project.metals[0]["smelter"] is None
    assert project.shells["revenue_factors"] == (0.5, 1.0) and project.shells["processing_capacity"] == 1000.0
    assert project.schedule is None and project.dumps == () and project.calendar.periods == ()


def test_amounts_are_floats_and_money_is_exact(tmp_path):
    project = read(tmp_path, "[schedule]\nminimum = { feed = 3 }\nramp_up = [0.5, 1]\n", "price = 8000", "price = 0.1")
    assert project.metals[0]["price"] == Decimal("0.1") and isinstance(project.shells["discount_rate"], float)
    assert project.schedule["minimum"] == {"feed": 3.0} and project.schedule["ramp_up"] == (0.5, 1.0)


def test_spellings_of_a_value_have_one_form(tmp_path):
    one = "[schedule]\nstockpile = { reclaim_cost = 1 }\n[constraints]\nas_mined = 'now.csv'\n"
    other = "[schedule]\nstockpiles = [{ reclaim_cost = 1 }]\n[constraints]\nas_mined = { file = 'now.csv' }\n"
    first, second = read(tmp_path, one), read(tmp_path, other)
    assert first.schedule == second.schedule and first.schedule["stockpiles"][0]["name"] == "stockpile"
    assert first.constraints == second.constraints and first.constraints["as_mined"]["file"] == tmp_path / "now.csv"
    by_step = read(tmp_path, "", "[0.5]", "{ from = 0.5, to = 0.7, step = 0.1 }")
    assert by_step.shells["revenue_factors"] == (0.5, 0.6, 0.7, 1.0)
    road = read(
        tmp_path, "[haulage]\npit_exit = [0, 1, 2]\nramp_gradient = 0.1\ncost = { ore = 3, waste = 2 }\n"
    ).haulage
    assert road["ore"] == {"cost": Decimal(3), "ex_pit_distance": Decimal(0)} and road["waste"]["cost"] == Decimal(2)


def test_recoveries_are_numbers_curves_or_either_by_rock_type(tmp_path):
    def recovery(text):
        return read(tmp_path, "", "price =", f"recovery = {text}\nprice =").metals[0]["recovery"]

    curve = ((Decimal("0.1"), Decimal("0.5")), (Decimal(1), Decimal("0.9")))
    assert recovery("0.5") == Decimal("0.5") and recovery("[[1, 0.9], [0.1, 0.5]]") == curve
    assert recovery("{ R = 0.5, S = [[0.1, 0.5], [1, 0.9]] }") == {"R": Decimal("0.5"), "S": curve}


def test_a_column_may_have_the_name_of_a_key(tmp_path):
    text = "[schedule]\n[[schedule.stockpiles]]\nname = 'low'\nreclaim_cost = 1\naccepts = { capacity = { max = 2 } }\n"
    (stockpile,) = read(tmp_path, text + "opening = { tonnes = 5, capacity = 0.4 }\n").schedule["stockpiles"]
    assert stockpile["capacity"] is None and stockpile["opening"]["grades"] == {"capacity": 0.4}
    assert stockpile["accepts"]["grades"] == ({"column": "capacity", "min": None, "max": 2.0},)


@pytest.mark.parametrize(
    ("old", "new", "why"),
    [
        ("mining_cost = 2", "", "KeyError 'mining_cost'"),
        ("price = 8000", 'price = "high"', "TypeError 'high' is not a number"),
        ("discount_rate = 0.1", "discount_rate = true", "TypeError True is not a number"),
    ],
)
def test_a_missing_key_or_a_value_of_another_type_is_an_error(tmp_path, old, new, why):
    with pytest.raises(AuditError, match="a.toml: cannot be read as a project") as raised:
        read(tmp_path, "", old, new)
    assert why in str(raised.value)
