"""`[sensitivity] parameters` with paths of keys: each case is the project with that key changed, and the audit changes it itself."""

from decimal import Decimal

import pandas as pd
import pytest
from conftest import PROJECT
from helpers.processes import WITH, deposit
from helpers.writings import PLAIN, UNVERIFIED

import pitplan
from pitplan import PlanError
from pitplan.config.overrides import scaled
from pitplan.studies import sensitivity

ASKED = '[sensitivity]\nchanges = [-0.2, 0.1]\nparameters = ["metals.copper.price", "price copper", "processes.leach.cost", "slopes.domains.1.angle"]\n'
ASKED += 'pairs = [["metals.copper.price", "economics.mining_cost"]]\nlargest_increment = 1\n'


@pytest.fixture
def path(plan_folder):
    changes = [
        *WITH,
        ("[0.5, 1.0, 1.5]", "[0.5, 1.0]"),
        ('pattern = "1:5"', "angle = 45"),
        ("discount_rate", "selected = 1.0\ndiscount_rate"),
    ]
    return plan_folder(deposit(), PROJECT + ASKED, *changes)


def npv_of(path, *sets):
    """The NPV of the pit at the base price of the project with some keys."""
    table = pitplan.Plan.from_project(path, overrides=sets).shells().table
    row = table[table["revenue_factor"] <= 1].iloc[-1]
    return (row["npv_best"] + row["npv_worst"]) / 2


def test_each_case_is_the_project_with_the_key_changed(path):
    cases = pitplan.write_sensitivity(path, writing=UNVERIFIED)
    alone = cases[cases["second_parameter"] == ""].set_index(["parameter", "change"])["npv"]
    assert alone["processes.leach.cost", 0.1] == pytest.approx(npv_of(path, "processes.leach.cost=3.3"))
    assert alone["metals.copper.price", -0.2] == pytest.approx(alone["price copper", -0.2])
    assert alone["slopes.domains.1.angle", -0.2] == pytest.approx(npv_of(path, "slopes.domains.1.angle=36"))
    pair = cases[(cases["second_parameter"] == "economics.mining_cost") & (cases["second_change"] == 0.1)]
    by_hand = npv_of(path, "metals.copper.price=6400", "economics.mining_cost=2.2")
    assert pair.set_index("change")["npv"][-0.2] == pytest.approx(by_hand)
    assert not [rule for rule in pitplan.verify(path.parent / "plan" / "sensitivity") if rule.differences]


def test_what_slopes_change_has_no_kept_amounts(path):
    pitplan.write_sensitivity(path, writing=UNVERIFIED)
    cases = pd.read_csv(path.parent / "plan" / "sensitivity" / "tables" / "sensitivity.csv")
    is_of_domains = cases["parameter"] == "slopes.domains.1.angle"
    assert cases["kept_npv_best"].isna().tolist() == is_of_domains.tolist()


def test_a_key_that_is_changed_otherwise_is_found(path, monkeypatch):
    monkeypatch.setattr(sensitivity, "with_key", lambda project, by, key: project)
    with pytest.raises(PlanError, match="verification failed"):
        pitplan.write_sensitivity(path, writing=PLAIN)


@pytest.mark.parametrize(
    ("name", "said"),
    [
        ("processes.mil.cost", r"processes.mil.cost: found mil, expected one of leach, mill"),
        (
            "economics.minning_cost",
            r"economics.minning_cost: found minning_cost, expected one of currency, mining_cost",
        ),
        ("economics.currency", r"economics.currency: found 'USD', expected a number"),
        ("metals.copper", r"metals.copper: found .* expected a number|names an entry of a list"),
        (
            "schedule.years",
            r"found \"schedule.years\", expected a key of economics, metals, .* such as processes.mill.cost",
        ),
    ],
)
def test_a_key_that_is_not_there_is_named(path, name, said):
    path.write_text(path.read_text().replace("processes.leach.cost", name))
    with pytest.raises(PlanError, match=said):
        pitplan.load(path)


def test_a_value_that_is_not_valid_is_named(path):
    path.write_text(
        path.read_text().replace("processes.leach.cost", "processes.leach.recovery.copper").replace("0.1]", "4]")
    )
    with pytest.raises(PlanError, match=r"\[sensitivity\] processes.leach.recovery.copper times 5"):
        pitplan.write_sensitivity(path, writing=UNVERIFIED)


def test_numbers_of_tables_and_lists_by_hand():
    data = {"a": {"n": 2, "by": {"R": Decimal(3), "S": 4}, "pairs": [[1, 5], [2, 6]], "list": [7, 8], "t": "x"}}
    found = {key: scaled(data, f"a.{key}", Decimal("1.5"), "here:")["a"][key] for key in ("n", "by", "pairs", "list")}
    assert found == {
        "n": 3,
        "by": {"R": Decimal("4.5"), "S": 6},
        "pairs": [[1, Decimal("7.5")], [2, 9]],
        "list": [Decimal("10.5"), 12],
    }
    assert data["a"]["n"] == 2
    with pytest.raises(PlanError, match="here: a.t: found 'x', expected a number"):
        scaled(data, "a.t", Decimal(2), "here:")


HILL = '[[sensitivity.hill]]\nparameter = "{}"\nvalues = [1, 2]\n[[sensitivity.hill]]\nparameter = "economics.mining_cost"\nvalues = [1, 2]\n'


@pytest.mark.parametrize(
    ("name", "said"),
    [
        ("processes.mill.capacity", "processes.mill.capacity: the project has no [[processes]]"),
        ("dumps.north.cost", "dumps.north.cost: the project has no [[dumps]]"),
        ("haulage.cost", "haulage.cost: the project has no [haulage]"),
    ],
)
@pytest.mark.parametrize("asked", ['[sensitivity]\nparameters = ["{}"]\n', HILL], ids=["parameters", "hill"])
def test_a_section_that_the_project_does_not_have_is_named(plan_folder, asked, name, said):
    path = plan_folder(deposit(), PROJECT + asked.format(name))
    with pytest.raises(PlanError) as error:
        pitplan.load(path)
    assert str(error.value).endswith(said)
