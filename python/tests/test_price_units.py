"""Prices by the pound, ounce, gram, kilogram or tonne: the same money as a price in the metal's own unit."""

from dataclasses import replace
from decimal import Decimal

import pandas as pd
import pytest
from conftest import PROJECT, rows
from helpers.writings import PLAIN

import pitplan
from pitplan.config.project import load
from pitplan.errors import PlanError
from planaudit.money.prices import converted

COPPER = ("price = 8000", 'price = {}\nselling_cost = {}\nprices = [{}]\nprice_per = "{}"')
GOLD = ('unit = "percent"', 'unit = "gram_per_tonne"')


def priced(price, selling, by_year, per):
    return (COPPER[0], COPPER[1].format(price, selling, by_year, per))


def ore():
    return rows(5, 5, 3, cu=lambda i, j, k: {(2, 2, 1): 2.5, (3, 2, 1): 0.75}.get((i, j, k), 0))


@pytest.mark.parametrize(
    ("unit", "given", "same"),
    [
        # 1 lb is 0.45359237 kg: 4.53592370 USD per lb are 10,000 USD per t.
        ("percent", ("4.5359237", "0.45359237", "3.62873896", "lb"), ("10000", "1000", "8000", "t")),
        ("percent", ("10", "1", "8", "kg"), ("10000", "1000", "8000", "t")),
        ("percent", ("0.01", "0.001", "0.008", "g"), ("10000", "1000", "8000", "t")),
        # A troy ounce is 31.1034768 g: 3,110.34768 USD per oz are 100 USD per g.
        ("gram_per_tonne", ("3110.34768", "311.034768", "2488.278144", "oz"), ("100", "10", "80", "g")),
        ("gram_per_tonne", ("100000", "10000", "80000", "kg"), ("100", "10", "80", "g")),
    ],
)
def test_a_converted_price_makes_the_same_plan(plan_folder, unit, given, same):
    """Unit definitions of NIST SP 811, appendix B.8; the prices are chosen so that both texts are exact."""
    changes = [GOLD] if unit == "gram_per_tonne" else []
    by_given = pitplan.Plan.from_project(plan_folder(ore(), PROJECT, *changes, priced(*given)))
    by_same = pitplan.Plan.from_project(plan_folder(ore(), PROJECT, *changes, priced(*same)))
    assert by_given.values.revenue.any()
    pd.testing.assert_frame_equal(by_given.blocks, by_same.blocks)
    metal, natural = by_given.project.metals[0], by_same.project.metals[0]
    units = {"unit": metal.unit, "price_per": metal.price_per}
    for price, expected in zip((metal.price, *metal.prices), (natural.price, *natural.prices)):
        assert metal.by_quantity(price) == converted(units, price) == expected


@pytest.mark.parametrize("per", ["t", "kg", "g", "lb", "oz"])
@pytest.mark.parametrize("unit", ["percent", "fraction", "gram_per_tonne"])
def test_both_conversions_round_alike(plan_folder, per, unit):
    metal = replace(load(plan_folder(ore())).metals[0], unit=unit, price_per=per)
    for price in map(Decimal, ("0", "1", "3.85", "1927.4", "0.000001", "8818.490487395103")):
        assert metal.by_quantity(price) == converted({"unit": unit, "price_per": per}, price)


def test_a_run_by_the_pound_is_verified_and_reads_back(plan_folder):
    path = plan_folder(ore(), PROJECT, priced("4.1", "0.2", "4.3", "lb"))
    pitplan.write_shells(path, writing=PLAIN)
    assert 'price_per = "lb"' in (path.parent / "plan" / "project-as-run.toml").read_text()
    assert load(path.parent / "plan" / "project-as-run.toml").metals == load(path).metals


def test_an_unknown_unit_is_refused(plan_folder):
    with pytest.raises(PlanError, match=r"\[metals 1\] price_per: found \"ounce\", expected one of t, kg, g, lb, oz"):
        load(plan_folder(ore(), PROJECT, priced("4", "0", "4", "ounce")))
