"""A project that was made or changed in Python is checked as a file is, and plans the same mine."""

from dataclasses import replace
from decimal import Decimal

import pandas as pd
import pytest
from conftest import ROOT, rows

import pitplan
from pitplan.config.project import load, validated

EXAMPLES = sorted((ROOT / "examples").glob("*/project*.toml"))


def with_metal(project, **changes):
    return replace(project, metals=(replace(project.metals[0], **changes), *project.metals[1:]))


def with_shells(project, **changes):
    return replace(project, shells=replace(project.shells, **changes))


def with_money(project, **changes):
    return replace(project, economics=replace(project.economics, **changes))


WRONG = {
    "recovery of 500 %": (lambda it: with_metal(it, recovery=Decimal(5)), r"\[metals 1\] recovery: "),
    "negative price": (lambda it: with_metal(it, price=Decimal(-9000)), r"\[metals 1\] price: "),
    "unknown unit": (lambda it: with_metal(it, unit="pct"), r"\[metals 1\] unit: "),
    "rate of 800 %": (lambda it: with_shells(it, discount_rate=8.0), r"\[shells\] discount_rate: "),
    "a factor beyond all": (lambda it: with_shells(it, revenue_factors=(1.0, 200.0)), r"\[shells\] revenue_factors: "),
    "cost that is a text": (lambda it: with_money(it, mining_cost="2"), r"\[economics\] mining_cost: "),
    "levels beyond all": (
        lambda it: replace(it, slopes=replace(it.slopes, precedence_benches=0)),
        r"\[slopes\] precedence_benches: ",
    ),
}


@pytest.fixture
def project(plan_folder):
    return load(plan_folder(rows(5, 5, 3, cu=lambda i, j, k: 2 if (i, j, k) == (2, 2, 1) else 0)))


@pytest.mark.parametrize("wrong", WRONG)
def test_a_wrong_value_is_refused_by_its_key(project, wrong):
    change, said = WRONG[wrong]
    changed = change(project)
    for refusing in (pitplan.Plan.from_project, pitplan.write_shells, pitplan.check):
        with pytest.raises(pitplan.PlanError, match=rf"project\.toml as changed in Python: {said}"):
            refusing(changed)
    assert not project.folder.exists()


def test_a_float_is_the_decimal_that_it_shows(project):
    by_float = pitplan.Plan.from_project(with_metal(with_money(project, mining_cost=2.1), price=8000.5, recovery=0.9))
    by_decimal = pitplan.Plan.from_project(
        with_metal(with_money(project, mining_cost=Decimal("2.1")), price=Decimal("8000.5"), recovery=Decimal("0.9"))
    )
    pd.testing.assert_frame_equal(by_float.blocks, by_decimal.blocks)
    assert by_float.key == by_decimal.key and by_float.project == by_decimal.project


@pytest.mark.parametrize("path", EXAMPLES, ids=lambda it: f"{it.parent.name}/{it.name}")
def test_a_project_from_a_file_stays_as_it_is(path):
    project = replace(load(path), solver="program")
    assert validated(project) == project
    fewer = with_shells(project, revenue_factors=(0.3, 0.7), selected=None, base_price_added=False)
    assert validated(fewer).shells == fewer.shells
    assert validated(with_shells(fewer, revenue_factors=(0.7, 0.3))).shells == fewer.shells
