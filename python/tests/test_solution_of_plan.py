"""A solution answers the plan that was solved, and no other."""

from dataclasses import replace

import numpy as np
import pytest
from conftest import PROJECT, rows

import pitplan
from pitplan import PlanError
from pitplan.config.project import load

ORE = {"cu": lambda i, j, k: {(3, 3, 1): 6, (4, 3, 1): 2.5, (3, 4, 0): 9}.get((i, j, k), 0)}
FIXED = ("[shells]", '[constraints]\nmust_mine = "due"\n[shells]')
OTHERS = {
    "price": (("price = 8000", "price = 9000"),),
    "recovery of one block": (("recovery = 0.5", "recovery = { R = 0.5, S = 0.6 }"),),
    "slopes": (('"1:5"', '"1:9"'),),
    "revenue_factors": (("[0.5, 1.0, 1.5]", "[0.6, 1.0, 1.5]"),),
    "more factors": (("[0.5, 1.0, 1.5]", "[0.5, 1.0, 1.5, 1.6]"),),
    "fixed blocks": (FIXED,),
    "cutoff": (("processing_cost = 10", 'processing_cost = 10\ncutoff = "base_price"'),),
}


@pytest.fixture
def mine(plan_folder):
    """Prepares a plan of a project with some changes."""

    def prepare(*changes):
        table = rows(8, 7, 3, rock=lambda i, j, k: "RS"[i == 3], due=lambda i, j, k: int((i, j, k) == (1, 1, 2)), **ORE)
        return pitplan.Plan.from_project(plan_folder(table, PROJECT, *changes))

    return prepare


def test_shells_refuse_a_solution_of_another_plan(mine):
    plan, other = mine(), mine(("price = 8000", "price = 9000"))
    pitplan.Shells(plan, plan.shells().solution)
    with pytest.raises(
        PlanError, match=r"blocks.csv: the solution is of another plan \(.*\): use the one from plan.shells\(\)"
    ):
        pitplan.Shells(plan, other.shells().solution)


@pytest.mark.parametrize("change", OTHERS)
def test_whatever_shells_depend_on_makes_another_plan(mine, change):
    plan, other = mine(), mine(*OTHERS[change])
    for one, two in ((plan, other), (other, plan)):
        with pytest.raises(PlanError, match="the solution is of another plan"):
            pitplan.Shells(one, two.shells().solution).table


def test_a_solution_of_a_smaller_model_is_refused(mine, plan_folder):
    plan, other = mine(), pitplan.Plan.from_project(plan_folder(rows(7, 7, 3, **ORE)))
    with pytest.raises(PlanError, match=r"it has 150 nodes, the plan 171"):
        pitplan.Shells(plan, other.shells().solution).table


def test_what_shells_do_not_depend_on_makes_no_other_plan(mine):
    """A plan prepared again, and another rate, which is of years alone."""
    plan, solution = mine(), mine().shells().solution
    assert pitplan.Shells(plan, solution).table.equals(plan.shells().table)
    later = mine(("discount_rate = 0.1", "discount_rate = 0.2"))
    assert (
        pitplan.Shells(later, solution).table["npv_best"].iloc[-1]
        < pitplan.Shells(plan, solution).table["npv_best"].iloc[-1]
    )


def test_a_plan_by_the_program_has_the_key_of_that_by_the_library(mine):
    plan = mine()
    by_program = replace(plan, project=replace(plan.project, solver="program")).shells().solution
    assert np.array_equal(
        pitplan.Shells(plan, by_program).blocks["revenue_factor"], plan.shells().blocks["revenue_factor"]
    )


def test_pushbacks_have_a_solution_of_their_own_factors(plan_folder):
    path = plan_folder(rows(8, 7, 3, **ORE), PROJECT + "[pushbacks]\ncount = 2\n")
    whole = pitplan.Plan.from_project(load(path))
    pushbacks = pitplan.pushbacks.nested.divide(whole)
    assert len(pushbacks.shells.table) != len(whole.project.shells.revenue_factors)
    with pytest.raises(PlanError, match="the solution is of another plan"):
        pitplan.Shells(whole, pushbacks.shells.solution)
