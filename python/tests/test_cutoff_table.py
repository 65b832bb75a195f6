"""cutoffs.csv: cut-off grades worked by hand, and their independent verification."""

import pandas as pd
import pytest
from conftest import PROJECT, rows
from helpers.processes import WITH, deposit
from helpers.writings import PLAIN

import pitplan

SCHEDULE = "[pushbacks]\ncount = 1\nultimate_pit = 1.0\n[schedule]\nyears = 4\n"
GOLD = '[[metals]]\nname = "gold"\ncolumn = "au"\nunit = "gram_per_tonne"\nprice = 50\nrecovery = 0.4\n'


@pytest.fixture
def scheduled(plan_folder):
    def write(table, more="", *changes):
        path = plan_folder(table, PROJECT + SCHEDULE + more, *changes)
        pitplan.write_schedule(path, folder=path.parent / "plan", writing=PLAIN)
        return path.parent / "plan"

    return write


def cutoffs_of(folder):
    return pd.read_csv(folder / "tables/cutoffs.csv").query("method == 'lp'")


def test_grades_of_one_metal_by_hand(scheduled):
    """Copper of 8000 a tonne and a recovery of half earns 40 a per cent and tonne; processing costs 10 and mining 2. In year 1 a tonne of the
    mill's capacity is worth 20 less what it earns two years later."""
    folder = scheduled(
        rows(1, 1, 1, cu=lambda i, j, k: 0.8), "", ("processing_capacity = 100", "processing_capacity = 40")
    )
    found = cutoffs_of(folder)
    assert found["marginal_grade"].tolist() == [0.25] * 3 and found["break_even_grade"].tolist() == [0.3] * 3
    price = [20 * (1 - 1.1**-2), 20 * (1 - 1.1**-1), 0]
    due = [pytest.approx((10 + it) / 40, abs=1e-6) for it in price]
    # The linear programme of given benches may put any price on a mill that is just full.
    assert found["cutoff_grade"].tolist() == [pytest.approx((10 + it) / 40, abs=1e-6) for it in found["cutoff"]]
    assert found["cutoff_grade"].tolist()[2:] == due[2:] and (found["metal"] == "copper").all()
    assert "equivalent_copper" not in found


def test_the_grade_of_two_metals_is_an_equivalent(scheduled):
    """Gold of 50 a gram and a recovery of 0.4 earns 20 a gram per tonne: half a per cent of copper."""
    table = rows(1, 1, 1, cu=lambda i, j, k: 0.8).assign(au=0.1)
    found = cutoffs_of(scheduled(table, GOLD))
    assert found["equivalent_gold"].tolist() == [0.5] and found["equivalent_copper"].tolist() == [1]
    assert found["metal"].tolist() == ["copper"] and found["marginal_grade"].tolist() == [0.25]


def test_tails_curves_and_dilution(scheduled):
    """Recovery rises from 0 at 0.1 per cent to 0.8 at 0.5: at 0.3 it is 0.4. Of this grade 0.1 is lost first, so 0.2 x 0.4 x 80 = 6.4 are earned
    a tonne. With a fifth of dilution a tonne of feed takes 1 / 1.2 t to mine."""
    change = ("recovery = 0.5", "recovery = [[0.1, 0], [0.5, 0.8]]\ntail_grade = 0.1")
    more = ("processing_cost = 10", "processing_cost = 6.4\ndilution = 0.2")
    found = cutoffs_of(scheduled(rows(1, 1, 1, cu=lambda i, j, k: 2.0), "", change, more))
    assert found["marginal_grade"].unique().tolist() == [pytest.approx(0.3, abs=1e-6)]
    (grade,) = set(found["break_even_grade"])
    assert (grade - 0.1) * (grade - 0.1) * 2 * 80 == pytest.approx(6.4 + 2 / 1.2, abs=1e-3)


def test_processes_and_rock_types_have_their_own(plan_folder):
    """A tonne of one per cent holds 80: leach recovers 0.4 of it for 3, the mill 0.9 or 0.65 for 13, by rock type."""
    path = plan_folder(deposit(), PROJECT + SCHEDULE, *WITH)
    pitplan.write_schedule(path, folder=path.parent / "plan", writing=PLAIN)
    found = cutoffs_of(path.parent / "plan")
    grades = found.groupby(["process", "rock"])["marginal_grade"].unique()
    due = {("leach", "R"): 3 / 32, ("leach", "S"): 3 / 32, ("mill", "R"): 13 / 72, ("mill", "S"): 13 / 52}
    assert {key: float(values[0]) for key, values in grades.items()} == pytest.approx(due, abs=1e-6)
    cost = found["process"].map({"leach": 3, "mill": 13})
    share = (
        found["process"]
        .map({"leach": 0.4, "mill": 0.9})
        .where(~((found["process"] == "mill") & (found["rock"] == "S")), 0.65)
    )
    assert found["cutoff_grade"].tolist() == pytest.approx(((cost + found["cutoff"]) / (80 * share)).tolist(), abs=1e-6)


@pytest.mark.parametrize(
    "name", ["cutoff", "cutoff_grade", "marginal_grade", "break_even_grade", "equivalent_gold", "year"]
)
def test_a_changed_number_is_found(scheduled, name):
    folder = scheduled(rows(1, 1, 1, cu=lambda i, j, k: 0.8).assign(au=0.1), GOLD)
    path = folder / "tables/cutoffs.csv"
    found = pd.read_csv(path)
    row = found.index[found["method"] == "lp"][0]
    found[name] = found[name].astype(float if name != "year" else int)
    found.loc[row, name] += 1 if name == "year" else 1e-5
    found.to_csv(path, index=False)
    (rule,) = [rule for rule in pitplan.verify(folder) if rule.differences]
    assert rule.name == "material flow" and "cutoffs.csv" in rule.differences[0]
