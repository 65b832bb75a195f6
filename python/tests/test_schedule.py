"""When pits are dug and what they are worth discounted: by hand, and by walking through the pieces with fractions."""

from collections import defaultdict
from dataclasses import replace
from decimal import Decimal
from fractions import Fraction
from math import ceil, log
from pathlib import Path

import numpy as np
import pandas as pd
import pytest
from conftest import PROJECT, rows
from helpers.random_tests import examples
from hypothesis import given, strategies as st

import pitplan
from pitplan import PlanError
from pitplan.config import keys
from pitplan.config.project import of_data
from pitplan.config.shells import ShellRules
from pitplan.config.toml_text import Section
from pitplan.pits.shells import selected_factor
from pitplan.results.folder import read_folder
from pitplan.results.rounding import shown
from pitplan.solver.program import Solution

FACTORS = (0.4, 0.7, 1.0)
BOX = (3, 2, 4)
CELLS = BOX[0] * BOX[1] * BOX[2]
AMOUNTS = ["total_tonnes", "feed_tonnes", "recovered_copper", "cash_flow", "discounted_cash_flow"]


def project_of(rate="0.1", ore=100, rock=None, discounting=None):
    """Mining costs 2 a tonne, processing 10, and each per cent of copper yields 40."""
    metal = {"name": "copper", "column": "cu", "unit": "percent", "price": 8000, "recovery": Decimal("0.5")}
    shells = {
        "revenue_factors": [Decimal(str(it)) for it in FACTORS],
        "discount_rate": Decimal(rate),
        "processing_capacity": ore,
    }
    shells |= {} if rock is None else {"mining_capacity": rock}
    shells |= {"discounting": discounting or "continuous"}
    data = {
        "table": {"file": "blocks.csv"},
        "grid": {"size": [10, 10, 10]},
        "economics": {"mining_cost": 2, "processing_cost": 10, "cutoff": "base_price"},
        "metals": [metal],
        "slopes": {"domains": [{"angle": 90}]},
        "shells": shells,
    }
    return of_data(data, Path("project.toml"))


def solution_of(entry):
    """A made-up answer of the program: the factor at which each block comes in. What it says of worth is not asked for."""
    nothing = pd.Series([Decimal(0)] * len(FACTORS), index=FACTORS, dtype=object)
    return Solution(nothing, nothing, np.array(entry, dtype=float), b"")


def mined(project, tonnes, grades, entry, box=BOX):
    """The plan of a box and a made-up answer; all lists by id, from the top level down, row by row from the south-west."""
    columns, north, levels = box

    def of(values):
        return lambda i, j, k: values[((levels - 1 - k) * north + j) * columns + i]

    return pitplan.Plan.from_project(project, table=rows(*box, tonnes=of(tonnes), cu=of(grades))), solution_of(entry)


def amounts_of(tonnes, grade):
    """Rock, ore, copper and cash of a block, exactly."""
    rock, copper = Fraction(tonnes), Fraction(tonnes) * Fraction(grade) / 200
    gain = 8000 * copper - 10 * rock
    return (rock, rock, copper, gain - 2 * rock) if gain > 0 else (rock, Fraction(0), Fraction(0), -2 * rock)


def pieces_of(mine, factor, case):
    """The amounts of each piece of a pit in the order of digging, from the blocks one by one."""
    sums = defaultdict(lambda: (Fraction(0),) * 4)
    for number, (tonnes, grade, first) in enumerate(zip(*mine)):
        if 0 < first <= factor:
            bench = number // (BOX[0] * BOX[1])
            piece = (first, bench) if case == "best" else (bench,)
            sums[piece] = tuple(a + b for a, b in zip(sums[piece], amounts_of(tonnes, grade)))
    return [sums[piece] for piece in sorted(sums)]


def as_decimal(fraction):
    return Decimal(fraction.numerator) / Decimal(fraction.denominator)


def present(cash, start, end, rate):
    """What cash is worth at the start of all that flows evenly from start to end."""
    force = (1 + Decimal(rate)).ln()
    at = [(-force * as_decimal(moment)).exp() for moment in (start, end)]
    if start == end or force == 0:
        return as_decimal(cash) * at[0]
    return as_decimal(cash) * (at[0] - at[1]) / (force * as_decimal(end - start))


def walked(pieces, project):
    """The life, and by year the amounts and the present worth: each piece fills what the years have left of both capacities."""
    settings = project.shells
    most = [
        Fraction(settings.processing_capacity),
        None if settings.mining_capacity is None else Fraction(settings.mining_capacity),
    ]
    years, used = [[Fraction(0)] * 4], [Fraction(0), Fraction(0)]
    for amounts in pieces:
        left = Fraction(1)
        while left:
            uses = [amounts[1] / most[0], Fraction(0) if most[1] is None else amounts[0] / most[1]]
            share = min([left, *((1 - done) / use for done, use in zip(used, uses) if use)])
            years[-1] = [a + share * b for a, b in zip(years[-1], amounts)]
            used, left = [done + share * use for done, use in zip(used, uses)], left - share
            if left:
                years, used = [*years, [Fraction(0)] * 4], [Fraction(0), Fraction(0)]
    life = len(years) - 1 + max(used)
    ends = [min(Fraction(number), life) for number in range(1, len(years) + 1)]
    discounted = [
        present(year[3], number, end, str(settings.discount_rate))
        for number, (year, end) in enumerate(zip(years, ends))
    ]
    return life, {number: [*year, worth] for number, (year, worth) in enumerate(zip(years, discounted), 1)}


blocks = (
    st.lists(
        st.tuples(
            st.sampled_from([0, 10, 70, 100, 100, 250]),
            st.sampled_from(["0", "0", "0.25", "0.5", "1.25", "4"]),
            st.sampled_from([0, *FACTORS]),
        ),
        min_size=CELLS,
        max_size=CELLS,
    )
    .filter(lambda cells: any(tonnes for tonnes, _, _ in cells))
    .map(lambda cells: tuple(zip(*cells)))
)
capacities = st.tuples(
    st.sampled_from(["0", "0.08", "0.1", "1"]),
    st.sampled_from([30, 70, 100, 5000]),
    st.sampled_from([None, 90, 100, 700]),
)


def plan_of(mine, project):
    tonnes, grades, entry = mine
    return mined(project, tonnes, [Decimal(grade) for grade in grades], entry)


@examples(15)
@given(blocks, capacities)
def test_years_are_those_of_a_walk_through_the_pieces(mine, capacity):
    project = project_of(*capacity)
    table = pitplan.Shells(*plan_of(mine, project)).years.set_index(["case", "revenue_factor"])
    shells = pitplan.Shells(*plan_of(mine, project)).table.set_index("revenue_factor")
    for factor in FACTORS:
        for case in ("best", "worst"):
            end, years = walked(pieces_of(mine, factor, case), project)
            if not sum(year[0] for year in years.values()):
                assert (case, factor) not in table.index and shells[f"npv_{case}"][factor] == 0
                continue
            found = table.loc[[(case, factor)]]
            assert found["year"].tolist() == list(range(1, max(ceil(end), 1) + 1))
            expected = [[float(amount) for amount in years[year]] for year in found["year"]]
            np.testing.assert_allclose(found[AMOUNTS], expected, rtol=1e-9, atol=1e-6)
            npv = float(sum(year[4] for year in years.values()))
            assert shells[f"npv_{case}"][factor] == pytest.approx(npv, abs=0.01)
            if case == "best":
                assert shells["years"][factor] == pytest.approx(float(end), abs=1e-8)


@examples(15)
@given(blocks, capacities, st.sampled_from(["continuous", "end_of_year", "mid_year"]))
def test_years_keep_the_capacities_and_add_up_to_the_shell(mine, capacity, discounting):
    project = project_of(*capacity, discounting)
    solved = plan_of(mine, project)
    table, shells = pitplan.Shells(*solved).years, pitplan.Shells(*solved).table.set_index("revenue_factor")
    assert (table["feed_tonnes"] <= capacity[1] * (1 + 1e-6)).all()
    if capacity[2] is not None:
        assert (table["total_tonnes"] <= capacity[2] * (1 + 1e-6)).all()
    named = {
        "total_tonnes": "tonnes",
        "feed_tonnes": "feed_tonnes",
        "recovered_copper": "recovered_copper",
        "cash_flow": "undiscounted_cash_flow",
    }
    for (case, factor), years in table.groupby(["case", "revenue_factor"]):
        for column, name in named.items():
            assert years[column].sum() == pytest.approx(shells[name][factor], abs=1e-6)
        assert years["discounted_cash_flow"].sum() == pytest.approx(shells[f"npv_{case}"][factor], abs=0.01)
    # A year ends when a capacity is used up, so that all but the last of a pit use one of them whole.
    is_full = table["feed_tonnes"] >= capacity[1] * (1 - 1e-6)
    is_full |= False if capacity[2] is None else table["total_tonnes"] >= capacity[2] * (1 - 1e-6)
    assert (is_full | ~table.duplicated(["case", "revenue_factor"], keep="last")).all()


def pillar(project, *shells):
    """Blocks of 100 t, one above the other: by level from the top, lists of the grade and the factor of each block."""
    wide = max(map(len, shells))
    cells = [cell for level in shells for cell in (*level, *[(0, 0)] * (wide - len(level)))]
    grades, entry = zip(*cells)
    return mined(project, [100] * len(cells), grades, entry, (wide, 1, len(shells)))


def test_capacity_lost_while_stripping_is_not_caught_up():
    """Nine levels of waste at ten levels a year of the mill's ten years: nothing is milled for the first nine years."""
    columns = 9
    waste, ore = [(0, 1.0)] * columns, [(5, 1.0)] * columns
    # 8,100 t of waste at 900 a year, and 900 t of ore at 90 a year.
    plan, solution = pillar(project_of(ore=90, rock=900), *[waste] * 9, ore)
    shell = pitplan.Shells(plan, solution).table.set_index("revenue_factor").loc[1.0]
    assert shell["years"] == pytest.approx(19)
    # A tonne of ore is worth 5 x 40 - 10 - 2 = 188; the mean of 1.1^-t over a year is (1.1^-s - 1.1^-e) / ln 1.1.
    npv = (-1800 * (1 - 1.1**-9) + 90 * 188 * (1.1**-9 - 1.1**-19)) / log(1.1)
    assert shell["npv_best"] == pytest.approx(npv) and shell["npv_worst"] == pytest.approx(npv)
    years = pitplan.Shells(plan, solution).years
    assert years["feed_tonnes"].round(6).tolist() == ([0] * 9 + [90] * 10) * 2
    assert years["total_tonnes"].round(6).tolist() == ([900] * 9 + [90] * 10) * 2


def test_a_year_of_several_pieces_by_hand():
    """Rock at 150 t a year and ore at 100: after 100 t of waste the first year takes 50 t of ore, and the mill is half used."""
    plan, solution = pillar(project_of(rock=150), [(0, 1.0)], [(1, 1.0)])
    table = pitplan.Shells(plan, solution).years
    best = table[table["case"] == "best"]
    # The waste costs 200; the ore yields 4000 - 1000 - 200, half of it in each year. The second ends when the mill is half used.
    assert best["total_tonnes"].tolist() == [150, 50] and best["feed_tonnes"].tolist() == [50, 50]
    assert best["recovered_copper"].tolist() == [0.25, 0.25] and best["cash_flow"].tolist() == [1200, 1400]
    assert pitplan.Shells(plan, solution).table["years"].tolist() == [0, 0, 1.5]
    first, second = 1200 * (1 - 1.1**-1) / log(1.1), 1400 * (1.1**-1 - 1.1**-1.5) / (0.5 * log(1.1))
    assert best["discounted_cash_flow"].tolist() == pytest.approx([first, second])


def test_waste_is_mined_in_the_years_in_which_the_mill_works():
    """A bench of ore and one of waste: the shovels do both in the year in which the mill does the ore. No bench waits for the mill."""
    plan, solution = pillar(project_of(rock=200), [(1, 1.0)], [(0, 1.0)])
    years = pitplan.Shells(plan, solution).years
    assert years["total_tonnes"].tolist() == [200, 200] and years["feed_tonnes"].tolist() == [100, 100]
    assert pitplan.Shells(plan, solution).table["years"].tolist() == [0, 0, 1]


@pytest.mark.parametrize("discounting, before", [("end_of_year", 0.0), ("mid_year", 0.5)])
def test_years_discounted_as_spreadsheets_do(discounting, before):
    plan, solution = pillar(project_of(rock=150, discounting=discounting), [(0, 1.0)], [(1, 1.0)])
    expected = [1200 / 1.1 ** (1 - before), 1400 / 1.1 ** (2 - before)]
    table, shells = pitplan.Shells(plan, solution).years, pitplan.Shells(plan, solution).table.set_index(
        "revenue_factor"
    )
    for case in ("best", "worst"):
        assert table["discounted_cash_flow"][table["case"] == case].tolist() == pytest.approx(expected)
        assert shells[f"npv_{case}"][1.0] == pytest.approx(sum(expected))


def test_cash_is_discounted_from_the_end_of_its_year_by_default():
    """As the function NPV of spreadsheets does it."""
    data = {"revenue_factors": [1], "discount_rate": Decimal("0.1"), "processing_capacity": 100}
    assert keys.read(ShellRules, Section("project.toml", "shells", data)).discounting == "end_of_year"


def test_the_worst_case_can_be_worth_more_than_the_best():
    """Ore of the first shell beside waste of the second: mined bench by bench, they share the years that the mill needs for the ore."""
    plan, solution = pillar(project_of(rock=100, ore=50), [(1, 0.7), (0, 1.0)], [(0, 1.0), (4, 1.0)])
    shells = pitplan.Shells(plan, solution).table.set_index("revenue_factor")
    # Best: the waste of the second shell fills the shovels of year 2, and the last bench begins in year 3.
    assert shells["years"][1.0] == pytest.approx(4.5)
    years = pitplan.Shells(plan, solution).years.set_index(["case", "revenue_factor"])
    best, worst = years.loc[("best", 1.0)], years.loc[("worst", 1.0)]
    assert best["total_tonnes"].tolist() == [50, 100, 100, 100, 50] and best["feed_tonnes"].tolist() == [
        50,
        50,
        25,
        50,
        25,
    ]
    assert worst["total_tonnes"].tolist() == [100] * 4 and worst["feed_tonnes"].tolist() == [50] * 4
    # The benches earn 2800 and 14800, and each has 100 t of waste that costs 200.
    assert best["cash_flow"].tolist() == pytest.approx([1400, 1300, 3550, 7300, 3650])
    assert worst["cash_flow"].tolist() == pytest.approx([1300, 1300, 7300, 7300])
    assert shells["npv_worst"][1.0] > shells["npv_best"][1.0]


def test_waste_takes_no_time_where_rock_has_no_limit():
    """It is mined in the year that the mill's capacity ends."""
    plan, solution = pillar(project_of(), [(0, 1.0)], [(1, 1.0)], [(0, 1.0)], [(1, 1.0)])
    years = pitplan.Shells(plan, solution).years
    best = years[years["case"] == "best"]
    assert best["total_tonnes"].tolist() == [300, 100] and best["cash_flow"].tolist() == [2400, 2800]
    npv = (2400 * (1 - 1.1**-1) + 2800 * (1.1**-1 - 1.1**-2)) / log(1.1)
    assert best["discounted_cash_flow"].sum() == pytest.approx(npv)
    # A pit of waste alone is dug in no time.
    plan, solution = pillar(project_of(), [(0, 1.0)])
    years, shells = pitplan.Shells(plan, solution).years, pitplan.Shells(plan, solution).table
    assert years[["year", "cash_flow", "discounted_cash_flow"]].to_numpy().tolist() == [[1, -200, -200]] * 2
    assert shells["years"].tolist() == [0, 0, 0]


def test_nine_ninths_of_a_year_are_a_year():
    """Binary fractions add up to a hair more, which is no second year."""
    plan, solution = pillar(project_of(ore=900), *[[(1, 1.0)]] * 9)
    years = pitplan.Shells(plan, solution).years
    assert years["year"].tolist() == [1, 1] and years["total_tonnes"].tolist() == pytest.approx([900, 900])
    assert pitplan.Shells(plan, solution).table["years"].tolist() == [0, 0, 1]


def test_years_that_could_not_be_counted_are_refused():
    plan, solution = pillar(project_of(ore=1), *[[(1, 0.7)]] * 11)
    with pytest.raises(PlanError) as said:
        pitplan.Shells(plan, solution).table
    assert str(said.value) == (
        "project.toml: [shells] processing_capacity, mining_capacity: the largest shell would take at least 1,100 years, "
        "expected at most 1,000: check that the capacities are in tonnes per year"
    )
    faster = replace(plan.project, shells=replace(plan.project.shells, processing_capacity=1.1))
    plan = replace(plan, project=faster)
    assert len(pitplan.Shells(plan, solution).years) == 2 * 2 * 1000


def test_an_empty_pit_has_no_years():
    plan, solution = pillar(project_of(), [(1, 0)])
    table = pitplan.Shells(plan, solution).years
    assert list(table.columns) == ["case", "revenue_factor", "year", *AMOUNTS] and table.empty
    assert (
        pitplan.Shells(plan, solution).table[["npv_best", "npv_worst", "years"]].to_numpy().tolist() == [[0, 0, 0]] * 3
    )


def test_the_file_of_years_stands_beside_the_shells(solved):
    project, folder = solved
    table = pd.read_csv(folder / "tables/years.csv")
    assert "tables/years.csv" in read_folder(folder).record["files"]
    plan = pitplan.Plan.from_project(project)
    expected = shown(plan.shells().years).assign(discounting="end_of_year")
    pd.testing.assert_frame_equal(table, expected, check_dtype=False)
    shells = pd.read_csv(folder / "tables/shells.csv").set_index("revenue_factor")
    sums = table.groupby(["case", "revenue_factor"])["discounted_cash_flow"].sum()
    for case in ("best", "worst"):
        assert sums[case].tolist() == pytest.approx(shells[f"npv_{case}"].tolist(), abs=0.01)


def test_discounting_is_one_of_three(plan_folder):
    path = plan_folder(rows(2, 2, 2), PROJECT, ("discount_rate = 0.1", 'discount_rate = 0.1\ndiscounting = "yearly"'))
    with pytest.raises(
        PlanError, match='discounting: found "yearly", expected one of end_of_year, mid_year, continuous'
    ):
        pitplan.load(path)


def test_the_factor_to_show_is_that_of_the_best_mean_of_both_cases_up_to_1000():
    table = pd.DataFrame(
        {"revenue_factor": [0.4, 0.7, 1.0, 1.3], "npv_best": [5.0, 9, 10, 99], "npv_worst": [5.0, 4, 2, 99]}
    )
    schedule = project_of().shells
    assert selected_factor(table, schedule) == 0.7
    assert selected_factor(table.assign(npv_best=[9.0, 9, 9, 9], npv_worst=[1.0, 2, 3, 4]), schedule) == 1.0
    assert selected_factor(table, replace(schedule, selected=0.4)) == 0.4
