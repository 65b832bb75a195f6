"""Revenue and cost of blocks against sums done by hand, and against Python's `decimal`."""

from decimal import Decimal
from fractions import Fraction
from types import SimpleNamespace

import pandas as pd
import pytest
from conftest import PROJECT, rows
from helpers.writings import PLAIN

import pitplan
from pitplan import PlanError
from pitplan.cli import main
from pitplan.economics.weighing import added_cost
from pitplan.solver import mine_files
from planaudit.money import block_values as verified_money

MILLION = 10**6


def test_values_of_a_block_by_hand(plan_folder):
    # 100 t at 0.8 %, half recovered: 0.4 t of copper. It sells for 8000 a tonne and costs 500 to sell.
    table = rows(2, 2, 2, cu=lambda i, j, k: 0.8 if (i, j, k) == (1, 0, 0) else 0)
    plan = pitplan.Plan.from_project(plan_folder(table, PROJECT, ("price = 8000", "price = 8000\nselling_cost = 500")))
    values = plan.values
    assert values.ore.tolist() == [5]
    assert values.revenue[5] == 3200 * MILLION
    assert values.processing[5] == (1000 + 200) * MILLION
    assert set(values.mining.tolist()) == {200 * MILLION}
    assert values.metal["copper"][5] == pytest.approx(0.4)


@pytest.mark.parametrize(
    ("cutoff", "second"),
    [("per_revenue_factor", [-200, -200, 0, 400]), ("base_price", [-200, -200, -200, -200])],
)
def test_the_most_that_a_block_can_be_worth_by_hand(plan_folder, cutoff, second):
    """100 t: mining 200, processing 1000; the metal of 0.8 % sells for 3200 at the price as given, that of 0.2 % for 800."""
    table = rows(3, 1, 1, cu=lambda i, j, k: [0.8, 0.2, 0][i])
    values = pitplan.Plan.from_project(
        plan_folder(table, PROJECT, ("mining_cost = 2", f'mining_cost = 2\ncutoff = "{cutoff}"'))
    ).values
    by_factor = zip((0.375, 1.25, 1.5, 2.0), (0, 2800, 3600, 5200), second)
    for factor, first, then in by_factor:
        assert [int(it) for it in values.greatest_value(factor)] == [worth * 10**9 for worth in (first, then, -200)]


def test_cost_rises_with_the_level_from_the_top(plan_folder):
    plan = pitplan.Plan.from_project(
        plan_folder(rows(2, 1, 3), PROJECT, ("mining_cost = 2", "mining_cost = 2\nmining_cost_per_bench = 0.25"))
    )
    assert (plan.values.mining / MILLION).tolist() == [200, 200, 225, 225, 250, 250]


PER_LEVEL = "mining_cost = 2\nmining_cost_per_bench = 0.25"


@pytest.mark.parametrize(
    ("reference", "costs"),
    [
        (30, [225, 250, 275]),  # the toe of a bench above the model
        (29.5, [200, 225, 250]),
        (20, [200, 225, 250]),  # the toe of the highest bench
        (19.5, [200, 200, 225]),
        (10, [200, 200, 225]),  # the toe of the second bench
        (0, [200, 200, 200]),
        (-50, [200, 200, 200]),
        (50, [275, 300, 325]),
    ],
)
def test_cost_rises_with_the_level_from_a_reference(plan_folder, reference, costs):
    """Levels of 10 m between 0 and 30 m."""
    text = f"{PER_LEVEL}\nmining_cost_reference = {reference}"
    plan = pitplan.Plan.from_project(plan_folder(rows(1, 1, 3), PROJECT, ("mining_cost = 2", text)))
    assert (plan.values.mining / MILLION).tolist() == costs


@pytest.mark.parametrize(
    ("text", "said"),
    [
        ("", None),
        ("", "20 to 30 m, the top bench of the model; [economics] mining_cost_reference sets another"),
        ("mining_cost_reference = 20\n", "20 to 30 m, the bench of [economics] mining_cost_reference, 20 m"),
        ("mining_cost_reference = 10\n", "10 to 20 m, the bench of [economics] mining_cost_reference, 10 m"),
        (
            "mining_cost_reference = 30\n",
            "30 to 40 m, the bench of [economics] mining_cost_reference, 30 m, above the model",
        ),
    ],
)
def test_check_prints_the_bench_below_which_mining_costs_more(plan_folder, capsys, text, said):
    cost = "mining_cost = 2\n" + ("" if said is None else f"mining_cost_per_bench = 0.25\n{text}")
    path = plan_folder(rows(1, 1, 3), PROJECT, ("mining_cost = 2\n", cost))
    assert main(["check", str(path)]) == 0
    shown = [it for it in "".join(capsys.readouterr()).splitlines() if "the mining cost rises" in it]
    assert shown == ([] if said is None else [f"the mining cost rises with each bench below {said}"])


def test_mining_costs_do_not_depend_on_the_price(plan_folder):
    """Ore at the floor of the first column alone pays at 8000, all of the floor at 80,000, and nothing at 8."""
    table = rows(9, 1, 3, cu=lambda i, j, k: 0 if k else 9 if i == 0 else 0.9)
    table = table[(table["z"] < 20) | (table["x"] > 80)]
    costs = []
    for price in (8, 8000, 80_000):
        plan = pitplan.Plan.from_project(
            plan_folder(table, PROJECT, ("mining_cost = 2", PER_LEVEL), ("price = 8000", f"price = {price}"))
        )
        assert plan.reference == 20
        assert any("bench below 20 to 30 m, the top bench of the model" in note for note in plan.notes)
        costs.append(plan.blocks.set_index("name")["mining_cost"].to_dict())
    assert costs[0] == costs[1] == costs[2]
    assert (costs[0]["b0-0-1"], costs[0]["b8-0-2"]) == (225, 200)


@pytest.mark.parametrize(
    ("changes", "toe"),
    [
        ([], 120),  # a block of air ten levels up is the top of the model too
        ([("file =", "reblock = [1, 1, 2]\nfile =")], 120),  # of blocks from 120 to 140 m
        ([("mining_cost_per_bench = 0.25", "mining_cost_per_bench = 0.25\nmining_cost_reference = 20")], 20),
    ],
)
def test_the_top_of_the_model_is_that_of_its_highest_row(plan_folder, changes, toe):
    table = rows(7, 1, 3, cu=lambda i, j, k: 9 if (i, k) == (3, 0) else 0)
    far = table.iloc[[0]].assign(name="far", x=205.0, z=125.0, tonnes=0)
    text = PROJECT.replace("mining_cost = 2", PER_LEVEL).replace("file =", 'missing_blocks = "air"\nfile =')
    path = plan_folder(pd.concat([table, far], ignore_index=True), text, *changes)
    plan = pitplan.Plan.from_project(path)
    assert plan.reference == toe
    bottom = plan.blocks.sort_values("z").iloc[0]
    height = plan.grid.size[2]
    below = (toe - (bottom["z"] - height / 2)) / height
    assert bottom["mining_cost"] == pytest.approx(bottom["tonnes"] * (2 + 0.25 * below))
    pitplan.write_shells(path, writing=PLAIN)


def test_filled_blocks_do_not_raise_the_top(plan_folder):
    """The missing columns are filled up to the highest row of the model, at 30 m."""
    table = rows(4, 1, 3)
    filled = ("file =", 'missing_blocks = { tonnes = 100, rock_type = "R", domain = "1" }\nfile =')
    plan = pitplan.Plan.from_project(
        plan_folder(table[(table["x"] < 20) | (table["x"] > 30)], PROJECT, filled, ("mining_cost = 2", PER_LEVEL))
    )
    assert len(plan.blocks) == 12 and plan.reference == 20
    assert sorted(plan.blocks["mining_cost"].unique()) == [200, 225, 250]


def test_cost_by_elevation(plan_folder):
    """Levels with centres 5, 15 and 25 m: half way between 0.5 at 10 and 0.1 at 20, and as at the ends beyond them."""
    text = "mining_cost = 2\nmining_cost_by_elevation = [[20, 0.1], [10, 0.5]]"
    plan = pitplan.Plan.from_project(plan_folder(rows(1, 1, 3), PROJECT, ("mining_cost = 2", text)))
    assert (plan.values.mining / MILLION).tolist() == [210, 230, 250]


def test_cost_by_elevation_at_half_a_millionth(plan_folder):
    """1.5 m below 240 m it is 0.37 x 1.5 / 240 = 0.0023125, which is kept as 0.002312: halves go to the even one. Verification, which
    interpolated floats, had 0.002313 for such levels."""
    pairs = ((Decimal(0), Decimal("0.37")), (Decimal(240), Decimal(0)))
    assert verified_money.between(pairs, Fraction("238.5")) == Decimal("0.002312")
    for elevation in range(-3, 243, 3):
        at = elevation / 2 + 0.75
        money_rules = SimpleNamespace(mining_cost_by_elevation=pairs)
        assert verified_money.between(pairs, Fraction(at)) == added_cost(money_rules, at)
    text = "mining_cost = 2\nmining_cost_by_elevation = [[0, 0.37], [240, 0]]"
    table = rows(2, 2, 8, cu=lambda i, j, k: 4.0, tonnes=lambda i, j, k: 15_900).assign(z=lambda it: it["z"] * 1.5 - 6)
    changes = [
        ("size = [10, 10, 10]", "size = [10, 10, 15]"),
        ("processing_capacity = 100", "processing_capacity = 100_000"),
    ]
    pitplan.write_shells(plan_folder(table, PROJECT, ("mining_cost = 2", text), *changes), writing=PLAIN)


def test_two_metals_and_prices_by_rock(plan_folder):
    gold = '[[metals]]\nname = "gold"\ncolumn = "au"\nunit = "gram_per_tonne"\nprice = 60\nrecovery = { R = 0.9, S = 0 }\n[slopes]'
    table = rows(2, 1, 2, cu=lambda i, j, k: 0.5, au=lambda i, j, k: 2, rock=lambda i, j, k: "RS"[i])
    changes = [("[slopes]", gold), ("mining_cost = 2", "mining_cost = { R = 2, S = 3 }")]
    plan = pitplan.Plan.from_project(plan_folder(table, PROJECT, *changes))
    # 100 t: 0.25 t of copper for 2000; of rock R also 180 g of gold for 10800.
    assert (plan.values.revenue / MILLION).tolist() == [12800, 2000] * 2
    assert (plan.values.mining / MILLION).tolist() == [200, 300] * 2


def test_amounts_are_exact_in_decimals(plan_folder):
    grades = [0.1, 0.7, 0.301, 1.07, 0.009, 2.3, 0.33, 0.0]
    table = rows(2, 2, 2, tonnes=lambda i, j, k: 100.1 + i, cu=lambda i, j, k: grades[i + 2 * j + 4 * k])
    changes = [("price = 8000", "price = 8123.45"), ("recovery = 0.5", "recovery = 0.87")]
    plan = pitplan.Plan.from_project(plan_folder(table, PROJECT, *changes))
    for _, row in plan.blocks.iterrows():
        exact = Decimal(str(row.tonnes)) * Decimal(str(row.cu)) / 100 * Decimal("0.87") * Decimal("8123.45")
        assert int(plan.values.revenue[row.id]) == int((exact * MILLION).to_integral_value())


def test_whole_money_is_rounded_and_said(plan_folder):
    table = rows(2, 2, 2, cu=lambda i, j, k: 0.111 if i else 0)
    plan = pitplan.Plan.from_project(
        plan_folder(
            table, PROJECT, ("mining_cost = 2", "mining_cost = 2\ndecimals = 0"), ("price = 8000", "price = 8010")
        )
    )
    # 100 t of 0.111 %, half recovered, at 8010: 444.555, kept as 445.
    said = plan.values.roundings["revenue"]
    assert plan.values.revenue.max() == 445 * MILLION
    assert (said.values, said.changed, said.largest) == (8, 4, Decimal("0.445"))
    assert (
        "revenue: 4 of 8 amounts were rounded, by at most 0.44" in plan.notes
        or "revenue: 4 of 8 amounts were rounded, by at most 0.45" in plan.notes
    )
    assert plan.values.roundings["mining cost"].changed == 0


def test_an_ore_block_has_a_node_for_processing(plan_folder, tmp_path):
    # 0.2 % yields 800 and costs 1000 to process: no ore at the price as given, but at 1500.
    table = rows(2, 1, 2, cu=lambda i, j, k: 0.2 if (i, k) == (1, 0) else 0)
    plan = pitplan.Plan.from_project(plan_folder(table))
    mine_files.write(plan, tmp_path)
    lines = (tmp_path / mine_files.BLOCKS).read_text().splitlines()
    assert lines == ["0 0 0 1 0 200", "1 1 0 1 0 200", "2 0 0 0 0 200", "3 1 0 0 0 200", "4 1 0 0 800 1000"]
    assert (tmp_path / mine_files.PREC).read_text().splitlines()[-1] == "4 1 3"
    assert (tmp_path / mine_files.MODEL).read_text().splitlines()[4:] == [
        "0 -200",
        "1 -200",
        "2 -200",
        "3 -200",
        "4 -200",
    ]


def test_a_fixed_cutoff_settles_ore_at_the_price_as_given(plan_folder, tmp_path):
    table = rows(2, 1, 2, cu=lambda i, j, k: 0.2 if (i, k) == (1, 0) else 0.5 if (i, k) == (0, 0) else 0)
    plan = pitplan.Plan.from_project(
        plan_folder(table, PROJECT, ("mining_cost = 2", 'mining_cost = 2\ncutoff = "base_price"'))
    )
    mine_files.write(plan, tmp_path)
    lines = (tmp_path / mine_files.BLOCKS).read_text().splitlines()
    assert lines == ["0 0 0 1 0 200", "1 1 0 1 0 200", "2 0 0 0 2000 1200", "3 1 0 0 0 200"]


@pytest.mark.parametrize(
    "change, words",
    [
        (
            ("mining_cost = 2", "mining_cost = { S = 2 }"),
            r'row 2 column rock: \[economics\] mining_cost names no rock type "R"',
        ),
        (
            ("processing_cost = 10", "processing_cost = { S = 2 }"),
            r'row 3 column rock: \[economics\] processing_cost names no rock type "R"',
        ),
        (("price = 8000", "price = 3_000_000_000_000"), "row 3 column revenue: the amount is 10\\^11 or more"),
    ],
)
def test_missing_prices_and_huge_amounts_are_refused(plan_folder, change, words):
    table = rows(2, 1, 2, cu=lambda i, j, k: 0.9 if (i, k) == (1, 0) else 0)
    with pytest.raises(PlanError, match=words):
        pitplan.Plan.from_project(plan_folder(table, PROJECT, change))


def test_a_single_tonne_of_a_rock_without_a_cost_is_refused(plan_folder):
    table = rows(2, 1, 1, tonnes=lambda i, j, k: i, rock=lambda i, j, k: "RS"[i])
    with pytest.raises(PlanError, match=r'row 3 column rock: \[economics\] mining_cost names no rock type "S"'):
        pitplan.Plan.from_project(plan_folder(table, PROJECT, ("mining_cost = 2", "mining_cost = { T = 2 }")))


def test_a_block_that_yields_a_millionth_is_weighed(plan_folder):
    """Half a tonne of copper at two millionths a tonne; a rock without a recovery yields nothing, whatever its grade."""
    table = rows(3, 1, 1, cu=lambda i, j, k: [1, 0.9, 1][i], rock=lambda i, j, k: "RRS"[i])
    changes = [("price = 8000", "price = 0.000002"), ("recovery = 0.5", "recovery = { R = 0.5 }")]
    values = pitplan.Plan.from_project(plan_folder(table, PROJECT, *changes)).values
    assert values.ore.tolist() == [0, 1] and values.revenue.tolist() == [1, 1, 0]
    assert values.processing.tolist() == [1000 * MILLION, 1000 * MILLION, 0]
    assert values.metal["copper"].tolist() == [0.5, 0.45, 0]


@pytest.mark.parametrize(
    ("unit", "grade", "said"),
    [
        ("percent", 11, 'WARNING: the mean grade of copper in blocks above 0 is 11 %: check the unit "percent"'),
        (
            "fraction",
            0.336,
            'WARNING: the mean grade of copper in blocks above 0 is 0.336 t/t: check the unit "fraction"',
        ),
        ("gram_per_tonne", 4000, 'is 4000 g/t: check the unit "gram_per_tonne"'),
        ("percent", 9, ""),
        ("gram_per_tonne", 90, ""),
    ],
)
def test_grades_that_a_unit_hardly_allows_are_warned_of(plan_folder, unit, grade, said):
    table = rows(2, 1, 2, cu=lambda i, j, k: grade * i)
    notes = pitplan.Plan.from_project(plan_folder(table, PROJECT, ('unit = "percent"', f'unit = "{unit}"'))).notes
    warned = [note for note in notes if "grade of copper" in note]
    assert len(warned) == bool(said) and all(note.endswith(said) for note in warned)


def test_rocks_without_recovery_are_told(plan_folder):
    table = rows(2, 1, 2, cu=lambda i, j, k: 0.5, rock=lambda i, j, k: "RS"[k])
    plan = pitplan.Plan.from_project(
        plan_folder(table, PROJECT, ("recovery = 0.5", "recovery = { R = 0.5, OLD = 0.4 }"))
    )
    assert "2 blocks of rock type S have no recovery of copper and yield none" in plan.notes
    assert "recovery of copper names rock type OLD, which no block has" in plan.notes
    assert plan.values.ore.tolist() == [2, 3]
