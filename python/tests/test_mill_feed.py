"""What comes to the mill and what is owed for it: mining recovery, dilution and royalties against sums done by hand."""

from dataclasses import replace
from decimal import Decimal

import pytest
from conftest import PROJECT, rows
from helpers.writings import PLAIN, UNVERIFIED

import pitplan
from pitplan import PlanError, verify, write_pushbacks, write_schedule
from pitplan.economics import block_values

MILLION = 10**6
TEXT = "mining_cost = 2\nmining_recovery = 0.9\ndilution = 0.1\nroyalty = 0.05\nroyalty_per_tonne = 0.5\n"


def one_block(grade=0.8):
    """100 t of ore under 100 t of waste."""
    return rows(1, 1, 2, cu=lambda i, j, k: 0 if k else grade)


def test_a_block_by_hand(plan_folder):
    """Of 100 t 90 come to the mill, and 9 of waste with them: 0.36 t of copper sell for 2880, less 144."""
    values = pitplan.Plan.from_project(plan_folder(one_block(), PROJECT, ("mining_cost = 2\n", TEXT))).values
    assert values.revenue.tolist() == [0, 2736 * MILLION]
    assert values.processing.tolist() == [0, 99 * 10_500_000]
    assert values.mining.tolist() == [200 * MILLION] * 2
    assert (values.undiluted[1], values.feed[1], values.metal["copper"][1]) == (90, 99, 0.36)
    assert any("mining recovery 0.9, dilution 0.1 at zero grade" in note for note in values.notes)
    assert any("royalty 5 % of gross revenue, before selling costs" in note for note in values.notes)
    assert any("royalty 0.5 USD per tonne of ore, as part of the processing cost" in note for note in values.notes)


def test_nothing_is_said_of_what_the_project_does_not_name(plan_folder):
    values = pitplan.Plan.from_project(plan_folder(one_block())).values
    assert (values.feed == values.tonnes).all() and (values.undiluted == values.tonnes).all()
    assert not any("royalty" in note or "dilution" in note for note in values.notes)


def test_by_rock_and_by_region(plan_folder):
    """Rock R loses a tenth, S nothing; of region 1 a fifth comes with it, of 2 nothing. Half of 0.5 t of copper a block, at 8000."""
    table = rows(2, 2, 1, cu=lambda i, j, k: 1, rock=lambda i, j, k: "RS"[i], region=lambda i, j, k: "12"[j])
    text = "mining_cost = 2\nmining_recovery = { R = 0.9, S = 1 }\ndilution = { domain = { 1 = 0.2, 2 = 0 } }\n"
    values = pitplan.Plan.from_project(plan_folder(table, PROJECT, ("mining_cost = 2\n", text))).values
    assert (values.revenue / MILLION).tolist() == [3600, 4000, 3600, 4000]
    assert (values.processing / MILLION).tolist() == [1080, 1200, 900, 1000]


def test_amounts_are_exact_in_decimals(plan_folder):
    """Products of many digits, rounded once, against Python's own decimals."""
    grades = [0.1, 0.7, 0.301, 1.07]
    table = rows(2, 2, 1, tonnes=lambda i, j, k: 100.1 + i, cu=lambda i, j, k: grades[i + 2 * j])
    text = "mining_cost = 2\nmining_recovery = 0.973\ndilution = 0.0417\nroyalty = 0.0275\nroyalty_per_tonne = 0.333\ndecimals = 2\n"
    plan = pitplan.Plan.from_project(
        plan_folder(table, PROJECT, ("mining_cost = 2\n", text), ("price = 8000", "price = 8123.45"))
    )
    for _, row in plan.blocks.iterrows():
        undiluted = Decimal(str(row.tonnes)) * Decimal("0.973")
        revenue = undiluted * Decimal(str(row.cu)) / 200 * Decimal("8123.45") * (1 - Decimal("0.0275"))
        processing = undiluted * Decimal("1.0417") * Decimal("10.333")
        assert Decimal(str(row.revenue)) == round(revenue, 2)
        assert Decimal(str(row.processing_cost)) == round(processing, 2)


@pytest.mark.parametrize(
    ("text", "said"),
    [
        ("mining_recovery = 1.01", "[economics] mining_recovery: found 1.01, expected 0 to 1"),
        ("dilution = -0.1", "[economics] dilution: found -0.1, expected 0 or more"),
        ("royalty = 5", "[economics] royalty: found 5, expected 0 to below 1, such as 0.03 for 3 %"),
        ("dilution = { S = 0.1 }", 'blocks.csv row 2 column rock: [economics] dilution names no rock type "R"'),
        (
            "mining_recovery = { domain = { 2 = 0.1 } }",
            'blocks.csv row 2 column region: [economics] mining_recovery names no domain "1"',
        ),
        ("dilution = { domain = { 1 = 0.1 }, rock = 1 }", "[economics.dilution] rock: unknown key"),
        ("dilution = { domain = 0.1, R = { 1 = 0.1 } }", "[economics.dilution] R: unknown key"),
        ("dilution = { region = { 1 = 0.1 } }", "[economics.dilution] domain: is missing: rename region"),
    ],
)
def test_what_is_wrong_is_named(plan_folder, text, said):
    with pytest.raises(PlanError) as error:
        pitplan.Plan.from_project(
            plan_folder(one_block(), PROJECT, ("mining_cost = 2\n", f"mining_cost = 2\n{text}\n"))
        )
    assert said in str(error.value)


def test_by_region_needs_a_column_of_regions(plan_folder):
    changes = [
        ("mining_cost = 2\n", "mining_cost = 2\ndilution = { domain = { 1 = 0.1 } }\n"),
        ('domain = "region"\n', ""),
    ]
    with pytest.raises(
        PlanError, match=r"\[table\] domain: is missing, and mining recovery or dilution is given by domain"
    ):
        pitplan.Plan.from_project(plan_folder(one_block(), PROJECT, *changes))


def test_a_shell_by_hand(plan_folder):
    """Both blocks are dug: 200 t, of which one of 100 t is ore in situ, and 99 come to the mill, in 99 / 33 years; 90 t of 0.8 % in these."""
    path = plan_folder(
        one_block(), PROJECT, ("mining_cost = 2\n", TEXT), ("processing_capacity = 100", "processing_capacity = 33")
    )
    table = pitplan.write_shells(path, writing=PLAIN).set_index("revenue_factor").loc[1.0]
    expected = {
        "tonnes": 200,
        "feed_tonnes": 99,
        "in_situ_ore_tonnes": 100,
        "waste_tonnes": 100,
        "strip_ratio": 1,
        "processed_at_revenue_factor": 99,
        "years": 3,
    }
    expected |= {"head_grade_copper": 72 / 99, "recovered_copper": 0.36, "undiscounted_cash_flow": 2736 - 1039.5 - 400}
    assert {name: table[name] for name in expected} == pytest.approx(expected)


def test_waste_is_never_negative(plan_folder):
    """Ore alone, with a tenth of dilution: 110 t come to the mill of 100 t that are dug."""
    path = plan_folder(
        rows(2, 2, 1, cu=lambda i, j, k: 3), PROJECT, ("mining_cost = 2\n", "mining_cost = 2\ndilution = 0.1\n")
    )
    table = pitplan.write_shells(path, writing=PLAIN).set_index("revenue_factor").loc[1.0]
    assert (table["feed_tonnes"], table["in_situ_ore_tonnes"], table["waste_tonnes"], table["strip_ratio"]) == (
        pytest.approx(440),
        400,
        0,
        0,
    )


SCHEDULED = (
    ("mining_cost = 2\n", TEXT),
    ("processing_capacity = 100", "processing_capacity = 150\nmining_capacity = 900"),
    ("[shells]", "[pushbacks]\nrevenue_factors = [0.5, 1.0]\n[schedule]\nyears = 20\nbins = 2\n[shells]"),
)


def deposit():
    return rows(9, 9, 4, cu=lambda i, j, k: {(4, 4, 0): 9, (4, 4, 1): 3, (3, 4, 1): 0.6}.get((i, j, k), 0))


def test_pushbacks_and_schedules_count_what_comes_to_the_mill(plan_folder):
    """Three blocks of ore in all, and both looks agree."""
    path = plan_folder(deposit(), PROJECT, *SCHEDULED)
    assert write_pushbacks(path, writing=PLAIN)["feed_tonnes"].sum() == pytest.approx(3 * 99)
    assert write_schedule(path, writing=PLAIN).set_index("method")["feed_tonnes"]["rule"] == pytest.approx(3 * 99)


def passed_over(**changed):
    """Weighing that passes over some keys of the project."""
    weigh = block_values.values_of

    def values_of(frame, grid, project, *more):
        return weigh(frame, grid, replace(project, economics=replace(project.economics, **changed)), *more)

    return values_of


@pytest.mark.parametrize(
    "changed",
    [
        {"mining_recovery": Decimal(1)},
        {"dilution": Decimal(0)},
        {"royalty": Decimal(0)},
        {"royalty_per_tonne": Decimal(0)},
    ],
    ids=str,
)
def test_what_is_passed_over_is_found(plan_folder, monkeypatch, changed):
    path = plan_folder(one_block(), PROJECT, ("mining_cost = 2\n", TEXT))
    monkeypatch.setattr(block_values, "values_of", passed_over(**changed))
    pitplan.write_shells(path, writing=UNVERIFIED)
    wrong = {rule.name for rule in verify(path.parent / "plan") if rule.differences}
    assert "money" in wrong and (("shells" in wrong) == ("royalty" not in next(iter(changed))))


def test_scenarios_count_what_comes_to_the_mill_by_region(plan_folder):
    """Each model's ore of region 1, undiluted, and of region 2, of which a fifth comes with it."""
    table = (
        rows(4, 1, 1, region=lambda i, j, k: "12"[i % 2])
        .drop(columns="cu")
        .assign(cu_a=[3, 0, 0, 0], cu_b=[0, 3, 0, 2])
    )
    text = "mining_cost = 2\ndilution = { domain = { 1 = 0, 2 = 0.2 } }\n"
    path = plan_folder(table, PROJECT + '[scenarios]\ncolumns = { copper = "cu_*" }\n', ("mining_cost = 2\n", text))
    found = pitplan.write_scenarios(path, request=pitplan.Request(workers=0), writing=PLAIN).table
    assert found[found["revenue_factor"] == 1.0]["feed_tonnes"].tolist() == [100, 240]
