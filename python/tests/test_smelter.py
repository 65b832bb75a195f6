"""Net smelter return: a copper concentrate and a gold dore worked out by hand, and terms that are a plain selling cost."""

import shutil
from dataclasses import replace
from decimal import Decimal

import numpy as np
import pandas as pd
import pytest
from conftest import ROOT, rows
from helpers import office, worked_cash_flow
from helpers.read_alike import demand_read_alike
from helpers.verified import differing
from helpers.writings import PLAIN, UNVERIFIED, WITH_WORKBOOK

import pitplan
from pitplan import PlanError, load, verify
from pitplan.config.economics import Metal, Participation, Smelter
from pitplan.economics import smelter_terms
from pitplan.report import assumptions
from pitplan.scheduling import price_paths

# A block of ore below one of waste. The ore holds 130 t of copper, 5,000 g of gold and 2 t of arsenic.
TEXT = """
[table]
file = "blocks.csv"
id = "name"
[grid]
size = [10, 10, 10]
[economics]
mining_cost = 2
processing_cost = 10
royalty = 0.02
[[metals]]
name = "copper"
column = "cu"
unit = "percent"
price = 8000
recovery = 0.8
[metals.smelter]
concentrate_grade = 26
payable = 0.965
minimum_deduction = 1
treatment_charge = 80
refining_charge = 170
price_participation = { base = 7500, share = 0.1 }
moisture = 0.2
freight = 60
penalties = [{ column = "as_ppm", recovery = 0.65, steps = [[2000, 3], [3000, 5]], per = 1000 }]
[[metals]]
name = "gold"
column = "au"
unit = "gram_per_tonne"
price = 60
recovery = 0.6
[metals.smelter]
concentrate_grade = 7.5
payable = 0.9
minimum_deduction = 1
refining_charge = 0.2
[slopes]
precedence_benches = 1
[[slopes.domains]]
angle = 90
[shells]
revenue_factors = [0.5, 1.0]
discount_rate = 0.1
processing_capacity = 10_000
[pushbacks]
count = 1
[schedule]
years = 2
"""
# 104 t of copper are recovered, in 400 dry tonnes of 26 %, or 500 wet tonnes. 25 of 26 units are paid: 100 t, less than 96.5 %.
# 3,000 g of gold are 7.5 g/t of concentrate, of which 1 g/t is not paid: 2,600 g, less than 90 %.
# 1.3 t of arsenic are 3,250 ppm: 3 USD per dry tonne for the 1,000 ppm above 2,000, and 5 per 1,000 ppm for 250 more: 4.25.
LINES = {
    "contained_copper": 130,
    "recovered_copper": 104,
    "payable_copper": 100,
    "concentrate_tonnes_copper": 400,
    "recovered_gold": 3000,
    "payable_gold": 2600,
    "price_copper": 8000,
    "revenue_copper": 800_000,
    "revenue_gold": 156_000,
    "royalty": 0.02 * 956_000,
    "treatment_charge_copper": 400 * 80,
    "refining_charge_copper": 100 * 170,
    "participation_copper": 100 * 0.1 * 500,
    "freight_copper": 500 * 60,
    "penalties_copper": 400 * 4.25,
    "refining_charge_gold": 2600 * 0.2,
    "mining_cost_ore": 20_000,
    "mining_cost_waste": 20_000,
    "processing_cost_mill": 100_000,
    # 956,000 less 19,120 of royalty, 86,220 of charges and 140,000 of costs.
    "operating_cash_flow": 710_660,
    "cash_flow": 710_660,
    # 140,000 and 86,220 less 156,000 of gold, for 100 t.
    "c1_cost": 702.2,
}


def table(**changes):
    ore = {"cu": 1.3, "au": 0.5, "as_ppm": 200} | changes
    columns = {name: lambda i, j, k, value=value: 0 if k else value for name, value in ore.items()}
    return rows(1, 1, 2, **columns).assign(tonnes=10_000)


def written_to(place, text=TEXT, blocks=None, writing=UNVERIFIED):
    (table() if blocks is None else blocks).to_csv(place / "blocks.csv", index=False)
    (place / "project.toml").write_text(text)
    pitplan.write_schedule(place / "project.toml", writing=writing)
    return place / "plan" / "schedule"


def wrong(folder):
    return {rule.name for rule in verify(folder) if rule.differences}


def lines_of(folder):
    return pd.read_csv(folder / "tables/cash_flow.csv").query("method == 'lp'").set_index("year").iloc[0]


@pytest.fixture(scope="module")
def concentrate(tmp_path_factory):
    return written_to(tmp_path_factory.mktemp("concentrate"))


def test_a_copper_concentrate_is_sold_as_worked_out_by_hand(concentrate):
    found = lines_of(concentrate)
    assert {name: found[name] for name in LINES} == pytest.approx(LINES, abs=0.001)
    assert not [name for name in found.index if name.startswith("selling_cost")]
    assert wrong(concentrate) == set()


def test_the_revenue_factor_scales_what_is_paid_and_no_charge(concentrate):
    """The price participation stays that of the base price."""
    block = pd.read_csv(concentrate / "tables/blocks.csv").query("revenue > 0").iloc[0]
    assert block["revenue"] == pytest.approx(956_000 * 0.98, abs=1e-4)
    assert block["processing_cost"] == pytest.approx(100_000 + 86_220, abs=1e-4)
    shells = pitplan.Plan.from_project(concentrate.parent.parent / "project.toml").shells()
    for factor in (0.5, 1.0):
        due = factor * 956_000 * 0.98 - 186_220 - 40_000
        assert float(shells.solution.worth[factor]) == pytest.approx(due, abs=1e-3)


def test_the_inventory_has_the_payable_metal(concentrate):
    found = pd.read_csv(concentrate / "tables/inventory.csv").query("method == 'lp'")
    assert found["payable_copper"].sum() == pytest.approx(100, abs=0.001)
    assert found["payable_gold"].sum() == pytest.approx(2600, abs=0.001)


def test_a_price_by_year_changes_the_participation(tmp_path):
    """At 8,000 the smelter keeps 50 per payable tonne, at 9,000 150."""
    folder = written_to(tmp_path, TEXT.replace("price = 8000\n", "price = 8000\nprices = [9000]\n"))
    found = lines_of(folder)
    assert found["revenue_copper"] == pytest.approx(900_000, abs=0.001)
    assert found["participation_copper"] == pytest.approx(15_000, abs=0.001)
    assert found["cash_flow"] == pytest.approx(710_660 + 98_000 - 10_000, abs=0.001) and wrong(folder) == set()


@pytest.mark.parametrize(
    ("rule", "participation"), [("", -5000), (', applies = "both"', -5000), (', applies = "above"', 0)]
)
def test_below_the_base_the_smelter_credits_its_share(tmp_path, rule, participation):
    """At 7,000, 500 below the base, 50 per payable tonne, unless the terms are for prices above the base alone."""
    text = TEXT.replace("price = 8000\n", "price = 8000\nprices = [7000]\n").replace(
        "share = 0.1 }", f"share = 0.1{rule} }}"
    )
    folder = written_to(tmp_path, text)
    found = lines_of(folder)
    assert found["participation_copper"] == pytest.approx(participation, abs=0.001)
    assert found["cash_flow"] == pytest.approx(710_660 - 98_000 + 5000 - participation, abs=0.001)
    assert wrong(folder) == set()
    copper = load(tmp_path / "project.toml").metals[0]
    paths = price_paths.net_at(copper, 0.02, np.array([[7000.0, 7500, 8000]]))
    due = [float(smelter_terms.net(copper, Decimal(price), Decimal("0.02"))) for price in (7000, 7500, 8000)]
    assert paths[0].tolist() == pytest.approx(due)
    said = dict(assumptions.prices(load(folder / "project-as-run.toml")))["price participation of copper"]
    assert said == f"10 % of the price above{' and below' * (participation < 0)} 7,500 USD/t"


def test_a_credit_above_all_charges_is_refused(tmp_path):
    """170 for refining and 0.1 x 0.9615 x 30,500 below the base of 38,500 leave less than nothing."""
    text = TEXT.replace("base = 7500", "base = 38_500")
    with pytest.raises(
        PlanError, match="price_participation of copper: at the price 8000 it credits more than all other charges"
    ):
        written_to(tmp_path, text)


def test_gold_dore_is_sold_as_worked_out_by_hand(tmp_path):
    """1,000 oz (31,103.4768 g) are recovered, 999 paid at 1,900 USD, each refined and shipped for 1.25."""
    start, end = TEXT.index("[[metals]]"), TEXT.index("[slopes]")
    dore = '[[metals]]\nname = "gold"\ncolumn = "au"\nunit = "gram_per_tonne"\nprice = 1900\nprice_per = "oz"\nrecovery = 0.8\n'
    dore += "[metals.smelter]\npayable = 0.999\nrefining_charge = 1.25\n"
    folder = written_to(tmp_path, TEXT[:start] + dore + TEXT[end:], table(au=3.8879346))
    found = lines_of(folder)
    due = {
        "recovered_gold": 31_103.477,
        "payable_gold": 31_072.373,
        "revenue_gold": 999 * 1900,
        "refining_charge_gold": 999 * 1.25,
        "royalty": 0.02 * 999 * 1900,
        "cash_flow": 999 * (1900 * 0.98 - 1.25) - 140_000,
        "c1_cost": (140_000 + 999 * 1.25) / 999,
    }
    assert {name: found[name] for name in due} == pytest.approx(due, abs=0.001)
    assert "concentrate_tonnes_gold" not in found and wrong(folder) == set()


def test_terms_of_copper_in_pounds():
    """The example of docs/planning/smelters.md: a dry tonne of 26 % holds 573.2 lb, of which 25 units, 551.2 lb, are paid at 4 USD."""
    terms = Smelter(
        payable=Decimal("0.965"),
        concentrate_grade=Decimal(26),
        minimum_deduction=Decimal(1),
        treatment_charge=Decimal(80),
        refining_charge=Decimal("0.08"),
        moisture=Decimal("0.08"),
        freight=Decimal(60),
        price_participation=Participation(Decimal("3.5"), Decimal("0.1")),
    )
    metal = Metal(
        name="copper", column="cu", unit="percent", price=Decimal(4), recovery=Decimal(1), price_per="lb", smelter=terms
    )
    pounds = 250 / 0.45359237
    charges = {name: float(amount) * 0.26 for name, amount in smelter_terms.charges(metal, metal.price).items()}
    expected = {"treatment": 80, "refining": pounds * 0.08, "participation": pounds * 0.05, "freight": 60 / 0.92}
    assert charges == pytest.approx(expected)
    net = float(smelter_terms.net(metal, metal.price, Decimal(0))) * 0.26
    assert net == pytest.approx(pounds * 3.87 - 80 - 60 / 0.92)
    said = {round(amount, 2) for amount in (*charges.values(), 4 * pounds, net)}
    page = (ROOT / "docs/planning/smelters.md").read_text(encoding="utf-8")
    assert said == {80, 44.09, 27.56, 65.22, 2204.62, 1987.75} and all(f"{it:,.10g}" in page for it in said)
    assert f"{net / (260 / 0.45359237):.2f} per recovered lb" in page and f"{pounds:.1f} lb" in page
    assert smelter_terms.payable_share(replace(metal, smelter=replace(terms, payable=Decimal("0.96")))) == Decimal(
        "0.96"
    )


# Each is 500 USD per tonne of copper: a concentrate of 25 % takes 4 dry tonnes, or 5 wet ones.
AS_SELLING_COST = {
    "refining": "refining_charge = 500",
    "both": "concentrate_grade = 25\nmoisture = 0.2\nfreight = 40\ntreatment_charge = 50\nrefining_charge = 100",
}
CHARGES = ("selling_cost_", "treatment_charge_", "refining_charge_", "freight_")
MORE = ("payable_", "concentrate_tonnes_")


@pytest.fixture(scope="module")
def short(tmp_path_factory):
    text = worked_cash_flow.TEXT + worked_cash_flow.MONEY
    return written_to(tmp_path_factory.mktemp("short"), text, worked_cash_flow.table())


@pytest.mark.parametrize("terms", AS_SELLING_COST)
def test_terms_that_are_a_selling_cost_change_no_table(tmp_path, short, terms):
    """All is paid, and charges are 500 per tonne of copper and 2 per gram of gold."""
    text = worked_cash_flow.TEXT + worked_cash_flow.MONEY
    text = text.replace("selling_cost = 500", f'[metals.smelter]\nprocesses = "all"\n{AS_SELLING_COST[terms]}')
    text = text.replace("selling_cost = 2", "[metals.smelter]\nrefining_charge = 2")
    folder = written_to(tmp_path, text, worked_cash_flow.table())
    names = {path.name for path in (short / "tables").glob("*.csv")}
    assert names == {path.name for path in (folder / "tables").glob("*.csv")} and len(names) > 12
    for name in names - {"cash_flow.csv", "inventory.csv"}:
        assert (folder / "tables" / name).read_text() == (short / "tables" / name).read_text(), name
    for name in ("cash_flow.csv", "inventory.csv"):
        first, other = (pd.read_csv(it / "tables" / name, dtype=str) for it in (short, folder))
        both = [column for column in first if not column.startswith(CHARGES)]
        assert set(other) - set(both) == {it for it in other if it.startswith((*CHARGES, *MORE))}
        pd.testing.assert_frame_equal(first[both], other[both])
    first, other = (pd.read_csv(it / "tables/cash_flow.csv") for it in (short, folder))
    for metal in ("copper", "gold"):
        charged = [name for name in other if name.endswith(metal) and name.startswith(CHARGES)]
        assert other[charged].sum(axis=1).tolist() == pytest.approx(first[f"selling_cost_{metal}"].tolist(), abs=0.002)
        assert (other[f"payable_{metal}"] == other[f"recovered_{metal}"]).all()
    assert wrong(folder) == set()


@pytest.mark.parametrize("name", [name for name in LINES if name.startswith((*CHARGES, *MORE, "penal", "particip"))])
def test_a_changed_line_is_found(concentrate, tmp_path, name):
    folder = shutil.copytree(concentrate.parent.parent, tmp_path / "mine") / "plan" / "schedule"
    path = folder / "tables/cash_flow.csv"
    found = pd.read_csv(path)
    found[name] = found[name] + 0.05
    found.to_csv(path, index=False)
    assert differing(folder, "cash flow")


def test_a_changed_payable_metal_of_the_inventory_is_found(concentrate, tmp_path):
    folder = shutil.copytree(concentrate.parent.parent, tmp_path / "mine") / "plan" / "schedule"
    path = folder / "tables/inventory.csv"
    found = pd.read_csv(path)
    found["payable_gold"] += 1
    found.to_csv(path, index=False)
    assert differing(folder, "inventory")


def test_npv_is_rebuilt_from_the_sheet_down_to_prices(tmp_path):
    """LibreOffice recalculates revenue from payable metal and price, and NPV from that."""
    folder = written_to(tmp_path, writing=WITH_WORKBOOK)
    sheet = office.recalculated(folder / "tables/schedule.xlsx", tmp_path)["cash_flow"]
    found = {row[0]: row[1:] for row in sheet.iter_rows(values_only=True)}
    assert found["payable copper"][0] == "t" and found["payable copper"][1] == pytest.approx(100)
    assert found["concentrate of copper"][0] == "t" and found["concentrate of copper"][1] == pytest.approx(400)
    assert found["revenue copper"][1] == pytest.approx(800_000) and found["penalties copper"][1] == pytest.approx(1700)
    assert found["C1 cost"][1] == pytest.approx(702.2) and found["net revenue"][1] == pytest.approx(850_660)
    npv = pd.read_csv(folder / "tables/valuation.csv")["npv"].iloc[0]
    assert found["discounted cash flow; total: NPV"][1] == pytest.approx(npv, abs=0.001)


@pytest.mark.parametrize(
    ("old", "new", "said"),
    [
        ("payable = 0.965", "payable = 96.5", "payable: found 96.5, expected above 0 to 1, such as 0.965 for 96.5 %"),
        ("concentrate_grade = 26\n", "", "concentrate_grade: is missing: treatment_charge depends on the grade"),
        (
            "concentrate_grade = 26\n",
            "concentrate_grade = 260\n",
            "concentrate_grade: found 260, expected .* at most 100",
        ),
        ("minimum_deduction = 1\ntreat", "minimum_deduction = 26\ntreat", "minimum_deduction: found 26, expected less"),
        ("moisture = 0.2", "moisture = 8", "moisture: found 8, expected 0 to below 1"),
        ("share = 0.1", "share = 10", "share: found 10, expected 0 to below 1"),
        ("treatment_charge = 80", "treatment_charge = -80", "treatment_charge: found -80, expected 0 or more"),
        ("treatment_charge", "treatment_charges", "treatment_charges: unknown key: did you mean treatment_charge"),
        ("steps = [[2000, 3], [3000, 5]]", "steps = [[3000, 3], [2000, 5]]", "steps: the grades must rise"),
        ("per = 1000", "per = 0", "per: found 0, expected above 0"),
        (
            "price = 8000\n",
            "price = 8000\nselling_cost = 5\n",
            r"selling_cost: give it or \[metals.smelter\], not both",
        ),
    ],
)
def test_terms_that_are_wrong_are_named(tmp_path, old, new, said):
    assert old in TEXT
    path = tmp_path / "project.toml"
    path.write_text(TEXT.replace(old, new, 1))
    with pytest.raises(PlanError, match=said):
        load(path)


def test_terms_read_back_as_themselves(tmp_path):
    """The text that a run records has the same terms, and the verification reads the same ones."""
    path = tmp_path / "project.toml"
    path.write_text(TEXT)
    project = load(path)
    again = tmp_path / "again.toml"
    again.write_text(project.to_toml())
    assert load(again).metals == project.metals and project.penalty_columns == ("as_ppm",)
    demand_read_alike(path, project)
    demand_read_alike(again, project)


def test_a_missing_column_of_a_penalty_is_named(tmp_path):
    with pytest.raises(PlanError, match="as_ppm"):
        written_to(tmp_path, blocks=table().drop(columns="as_ppm"))


def test_reblocked_elements_are_means_by_tonnes(tmp_path):
    """Half of the ore has 400 ppm of arsenic, the other none."""
    blocks = table()
    halves = [
        blocks.assign(
            name=[f"{name}{part}" for name in blocks["name"]],
            x=blocks["x"] + 10 * part,
            as_ppm=blocks["as_ppm"] * 2 * part,
        )
        for part in (0, 1)
    ]
    text = TEXT.replace("[grid]", "reblock = [2, 1, 1]\n[grid]").replace("= 10_000", "= 20_000")
    folder = written_to(tmp_path, text, pd.concat(halves))
    assert lines_of(folder)["penalties_copper"] == pytest.approx(2 * 1700, abs=0.001) and wrong(folder) == set()


def test_charges_are_varied_as_the_selling_cost(tmp_path):
    """At 10 % more the treatment, refining, freight and penalties cost 8,122 more; the participation stays. One of them alone goes by its key."""
    table().to_csv(tmp_path / "blocks.csv", index=False)
    rules = '[sensitivity]\nchanges = [0.1]\nparameters = ["price", "selling_cost", "metals.copper.smelter.treatment_charge"]\n'
    (tmp_path / "project.toml").write_text(TEXT + rules)
    pitplan.write_sensitivity(tmp_path / "project.toml", writing=PLAIN)
    found = (
        pd.read_csv(tmp_path / "plan/sensitivity/tables/sensitivity.csv")
        .fillna({"parameter": ""})
        .set_index("parameter")
    )
    cash = found["undiscounted_cash_flow"] - found.loc["", "undiscounted_cash_flow"]
    assert cash["selling_cost"] == pytest.approx(-0.1 * (86_220 - 5000), abs=0.001)
    assert cash["metals.copper.smelter.treatment_charge"] == pytest.approx(-3200, abs=0.001)
    # The participation grows by a tenth of 800 per payable tonne.
    assert cash["price"] == pytest.approx(95_600 * 0.98 - 100 * 80, abs=0.001)
    assert wrong(tmp_path / "plan/sensitivity") == set()


def test_ore_that_lies_on_a_stockpile_at_the_start_is_sold_by_the_terms(tmp_path):
    """The same 10,000 t once more, which cost 1 USD per tonne to reclaim and are not mined."""
    opening = "opening = { tonnes = 10_000, cu = 1.3, au = 0.5, as_ppm = 200 }"
    folder = written_to(tmp_path, f"{TEXT}stockpile = {{ reclaim_cost = 1, {opening} }}\n")
    found = pd.read_csv(folder / "tables/cash_flow.csv").query("method == 'lp'").sum(numeric_only=True)
    for name, due in LINES.items():
        if name.startswith((*CHARGES, *MORE, "penal", "particip", "revenue")):
            assert found[name] == pytest.approx(2 * due, abs=0.001), name
    assert found["operating_cash_flow"] == pytest.approx(2 * 710_660 + 40_000 - 10_000, abs=0.001)
    assert wrong(folder) == set()
    with pytest.raises(PlanError, match="opening: as_ppm is missing: give the mean of what lies there"):
        written_to(tmp_path, f"{TEXT}stockpile = {{ reclaim_cost = 1, {opening.replace(', as_ppm = 200', '')} }}\n")


def test_scenarios_have_the_terms_at_their_grades_and_prices(tmp_path):
    """With 2.6 % of copper there are 800 t of concentrate with 1,625 ppm of arsenic, which is not penalised; at 7,000 the smelter credits 5,000."""
    blocks = table().assign(sim_a=lambda it: it["cu"], sim_b=lambda it: 2 * it["cu"]).drop(columns="cu")
    blocks.to_csv(tmp_path / "blocks.csv", index=False)
    decks = "".join(f"[[scenarios.prices]]\ncopper = {price}\n" for price in (7000, 8000))
    (tmp_path / "project.toml").write_text(f'{TEXT}[scenarios]\ncolumns = {{ copper = "sim_*" }}\n{decks}')
    pitplan.write_scenarios(tmp_path / "project.toml", request=pitplan.Request(workers=0), writing=PLAIN)
    folder = tmp_path / "plan" / "scenarios"
    found = pd.read_csv(folder / "tables/scenarios.csv").query("revenue_factor == 1.0")
    found = found.set_index(["realisation", "price_copper"])["undiscounted_cash_flow"]
    # 100 or 200 t of copper, each 100 t with 5,000 of participation or as much of credit; gold brings 152,360; mining and milling cost 140,000.
    charged = {"sim_a": 32_000 + 17_000 + 30_000 + 1700, "sim_b": 64_000 + 34_000 + 60_000}
    for price, shared in ((7000, -5000), (8000, 5000)):
        for name, tonnes in (("sim_a", 100), ("sim_b", 200)):
            due = tonnes * price * 0.98 + 156_000 * 0.98 - 520 - charged[name] - shared * tonnes / 100 - 140_000
            assert found[name, price] == pytest.approx(due, abs=0.001)
    assert wrong(folder) == set()
