"""Smelter terms of some processes: copper cathode of a heap leach next to a flotation concentrate, worked out by hand."""

import shutil

import pandas as pd
import pytest
from conftest import rows
from helpers import office
from helpers.read_alike import demand_read_alike
from helpers.verified import differing
from helpers.writings import PLAIN, UNVERIFIED, WITH_WORKBOOK

import pitplan
from pitplan import PlanError, load, verify
from pitplan.economics import block_values
from pitplan.report import assumptions

# Two blocks of ore side by side, each of 10,000 t: an oxide for the leach and a sulphide for the mill. The sulphide has 200 ppm of arsenic.
TEXT = """
[table]
file = "blocks.csv"
id = "name"
rock_type = "rock"
[grid]
size = [10, 10, 10]
[economics]
mining_cost = 2
royalty = 0.02
[[metals]]
name = "copper"
column = "cu"
unit = "percent"
price = 8000
selling_cost = 150
[metals.smelter]
processes = ["mill"]
concentrate_grade = 26
payable = 0.965
minimum_deduction = 1
treatment_charge = 80
refining_charge = 170
price_participation = { base = 7500, share = 0.1 }
moisture = 0.2
freight = 60
penalties = [{ column = "as_ppm", recovery = 0.65, steps = [[2000, 3], [3000, 5]], per = 1000 }]
[[processes]]
name = "leach"
cost = 4
capacity = 10_000
recovery = { copper = { OX = 0.7, SU = 0.1 } }
[[processes]]
name = "mill"
cost = 10
capacity = 10_000
recovery = { copper = { OX = 0.3, SU = 0.8 } }
[slopes]
precedence_benches = 1
[[slopes.domains]]
angle = 90
[shells]
revenue_factors = [0.5, 1.0]
discount_rate = 0.1
[pushbacks]
count = 1
[schedule]
years = 2
"""
# The leach recovers 70 t of 100 t as cathode, which is all paid: 560,000 USD, less 2 % of royalty, 150 per tonne and 4 per tonne of feed.
OF_LEACH = 70 * 8000 * 0.98 - 70 * 150 - 40_000
# The mill recovers 104 t of 130 t in 400 dry tonnes. 100 t are paid: 800,000 USD. The smelter charges 32,000, 17,000, 5,000, 30,000 of freight
# on 500 wet tonnes, and 1,700 for arsenic.
OF_MILL = 100 * 8000 * 0.98 - 85_700 - 100_000
LINES = {
    "recovered_copper": 174,
    "payable_copper": 170,
    "concentrate_tonnes_copper": 400,
    "revenue_copper": 170 * 8000,
    "royalty": 0.02 * 170 * 8000,
    "selling_cost_copper": 70 * 150,
    "treatment_charge_copper": 32_000,
    "refining_charge_copper": 17_000,
    "participation_copper": 5000,
    "freight_copper": 30_000,
    "penalties_copper": 1700,
    "processing_cost_leach": 40_000,
    "processing_cost_mill": 100_000,
    "cash_flow": OF_LEACH + OF_MILL - 40_000,
    "c1_cost": (40_000 + 140_000 + 10_500 + 85_700) / 170,
}


def table():
    blocks = rows(2, 1, 1, cu=lambda i, j, k: (1.0, 1.3)[i], as_ppm=lambda i, j, k: (50, 200)[i])
    return blocks.assign(tonnes=10_000, rock=["OX", "SU"])


def written_to(place, text=TEXT, writing=UNVERIFIED):
    table().to_csv(place / "blocks.csv", index=False)
    (place / "project.toml").write_text(text)
    pitplan.write_schedule(place / "project.toml", writing=writing)
    return place / "plan" / "schedule"


def wrong(folder):
    return {rule.name for rule in verify(folder) if rule.differences}


def sums_of(folder, name="cash_flow"):
    return pd.read_csv(folder / f"tables/{name}.csv").query("method == 'lp'").set_index("year").iloc[0]


@pytest.fixture(scope="module")
def both(tmp_path_factory):
    return written_to(tmp_path_factory.mktemp("both"))


def test_cathode_and_concentrate_are_sold_as_worked_out_by_hand(both):
    found = sums_of(both)
    assert {name: found[name] for name in LINES} == pytest.approx(LINES, abs=0.001)
    assert found["cash_flow"] == pytest.approx(498_300 + 598_300 - 40_000)
    assert wrong(both) == set()


def test_factors_of_a_period_multiply_all_charges_but_the_price_participation(tmp_path):
    """Mining costs 40,000 x 1.25, processing 140,000 x 1.2, and selling 10,500 x 1.5. The smelter charges 80,700 x 1.5, and 5,000 of the price as
    before. With 1,332,800 of revenue less royalty that leaves 973,000."""
    factors = "mining_cost_factor = 1.25\nprocessing_cost_factor = 1.2\nselling_cost_factor = 1.5\n"
    folder = written_to(tmp_path, TEXT.replace("[schedule]", f"[[periods]]\n{factors}[schedule]"))
    times = dict.fromkeys(("selling_cost", "treatment_charge", "refining_charge", "freight", "penalties"), 1.5)
    due = LINES | {f"{name}_copper": factor * LINES[f"{name}_copper"] for name, factor in times.items()}
    due |= {f"processing_cost_{name}": 1.2 * LINES[f"processing_cost_{name}"] for name in ("leach", "mill")}
    due |= {"mining_cost_ore": 50_000, "cash_flow": 1_332_800 - 50_000 - 168_000 - 15_750 - 121_050 - 5000}
    found = sums_of(folder)
    assert {name: found[name] for name in due if name != "c1_cost"} == pytest.approx(
        {name: amount for name, amount in due.items() if name != "c1_cost"}, abs=0.001
    )
    assert found["c1_cost"] == pytest.approx((50_000 + 168_000 + 15_750 + 121_050 + 5000) / 170)
    methods = pd.read_csv(folder / "tables/methods.csv")
    assert methods[["npv", "upper_bound"]].to_numpy() == pytest.approx(973_000 / 1.1, abs=0.01)
    assert wrong(folder) == set()


def test_each_block_has_the_value_of_its_own_terms(both):
    """In the mill the oxide would pay the concentrate's terms, and in the leach the sulphide the selling cost."""
    found = pd.read_csv(both / "tables/blocks.csv").set_index("rock")
    assert found["process"].to_dict() == {"OX": "leach", "SU": "mill"}
    assert found["revenue"].to_dict() == pytest.approx({"OX": 70 * 8000 * 0.98, "SU": 100 * 8000 * 0.98}, abs=1e-4)
    cost = {"OX": 40_000 + 10_500, "SU": 100_000 + 85_700}
    assert found["processing_cost"].to_dict() == pytest.approx(cost, abs=1e-4)
    # 13 t of cathode from the sulphide, and 30 t of copper of which 25 of 26 units are paid from the oxide.
    assert found.loc["SU", "revenue_leach"] == pytest.approx(13 * 8000 * 0.98, abs=1e-4)
    assert found.loc["OX", "revenue_mill"] == pytest.approx(30 * 25 / 26 * 8000 * 0.98, abs=1e-4)


def test_the_inventory_has_payable_metal_by_process(both):
    found = pd.read_csv(both / "tables/inventory.csv").query("method == 'lp'").set_index("destination")
    assert found["payable_copper"].to_dict() == pytest.approx({"leach": 70, "mill": 100}, abs=0.001)


def test_cutoff_grades_are_those_of_each_process(both):
    """A percent earns 70 % of 7,690 USD in the leach, and in the mill 80 % of the concentrate's net return before penalties."""
    found = pd.read_csv(both / "tables/cutoffs.csv").query("method == 'lp' and year == 1")
    found = found.set_index(["process", "rock"])["marginal_grade"]
    assert found["leach", "OX"] == pytest.approx(4 / (0.01 * 0.7 * (8000 * 0.98 - 150)), abs=1e-6)
    concentrate = (100 * 8000 * 0.98 - 84_000) / 104
    assert found["mill", "SU"] == pytest.approx(10 / (0.01 * 0.8 * concentrate), abs=1e-6)


def test_a_stockpile_loses_metal_at_the_price_of_its_process(tmp_path):
    """The same sulphide lies there at the start, and of its metal 10.4 t in 40 dry tonnes are lost, of which 10 t would be paid."""
    opening = "opening = { tonnes = 10_000, rock_type = 'SU', cu = 1.3, as_ppm = 200 }"
    text = f"{TEXT}stockpile = {{ reclaim_cost = 1, recovery = {{ copper = 0.9 }}, {opening} }}\n"
    folder = written_to(tmp_path, text)
    found = pd.read_csv(folder / "tables/cash_flow.csv").query("method == 'lp'").sum(numeric_only=True)
    # Each paid tonne loses its price less royalty, participation and refining; each dry tonne saves treatment and freight.
    lost = 10 * (8000 * 0.98 - 50 - 170) - 40 * (80 + 75)
    assert found["payable_copper"] == pytest.approx(170 + 90, abs=0.001)
    assert found["operating_cash_flow"] == pytest.approx(OF_LEACH + 2 * OF_MILL - 50_000 - lost, abs=0.01)
    assert wrong(folder) == set()


@pytest.mark.parametrize("name", ["selling_cost_copper", "payable_copper", "treatment_charge_copper", "revenue_copper"])
def test_a_line_by_the_terms_of_the_other_process_is_found(both, tmp_path, name):
    folder = shutil.copytree(both.parent.parent, tmp_path / "mine") / "plan" / "schedule"
    path = folder / "tables/cash_flow.csv"
    found = pd.read_csv(path)
    found[name] = found[name] * 174 / 170
    found.to_csv(path, index=False)
    assert differing(folder, "cash flow")


def test_terms_of_all_processes_are_those_of_each(tmp_path):
    """Both sell 25 of 26 units: the leach earns 67.3 t at the smelter's charges."""
    text = TEXT.replace("selling_cost = 150\n", "").replace('processes = ["mill"]', 'processes = "all"')
    found = sums_of(written_to(tmp_path, text))
    assert found["payable_copper"] == pytest.approx(100 + 70 * 25 / 26, abs=0.001)
    assert found["treatment_charge_copper"] == pytest.approx(174 / 0.26 * 80, abs=0.001)
    assert wrong(tmp_path / "plan/schedule") == set()


def test_npv_is_rebuilt_from_the_sheet(tmp_path):
    folder = written_to(tmp_path, writing=WITH_WORKBOOK)
    sheet = office.recalculated(folder / "tables/schedule.xlsx", tmp_path)["cash_flow"]
    found = {row[0]: row[1:] for row in sheet.iter_rows(values_only=True)}
    assert found["revenue copper"][1] == pytest.approx(1_360_000) and found["selling copper"][1] == pytest.approx(
        10_500
    )
    npv = pd.read_csv(folder / "tables/valuation.csv")["npv"].iloc[0]
    assert found["discounted cash flow; total: NPV"][1] == pytest.approx(npv, abs=0.001)


def test_another_price_in_the_sheet_gives_the_cash_flow_at_that_price(tmp_path):
    """170 t earn 980 more each after royalty, of which the smelter keeps 100 for each of 100 payable tonnes of the concentrate."""
    openpyxl = pytest.importorskip("openpyxl")
    folder = written_to(tmp_path, writing=WITH_WORKBOOK)
    book = openpyxl.load_workbook(folder / "tables/schedule.xlsx")
    for row in book["cash_flow"].iter_rows():
        if row[0].value == "price of copper":
            row[3].value = 9000
    book.save(tmp_path / "dearer.xlsx")
    sheet = office.recalculated(tmp_path / "dearer.xlsx", tmp_path)["cash_flow"]
    found = {row[0]: row[3] for row in sheet.iter_rows(values_only=True)}
    assert found["royalty"] == pytest.approx(0.02 * 170 * 9000)
    assert found["price participation copper"] == pytest.approx(15_000)
    assert found["cash flow"] == pytest.approx(LINES["cash_flow"] + 170 * 980 - 10_000, abs=0.001)


def test_charges_of_all_processes_are_varied_as_the_selling_cost(tmp_path):
    """At 10 % more the selling cost of the cathode is 1,050 more, and the smelter charges 8,070; its participation stays."""
    table().to_csv(tmp_path / "blocks.csv", index=False)
    rules = '[sensitivity]\nchanges = [0.1]\nparameters = ["selling_cost", "price"]\n'
    (tmp_path / "project.toml").write_text(TEXT + rules)
    pitplan.write_sensitivity(tmp_path / "project.toml", writing=PLAIN)
    found = pd.read_csv(tmp_path / "plan/sensitivity/tables/sensitivity.csv").fillna({"parameter": ""})
    cash = found.set_index("parameter")["undiscounted_cash_flow"]
    assert cash["selling_cost"] - cash[""] == pytest.approx(-1050 - 8070, abs=0.001)
    # The participation grows by a tenth of 800 per payable tonne of the concentrate.
    assert cash["price"] - cash[""] == pytest.approx(170 * 800 * 0.98 - 100 * 80, abs=0.001)
    assert wrong(tmp_path / "plan/sensitivity") == set()


@pytest.mark.parametrize(
    ("names", "leach"),
    [
        ('["mill", "leach"]', "{ OX = 0.7, SU = 0.1 }"),
        ('["leach", "mill"]', "{ OX = 0.7, SU = 0.1 }"),
        ('["mill"]', "0"),
    ],
)
def test_a_smelter_that_takes_all_of_a_metal_needs_no_selling_cost(tmp_path, names, leach):
    """Its names are those of every process that recovers the metal, so it is the project with "all"."""
    text = TEXT.replace("{ copper = { OX = 0.7, SU = 0.1 } }", f"{{ copper = {leach} }}").replace(
        "selling_cost = 150\n", ""
    )
    projects = []
    for processes in (names, '"all"'):
        path = tmp_path / "project.toml"
        path.write_text(text.replace('["mill"]', processes))
        projects.append(load(path))
    assert projects[0] == projects[1]


@pytest.mark.parametrize(
    ("old", "new", "said"),
    [
        (
            'selling_cost = 150\n[metals.smelter]\nprocesses = ["mill"]\n',
            "[metals.smelter]\n",
            'processes of copper: is missing, and leach, mill recover copper: give "all" if the terms apply to each, or name',
        ),
        ('["mill"]', '"mill"', r'processes: found .mill., expected "all" or names, such as \["mill"\]'),
        ('["mill"]', "[]", r"processes: found \[\], expected"),
        ('["mill"]', '["mil"]', 'processes of copper: found mil, expected "all" or some of leach, mill'),
        ('["mill"]', '["mill", "mill"]', "names a process twice"),
        (
            '["mill"]',
            '["mill", "leach"]',
            r"selling_cost: give it or \[metals.smelter\], not both: the smelter takes all",
        ),
        ("selling_cost = 150\n", "", "selling_cost: is missing: .* the others sell at it"),
        ('["mill"]', '"all"', r"selling_cost: give it or \[metals.smelter\], not both"),
    ],
)
def test_terms_that_leave_a_process_open_are_named(tmp_path, old, new, said):
    assert old in TEXT
    path = tmp_path / "project.toml"
    path.write_text(TEXT.replace(old, new, 1))
    with pytest.raises(PlanError, match=said):
        load(path)


def test_a_metal_of_one_process_needs_no_names(tmp_path):
    """The leach recovers none, so the terms are those of the mill."""
    text = TEXT.replace("{ copper = { OX = 0.7, SU = 0.1 } }", "{ copper = 0 }").replace("selling_cost = 150\n", "")
    folder = written_to(tmp_path, text.replace('processes = ["mill"]\n', ""))
    found = pd.read_csv(folder / "tables/cash_flow.csv").query("method == 'lp'").sum(numeric_only=True)
    assert found["payable_copper"] == pytest.approx((104 + 30) * 25 / 26, abs=0.001)
    assert "selling_cost_copper" not in found and wrong(folder) == set()


@pytest.mark.parametrize(
    ("old", "new"),
    [
        ("price = 8000\n", "price = 8000\nprices = [9000]\n"),
        ("[pushbacks]", "[[periods]]\nprices = { copper = 9000 }\n[pushbacks]"),
    ],
)
def test_a_price_by_year_pays_each_process_by_its_own_terms(tmp_path, old, new):
    """170 t are paid and earn 980 more each, of which the smelter keeps 100 per payable tonne of the concentrate."""
    folder = written_to(tmp_path, TEXT.replace(old, new))
    found = sums_of(folder)
    assert found["cash_flow"] == pytest.approx(LINES["cash_flow"] + 170 * 980 - 10_000, abs=0.001)
    assert found["participation_copper"] == pytest.approx(15_000, abs=0.001)
    assert found["revenue_copper"] == pytest.approx(170 * 9000, abs=0.001) and wrong(folder) == set()


# Twelve blocks in two benches, of which both processes may take all: the best process of a block changes with the price of the year.
YEARS = """
[shells.specified]
pushbacks = [0.5]
[[schedule.stockpiles]]
name = "low"
reclaim_cost = 0.5
recovery = { copper = 0.9 }
opening = { tonnes = 2_000, rock_type = "SU", cu = 0.9, as_ppm = 150 }
[[periods]]
prices = { copper = 7_400 }
selling_cost_factor = 1.3
[[periods]]
prices = { copper = 9_600 }
[[periods]]
prices = { copper = 8_000 }
"""
WIDE = TEXT.replace("years = 2", "years = 6").replace(
    "revenue_factors = [0.5, 1.0]", "revenue_factors = [0.5, 0.8, 1.0]"
)
WIDE = WIDE.replace("capacity = 10_000", "capacity = 12_000")


def as_two_metals(text):
    """The copper of each product as a metal of its own, with the same column."""
    head, terms = (
        text[text.index("[[metals]]") : text.index("[metals.smelter]")],
        text[text.index("[metals.smelter]") :],
    )
    terms = terms[: terms.index("[[processes]]")].replace('processes = ["mill"]\n', "")
    cathode = head.replace('"copper"', '"cathode"')
    concentrate = head.replace('"copper"', '"concentrate"').replace("selling_cost = 150\n", "") + terms
    rest = text[text.index("[[processes]]") :].replace(
        "recovery = { copper = { OX = 0.7", "recovery = { cathode = { OX = 0.7"
    )
    rest = rest.replace("recovery = { copper = { OX = 0.3", "recovery = { concentrate = { OX = 0.3")
    rest = rest.replace("recovery = { copper = 0.9 }", "recovery = { cathode = 0.9, concentrate = 0.9 }")
    for price in ("7_400", "9_600", "8_000"):
        rest = rest.replace(f"{{ copper = {price} }}", f"{{ cathode = {price}, concentrate = {price} }}")
    return text[: text.index("[[metals]]")] + cathode + concentrate + rest


@pytest.fixture(scope="module")
def priced_by_year(tmp_path_factory):
    """The folders of a schedule of pushbacks and of one by block, with the terms of the mill, and with a metal for each product."""
    found = {}
    for name, text in (("terms", WIDE + YEARS), ("metals", as_two_metals(WIDE + YEARS))):
        place = tmp_path_factory.mktemp(name)
        blocks = rows(3, 2, 2, cu=lambda i, j, k: 0.4 + 0.27 * i + 0.31 * j * k, as_ppm=lambda i, j, k: 60 * i + 90 * j)
        blocks.assign(tonnes=5_000, rock=["OX", "SU", "SU"] * 4).to_csv(place / "blocks.csv", index=False)
        (place / "project.toml").write_text(text)
        pitplan.write_schedule(place / "project.toml", writing=UNVERIFIED)
        start = text.index("[[schedule.stockpiles]]")
        (place / "blocks.toml").write_text(text[:start] + text[text.index("[[periods]]") :])
        pitplan.write_block_schedule(place / "blocks.toml", place / "by_block", writing=UNVERIFIED)
        found[name] = place / "plan" / "schedule", place / "by_block"
    return found


@pytest.mark.parametrize("kind", [0, 1])
def test_prices_by_year_agree_with_a_metal_for_each_product(priced_by_year, kind):
    """Shells, schedules and upper bounds by terms of the mill alone are those of two metals, which have terms of their own."""
    terms, metals = priced_by_year["terms"][kind], priced_by_year["metals"][kind]
    for table, columns in {
        "shells": ["tonnes", "npv_best", "npv_worst", "npv_specified"],
        "methods": ["npv", "upper_bound", "feed_tonnes"],
        "years": ["feed_tonnes_leach", "feed_tonnes_mill", "cash_flow", "discounted_cash_flow"],
    }.items():
        path = f"tables/{table}.csv"
        if not (terms / path).exists():
            continue
        found, due = pd.read_csv(terms / path), pd.read_csv(metals / path)
        columns = [it for it in columns if it in due]
        assert columns and found[columns].to_numpy() == pytest.approx(
            due[columns].to_numpy(), rel=1e-7, abs=0.01
        ), table
    assert wrong(terms) == set() and wrong(metals) == set()


def test_changed_cash_flows_of_years_with_their_own_prices_are_found(priced_by_year, tmp_path):
    """If the terms applied at the base price alone, cash flows would be others."""
    for number, folder in enumerate(priced_by_year["terms"]):
        copy = shutil.copytree(folder.parent, tmp_path / str(number) / folder.parent.name) / folder.name
        for name in ("blocks.csv", "project.toml", "blocks.toml"):
            shutil.copy(priced_by_year["terms"][1].parent / name, tmp_path / str(number))
        path = copy / "tables/years.csv"
        years = pd.read_csv(path)
        years.loc[0, ["cash_flow", "discounted_cash_flow"]] += 25
        years.to_csv(path, index=False)
        assert wrong(copy) != set()


def test_terms_of_processes_read_back_as_themselves(tmp_path):
    path, again = tmp_path / "project.toml", tmp_path / "again.toml"
    path.write_text(TEXT)
    project = load(path)
    again.write_text(project.to_toml())
    assert load(again).metals == project.metals and project.metals[0].smelter.processes == ("mill",)
    assert [way.metals[0].smelter is None for way in project.by_process] == [True, False]
    demand_read_alike(path, project)
    demand_read_alike(again, project)


def test_report_and_notes_say_whose_metal_the_terms_apply_to(tmp_path):
    """The report has both prices with their processes, and a note has the net smelter return of the mill alone."""
    (tmp_path / "project.toml").write_text(TEXT)
    project = load(tmp_path / "project.toml")
    found = dict(assumptions.prices(project))
    assert found["selling cost of copper"] == "150 USD/t, metal of leach"
    assert found["payable copper"] == "96.5 %, minimum deduction 1 %, metal of mill"
    assert block_values.smelter_notes(project)[0].startswith("the smelter pays 96.154 % of the copper of mill and")
    whole = tmp_path / "all.toml"
    whole.write_text(TEXT.replace("selling_cost = 150\n", "").replace('["mill"]', '"all"'))
    assert dict(assumptions.prices(load(whole)))["payable copper"] == "96.5 %, minimum deduction 1 %"
