"""The parts of the report that are words: assumptions, risks, and Table 1."""

import pandas as pd
import pytest
from conftest import PROJECT, rows
from helpers.processes import WITH

import pitplan
from pitplan.report.assumptions import selected_shell, table_one, topics
from pitplan.report.statements import risks

RECORD = {
    "notes": ["WARNING: the pit reaches the edge", "a note"],
    "verified": ["slopes"],
    "summary": ["7 blocks", "more"],
    "files": {"tables/cutoffs.csv": ""},
    "shells": {"selected": 0.8},
}
NO_WASTE = pd.Series({"mineralised_waste_tonnes": 0.0})
CLASSED = ("[table]\n", '[table]\nclass = "cls"\n')


@pytest.fixture
def project(plan_folder):
    def load(*changes, more=""):
        table = rows(2, 1, 1, cu=lambda i, j, k: 1.0, rock=lambda i, j, k: "RS"[i], cls=lambda i, j, k: "Inferred")
        return pitplan.load(plan_folder(table, PROJECT + more, *changes))

    return load


def said(project):
    return {(topic.name, item): value for topic in topics(project) for item, value in topic.rows}


def test_assumptions_by_hand(project):
    money = (
        "[economics]\n",
        '[economics]\ncurrency = "AUD"\nroyalty = 0.025\nmining_cost_per_bench = 0.05\nmining_cost_reference = 30\n'
        "mining_recovery = 0.95\ncapex = [[1, 5e6], [3, 250_000]]\n",
    )
    schedule = (
        "[pushbacks]\ncount = 2\nmin_mining_width = 40\n[schedule]\nramp_up = [0.5, 1]\nvertical_advance_rate = 6\nyears = 9\n"
        "[schedule.feed]\nas = { max = 120 }\n[schedule.stockpile]\nreclaim_cost = 1.2\ncapacity = 4e5\n"
    )
    found = said(
        project(
            money,
            ("price = 8000\n", 'price = 4.1\nprice_per = "lb"\nselling_cost = 0.3\n'),
            more=schedule.replace("as =", "cu ="),
        )
    )
    expected = {
        ("Prices", "price of copper"): "4.1 AUD/lb",
        ("Prices", "selling cost of copper"): "0.3 AUD/lb",
        ("Prices", "royalty"): "2.5 % of gross revenue",
        ("Prices", "discount rate"): "10 % a year, discounted from the end of each year",
        ("Costs", "mining cost"): "2 AUD/t mined",
        ("Costs", "mining cost added per bench"): "0.05 AUD/t mined",
        ("Costs", "mining cost reference"): "30 m",
        ("Costs", "processing cost"): "10 AUD/t of mill feed",
        ("Costs", "capital"): "5,000,000 AUD at the start of year 1, 250,000 AUD at the start of year 3",
        ("Recoveries", "copper"): "50 %",
        ("Mining", "mining recovery"): "95 %",
        ("Mining", "dilution"): "0 % at zero grade",
        ("Mining", "minimum mining width"): "40 m",
        ("Mining", "vertical advance rate"): "6 benches/year and pushback",
        ("Capacities", "mining"): "any",
        ("Capacities", "processing"): "100 t a year",
        ("Capacities", "ramp-up"): "50 %, 100 % of the processing capacity, by year",
        ("Capacities", "head grade cu"): "at most 120",
        ("Capacities", "stockpile"): "reclaim 1.2 AUD/t, 400,000 t",
        ("Resource classes", "classification"): "none: no column of resource classes is given",
    }
    assert {key: found.get(key) for key in expected} == expected


def test_assumptions_of_processes_curves_and_periods(project):
    more = "[[periods]]\nyears = 2\nperiod_months = 3\ncapacity = { mill = 50 }\n[[periods]]\nprices = { copper = 9_000 }\ncapex = 70\n"
    found = said(project(*WITH, more=more))
    assert found["Recoveries", "copper, mill"] and found["Costs", "processing cost of leach"].endswith(
        "USD/t of mill feed"
    )
    assert found["Periods", "year 1 to 2"] == "periods of 3 months; mill 50 t a year"
    assert found["Periods", "year 3 and later"] == "copper 9,000 USD; capital 70 USD"
    curve = ("recovery = 0.5\n", "recovery = { R = [[0.2, 0.4], [1, 0.7]], S = 0.65 }\n")
    assert said(project(curve))["Recoveries", "copper"] == "R: 40 % at 0.2 to 70 % at 1, S: 65 %"


@pytest.mark.parametrize(
    ("domain", "value"),
    [
        ("angle = 45", "45 degrees"),
        ('pattern = "1:9"', "pattern 1:9"),
        ("azimuths = [[0, 40], [180, 50]]", "40 at 0, 50 at 180 degrees, by azimuth of the wall"),
        (
            "bench = { height = 10, face_angle = 70, berm_width = 5 }",
            "49.2 degrees: benches of 10 m, faces of 70 degrees, berms of 5 m",
        ),
    ],
)
def test_slopes_in_words(project, domain, value):
    text = PROJECT[PROJECT.index("[[slopes.domains]]") :].split("\n")[1]
    assert said(project((f"{text}\n", f"{domain}\n")))["Slopes", "all domains"] == value


def test_risks_by_hand(project):
    plain = project()
    cases = pd.DataFrame(
        {
            "parameter": ["", "price", "mining_cost", "price"],
            "second_parameter": ["", "", "", "slopes"],
            "change": [0.0, -0.1, 0.1, -0.2],
            "npv": [5e7, 2e7, 4e7, 1e7],
        }
    )
    found = risks(plain, RECORD, NO_WASTE, cases)
    assert found[0] == "the pit reaches the edge" and "has no resource classes" in found[1]
    assert found[2] == "A change of price by -10 % moves the NPV from 50.0 to 20.0 M USD, the most of all cases."
    assert "No sensitivity analysis" in risks(plain, RECORD, NO_WASTE, None)[2]
    assert "were not verified" in risks(plain, RECORD | {"verified": []}, NO_WASTE, cases)[-1]


def test_risks_of_classes(project):
    classed = project(CLASSED)
    waste = pd.Series({"mineralised_waste_tonnes": 12_300.0})
    assert "12.3 kt that would pay but are waste" in risks(classed, RECORD, waste, None)[1]
    treated = project(CLASSED, more='[classes]\nInferred = "ore"\n')
    assert "Classes Inferred are treated as ore" in risks(treated, RECORD, NO_WASTE, None)[1]
    assert said(treated)["Resource classes", "class Inferred"] == "may be ore"


def test_table_one_has_all_criteria_and_leaves_the_rest_to_the_competent_person(project):
    found = dict(table_one(project(), RECORD))
    assert len(found) == 17 and all(lines[-1].endswith(": by the Competent Person") for lines in found.values())
    assert found["Site visits"] == ["site visits, or why there were none: by the Competent Person"]
    assert (
        "price of copper: 8,000 USD/t" in found["Revenue factors"]
        and "copper: 50 %" in found["Metallurgical factors or assumptions"]
    )
    assert (
        "pit shell: revenue factor 0.80, the one with the highest NPV of pit-by-pit analysis"
        in found["Mining factors or assumptions"]
    )
    assert any("cutoffs.csv" in line for line in found["Cut-off parameters"])
    assert "block model blocks.csv" in found["Mineral Resource estimate for conversion to Ore Reserves"]


def test_tax_closure_and_price_paths_are_assumptions(project):
    more = "[cash_flow]\nclosure_cost = 4e6\ntax_rate = 0.27\ndepreciation = { years = 8 }\n"
    more += "[price_paths.metals.copper]\nlong_term = 7800\nspeed = 0.35\nvolatility = 0.24\n"
    found = said(project(more=more))
    expected = {
        ("Costs", "closure cost"): "4,000,000 USD",
        ("Costs", "tax rate"): "27 % of taxable income",
        ("Costs", "depreciation of capital"): "straight line over 8 years; losses are carried forward",
        ("Prices", "price paths of copper"): "7,800 in the long run, speed 0.35 per year, volatility 24 %",
    }
    assert {key: found.get(key) for key in expected} == expected


def test_what_applies_to_pushbacks_alone_is_no_assumption_by_block(project):
    of_pushbacks = project(more="[schedule]\nbench_lag = 2\nvertical_advance_rate = 6\n")
    both = [{item for topic in topics(of_pushbacks, by_block) for item, _ in topic.rows} for by_block in (False, True)]
    assert both[0] - both[1] == {"vertical advance rate", "bench lag between pushbacks"}


@pytest.mark.parametrize(
    ("more", "words"),
    [
        ("[pushbacks]\ncount = 2\nultimate_pit = 1.0\n", "that of the last pushback, set by the planner"),
        ("[pushbacks]\nrevenue_factors = [0.5, 1.0]\n", "that of the last pushback, set by the planner"),
        ("[pushbacks]\ncount = 2\n", "the one with the highest NPV of pit-by-pit analysis"),
    ],
)
def test_how_the_shell_was_selected(project, more, words):
    record = RECORD | {"pushbacks": 2, "shells": {"selected": 1.0}}
    assert selected_shell(project(more=more), record) == f"revenue factor 1.00, {words}"
    alone = {name: it for name, it in record.items() if name != "pushbacks"}
    assert selected_shell(project(more=more), alone).endswith("the one with the highest NPV of pit-by-pit analysis")


def test_stockpiles_are_called_by_their_names(project):
    text = '[[schedule.stockpiles]]\nname = "rom"\nreclaim_cost = 1\nstacking_cost = 0.2\n'
    found = said(project(more=text))
    assert found["Capacities", "stockpile rom"] == "stacking 0.2 USD/t, reclaim 1 USD/t"
