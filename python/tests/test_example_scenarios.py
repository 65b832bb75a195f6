"""The example of simulated models: each scenario against the tests' own maximum flow over the whole cone of each block."""

import csv
import json
import math
import subprocess
import sys
from decimal import ROUND_HALF_EVEN, Decimal

import numpy as np
import pandas as pd
import pytest
from conftest import ROOT
from oracle.closures import least_best_pit
from scipy.optimize import linprog
from scipy.sparse import csr_matrix

from pitplan.cli import main

EXAMPLE = ROOT / "examples" / "scenarios"
SHAPE = (10, 9, 7)  # columns, rows, levels of blocks of 20 x 20 x 15 m
PLACES = (("x", 5010, 20), ("y", 2010, 20), ("z", 2707.5, 15))
PRICES, FACTORS = (7400, 9000), (0.7, 1.0)
COPPER = {"OX": Decimal("0.62"), "POR": Decimal("0.88"), "AND": Decimal("0.86")}
GOLD = {"OX": Decimal("0.55"), "POR": Decimal("0.7"), "AND": Decimal("0.7")}
PROCESSING = {"OX": Decimal("9.8"), "POR": Decimal("8.6"), "AND": Decimal("8.6")}


def whole(amount):
    return int(amount.quantize(Decimal(1), ROUND_HALF_EVEN))


@pytest.fixture(scope="module")
def folder(tmp_path_factory):
    """What the command line writes."""
    place = tmp_path_factory.mktemp("scenarios")
    words = [
        ROOT / "tools" / "pitplan",
        "scenarios",
        EXAMPLE / "project.toml",
        "--out",
        place,
        "--workers",
        "1",
        "--no-figures",
        "--quiet",
    ]
    subprocess.run([sys.executable, *words], check=True)
    return place


def rows_of(path):
    with open(path, newline="") as file:
        return list(csv.DictReader(file))


def place_of(row):
    return tuple(round((float(row[axis]) - first) / step) for axis, first, step in PLACES)


def cells():
    return [(i, j, k) for k in range(SHAPE[2]) for j in range(SHAPE[1]) for i in range(SHAPE[0])]


def precedences():
    """For each cell the cells of the four levels above it that lie in a cone of 45 degrees."""
    inside = set(cells())
    steps = [
        (east, north, up)
        for up in range(1, 5)
        for north in range(-3, 4)
        for east in range(-3, 4)
        if math.hypot(20 * east, 20 * north) <= 15 * up + 1e-7
    ]
    return {(i, j, k): [to for a, b, c in steps if (to := (i + a, j + b, k + c)) in inside] for i, j, k in cells()}


def value_at(row, grades, price, factor):
    """What a block is worth once it is dug, in thousandths of whole money."""
    rock, tonnes = row["rock"], Decimal(row["tonnes"])
    copper = tonnes * Decimal(grades["cu_pct"]) / 100 * COPPER[rock]
    gold = tonnes * Decimal(grades["au_gpt"]) * GOLD[rock]
    revenue = whole(copper * price + gold * Decimal("58.5"))
    processing = whole(tonnes * PROCESSING[rock] + copper * 420 + gold * Decimal("1.2")) if revenue else 0
    return max(round(1000 * factor) * revenue - 1000 * processing, 0) - 1000 * whole(tonnes * Decimal("2.4"))


@pytest.fixture(scope="module")
def pits():
    """By model, price and factor the blocks of the pit, by their ids, and its worth."""
    rows = {row["id"]: row for row in rows_of(EXAMPLE / "blocks.csv")}
    places, leads, found = {name: place_of(row) for name, row in rows.items()}, precedences(), {}
    for path in sorted((EXAMPLE / "realisations").iterdir()):
        grades = {row["id"]: row for row in rows_of(path)}
        for price, factor in ((price, factor) for price in PRICES for factor in FACTORS):
            values = {name: value_at(row, grades[name], price, factor) for name, row in rows.items()}
            # Both factors are hundreds, and so are the thousandths; smaller numbers keep the flow within 32 bits.
            flows = dict.fromkeys(cells(), 0) | {places[name]: value // 100 for name, value in values.items()}
            pit = least_best_pit(flows, leads)
            inside = {name for name, place in places.items() if place in pit}
            found[path.stem, price, factor] = inside, Decimal(sum(values[name] for name in inside)) / 1000
    return found


@pytest.mark.slow
def test_each_scenario_is_that_of_the_oracle(folder, pits):
    """Eight scenarios at two factors; the third model pays at the higher price alone."""
    table = rows_of(folder / "tables/scenarios.csv")
    assert len(table) == len(pits) == 16
    for row in table:
        inside, worth = pits[row["realisation"], int(row["price_copper"]), float(row["revenue_factor"])]
        assert (int(row["blocks"]), Decimal(row["value_at_revenue_factor"])) == (len(inside), worth)
    counts = [len(pits["model_003", price, 1.0][0]) for price in PRICES]
    assert counts[0] == 0 < counts[1]


@pytest.mark.parametrize("factor", FACTORS)
def test_probabilities_are_shares_of_the_oracle(folder, pits, factor):
    likely = pd.read_csv(folder / "tables/probability.csv").set_index("planner_id")[f"probability_{factor:.2f}"]
    asked = [inside for (_, _, at), (inside, _) in pits.items() if at == factor]
    assert likely.to_dict() == {name: sum(name in inside for inside in asked) / 8 for name in likely.index}
    assert likely.max() >= 0.75 and len(likely) == 523


def test_quantiles_by_hand_from_the_oracle(folder, pits):
    """Of four models, the median lies half way between the second and the third, and a tenth at 0.3 of the way from the first."""
    table = pd.read_csv(folder / "tables/quantiles.csv").set_index(["price_copper", "revenue_factor"])
    for price, factor in table.index:
        counts = sorted(len(inside) for (_, at, of), (inside, _) in pits.items() if (at, of) == (price, factor))
        row = table.loc[(price, factor)]
        assert (row["blocks_least"], row["blocks_greatest"], row["blocks_mean"]) == (
            counts[0],
            counts[3],
            sum(counts) / 4,
        )
        assert row["blocks_quantile_0.5"] == (counts[1] + counts[2]) / 2
        assert row["blocks_quantile_0.1"] == pytest.approx(counts[0] + 0.3 * (counts[1] - counts[0]))


@pytest.fixture(scope="module")
def scheduled(tmp_path_factory):
    """What the command line writes by block."""
    place = tmp_path_factory.mktemp("schedules")
    words = ["scenarios", EXAMPLE / "project.toml", "--by", "block", "--out", place, "--workers", "1"]
    assert main([*map(str, words), "--no-figures", "--quiet"]) == 0
    return place


ORE, YEARS, MINING = 200_000, 4, Decimal("2.4")
# Cash of a year is discounted from its end, at 8 % a year.
DISCOUNTS = [1.08**-year for year in range(1, YEARS + 1)]


def worths(path, price):
    """By id what a block costs as waste, what it earns besides in the mill, and the tonnes that it takes there."""
    found = {}
    for row, grades in zip(rows_of(EXAMPLE / "blocks.csv"), rows_of(path)):
        assert row["id"] == grades["id"]
        mining = whole(Decimal(row["tonnes"]) * MINING)
        gain = value_at(row, grades, price, 1.0) // 1000 + mining
        found[row["id"]] = mining, gain, float(row["tonnes"]) if gain > 0 else 0.0
    return found


def bound_of(worth, leads):
    """The optimum of the whole linear programme of a scenario: shares of blocks by year, as waste and in the mill."""
    by_place = {place_of(row): worth[row["id"]] for row in rows_of(EXAMPLE / "blocks.csv")}
    paying = [place for place, (mining, gain, _) in by_place.items() if gain > mining]
    blocks = sorted({it for place in paying for it in [place, *reached(place, leads)]} & set(by_place))
    at = {place: number for number, place in enumerate(blocks)}
    mining, gain, ore = (np.array([by_place[place][part] for place in blocks], dtype=float) for part in range(3))
    count, discounts = len(blocks), np.array(DISCOUNTS)
    # Unknowns by block, destination and year.
    earned = np.stack([-mining[:, None] * discounts, (gain - mining)[:, None] * discounts], axis=1)
    place = np.arange(earned.size).reshape(earned.shape)
    rows, right = [], []
    for one, other, year in (
        (one, other, year) for one in blocks for other in leads[one] if other in at for year in range(YEARS)
    ):
        users, needed = (place[at[it], :, : year + 1].ravel() for it in (one, other))
        rows.append({**dict.fromkeys(users, 1.0), **dict.fromkeys(needed, -1.0)})
        right.append(0.0)
    rows += [dict.fromkeys(place[block].ravel(), 1.0) for block in range(count)]
    rows += [dict(zip(place[:, 1, year], ore)) for year in range(YEARS)]
    right += [1.0] * count + [float(ORE)] * YEARS
    where = [(number, column, value) for number, row in enumerate(rows) for column, value in row.items()]
    row, column, value = zip(*where)
    matrix = csr_matrix((value, (row, column)), shape=(len(rows), earned.size))
    return -linprog(-earned.ravel(), A_ub=matrix, b_ub=right, bounds=(0, 1), method="highs").fun if count else 0.0


def reached(place, leads):
    """All that a block needs, directly or through others."""
    found, open_ = set(), [place]
    while open_:
        more = [it for it in leads[open_.pop()] if it not in found]
        found.update(more)
        open_ += more
    return found


def milled(worth, year):
    """What a schedule earns in a scenario by milling the ore of each year that earns most a tonne."""
    total = 0.0
    for number, discount in enumerate(DISCOUNTS, 1):
        blocks, room = [worth[name] for name, its in year.items() if its == number], float(ORE)
        cash = -float(sum(mining for mining, _, _ in blocks))
        for _, gain, ore in sorted((it for it in blocks if it[1] > 0), key=lambda it: -it[1] / it[2]):
            share = min(1.0, room / ore)
            cash, room = cash + share * gain, room - share * ore
        total += cash * discount
    return total


def test_bounds_and_what_the_one_schedule_earns_are_those_of_programmes_of_the_tests_own(scheduled):
    """Eight scenarios: each bound is the optimum of the whole linear programme within 1e-4, and no value is above that."""
    table, leads = pd.read_csv(scheduled / "tables/schedules.csv"), precedences()
    year = pd.read_csv(scheduled / "tables/common_schedule.csv").set_index("planner_id")["year"].to_dict()
    bounds = []
    for row in table.to_dict("records"):
        worth = worths(EXAMPLE / "realisations" / f"{row['realisation']}.csv", int(row["price_copper"]))
        bounds.append(bound_of(worth, leads))
        assert bounds[-1] * (1 - 1e-9) <= row["upper_bound"] + 0.01 <= bounds[-1] * (1 + 1e-4) + 0.02
        assert row["common_npv"] == pytest.approx(milled(worth, year), abs=0.01)
        assert max(row["npv"], row["common_npv"]) <= bounds[-1] + 0.01
    told = json.loads((scheduled / "common_schedule.json").read_text())
    known = sum(bounds) / 8 - table["common_npv"].mean()
    assert told["years"] == YEARS and known <= told["perfect_information"] + 0.01 <= known * (1 + 1e-2)
    assert max(year.values()) == 2 and told["common_npv"]["mean"] > 0
