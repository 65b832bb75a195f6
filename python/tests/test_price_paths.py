"""`[price_paths]`: mean-reverting prices as scenarios of a schedule."""

import json
import math
import shutil
from decimal import Decimal

import numpy as np
import pandas as pd
import pytest
from conftest import PROJECT
from helpers.block_commands import YEARLY, with_processes
from helpers.pushbacks import PUSHBACKS, pillars
from helpers.read_alike import demand_read_alike
from helpers.writings import REPORTED, UNVERIFIED
from matplotlib.figure import Figure

import pitplan
from pitplan import PlanError, load
from pitplan.config.studies import PricePath
from pitplan.figures import price_paths as figure
from pitplan.report import statements
from pitplan.scheduling import price_paths

COPPER = PricePath(Decimal(9000), Decimal("0.4"), Decimal("0.25"))
PATHS = """[price_paths]
count = 40
seed = 7
[price_paths.metals.copper]
long_term = 9000
speed = 0.4
volatility = 0.25
"""


def closed(times, start=8000.0):
    """Mean and covariance of the logarithm of the price, by the closed formula of the Ornstein-Uhlenbeck process."""
    mean = [math.log(start) * math.exp(-0.4 * t) + math.log(9000) * (1 - math.exp(-0.4 * t)) for t in times]
    covariance = [
        [0.25**2 / 0.8 * (math.exp(-0.4 * abs(s - t)) - math.exp(-0.4 * (s + t))) for s in times] for t in times
    ]
    return np.array(mean), np.array(covariance)


def test_mean_and_covariance_of_many_paths_are_those_of_the_closed_formula():
    """Of 20,000 paths at uneven times. The mean of a sample errs by its standard deviation over the root of the count, a variance by its own times the
    root of 2 over the count; both within four of these."""
    times, count = np.array([0.25, 0.5, 2.0, 7.0]), 20_000
    sample = np.log(price_paths.prices_of(COPPER, 8000.0, times, (3, 0), count=count))
    mean, covariance = closed(times)
    spread = np.sqrt(np.diag(covariance))
    assert (np.abs(sample.mean(axis=0) - mean) < 4 * spread / math.sqrt(count)).all()
    assert (np.abs(np.cov(sample.T) - covariance) < 4 * np.outer(spread, spread) * math.sqrt(2 / count)).all()
    # In the long run the median is the long-term price.
    late = price_paths.prices_of(COPPER, 8000.0, np.array([60.0]), (3, 0), count=4000)
    assert np.median(late) == pytest.approx(9000, rel=4 * 1.2533 * spread[-1] / math.sqrt(4000))


def second(path, start, times, seed):
    """One path by another way: the integral of the stochastic equation, as the sum of all shocks so far, each decayed to the time."""
    draws = np.random.default_rng(seed).standard_normal(len(times))
    speed, volatility, found = float(path.speed), float(path.volatility), []
    edges = [0.0, *times]
    for number, time in enumerate(times):
        value = math.log(float(path.long_term)) + (math.log(start) - math.log(float(path.long_term))) * math.exp(
            -speed * time
        )
        for shock in range(number + 1):
            step = edges[shock + 1] - edges[shock]
            size = volatility * math.sqrt((1 - math.exp(-2 * speed * step)) / (2 * speed))
            value += size * draws[shock] * math.exp(-speed * (time - edges[shock + 1]))
        found.append(math.exp(value))
    return found


def test_a_path_is_that_of_a_second_implementation():
    times = np.array([0.5, 1.5, 2.5, 4.0])
    found = price_paths.prices_of(COPPER, 8000.0, times, (7, 1), count=3)
    for number in range(3):
        assert found[number].tolist() == pytest.approx(second(COPPER, 8000.0, times, [7, 1, number]), rel=1e-12)


def test_a_seed_gives_the_same_paths_and_more_years_do_not_change_them():
    short, long = (price_paths.prices_of(COPPER, 8000.0, np.arange(0.5, years), (7, 0), count=5) for years in (3, 6))
    assert long[:, :3].tolist() == short.tolist()
    other = price_paths.prices_of(COPPER, 8000.0, np.arange(0.5, 3), (8, 0), count=5)
    assert not np.isclose(other, short).any()


def test_without_volatility_the_price_goes_straight_to_its_long_term():
    still = PricePath(Decimal(9000), Decimal("0.4"), Decimal(0))
    found = price_paths.prices_of(still, 8000.0, np.array([1.0, 50.0]), (1, 0), count=2)
    one = 9000 * (8000 / 9000) ** math.exp(-0.4)
    assert found == pytest.approx(np.array([[one, 9000], [one, 9000]]), rel=1e-6)


def written_to(folder, text, by_block=False, writing=REPORTED):
    folder.mkdir(exist_ok=True)
    pillars().to_csv(folder / "blocks.csv", index=False)
    (folder / "project.toml").write_text(text)
    write = pitplan.write_block_schedule if by_block else pitplan.write_schedule
    write(folder / "project.toml", writing=writing)
    return folder / "plan" / ("block_schedule" if by_block else "schedule")


@pytest.fixture(scope="module")
def written(tmp_path_factory):
    """The folders of the three pillars by pushback and by block: a pillar a year with 0.5, 0.35 and 0.25 t of recovered copper."""
    place = tmp_path_factory.mktemp("paths")
    return {
        "pushback": written_to(place / "one", PUSHBACKS + PATHS),
        "block": written_to(place / "two", YEARLY + PATHS, True),
    }


def read(folder):
    return [pd.read_csv(folder / f"tables/{name}.csv") for name in ("price_paths", "price_path_quantiles")]


@pytest.mark.parametrize("kind", ["pushback", "block"])
def test_npvs_of_three_pillars_are_as_worked_out_by_hand(written, kind):
    """The mine earns 2,600, 1,400 and 600 USD at 8,000; another price changes the value of 0.5, 0.35 and 0.25 t."""
    paths, (row,) = read(written[kind])[0], read(written[kind])[1].itertuples()
    assert paths["path"].unique().tolist() == list(range(1, 41)) and len(paths) == 120
    npvs = []
    for number, some in paths.groupby("path"):
        prices = second(COPPER, 8000.0, [0.5, 1.5, 2.5], [7, 0, number - 1])
        assert some["price_copper"].tolist() == pytest.approx(prices, abs=1e-6)
        cash = [
            base + tonnes * (price - 8000) for base, tonnes, price in zip((2600, 1400, 600), (0.5, 0.35, 0.25), prices)
        ]
        assert some["cash_flow"].tolist() == pytest.approx(cash, abs=0.001)
        npvs.append(sum(amount / 1.1**year for year, amount in enumerate(cash, 1)))
    assert row.npv == pytest.approx(2600 / 1.1 + 1400 / 1.21 + 600 / 1.331, abs=0.001)
    assert row.npv_mean == pytest.approx(np.mean(npvs), abs=0.001) and row.paths == 40
    found = read(written[kind])[1]
    for share in (0.1, 0.5, 0.9):
        assert found[f"npv_quantile_{share}"][0] == pytest.approx(np.quantile(npvs, share), abs=0.002)
    assert (row.npv_least, row.npv_greatest) == pytest.approx((min(npvs), max(npvs)), abs=0.001)
    assert row.share_below_zero == np.mean(np.array(npvs) < 0)


SMELTER = """selling_cost = 300
[metals.smelter]
processes = ["mill"]
concentrate_grade = 25
payable = 0.965
treatment_charge = 80
refining_charge = 0.1
price_participation = { base = 8100, share = 0.2 }
"""


def test_smelter_terms_royalty_and_periods_are_verified(tmp_path):
    """By block, with two processes that sell by different terms, a royalty and half-years; planaudit values each path by its own formula."""
    text = with_processes().replace("[economics]\n", "[economics]\nroyalty = 0.03\n")
    text = text.replace("[[processes]]\n", f"{SMELTER}[[processes]]\n", 1)
    text += "[[periods]]\nperiod_months = 6\ncapacity = { leach = 600, mill = 200 }\nmining_capacity = 400\n"
    folder = written_to(tmp_path / "mine", text + PATHS, True)
    paths, _ = read(folder)
    assert "period" in paths and paths["price_copper"].max() > 8100
    assert not [rule for rule in pitplan.verify(folder) if rule.differences]


@pytest.mark.parametrize("kind", ["pushback", "block"])
@pytest.mark.parametrize(
    ("table", "name", "by"),
    [
        ("price_paths", "price_copper", 0.01),
        ("price_paths", "cash_flow", 20.0),
        ("price_paths", "discounted_cash_flow", 20.0),
        ("price_paths", "path", 1),
        ("price_path_quantiles", "npv_quantile_0.9", 0.02),
        ("price_path_quantiles", "npv_mean", 0.02),
        ("price_path_quantiles", "share_below_zero", 0.025),
    ],
)
def test_a_changed_number_is_found(written, tmp_path, kind, table, name, by):
    first = written[kind]
    folder = shutil.copytree(first.parent.parent, tmp_path / "mine") / "plan" / first.name
    path = folder / f"tables/{table}.csv"
    found = pd.read_csv(path)
    found.loc[len(found) // 2, name] += by
    found.to_csv(path, index=False)
    assert {rule.name for rule in pitplan.verify(folder) if rule.differences} == {"price paths"}


def test_a_run_without_paths_removes_those_of_an_earlier_run(written, tmp_path):
    place = shutil.copytree(written["block"].parent.parent, tmp_path / "mine")
    folder = written_to(place, YEARLY, True, UNVERIFIED)
    assert not [*folder.glob("tables/price*")]


def test_the_report_has_the_quantiles_as_cells(written):
    folder = written["block"]
    record, project = json.loads((folder / "plan.json").read_text()), load(folder.parent.parent / "project.toml")
    found, (row,) = statements.of_prices(folder, project, record), read(folder)[1].to_dict("records")
    (shown,) = found["part"]["rows"]
    columns = [cell["source"].rpartition(" ")[2] for cell in shown["cells"]]
    assert columns[3:6] == ["npv_quantile_0.1", "npv_quantile_0.5", "npv_quantile_0.9"]
    assert found["part"]["headings"][3:6] == ["P10", "P50", "P90"] and "40 price paths, USD" in found["caption"]
    amounts = [float(cell["text"].replace(",", "")) for cell in shown["cells"][:-1]]
    assert amounts == pytest.approx([row[name] for name in columns[:-1]], abs=0.0051)
    assert "<h2>Price paths</h2>" in (folder / "report.html").read_text()
    assert statements.of_prices(folder, project, {"files": {}}) == {}


def test_the_figure_shows_prices_and_npvs(plan_folder, tmp_path):
    found = pitplan.Plan.from_project(plan_folder(pillars(), YEARLY + PATHS)).block_schedule().on_price_paths
    price, npv = figure.plot(found, Figure().subplots(1, 2))
    labels = [line.get_label() for line in npv.lines]
    due = [f"P{share}: {np.quantile(found.npv, share / 100):,.1f}" for share in (10, 50, 90)]
    assert labels[:3] == due and labels[3].startswith("project's prices: ")
    assert sum(bar.get_height() for bar in npv.patches) == 40
    assert price.get_ylabel() == "price of copper, USD/t"
    figure.write(found, tmp_path / "picture.png")
    assert (tmp_path / "picture.png").stat().st_size > 5_000


@pytest.mark.parametrize(
    ("old", "new", "said"),
    [
        ("speed = 0.4", "speed = 0", "speed: found 0, expected above 0"),
        ("volatility = 0.25", "volatility = -1", "volatility: found -1, expected 0 to 10"),
        ("long_term = 9000", "long_term = -5", "long_term: found -5, expected above 0"),
        ("count = 40", "count = 1", "count: found 1, expected a whole number from 2 to 10,000"),
        ("metals.copper", "metals.tin", r"metals: found tin, expected one of the \[\[metals\]\]: copper"),
        ("speed = 0.4\n", "", "speed: is missing"),
    ],
)
def test_keys_that_are_wrong_are_named(plan_folder, old, new, said):
    path = plan_folder(pillars(), PROJECT + PATHS, (old, new))
    with pytest.raises(PlanError, match=said):
        load(path)


def test_the_audit_and_the_recorded_project_read_the_same_paths(plan_folder, tmp_path):
    path = plan_folder(pillars(), PROJECT + PATHS)
    project, again = load(path), tmp_path / "again.toml"
    again.write_text(project.to_toml(tmp_path))
    for file in (path, again):
        demand_read_alike(file, load(file))
    assert load(again).price_paths == project.price_paths
