"""`[[dumps]]`: cases worked by hand, random mines against a programme that the tests state, refusals, and the verification."""

import shutil
from dataclasses import replace

import numpy as np
import openpyxl
import pandas as pd
import pytest
from conftest import PROJECT, rows
from helpers.benches import yearly_limits
from helpers.dumps import BOTH, CASH, FAR, NEAR, THREE_YEARS, of_rocks, present
from helpers.flows import OfWholeBenches, Statement, mine_of, mines, model_of, processes, stockpiles
from helpers.pushbacks import PUSHBACKS, UPRIGHT, pillars, with_pushbacks
from helpers.random_tests import examples
from helpers.verified import differing, wrong
from helpers.writings import PLAIN, UNVERIFIED, WITH_WORKBOOK
from hypothesis import given, strategies as st
from scipy.optimize import Bounds, LinearConstraint, milp

import pitplan
from pitplan import PlanError, load
from pitplan.config.material import Dump, NamedLimit
from pitplan.config.periods import Calendar, Period
from pitplan.report import assumptions
from pitplan.scheduling.flow import scheduler
from pitplan.scheduling.flow.bound import Lagrangian, upper_bound
from pitplan.scheduling.flow.programme import FlowProgramme
from pitplan.scheduling.limits import of_places


@pytest.fixture
def scheduled(plan_folder):
    """Schedules the pushbacks of a project, demands that its folder is right, and gives it with its table of methods."""

    def made(words, text=PUSHBACKS, table=None):
        path = plan_folder(pillars() if table is None else table, text + words)
        found = pitplan.write_schedule(path, writing=UNVERIFIED).set_index("method")
        assert wrong(path.parent / "plan/schedule") == set()
        return path.parent / "plan/schedule", found

    return made


def table_of(folder, name, method="lp"):
    return pd.read_csv(folder / f"tables/{name}.csv").query(f"method == '{method}'").reset_index(drop=True)


def taken(folder, method="lp"):
    """By dump what it takes in each year."""
    return {name: it["in_tonnes"].tolist() for name, it in table_of(folder, "dumps", method).groupby("dump")}


def test_the_near_dump_fills_and_the_far_one_costs_more_by_hand(scheduled):
    folder, found = scheduled(THREE_YEARS + BOTH)
    assert found["npv"].tolist() == pytest.approx([present(*CASH)] * 2, abs=0.01)
    assert found["upper_bound"].tolist() == pytest.approx([present(*CASH)] * 2, abs=0.01)
    for method in ("rule", "lp"):
        assert taken(folder, method) == {"near": [100, 50, 0], "far": [0, 50, 100]}
    dumps = table_of(folder, "dumps").set_index(["dump", "year"])
    assert dumps.loc["near", "closing_tonnes"].tolist() == [100, 150, 150]
    assert dumps.loc["near", "room_tonnes"].tolist() == [50, 0, 0] and dumps.loc["far", "room_tonnes"].isna().all()
    lines = table_of(folder, "cash_flow")
    assert lines["dump_cost"].tolist() == pytest.approx([100, 200, 300])
    assert lines["cash_flow"].tolist() == pytest.approx(CASH)
    assert lines["mining_cost_waste"].tolist() == lines["mining_cost_ore"].tolist() == [200] * 3
    flows = table_of(folder, "flows").groupby("destination")
    assert flows["cash_flow"].sum().to_dict() == pytest.approx({"near": -150, "far": -450, "mill": 5800})
    assert "waste" not in flows.groups and set(table_of(folder, "inventory")["category"]) == {"ore", "waste"}


def test_a_tonne_of_room_is_worth_what_it_saves(scheduled):
    """In the second year, 3 - 1. The price of the capacity is by the end of years, so that of the last one holds for all."""
    folder, _ = scheduled(THREE_YEARS + BOTH)
    limits = table_of(folder, "limits").query("limit == 'dumped_near'")
    assert limits["used"].tolist() == [100, 150, 150] and limits["maximum"].tolist() == [150] * 3
    assert (limits["shadow_price"] * 1.1 ** -limits["year"]).sum() == pytest.approx(2 / 1.21, abs=1e-5)


def test_limits_of_periods_by_hand(scheduled):
    """Near takes 60 t in the first year, 100 in the second, and the far one at least 70 in the third."""
    periods = "[[periods]]\ndumps = { near = { max = 60 } }\n[[periods]]\n[[periods]]\ndumps = { far = { min = 70 } }\n"
    folder, found = scheduled(THREE_YEARS + NEAR + FAR + periods)
    assert taken(folder) == {"near": [60, 100, 30], "far": [40, 0, 70]}
    value = present(2600 - 60 - 120, 1400 - 100, 600 - 30 - 210)
    assert found["npv"].to_dict() == pytest.approx({"lp": value}, abs=0.01)
    assert found["upper_bound"]["lp"] == pytest.approx(value, abs=0.01)
    limits = table_of(folder, "limits").set_index(["limit", "year"])
    assert limits.loc[("dump_near", 1), ["used", "maximum"]].tolist() == [60, 60]
    assert limits.loc[("dump_far", 3), ["used", "minimum"]].tolist() == [70, 70]
    assert limits.loc[("dump_far", 3), "shadow_price"] == pytest.approx(-2, abs=1e-6)


def test_a_limit_after_the_end_of_the_mine_is_listed(scheduled):
    """The mine ends after three years of five, and near has a limit in the fifth."""
    periods = "[[periods]]\n" * 4 + "[[periods]]\ndumps = { near = { max = 60 } }\n"
    folder, _ = scheduled(f"[schedule]\nyears = 5\n{NEAR}{periods}")
    limits = table_of(folder, "limits").query("limit == 'dump_near'")
    assert limits["year"].tolist() == [1, 2, 3] and limits["maximum"].isna().all()


def test_half_years_have_half_of_the_limits(scheduled):
    """Near takes 60 t a year, which are 30 in a half-year."""
    words = "[[periods]]\nperiod_months = 6\ndumps = { near = { max = 60 } }\n"
    folder, _ = scheduled(THREE_YEARS + NEAR + FAR + words)
    assert table_of(folder, "dumps").query("dump == 'near'")["in_tonnes"].max() == 30
    assert table_of(folder, "limits").query("limit == 'dump_near'")["maximum"].unique().tolist() == [30]


def test_a_table_of_periods_has_limits_of_dumps(scheduled, plan_folder):
    text = 'periods = "periods.csv"\n' + PUSHBACKS
    path = plan_folder(pillars(), text + THREE_YEARS + NEAR + FAR)
    (path.parent / "periods.csv").write_text("years,dumps.near.max\n1,60\n1,\n")
    pitplan.write_schedule(path, writing=UNVERIFIED)
    assert taken(path.parent / "plan/schedule") == {"near": [60, 100, 100], "far": [40, 0, 0]}
    assert wrong(path.parent / "plan/schedule") == set()


def test_dumps_accept_rock_by_code_and_grade(scheduled):
    """Near accepts fresh rock alone, and clean one up to 0.3 % of sulphur; the sulphur of the second pillar goes far."""
    clean = '[[dumps]]\nname = "clean"\ncost = 2\naccepts = { s_pct = { max = 0.3 } }\n'
    near = NEAR + 'accepts = { rock_type = "FR" }\ncapacity = 100\n'
    folder, found = scheduled(THREE_YEARS + near + clean + FAR, table=of_rocks())
    assert taken(folder) == {"near": [100, 0, 0], "clean": [0, 0, 100], "far": [0, 100, 0]}
    assert found["npv"]["lp"] == pytest.approx(present(2500, 1400 - 300, 600 - 200), abs=0.01)
    # Waste is a lot of its own by the dumps that accept it.
    flows = table_of(folder, "flows")
    assert flows[flows["bin"] <= 0].groupby("destination")["bin"].nunique().tolist() == [1, 1, 1]
    assert len(set(flows[flows["bin"] <= 0]["bin"])) == 2


def test_two_pushbacks_of_mixed_waste_share_a_dump(scheduled):
    """Both pillars are mined in the first year: 200 t of waste, of which near takes 150 from both alike."""
    wide = PUSHBACKS.replace("processing_capacity = 100", "processing_capacity = 200").replace(
        "mining_capacity = 200", "mining_capacity = 400"
    )
    folder, _ = scheduled("[schedule]\nyears = 2\n" + BOTH, wide)
    flows = table_of(folder, "flows").query("year == 1 and destination == 'near'")
    assert flows["total_tonnes"].tolist() == [75, 75] and taken(folder)["near"] == [150, 0]


def test_the_mine_ends_when_its_dump_is_full(scheduled):
    """With room for 150 t the ore of the second pillar is not reached, so its waste stays too; the rule mines as much waste as finds room."""
    folder, found = scheduled(THREE_YEARS + NEAR + "capacity = 150\n")
    assert found["npv"]["lp"] == pytest.approx(2500 / 1.1, abs=0.01) and taken(folder) == {"near": [100]}
    assert found["npv"]["rule"] == pytest.approx(2500 / 1.1 - (100 + 50) / 1.21, abs=0.01)
    assert taken(folder, "rule") == {"near": [100, 50]}
    # Half of the second pillar's ore: 1400 - 100 less what is not there.
    assert found["upper_bound"]["lp"] > found["npv"]["lp"]


def test_ore_is_milled_at_a_loss_that_is_less_than_its_dump(scheduled):
    """100 t of 0.2 % earn 800 - 1000 in the mill, and cost 300 in the dump. They lie over ore that pays 3000."""
    table = rows(1, 1, 2, cu=lambda i, j, k: (1.0, 0.2)[k])
    text = with_pushbacks("count = 1", UPRIGHT.replace("processing_capacity = 100", "processing_capacity = 200"))
    folder, found = scheduled("[schedule]\nyears = 1\n" + FAR, text, table)
    assert found["npv"]["lp"] == pytest.approx((3000 - 200 - 400) / 1.1, abs=0.01) and taken(folder) == {"far": [0]}
    assert found["upper_bound"]["lp"] == pytest.approx(found["npv"]["lp"], abs=0.01)
    _, cheap = scheduled("[schedule]\nyears = 1\n" + NEAR, text, table)
    assert cheap["npv"]["lp"] == pytest.approx((3000 - 100 - 400) / 1.1, abs=0.01)


def test_workbook_and_assumptions_have_dumps(plan_folder):
    """The line of dumps is among the costs of the sheet of the cash flow."""
    path = plan_folder(pillars(), PUSHBACKS + THREE_YEARS + BOTH + "[[periods]]\ndumps = { far = { max = 500 } }\n")
    pitplan.write_schedule(path, writing=WITH_WORKBOOK)
    book = openpyxl.load_workbook(path.parent / "plan/schedule/tables/schedule.xlsx")
    assert book["dumps"].max_row > 6
    lines = [[cell.value for cell in row] for row in book["cash_flow"].iter_rows()]
    assert [line[-3:] for line in lines if line[0] == "dumps"] == [[100, 200, 300]]
    project = load(path)
    told = dict(assumptions.capacities(project))
    assert told["dump near"] == "1 USD/t, 150 t" and told["dump far"] == "3 USD/t"
    assert "dump far at most 500 t a year" in str(list(assumptions.periods(project)))


def test_a_free_dump_changes_no_value(plan_folder):
    """Of methods, their bound and years, with a stockpile too."""
    found = []
    for words in ("", '[[dumps]]\nname = "any"\n'):
        pile = "stockpile = { reclaim_cost = 1, stacking_cost = 0.5 }\n"
        path = plan_folder(pillars(), PUSHBACKS + THREE_YEARS + pile + words)
        methods = pitplan.write_schedule(path, writing=UNVERIFIED)
        lines = table_of(path.parent / "plan/schedule", "cash_flow").drop(columns="dump_cost", errors="ignore")
        found.append([*methods.drop(columns="method").to_numpy().ravel(), *lines["cash_flow"], *lines["strip_ratio"]])
    assert found[0] == pytest.approx(found[1], rel=1e-9, abs=1e-3)


# Cost, capacity, what it takes a year at most, and whether it accepts the waste of ore parcels, or other waste.
dump = st.tuples(
    st.sampled_from([0.0, 0.2, 1.0]),
    st.sampled_from([None, 60.0, 150.0]),
    st.sampled_from([np.inf, 40.0, 90.0]),
    st.sampled_from([(True, True), (True, False), (False, True)]),
)
# The last resort takes all.
dumps_of = st.lists(dump, min_size=1, max_size=2)
LAST = Dump("last", 1.5)


def with_dumps(model, given):
    """The model with some dumps and the last one. Parcels are of one set of dumps, the rest of benches of another."""
    benches, ore = model.benches, model.ore
    dumps = [Dump(f"dump{number}", cost, capacity) for number, (cost, capacity, _, _) in enumerate(given)]
    accepted = np.array([[*(it[-1][kind] for it in given), True] for kind in (0, 1)])
    of_parcels = np.bincount(ore.bench, ore.feed, minlength=len(benches))
    tonnes = np.column_stack([of_parcels, benches.of("total_tonnes") - of_parcels])
    names = (*benches.names, "rock_set_0", "rock_set_1")
    benches = replace(benches, names=names, amounts=np.column_stack([benches.amounts, tonnes]))
    ore = replace(ore, amounts=ore.amounts | {"rock_set_0": ore.of("feed_tonnes"), "rock_set_1": 0 * ore.gain})
    yearly = tuple(NamedLimit(f"dump{number}", max=most) for number, (_, _, most, _) in enumerate(given))
    places = of_places(Calendar((Period(dumps=yearly),)), model.stockpiles, (*dumps, LAST))
    problem = replace(model.problem, benches=benches, limits=replace(model.problem.limits, places=places))
    return replace(model, problem=problem, ore=ore, dumps=(*dumps, LAST), accepted=accepted)


def optimum_of(model, given, whole):
    """The optimum of a programme with the tonnes of each bench's two kinds of waste in each dump and year as unknowns of their own. If `whole`, a
    bench starts only when all that it waits for is mined."""
    stated, years, places = (
        (OfWholeBenches if whole else Statement)(model),
        model.years,
        [*given, (LAST.cost, None, np.inf, (True, True))],
    )
    count, ore = len(model.benches), model.ore
    first, size = stated.size, stated.size + count * 2 * len(places) * years
    table, most = [np.pad(row, (0, size + count * years - stated.size)) for row in stated.rows], list(stated.most)

    def at(bench, kind, place, year):
        return first + ((bench * 2 + kind) * len(places) + place) * years + year

    def add(right, terms):
        row = np.zeros(size + count * years)
        for place, factor in terms.items():
            row[place] += factor
        table.append(row)
        most.append(right)

    gain = np.zeros(size + count * years)
    gain[: stated.size], upper = stated.gain, np.full(size + count * years, np.inf)
    upper[: stated.size] = stated.upper
    for place, (cost, capacity, yearly, accepts) in enumerate(places):
        mine = [[at(bench, kind, place, year) for bench in range(count) for kind in (0, 1)] for year in range(years)]
        for year in range(years):
            gain[mine[year]] = -cost * 1.1 ** -(year + 1)
            add(yearly, dict.fromkeys(mine[year], 1.0)) if yearly < np.inf else None
            for kind in (0, 1):
                upper[[at(bench, kind, place, year) for bench in range(count)]] = np.inf if accepts[kind] else 0.0
        add(capacity, dict.fromkeys(np.ravel(mine), 1.0)) if capacity is not None else None
    for bench, (whole_bench, year) in (
        (b, (model.benches.of("total_tonnes")[b], y)) for b in range(count) for y in range(years)
    ):
        units = np.flatnonzero(ore.bench == bench)
        of_ore = ore.feed[units].sum()
        for kind, tonnes in ((0, of_ore), (1, whole_bench - of_ore)):
            terms = {at(bench, kind, place, year): -1.0 for place in range(len(places))}
            terms[stated.mined(bench, year)] = tonnes
            for unit in units if kind == 0 else ():
                sent = [stated.fed(k, unit, year) for k in range(ore.processes)]
                sent += [stated.stocked(pile, unit, year) for pile in range(len(model.stockpiles))]
                terms |= dict.fromkeys(sent, -ore.feed[unit])
            add(0.0, terms)
    for bench, others in enumerate(stated.before()) if whole else ():
        for year in range(years):
            start = size + bench * years + year
            add(0.0, {stated.mined(bench, year): 1.0, start: -1.0})
            for other in others:
                add(1e-9, {start: 1.0} | {stated.mined(other, t): -1.0 for t in range(year + 1)})
    upper[size:] = 1.0
    found = milp(
        -gain,
        integrality=np.repeat([0, int(whole)], [size, count * years]),
        bounds=Bounds(0, upper),
        constraints=LinearConstraint(np.array(table), -np.inf, most),
    )
    assert found.status == 0, found.message
    return max(0.0, -float(found.fun))


@pytest.mark.slow
@examples(14)
@given(mines, processes, st.integers(0, 1), stockpiles, dumps_of)
def test_random_optima_and_bounds(pits, several, lag, piles, given_dumps):
    """The optimum is that of the programme above, the schedule is at most the best one of whole benches, and the bound at least; neither falls by
    another dump, or rises by a dearer one."""
    plain = model_of(mine_of(pits, lag), several, yearly_limits({"feed_tonnes": 70.0, "total_tonnes": 150.0}), 3, piles)
    model = with_dumps(plain, given_dumps)
    slack = 1e-5 * max(1.0, np.abs(plain.benches.amounts).sum() + np.abs(plain.ore.gain).sum())
    optimum = FlowProgramme(model).solved()
    assert optimum.value == pytest.approx(optimum_of(model, given_dumps, whole=False), abs=slack)
    best, bound = optimum_of(model, given_dumps, whole=True), upper_bound(model, model.ore, optimum.prices)
    made = scheduler.from_optimum(model, optimum)
    assert made.value <= best + slack and best <= bound + slack and scheduler.keeps_dumps(made)
    more = with_dumps(plain, [*given_dumps, (0.1, 80.0, 50.0, (True, True))])
    assert FlowProgramme(more).solved().value >= optimum.value - slack
    assert Lagrangian(FlowProgramme(more), optimum.prices).value >= bound - slack
    dearer = with_dumps(plain, [(cost + 0.3, *rest) for cost, *rest in given_dumps])
    assert FlowProgramme(dearer).solved().value <= optimum.value + slack
    assert Lagrangian(FlowProgramme(dearer), optimum.prices).value <= bound + slack


@pytest.fixture(scope="module")
def written(tmp_path_factory):
    """The folder of a schedule with two dumps by rock, whose fresh rock goes near and whose oxide goes far."""
    place = tmp_path_factory.mktemp("dumps")
    pillars(rock=lambda i, j, k: "FR" if k and i != 1 else "OX").to_csv(place / "blocks.csv", index=False)
    near = NEAR + 'accepts = { rock_type = "FR" }\ncapacity = 200\n'
    periods = "[[periods]]\ndumps = { far = { min = 0, max = 100 } }\n"
    (place / "project.toml").write_text(PUSHBACKS + THREE_YEARS + near + FAR + periods)
    pitplan.write_schedule(place / "project.toml", writing=UNVERIFIED)
    assert wrong(place / "plan/schedule") == set()
    return place


def planted(written, tmp_path, name, change):
    """What the verification says of a changed table."""
    place = shutil.copytree(written, tmp_path / "mine")
    path = place / f"plan/schedule/tables/{name}.csv"
    table = pd.read_csv(path)
    change(table)
    table.to_csv(path, index=False)
    return {text for rule in pitplan.verify(place / "plan/schedule") for text in rule.differences}


def test_waste_in_a_dump_that_does_not_accept_it_is_found(written, tmp_path):
    def change(flows):
        flows.loc[flows["destination"] == "far", "destination"] = "near"

    found = planted(written, tmp_path, "flows", change)
    assert any("near does not accept these blocks" in text for text in found)


def test_waste_above_a_capacity_is_found(written, tmp_path):
    def change(flows):
        mine = (flows["method"] == "lp") & (flows["destination"] == "near")
        flows.loc[mine, ["total_tonnes", "cash_flow"]] *= 1.5

    found = planted(written, tmp_path, "flows", change)
    assert any("dumped_near 300 t above 200" in text for text in found)
    assert any("150 t leave the pit for 100 mined" in text for text in found)


@pytest.mark.parametrize("column", ["in_tonnes", "closing_tonnes", "room_tonnes"])
def test_other_balances_are_found(written, tmp_path, column):
    def change(dumps):
        row = dumps[(dumps["dump"] == "near") & (dumps["method"] == "lp")].index[1]
        dumps.loc[row, column] += 1

    assert any(f"near, year 2: {column}" in text for text in planted(written, tmp_path, "dumps", change))


def test_a_missing_dump_and_other_costs_are_found(written, tmp_path):
    def missing(dumps):
        dumps.drop(dumps[dumps["dump"] == "far"].index, inplace=True)

    assert any("dumps.csv: has" in text for text in planted(written, tmp_path / "first", "dumps", missing))

    def dearer(lines):
        lines["dump_cost"] += 1

    assert any("dump_cost" in text for text in planted(written, tmp_path / "second", "cash_flow", dearer))


@pytest.mark.parametrize(
    ("old", "new", "expected"),
    [
        ("cost = 3", "cost = 2.9", {"material flow", "upper bound", "cash flow"}),
        ("\ncapacity = 200\n", "\ncapacity = 190\n", {"material flow", "schedule limits"}),
        ("max = 100", "max = 90", {"material flow", "schedule limits"}),
        ("min = 0,", "min = 20,", {"material flow"}),
        ('rock_type = ["FR"]', 'rock_type = ["GN"]', {"material flow"}),
    ],
)
def test_other_keys_are_found(written, tmp_path, old, new, expected):
    place = shutil.copytree(written, tmp_path / "mine")
    kept = place / "plan/schedule/project-as-run.toml"
    text = kept.read_text()
    assert text.count(old) == 1, text
    kept.write_text(text.replace(old, new))
    assert differing(place / "plan/schedule", *expected) == expected


def test_rock_that_no_dump_accepts_is_refused_with_its_tonnes(plan_folder):
    """Before anything is scheduled, with rock and domain, the most tonnes first."""
    fresh = NEAR + 'accepts = { rock_type = "FR" }\n'
    path = plan_folder(of_rocks(), PUSHBACKS + THREE_YEARS + fresh)
    said = r"\[\[dumps\]\] accepts: none of near accepts 400 t of rock type OX, domain 1 of the pit, the first .*b1-0-1"
    with pytest.raises(PlanError, match=said):
        pitplan.write_schedule(path, writing=PLAIN)


def years_of(folder):
    years = pd.read_csv(folder / "tables/years.csv")
    return years.query("case == 'best' and revenue_factor == 1.0")


def test_waste_of_shells_costs_the_cheapest_dump_that_accepts_it(plan_folder):
    """The first pillar is a shell of its own. Of the others the waste comes first, 100 t of fresh rock that goes near and 100 t of oxide that goes
    far, then their ore, which earns 2800 and 2000. Capacities do not hold."""
    path = plan_folder(of_rocks(), PUSHBACKS + NEAR + 'capacity = 10\naccepts = { rock_type = "FR" }\n' + FAR)
    shells = pitplan.write_shells(path, writing=UNVERIFIED).set_index("revenue_factor").loc[1.0]
    assert wrong(path.parent / "plan") == set()
    cash = [2600 - 100, -400 - 100 - 300, 2400 - 1000 - 200, 2400 - 1000 - 200]
    assert years_of(path.parent / "plan")["cash_flow"].tolist() == pytest.approx(cash)
    assert shells["npv_best"] == pytest.approx(present(*cash), abs=1e-3)
    assert shells["undiscounted_cash_flow"] == 4600
    kept = path.parent / "plan/project-as-run.toml"
    kept.write_text(kept.read_text().replace("cost = 3", "cost = 2.5"))
    assert differing(path.parent / "plan", "years")


def test_ore_of_shells_that_is_waste_in_its_year_pays_for_its_dump(plan_folder):
    """Milling 100 t of 0.8 % earns 3200, and costs 1000, or 3400 in the second year. A loss of 200 is less than 300 in the far dump, more than 100 in
    the near one. Mining costs 200, or 400 in the second year."""
    table = rows(1, 1, 4, cu=lambda i, j, k: 0.8)
    dear = "[[periods]]\n[[periods]]\nprocessing_cost_factor = 3.4\nmining_cost_factor = 2\n[[periods]]\n"
    for dump, cash in ((FAR, [2000, -200 - 400, 2000, 2000]), (NEAR, [2000, -100 - 400, 2000, 2000])):
        path = plan_folder(table, PROJECT + dump + dear)
        pitplan.write_shells(path, writing=UNVERIFIED)
        assert years_of(path.parent / "plan")["cash_flow"].tolist() == pytest.approx(cash)
        assert wrong(path.parent / "plan") == set()


def test_a_sensitivity_changes_the_cost_of_a_dump(plan_folder):
    """Waste costs 1.5 a tonne. In the worst case its 300 t come first, and then ore that earns 8800 / 3 - 1200 a year; in the best one pillar follows
    the other, by shells that the sensitivity finds."""
    asked = '[sensitivity]\nparameters = ["dumps.near.cost", "mining_cost"]\nchanges = [0.5]\n'
    accepts = "accepts = { s_pct = { max = 1 } }\n"
    path = plan_folder(of_rocks(), PUSHBACKS.replace("[0.5, 1.0, 1.5]", "[1.0]") + NEAR + accepts + asked)
    found = pitplan.write_sensitivity(path, writing=UNVERIFIED).set_index("parameter")["npv"]
    assert wrong(path.parent / "plan/sensitivity") == set()
    ore = 8800 / 3 - 1200
    worst, best = present(-400 - 300, ore - 200 - 150, ore, ore), present(2600 - 150, 1400 - 150, 600 - 150)
    assert found["dumps.near.cost"] == pytest.approx((worst + best) / 2, abs=0.01)


def test_rock_of_shells_that_no_dump_accepts_is_refused(plan_folder):
    path = plan_folder(of_rocks(), PUSHBACKS + NEAR + 'accepts = { rock_type = "FR" }\n')
    with pytest.raises(PlanError, match=r"none of near accepts 400 t of rock type OX"):
        pitplan.write_shells(path, writing=PLAIN)


def test_a_project_keeps_its_dumps(plan_folder):
    words = BOTH + 'accepts = { rock_type = ["A", "B"], s_pct = { min = 0.1 } }\n'
    words += "[[periods]]\ndumps = { near = { min = 1, max = 2 } }\n" + THREE_YEARS
    project = load(plan_folder(of_rocks(), PUSHBACKS + words))
    again = project.path.parent / "again.toml"
    again.write_text(project.to_toml())
    assert replace(load(again), path=project.path) == project
    assert [it.name for it in project.dumps] == ["near", "far"] and project.dump_columns == ("s_pct",)


@pytest.mark.parametrize(
    ("words", "said"),
    [
        ('[[dumps]]\nname = "a b"\n', r'name: found "a b", expected one word'),
        ("[[dumps]]\ncost = 1\n", r"name: is missing"),
        (NEAR + NEAR, r"name: found near twice"),
        (NEAR.replace("cost = 1", "cost = -1"), r"cost: found -1, expected 0 or more"),
        (NEAR + "capacity = -1\n", r"capacity: found -1, expected 0 or more"),
        (NEAR + "costs = 1\n", r"costs"),
        ('[[dumps]]\nname = "mill"\n', r"\[\[dumps\]\] mill: is the name of another source or destination"),
        ('[[dumps]]\nname = "waste"\n', r"\[\[dumps\]\] waste: is the name of another source or destination"),
        (NEAR + 'accepts = { class = "M" }\n', r"\[\[dumps\]\] near accepts: has class, and \[table\] class names no"),
        (NEAR + "[[periods]]\ndumps = { north = { max = 1 } }\n", r"1 dumps: found north, expected one of near"),
        (
            NEAR + "[[periods]]\ndumps = { near = { min = 2, max = 1 } }\n",
            r"\[periods 1.dumps\] near: min 2 is above max 1",
        ),
        (NEAR + "[[periods]]\ndumps = { near = { min = 2 } }\n", r"1 dumps: near: \[schedule\] years is missing"),
    ],
)
def test_what_is_wrong_is_named(plan_folder, words, said):
    with pytest.raises(PlanError, match=said):
        load(plan_folder(pillars(), PUSHBACKS + words))


def test_a_minimum_that_cannot_be_met_is_reported(plan_folder):
    """The shovels take 200 t a year, all of which may be waste."""
    words = THREE_YEARS + NEAR + "[[periods]]\ndumps = { near = { min = 250 } }\n"
    with pytest.raises(PlanError, match=r"infeasible: .*Smallest shortfall: the minimum of dump_near in year"):
        pitplan.write_schedule(plan_folder(pillars(), PUSHBACKS + words), writing=PLAIN)
