"""Tables of material flow as they are written, and their independent verification."""

import json
import shutil

import pandas as pd
import pytest
from conftest import PROJECT, rows
from helpers.pushbacks import UPRIGHT, with_pushbacks
from helpers.verified import differing
from helpers.writings import PLAIN, UNVERIFIED

import pitplan
from pitplan import PlanError, load, verify
from pitplan.cli import main

# Two pillars of waste over ore, and the second has poor ore over the rich.
TEXT = with_pushbacks(
    "count = 2", UPRIGHT.replace("processing_capacity = 100", 'processing_capacity = 100\ndiscounting = "end_of_year"')
)
STOCKED = "[schedule]\nbins = 2\nstockpile = { reclaim_cost = 0.5 }\n"
GRADES = {(0, 1): 1, (0, 0): 0.35, (1, 1): 0.3, (1, 0): 1.2}


def written_to(place, words, text=TEXT, **more):
    rows(2, 1, 3, **more, cu=lambda i, j, k: GRADES.get((i, k), 0)).to_csv(place / "blocks.csv", index=False)
    (place / "project.toml").write_text(text + words)
    return load(place / "project.toml")


@pytest.fixture(scope="module")
def written(tmp_path_factory):
    place = tmp_path_factory.mktemp("flows")
    pitplan.write_schedule(written_to(place, STOCKED), writing=PLAIN)
    return place


@pytest.fixture
def copied(written, tmp_path):
    return shutil.copytree(written, tmp_path / "mine") / "plan" / "schedule"


def wrong(folder):
    return {rule.name for rule in verify(folder) if rule.differences}


def test_ore_is_stockpiled_and_reclaimed(written):
    folder = written / "plan" / "schedule"
    told = json.loads((folder / "schedule.json").read_text())
    assert told["methods"]["rule"]["npv"] < told["methods"]["lp"]["npv"] <= told["upper_bound"] + 1e-3
    # Bins of 0.3 and 0.35 per cent, and of 1 and 1.2: 40 a per cent and tonne, less 10 for processing.
    assert told["bins"] == {"mill": [pytest.approx((4 + 30) / 2)]} and told["stockpiles"] == ["stockpile"]
    flows = pd.read_csv(folder / "tables/flows.csv")
    of_lp = flows[flows["method"] == "lp"]
    assert of_lp.loc[of_lp["source"] == "stockpile", "feed_tonnes"].sum() > 0
    feed = pd.read_csv(folder / "tables/feed.csv").query("method == 'lp'")
    milled = of_lp.loc[of_lp["destination"] == "mill", "feed_tonnes"].sum()
    assert feed["feed_tonnes"].sum() == pytest.approx(milled) and (feed["feed_tonnes"] < 100.001).all()
    piles = pd.read_csv(folder / "tables/stockpiles.csv").query("method == 'lp'")
    assert (piles["opening_tonnes"] + piles["in_tonnes"] - piles["out_tonnes"]).tolist() == pytest.approx(
        piles["closing_tonnes"].tolist(), abs=0.01
    )
    assert set(pd.read_csv(folder / "tables/blocks.csv")["bin"]) == {0, 1, 2} and wrong(folder) == set()


PILES = """[schedule]
bins = 2
[[schedule.stockpiles]]
name = "poor"
reclaim_cost = 0.5
stacking_cost = 0.1
capacity = 60
accepts = { cu = { max = 0.5 } }
recovery = { copper = 0.98 }
[[schedule.stockpiles]]
name = "rich"
reclaim_cost = 0.1
accepts = { cu = { min = 0.9 } }
"""


@pytest.fixture(scope="module")
def piled(tmp_path_factory):
    place = tmp_path_factory.mktemp("piles")
    pitplan.write_schedule(written_to(place, PILES), writing=PLAIN)
    return place


def test_two_stockpiles_keep_what_they_accept_and_hold(piled):
    folder = piled / "plan" / "schedule"
    flows = pd.read_csv(folder / "tables/flows.csv").query("method == 'lp'")
    placed = flows[flows["destination"] == "poor"]
    # Ore of 0.3 and 0.35 per cent is the first bin; 60 t of it wait.
    assert (placed["bin"] == 1).all() and placed["feed_tonnes"].sum() == pytest.approx(60, abs=0.01)
    assert placed["cash_flow"].tolist() == pytest.approx((-0.1 * placed["feed_tonnes"]).tolist(), abs=0.01)
    out = flows[flows["source"] == "poor"]
    # Half of the copper of a tonne is recovered, 2 % less after reclaim; it earns 80 a per cent and tonne, and milling costs 10.
    assert out["recovered_copper"].tolist() == pytest.approx((0.49 * out["contained_copper"]).tolist(), abs=0.001)
    earned = 8000 * 0.49 * out["contained_copper"] - (10 + 0.5) * out["feed_tonnes"]
    assert len(out) and out["cash_flow"].tolist() == pytest.approx(earned.tolist(), abs=0.1)
    piles = pd.read_csv(folder / "tables/stockpiles.csv").query("method == 'lp' and stockpile == 'poor'")
    assert piles["closing_tonnes"].max() == pytest.approx(60, abs=0.01)
    full = piles[piles["closing_tonnes"] > 1]
    assert full["grade_copper"].between(0.3, 0.35).all() and wrong(folder) == set()
    limits = pd.read_csv(folder / "tables/limits.csv").query("method == 'lp' and limit == 'stockpile_poor'")
    assert (limits["maximum"] == 60).all() and limits["used"].max() == pytest.approx(60, abs=0.01)


@pytest.mark.slow
def test_the_integer_programme_has_them_too(tmp_path):
    """It is never worse than the schedule by linear programme, within its gap, nor better than the upper bound."""
    words = PILES.replace("bins = 2\n", "bins = 2\nmilp = { gap = 0.0, seconds = 60 }\n")
    found = pitplan.write_schedule(written_to(tmp_path, words), writing=PLAIN).set_index("method")
    npv, most = found["npv"], found.loc["milp", "upper_bound"]
    assert npv["lp"] - 1e-3 <= npv["milp"] <= most + 1e-3
    folder = tmp_path / "plan" / "schedule"
    flows = pd.read_csv(folder / "tables/flows.csv").query("method == 'milp'")
    assert {"poor"} <= set(flows["destination"]) and wrong(folder) == set()


@pytest.mark.parametrize(
    ("words", "other", "said"),
    [
        ("accepts = { cu = { max = 0.5 } }", "accepts = { cu = { max = 0.2 } }", "poor does not accept these blocks"),
        ("capacity = 60", "capacity = 50", "poor holds 60 t above its capacity of 50"),
        ("recovery = { copper = 0.98 }", "recovery = { copper = 0.9 }", "recovered_copper"),
        ("stacking_cost = 0.1", "stacking_cost = 0.2", "cash_flow"),
        ("reclaim_cost = 0.5", "reclaim_cost = 0.6", "cash_flow"),
    ],
)
def test_stockpiles_other_than_those_of_the_project_are_found(piled, tmp_path, words, other, said):
    """The schedule is that of other rules than the project of its folder has."""
    folder = shutil.copytree(piled, tmp_path / "mine") / "plan" / "schedule"
    kept = folder / "project-as-run.toml"
    text = kept.read_text()
    assert words in text
    kept.write_text(text.replace(words, other))
    found = [text for rule in verify(folder) for text in rule.differences]
    assert any(said in text for text in found)


def test_head_grades_and_metal_by_hand(plan_folder):
    """Three pillars, one a year: grades of 1, 0.7 and 0.5 per cent, half of which is recovered."""
    from helpers.pushbacks import PUSHBACKS, pillars

    path = plan_folder(pillars(), PUSHBACKS)
    pitplan.write_schedule(path, writing=PLAIN)
    feed = pd.read_csv(path.parent / "plan" / "schedule" / "tables/feed.csv").query("method == 'lp'")
    assert feed["head_grade_copper"].tolist() == [1, 0.7, 0.5] and feed["contained_copper"].tolist() == [1, 0.7, 0.5]
    assert feed["recovered_copper"].tolist() == [0.5, 0.35, 0.25] and feed["process"].tolist() == ["mill"] * 3
    flows = pd.read_csv(path.parent / "plan" / "schedule" / "tables/flows.csv").query("method == 'lp'")
    assert flows["destination"].tolist() == ["waste", "mill"] * 3 and (flows["source"] == "pit").all()
    assert flows["total_tonnes"].tolist() == [100] * 6 and flows["cash_flow"].tolist() == [0, 3000, 0, 1800, 0, 1000]


@pytest.mark.parametrize(
    ("table", "name", "by", "rules"),
    [
        ("flows", "total_tonnes", 1.0, {"material flow"}),
        ("flows", "total_tonnes", -5.0, {"material flow"}),
        ("flows", "feed_tonnes", 1.0, {"material flow", "schedule amounts"}),
        ("flows", "contained_copper", 1.0, {"material flow"}),
        ("flows", "recovered_copper", 1.0, {"material flow", "schedule amounts"}),
        ("flows", "cash_flow", 1.0, {"material flow", "schedule amounts"}),
        ("flows", "bin", 1, {"material flow"}),
        ("flows", "bin", 7, {"material flow"}),
        ("flows", "year", 1, {"material flow"}),
        ("flows", "bench", 0.2, {"material flow"}),
        ("flows", "pushback", 5, {"material flow"}),
        ("feed", "feed_tonnes", 1.0, {"material flow"}),
        ("feed", "reclaimed_tonnes", 1.0, {"material flow"}),
        ("feed", "head_grade_copper", 0.01, {"material flow"}),
        ("feed", "recovered_copper", 0.1, {"material flow"}),
        ("stockpiles", "opening_tonnes", 1.0, {"material flow"}),
        ("stockpiles", "in_tonnes", 1.0, {"material flow"}),
        ("stockpiles", "closing_tonnes", 1.0, {"material flow"}),
        ("stockpiles", "grade_copper", 0.01, {"material flow"}),
        ("blocks", "bin", 1, {"material flow"}),
        ("bound", "price", 0.5, {"upper bound"}),
    ],
)
def test_a_changed_number_is_found(copied, table, name, by, rules):
    path = copied / f"tables/{table}.csv"
    found = pd.read_csv(path)
    row = (found["method"] == "lp").idxmax() if "method" in found else found[name].idxmax()
    if table == "flows":
        row = found["recovered_copper"].where(found["method"] == "lp").idxmax()
    found[name] = found[name].astype(float) if by % 1 else found[name]
    found.loc[row, name] += by
    found.to_csv(path, index=False)
    assert differing(copied, *rules) == rules


def test_ore_that_is_reclaimed_before_it_is_stocked_is_found(copied):
    path = copied / "tables/flows.csv"
    found = pd.read_csv(path)
    found.loc[found["source"] == "stockpile", "year"] = 1
    found.to_csv(path, index=False)
    said = [text for rule in verify(copied) for text in rule.differences]
    assert any("more is reclaimed from stockpile than was placed before" in text for text in said)


def test_ore_that_goes_elsewhere_is_found(copied):
    path = copied / "tables/flows.csv"
    found = pd.read_csv(path)
    row = found.index[(found["method"] == "lp") & (found["destination"] == "mill")][0]
    found.loc[row, "destination"] = "leach"
    found.to_csv(path, index=False)
    assert differing(copied, "material flow")


def test_a_price_of_no_limit_is_found(copied):
    path = copied / "tables/bound.csv"
    found = pd.read_csv(path, dtype={"limit": str})
    found["limit"] = found["limit"].replace("feed_tonnes", "total_tonnes")
    found.to_csv(path, index=False)
    (rule,) = [rule for rule in verify(copied) if rule.name == "upper bound"]
    assert any("is no limit of the project" in text for text in rule.differences)


@pytest.mark.parametrize("tonnes", [1, 1_000_000])
def test_tonnages_great_and_small_are_right_too(tmp_path, tonnes):
    """Of a million tonnes a block the solver leaves more open than the files' last digit; of one, a tonne is reclaimed at most."""
    text = TEXT.replace("processing_capacity = 100", f"processing_capacity = {tonnes}")
    project = written_to(tmp_path, STOCKED, text, tonnes=lambda i, j, k: tonnes)
    pitplan.write_schedule(project, writing=UNVERIFIED)
    piles = pd.read_csv(project.folder / "schedule" / "tables/stockpiles.csv")
    assert 0 < piles["out_tonnes"].sum() / tonnes <= 1 + 1e-6 and wrong(project.folder / "schedule") == set()


def test_thousandths_of_tonnes_that_are_worth_much_are_right_too(tmp_path):
    """A third of 100 t a block, of which a thousandth earns more than a cent."""
    text = TEXT.replace("processing_capacity = 100", "processing_capacity = 33")
    text = text.replace("price = 8000", "price = 80_000_000")
    project = written_to(tmp_path, STOCKED, text, tonnes=lambda i, j, k: 100 / 3)
    pitplan.write_schedule(project, writing=UNVERIFIED)
    assert wrong(project.folder / "schedule") == set()


# A hill with arsenic, of which copper-rich ore has much.
HILL = {
    "cu": lambda i, j, k: {(3, 4, 1): 3, (7, 4, 1): 2, (5, 2, 2): 0.9, (3, 3, 2): 1.5, (8, 4, 2): 1.8}.get(
        (i, j, k), 0
    ),
    "arsenic": lambda i, j, k: 40 + 90 * (i % 3),
}
ONE = "processing_cost = 10\n"
MILL = '[[processes]]\nname = "mill"\ncost = 10\nrecovery = { copper = 0.5 }\ncapacity = 100\n'


def hill(plan_folder, words, processes=""):
    text = PROJECT.replace("processing_capacity = 100", "processing_capacity = 100\nmining_capacity = 900")
    if processes:
        text = text.replace(ONE, "").replace("recovery = 0.5\n", "").replace("processing_capacity = 100\n", "")
    return plan_folder(rows(11, 9, 4, **HILL), f"{text}{processes}[pushbacks]\ncount = 2\n{words}")


def npvs(path):
    table = pitplan.write_schedule(path, writing=UNVERIFIED).set_index("method")
    assert wrong(path.parent / "plan" / "schedule") == set()
    return table["npv"].to_dict() | {"upper_bound": table["upper_bound"]["lp"]}


@pytest.mark.slow
def test_a_mill_has_the_same_numbers_in_either_notation(plan_folder):
    one = npvs(hill(plan_folder, ""))
    assert npvs(hill(plan_folder, "", MILL)) == pytest.approx(one, rel=1e-9)


@pytest.mark.slow
def test_a_leach_beside_the_mill_never_earns_less(plan_folder):
    """However small it is: what it cannot take goes to the mill or to waste."""
    alone = npvs(hill(plan_folder, "[schedule]\nyears = 8\n", MILL))
    for capacity in (5, 40, 1000):
        leach = f'[[processes]]\nname = "leach"\ncost = 4\nrecovery = {{ copper = 0.3 }}\ncapacity = {capacity}\n'
        both = npvs(hill(plan_folder, "[schedule]\nyears = 8\n", MILL + leach))
        assert both["lp"] >= alone["lp"] * (1 - 1e-9) and both["upper_bound"] >= alone["upper_bound"] * (1 - 1e-9)


@pytest.mark.slow
def test_a_head_grade_is_kept_and_verified(plan_folder):
    """A limit of 100 ppm of arsenic: the schedule earns less than without, and a greater feed grade is found."""
    free = npvs(hill(plan_folder, "", MILL))
    path = hill(plan_folder, "", MILL + "[processes.feed]\narsenic = { max = 100 }\n")
    kept = npvs(path)
    assert kept["upper_bound"] < free["upper_bound"] and kept["lp"] < free["lp"]
    folder = path.parent / "plan" / "schedule"
    flows = pd.read_csv(folder / "tables/flows.csv").query("destination == 'mill' and feed_tonnes > 0")
    assert len(flows)
    path.write_text(path.read_text().replace("max = 100", "max = 60"))
    said = [text for rule in verify(folder) for text in rule.differences]
    assert any("grade_mill_arsenic_max" in text and "above 0" in text for text in said)


@pytest.mark.slow
def test_a_project_with_one_process_limits_its_feed_in_schedule(plan_folder):
    kept = npvs(hill(plan_folder, "[schedule.feed]\narsenic = { max = 100 }\n"))
    same = npvs(hill(plan_folder, "", MILL + "[processes.feed]\narsenic = { max = 100 }\n"))
    assert kept == pytest.approx(same, rel=1e-9)


def test_minimum_feed_is_kept(plan_folder):
    """Half of the mill's tonnes in each of three years after two in which waste is stripped."""
    words = "[schedule]\nyears = 5\nramp_up = [0, 0, 1.0]\nminimum = { feed = 50 }\n"
    path = hill(plan_folder, words)
    found = npvs(path)
    feed = pd.read_csv(path.parent / "plan" / "schedule" / "tables/feed.csv").query("method == 'lp'")
    assert "rule" not in found and (feed["feed_tonnes"][2:] >= 50 - 1e-3).all() and len(feed) == 5


@pytest.mark.parametrize("milp", ["", "milp = { seconds = 30 }\n"])
def test_minimum_total_material_is_kept(plan_folder, milp):
    """Three pillars of 200 t in two years, of 290 t at least, though the mill takes the ore of one pillar a year."""
    from helpers.pushbacks import PUSHBACKS, pillars

    text = PUSHBACKS.replace("mining_capacity = 200", "mining_capacity = 400")
    path = plan_folder(pillars(), f"{text}[schedule]\nyears = 2\nminimum = {{ total = 290 }}\n{milp}")
    table = pitplan.write_schedule(path, writing=UNVERIFIED).set_index("method")
    years = pd.read_csv(path.parent / "plan" / "schedule" / "tables/years.csv").set_index("case")
    assert (
        list(table.index) == (["lp", "milp"] if milp else ["lp"]) and wrong(path.parent / "plan" / "schedule") == set()
    )
    assert (years.loc[list(table.index), "total_tonnes"] >= 290 - 1e-3).all()


def test_a_minimum_that_no_trial_meets_is_left_to_the_integer_programme(plan_folder, monkeypatch):
    """Of a small mine it is solved unasked. Of a larger one without it the error names it."""
    from pitplan.scheduling import pushback_schedule
    from pitplan.scheduling.flow import scheduler

    words = "[schedule]\nyears = 5\nramp_up = [0, 0, 1.0]\nminimum = { feed = 50 }\n"

    def none(model, optimum, rule=None):
        raise scheduler.NoSchedule("no schedule that was tried meets the minimums: lower them, or set [schedule] milp")

    monkeypatch.setattr(scheduler, "from_optimum", none)
    assert pitplan.write_schedule(hill(plan_folder, words), writing=UNVERIFIED)["method"].tolist() == ["milp"]
    monkeypatch.setattr(pushback_schedule, "SMALL", 0)
    with pytest.raises(PlanError, match=r"project.toml: \[schedule\] minimum: no schedule .* set \[schedule\] milp"):
        pitplan.write_schedule(hill(plan_folder, words), writing=UNVERIFIED)
    path = hill(plan_folder, f"{words}milp = {{ gap = 0.05, seconds = 60 }}\n")
    assert (
        pitplan.write_schedule(path, writing=UNVERIFIED)["method"].tolist() == ["milp"]
        and wrong(path.parent / "plan" / "schedule") == set()
    )


TWO = """[[schedule.stockpiles]]
name = "{}"
reclaim_cost = 1
[[schedule.stockpiles]]
name = "{}"
reclaim_cost = 1
"""


def test_a_minimum_that_nothing_meets_is_an_error(plan_folder, capsys):
    path = hill(plan_folder, "[schedule]\nyears = 30\nminimum = { feed = 99 }\n")
    assert main(["schedule", str(path), "--quiet", "--no-figures"]) == 1
    said = capsys.readouterr().err
    assert "Smallest shortfall: the minimum of feed_tonnes in year 1 by " in said and "infeasible: " in said
    assert "project.toml" in said


@pytest.mark.parametrize(
    ("words", "processes", "said"),
    [
        ("[schedule]\nbins = 0\n", "", "[schedule] bins: found 0, expected a whole number from 1 to 50"),
        ("[schedule]\nstockpile = { cost = 1 }\n", "", "[schedule.stockpile] reclaim_cost: is missing"),
        (f"{TWO.format('a', 'a')}", "", "[schedule] stockpiles: found a twice, expected a name of its own for each"),
        (
            f"{TWO.format('a', 'waste')}",
            "",
            "[schedule.stockpiles] waste: is the name of another source or destination",
        ),
        (
            f"{TWO.format('a', 'b')}recovery = {{ tin = 1 }}\n",
            "",
            "b recovery: found tin, expected one of the [[metals]]: copper",
        ),
        (
            f"{TWO.format('a', 'b')}recovery = {{ copper = 1.1 }}\n",
            "",
            "copper: found 1.1, expected 0 to 1, such as 0.95 for 5 % less",
        ),
        (
            f"{TWO.format('a', 'b')}accepts = {{ class = '1' }}\n",
            "",
            "b accepts: has class, and [table] class names no",
        ),
        (f"{TWO.format('a', 'b')}capacity = 0\n", "", "2] capacity: "),
        (f"{TWO.format('a', 'b c')}", "", 'name: found "b c", expected one word'),
        ("[schedule.feed]\narsenic = { most = 3 }\n", "", "[schedule.feed.arsenic] most: unknown key"),
        ("[schedule.feed]\narsenic = {}\n", "", "[schedule.feed] arsenic: expected min, max or both"),
        ("[schedule.feed]\narsenic = { min = 5, max = 3 }\n", "", "[schedule.feed] arsenic: min 5 is above max 3"),
        ("[schedule.feed]\ntin = { max = 3 }\n", "", "tin"),
        ("[schedule.feed]\narsenic = { max = 3 }\n", MILL, "[schedule.feed] is of one process"),
    ],
)
def test_what_is_refused(plan_folder, words, processes, said):
    with pytest.raises(PlanError) as error:
        pitplan.write_schedule(hill(plan_folder, words, processes), writing=PLAIN)
    assert said in str(error.value)
