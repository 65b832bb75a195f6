"""`pitplan schedule --by block`: mines worked by hand, what is refused, and the second look at what is written."""

import json
import os
import shutil
import subprocess
import sys

import pandas as pd
import pytest
from conftest import PROJECT, ROOT, rows
from helpers.block_commands import YEARLY, named_mill, rewrite, scheduled, with_processes, wrong, years_of
from helpers.pushbacks import PUSHBACKS, pillars
from helpers.verified import differing
from helpers.writings import PLAIN, UNVERIFIED
from matplotlib.figure import Figure

import pitplan
from pitplan import Plan, PlanError, ResultWarning, load, verify
from pitplan.cli import main
from pitplan.figures import schedule
from pitplan.results.folder import read_record
from pitplan.scheduling.blocks import from_plan

RULES = ["block order", "block limits", "block value", "upper bound", "inventory", "feed and limits", "cash flow"]
RULES += ["grade tonnage"]


def test_three_pillars_by_hand(plan_folder):
    """One pillar a year, the richest first; what each is worth is 40 a per cent and tonne, less 10 for processing and 4 for mining. No
    other schedule earns more, and the bound says so."""
    row, folder = scheduled(plan_folder)
    value = 2600 / 1.1 + 1400 / 1.21 + 600 / 1.331
    assert row["npv"] == pytest.approx(value) == row["upper_bound"] and row["optimality_gap"] == pytest.approx(
        0, abs=1e-9
    )
    assert row[["years", "blocks", "tonnes", "feed_tonnes"]].tolist() == [3, 6, 600, 300]
    years = years_of(folder)
    assert years["year"].tolist() == [1, 2, 3] and years["revenue_factor"].tolist() == [1.0] * 3
    assert years["total_tonnes"].tolist() == [200] * 3 and years["feed_tonnes"].tolist() == [100] * 3
    assert years["recovered_copper"].tolist() == pytest.approx([0.5, 0.35, 0.25]) and years["cash_flow"].tolist() == [
        2600,
        1400,
        600,
    ]
    assert years["discounted_cash_flow"].tolist() == pytest.approx([2600 / 1.1, 1400 / 1.21, 600 / 1.331], abs=1e-3)
    blocks = pd.read_csv(folder / "tables/blocks.csv").set_index("name")
    assert blocks["year"].to_dict() == {f"b{i}-0-{k}": i + 1 for i in range(3) for k in range(2)}
    told = json.loads((folder / "block_schedule.json").read_text())
    assert told["npv"] == pytest.approx(value, abs=1e-3) and told["upper_bound"] == pytest.approx(value, abs=1e-3)
    assert (
        told["limits"] == {"feed_tonnes": 100, "total_tonnes": 200} and told["blocks"] == 6 and not told["interrupted"]
    )
    # Three years at the limits, and a fifth more.
    assert told["years"] == 4


def test_money_in_thousands_has_the_share_below_the_bound_of_what_is_told(plan_folder):
    """The shovels take a block and a half a year, so a block a year: waste costs 0.2, and the ore under it earns 2.8, 1.6 and 0.8. The
    bound, of shares of blocks, is more; files have both to a thousandth, and the share by which they differ is that of these.
    """
    text = YEARLY.replace("mining_capacity = 200", "mining_capacity = 150").replace("price = 8000", "price = 8")
    text = text.replace("mining_cost = 2", "mining_cost = 0.002").replace(
        "processing_cost = 10", "processing_cost = 0.01"
    )
    row, folder = scheduled(plan_folder, "[schedule]\nyears = 6\n", text)
    earned = [-0.2, 2.8, -0.2, 1.6, -0.2, 0.8]
    assert row["npv"] == pytest.approx(sum(cash / 1.1**year for year, cash in enumerate(earned, 1)))
    told, way = (
        json.loads((folder / "block_schedule.json").read_text()),
        pd.read_csv(folder / "tables/methods.csv").iloc[0],
    )
    share = (told["upper_bound"] - told["npv"]) / told["upper_bound"]
    assert share > 0.01 and (told["npv"], told["upper_bound"]) == (way["npv"], way["upper_bound"])
    assert told["gap"] == pytest.approx(share, abs=6e-10) and way["optimality_gap"] == pytest.approx(share, abs=6e-10)


@pytest.mark.parametrize(
    ("words", "cash"),
    [
        ("years = 2", [2600, 1400]),
        ("processing_capacity = 200\nmining_capacity = 400", [4000, 600]),
        # The mill stands still in the first year, in which nothing needs to be dug.
        ("ramp_up = [0, 1.0]", [0, 2600, 1400, 600]),
        ("max_metal_per_year = { copper = 0.85 }\nprocessing_capacity = 1e6\nmining_capacity = 1e6", [4000, 600]),
        # A block of 100 t does not fit into half of the mill.
        ("ramp_up = [0.5, 1.0]", [0, 2600, 1400, 600]),
        ("years = 1\nmining_capacity = 300", [2600]),
        ("milp = { gap = 0, seconds = 60 }", [2600, 1400, 600]),
    ],
)
def test_each_limit_by_hand(plan_folder, words, cash):
    row, folder = scheduled(plan_folder, f"[schedule]\n{words}\n")
    assert years_of(folder)["cash_flow"].tolist() == cash
    assert row["npv"] == pytest.approx(sum(amount / 1.1 ** (year + 1) for year, amount in enumerate(cash)))


def test_years_have_prices_of_their_own(plan_folder):
    """Copper is worth 4000 more in the second year, 20 a per cent and tonne: then the richest pillar waits for it, since 2600 + 2000 in
    the second year and 1400 in the first are more than 2600 and 1400 + 1400."""
    text = YEARLY.replace("price = 8000", "price = 8000\nprices = [8000, 12000, 8000]")
    row, folder = scheduled(plan_folder, text=text)
    blocks = pd.read_csv(folder / "tables/blocks.csv").set_index("name")
    assert blocks["year"][["b0-0-0", "b1-0-0", "b2-0-0"]].tolist() == [2, 1, 3]
    assert row["npv"] == pytest.approx(1400 / 1.1 + 4600 / 1.21 + 600 / 1.331)


def test_each_ore_waits_for_the_process_where_it_is_worth_most(plan_folder):
    """In the mill: 7200 - 1300, 5040 - 1300 and 3600 - 1300, each in a year, less 400 for each pillar."""
    row, folder = scheduled(plan_folder, text=with_processes())
    blocks = pd.read_csv(folder / "tables/blocks.csv").set_index("name")
    ores = blocks.loc[["b0-0-0", "b1-0-0", "b2-0-0"]]
    assert ores["year"].tolist() == [1, 2, 3] and ores["share_mill"].tolist() == [1] * 3
    assert row["npv"] == pytest.approx(5500 / 1.1 + 3340 / 1.21 + 1900 / 1.331)


def test_a_block_goes_to_the_process_that_has_room(plan_folder):
    """With one year alone the richest ore is worth most in the mill, 7200 - 1300, and the others are leached for 2240 - 300 and 1600 -
    300."""
    row, folder = scheduled(plan_folder, "[schedule]\nyears = 1\n", with_processes())
    blocks = pd.read_csv(folder / "tables/blocks.csv").set_index("name")
    assert blocks["year"].tolist() == [1] * 6
    assert blocks["share_mill"][["b0-0-0", "b1-0-0", "b2-0-0"]].tolist() == [1, 0, 0]
    assert blocks["share_leach"][["b0-0-0", "b1-0-0", "b2-0-0"]].tolist() == [0, 1, 1]
    assert row["npv"] == pytest.approx((7200 - 1300 + 2240 - 300 + 1600 - 300 - 6 * 200) / 1.1)
    assert row["upper_bound"] == pytest.approx(row["npv"])
    assert years_of(folder)[["feed_tonnes", "feed_tonnes_leach", "feed_tonnes_mill"]].to_numpy().tolist() == [
        [300, 200, 100]
    ]


def test_rock_without_metal_is_waste(plan_folder):
    """Half of the ore is milled and half is leached, which has room for 150 t more."""
    _, folder = scheduled(
        plan_folder, "[schedule]\nyears = 1\n", with_processes().replace("capacity = 100\n", "capacity = 150\n")
    )
    columns = ["feed_tonnes", "feed_tonnes_leach", "feed_tonnes_mill"]
    assert years_of(folder)[columns].to_numpy().tolist() == [[300, 150, 150]]
    blocks = pd.read_csv(folder / "tables/blocks.csv")
    assert not blocks.loc[blocks["cu"] == 0, ["share_leach", "share_mill"]].any(axis=None)


LAID = "{ reclaim_cost = 1, opening = { tonnes = 5, cu = 1, rock_type = 'R' } }"
SMALLER = "[[periods]]\nstockpiles = { stockpile = { max = 4 } }\n"


@pytest.mark.parametrize(
    ("words", "said"),
    [
        (f"[schedule]\nstockpile = {LAID}\n{SMALLER}", "5 tonnes lie there at the start, and year 1 has a max of 4"),
        ("[schedule]\nmining_capacity = 90", "holds 100 of total_tonnes, and a year takes at most 90"),
    ],
)
def test_what_is_refused(plan_folder, words, said):
    with pytest.raises(PlanError) as error:
        scheduled(plan_folder, words + "\n")
    assert said in str(error.value) and "project.toml" in str(error.value)


def test_ore_on_a_stockpile_without_room_for_it_is_refused_before_the_table_is_read(plan_folder):
    path = plan_folder(pillars(), f"{YEARLY}[schedule]\nstockpile = {LAID}\n{SMALLER}")
    (path.parent / "blocks.csv").unlink()
    with pytest.raises(PlanError, match=r"\[schedule\] stockpile stockpile: 5 tonnes lie there at the start"):
        pitplan.write_block_schedule(path, writing=PLAIN)


def test_one_project_has_both_kinds_of_schedule(plan_folder):
    """Keys of pushbacks alone change nothing by block, and are named."""
    keys = {"bench_lag": 1, "vertical_advance_rate": 2, "bins": 2}
    words = "[schedule]\nyears = 4\n" + "".join(f"{key} = {value}\n" for key, value in keys.items())
    path = plan_folder(pillars(), PUSHBACKS + words)
    pitplan.write_schedule(path, writing=UNVERIFIED)
    named = ", ".join(rf"\[schedule\] {key}" for key in keys)
    with pytest.warns(ResultWarning, match=f"a schedule by block does not apply {named}: only pushbacks have these"):
        row = pitplan.write_block_schedule(path, writing=UNVERIFIED).iloc[0]
    folder = path.parent / "plan" / "block_schedule"
    plain, other = scheduled(plan_folder, "[schedule]\nyears = 4\n")
    assert row["npv"] == plain["npv"] and row["upper_bound"] == plain["upper_bound"] and wrong(folder) == set()
    names = "tables/methods.csv"
    assert (folder / names).read_text() == (other / names).read_text()


def test_too_many_blocks_are_refused_before_anything_is_solved(plan_folder, monkeypatch):
    monkeypatch.setattr("pitplan.scheduling.blocks.problem.MOST_NODES", 5)
    for solver in ("pitplan.solver.problem.solve", "pitplan.scheduling.blocks.from_plan.pitshell.solve"):
        monkeypatch.setattr(solver, lambda *given: pytest.fail("solved"))
    with pytest.raises(PlanError, match=r"project.toml: a schedule by block would have 6 blocks and 3 precedences"):
        scheduled(plan_folder, text=with_processes())


def test_the_command_line_tells_value_bound_and_gap(plan_folder, capsys):
    path = plan_folder(pillars(), YEARLY)
    assert main(["schedule", str(path), "--by", "block", "--no-figures"]) == 0
    said = capsys.readouterr()
    lines = [line.split() for line in said.out.splitlines()]
    assert lines[0][:4] == ["NPV", "upper", "bound", "gap"] and lines[2][:4] == ["3,971.45", "3,971.45", "0.00", "3"]
    assert (
        "upper bound on the NPV of any schedule by block of up to 4 years within these limits: 3,971; this schedule has an NPV of 3,971, an optimality gap of 0.00 %"
        in said.err
    )
    assert "round 1: bound " in said.err and "relaxation 3,971 over" in said.err
    page = (path.parent / "plan" / "block_schedule" / "report.html").read_text()
    assert "head grade of the mill feed</span>" in page and 'title="tables/methods.csv row 2 column npv"' in page
    assert "tables/methods.csv" in page and "the schedule and its upper bound, the other numbers" in page


def test_without_the_library_it_is_told_what_is_missing(plan_folder):
    path = plan_folder(pillars(), YEARLY)
    words = [sys.executable, str(ROOT / "tools" / "pitplan"), "schedule", str(path), "--by", "block", "--no-figures"]
    ran = subprocess.run(words, capture_output=True, text=True, env=os.environ | {"PITSHELL_LIBRARY": "/nowhere.so"})
    why = "a schedule by block needs the library of pits: no libpitshell.so at /nowhere.so: make library builds it"
    assert ran.returncode == 1 and ran.stderr == f"pitplan: {why}\n"


def test_an_interrupted_run_keeps_the_best_so_far(plan_folder, capsys, monkeypatch):
    def interrupt(*given):
        raise KeyboardInterrupt

    monkeypatch.setattr("pitplan.scheduling.blocks.scheduler.moved", interrupt)
    path = plan_folder(pillars(), YEARLY)
    assert main(["schedule", str(path), "--by", "block", "--quiet", "--no-figures"]) == 130
    folder = path.parent / "plan" / "block_schedule"
    assert json.loads((folder / "block_schedule.json").read_text())["interrupted"] and wrong(folder) == set()
    assert "the run was interrupted; this is the best schedule so far" in capsys.readouterr().err


@pytest.fixture(scope="module")
def written(tmp_path_factory):
    """A hill under several limits."""
    place = tmp_path_factory.mktemp("scheduled")
    grades = {(3, 4, 1): 6, (7, 4, 1): 2, (5, 2, 2): 0.9, (3, 3, 2): 1.5, (8, 4, 2): 0.8}
    table = rows(11, 9, 4, cu=lambda i, j, k: grades.get((i, j, k), 0))
    table.to_csv(place / "blocks.csv", index=False)
    text = (
        PROJECT
        + "[schedule]\nmining_capacity = 1000\nramp_up = [0.5, 1]\nprocessing_capacity = 200\nmax_metal_per_year = { copper = 3.5 }\n"
    )
    (place / "project.toml").write_text(text)
    pitplan.write_block_schedule(place / "project.toml", writing=PLAIN)
    return place


@pytest.fixture
def copied(written, tmp_path):
    return shutil.copytree(written, tmp_path / "mine") / "plan" / "block_schedule"


def test_what_is_right_passes(copied, capsys):
    assert wrong(copied) == set()
    assert main(["verify", str(copied)]) == 0
    told = [line.split(":")[0] for line in capsys.readouterr().out.splitlines()]
    assert told[-9:] == [*RULES, "verified"]
    record = read_record(copied)
    assert "block_schedule.json" in record["files"] and any(
        line.startswith("block order") for line in record["verified"]
    )
    assert pd.read_csv(copied / "tables/blocks.csv")["year"].max() > 2


def test_a_block_before_its_cone_is_found(copied):
    """The deepest that is dug, in the first year."""

    def change(table):
        mined = table[table["year"] > 1].sort_values("z")
        table.loc[mined.index[0], "year"] = 1

    rewrite(copied / "tables/blocks.csv", change)
    assert differing(copied, "block order")


@pytest.mark.parametrize("year", [-1, 99])
def test_a_year_that_is_none_is_found(copied, year):
    def change(table):
        table.loc[table["year"].idxmax(), "year"] = year

    rewrite(copied / "tables/blocks.csv", change)
    assert differing(copied, "block order")


def test_a_year_above_a_limit_is_found(copied):
    """All in one year."""

    def change(table):
        table.loc[table["year"] > 0, "year"] = 1

    rewrite(copied / "tables/blocks.csv", change)
    assert differing(copied, "block limits", "block value") == {"block limits", "block value"}


@pytest.mark.parametrize(
    "name", ["total_tonnes", "feed_tonnes", "recovered_copper", "cash_flow", "discounted_cash_flow"]
)
def test_a_year_that_is_not_the_sum_of_its_blocks_is_found(copied, name):
    def change(table):
        table.loc[table["case"] == "block", name] += 1

    rewrite(copied / "tables/years.csv", change)
    assert differing(copied, "block value")


@pytest.mark.parametrize(
    ("key", "change", "rules"),
    [
        ("npv", 1, {"block value"}),
        ("upper_bound", -1e9, {"block value", "upper bound"}),
        ("gap", 0.01, {"block value"}),
    ],
)
def test_a_value_or_a_bound_that_is_not_so_is_found(copied, key, change, rules):
    told = json.loads((copied / "block_schedule.json").read_text())
    (copied / "block_schedule.json").write_text(json.dumps(told | {key: told[key] + change}))
    assert wrong(copied) == rules


@pytest.mark.parametrize("more", [1.0, -1.0])
def test_a_bound_that_does_not_follow_from_its_multipliers_is_found(copied, more):
    """With the gap that belongs to it, so that nothing else is wrong."""
    told = json.loads((copied / "block_schedule.json").read_text())
    bound = told["upper_bound"] + more
    changed = {"upper_bound": bound, "gap": (bound - told["npv"]) / bound}
    (copied / "block_schedule.json").write_text(json.dumps(told | changed))
    methods = pd.read_csv(copied / "tables/methods.csv").assign(upper_bound=bound, optimality_gap=changed["gap"])
    methods.to_csv(copied / "tables/methods.csv", index=False)
    assert wrong(copied) == {"upper bound"}


def test_a_mined_out_surface_is_scheduled_around(plan_folder):
    """What is mined out has no year. Its upper bound is not recomputed, since which blocks must be mined follows from volumes."""
    edge, places = (15, 50), range(-15, 90, 5)
    heights = {(x, y): 17 if min(x, y) > edge[0] and max(x, y) < edge[1] else 30 for x in places for y in places}
    text = PROJECT + '[constraints]\nas_mined = "mined.csv"\ntopography = "ground.csv"\n'
    path = plan_folder(rows(7, 7, 3, cu=lambda i, j, k: 6 if (i, j, k) in ((3, 3, 1), (4, 3, 0)) else 0), text)
    mined = "".join(f"{x},{y},{z}\n" for (x, y), z in heights.items())
    (path.parent / "mined.csv").write_text(f"x,y,z\n{mined}")
    (path.parent / "ground.csv").write_text("x,y,z\n-50,-50,30\n120,-50,30\n-50,120,30\n120,120,30\n")
    pitplan.write_block_schedule(path, writing=UNVERIFIED)
    (rule,) = [rule for rule in verify(path.parent / "plan" / "block_schedule") if rule.name == "upper bound"]
    assert rule.holds == "not recomputed for a model with an as-mined surface"
    blocks = pd.read_csv(path.parent / "plan" / "block_schedule" / "tables/blocks.csv")
    assert (blocks["tonnes"] == 0).sum() == 4 and set(blocks["year"][blocks["tonnes"] == 0]) == {0}


@pytest.mark.parametrize("times", [0.0, 0.9, 1.5])
def test_multipliers_that_are_others_are_found(copied, times):
    """All together. Any multipliers give a bound, and these a greater one, and other shadow prices."""
    table = pd.read_csv(copied / "tables/bound.csv", float_precision="round_trip")
    table.assign(price=table["price"] * times).to_csv(copied / "tables/bound.csv", index=False)
    assert wrong(copied) == {"upper bound", "feed and limits"}


@pytest.mark.parametrize(
    ("change", "said"),
    [
        (lambda table: table.iloc[1:], "bound.csv has "),
        (lambda table: table.assign(limit="nothing"), "bound.csv has "),
        (lambda table: table.assign(year=table["year"] + 1), "bound.csv has "),
        (lambda table: table.assign(price=float("nan")), "price nan"),
        (lambda table: table.iloc[:0], " for 0: bound.csv has no rows"),
    ],
)
def test_multipliers_of_other_limits_are_found(copied, change, said):
    path = copied / "tables/bound.csv"
    change(pd.read_csv(path)).to_csv(path, index=False)
    (rule,) = [rule for rule in verify(copied) if rule.name == "upper bound"]
    assert said in rule.differences[0]
    path.unlink()
    (rule,) = [rule for rule in verify(copied) if rule.differences]
    assert rule.differences == ("bound.csv is missing",)


def test_a_limit_that_is_not_the_projects_is_found(copied):
    told = json.loads((copied / "block_schedule.json").read_text())
    (copied / "block_schedule.json").write_text(json.dumps(told | {"limits": told["limits"] | {"total_tonnes": 5000}}))
    assert wrong(copied) == {"block limits"}


def test_a_ramp_up_that_is_not_the_projects_is_found(copied):
    told = json.loads((copied / "block_schedule.json").read_text())
    (copied / "block_schedule.json").write_text(json.dumps(told | {"ramp_up": [0.6, 1]}))
    assert wrong(copied) == {"block limits"}


def test_the_view_and_the_table_have_the_years(copied):
    table = pd.read_csv(pitplan.write_export(copied, "table"))
    assert (
        table["year"].tolist()
        == pd.read_csv(copied / "tables/blocks.csv").set_index("name")["year"].loc[table["name"]].tolist()
    )


def test_a_pit_without_ore_has_an_empty_schedule(plan_folder, capsys):
    """Nothing pays, so nothing is dug, and the bound is 0."""
    path = plan_folder(rows(3, 1, 2), YEARLY)
    assert main(["schedule", str(path), "--by", "block", "--quiet", "--no-figures"]) == 0
    assert capsys.readouterr().out.splitlines()[2].split()[:4] == ["0.00", "0.00", "0.00", "0"]
    folder = path.parent / "plan" / "block_schedule"
    assert (pd.read_csv(folder / "tables/blocks.csv")["year"] == 0).all() and years_of(folder).empty


def test_a_pit_of_too_many_years_is_refused(plan_folder, monkeypatch):
    """Three years at the limits, and a fifth more."""
    monkeypatch.setattr(from_plan, "MOST_YEARS", 3)
    with pytest.raises(
        PlanError, match="the pit would take more than 3 years: check that the limits are in tonnes per year"
    ):
        scheduled(plan_folder)


def test_a_block_with_more_rock_than_a_year_moves_is_refused(plan_folder):
    """Each block has 100 t. It would never be mined whole, and what lies below it neither."""
    said = r"by block each block is mined in one year: give smaller blocks .*: block b\d-0-\d \(row \d\) holds 100 of total_tonnes"
    with pytest.raises(PlanError, match=f"{said}, and a year takes at most 90"):
        scheduled(plan_folder, text=YEARLY.replace("mining_capacity = 200", "mining_capacity = 90"))


def test_both_notations_of_one_mine_have_the_same_value_and_bound(plan_folder):
    """Of two blocks of ore with a limit on what lies in the mill's feed one goes to waste, whether the mill is named or not. The second
    pillar's ore holds so much of it that the year takes none of the first then."""
    table = pillars(as_ppm=lambda i, j, k: [10, 90, 20][i])
    sums = '[[schedule.limits]]\ncolumn = "as_ppm"\nper_tonne = true\nof = "feed"\nmax = 4000\n[schedule]\nyears = 3\n'
    plain, folder = scheduled(plan_folder, sums, table=table)
    other, _ = scheduled(plan_folder, sums, text=named_mill(), table=table)
    assert plain["npv"] == pytest.approx(other["npv"]) and plain["upper_bound"] == pytest.approx(other["upper_bound"])
    # The ore of the second pillar holds 9,000 in 100 t: 4,000 of it go to the mill, and 1,400 + 1,000 for 0.444 of its ore do not pay.
    blocks = pd.read_csv(folder / "tables/blocks.csv").set_index("name")
    assert blocks.loc["b1-0-0", "share_mill"] < 1


def test_where_no_block_pays_nothing_is_mined_which_is_an_answer(plan_folder):
    """Copper at a hundredth of its price: a table, a sentence and a picture with one."""
    project = load(plan_folder(pillars(), YEARLY, ("price = 8000", "price = 80")))
    row = pitplan.write_block_schedule(project, writing=PLAIN).iloc[0]
    assert row[["npv", "upper_bound", "years", "blocks"]].tolist() == [0, 0, 0, 0]
    notes = read_record(project.folder / "block_schedule")["notes"]
    assert "nothing is mined: at these prices and costs no block pays for itself and its predecessors" in notes
    made = Plan.from_project(project).block_schedule()
    axes = schedule.plot(made, Figure().subplots(1, 2))
    assert [text.get_text() for text in axes[0].texts] == ["nothing is mined"]


def test_one_process_and_two_with_half_its_capacity_each_earn_the_same(plan_folder):
    """The ore of two pillars fills the capacity of a year, in one mill or in two halves."""
    text = (
        named_mill()
        .replace("mining_capacity = 200", "mining_capacity = 400")
        .replace("capacity = 100", "capacity = 200")
    )
    mill = text[text.index("[[processes]]") :]
    half = "".join(mill.replace('"mill"', f'"{name}"').replace("capacity = 200", "capacity = 100") for name in "ab")
    one, _ = scheduled(plan_folder, text=text)
    two, folder = scheduled(plan_folder, text=text.replace(mill, half))
    assert two["npv"] == pytest.approx(one["npv"]) and two["upper_bound"] == pytest.approx(one["upper_bound"])
    found = pd.read_csv(folder / "tables/blocks.csv").set_index("name").loc[["b0-0-0", "b1-0-0"]]
    assert (found["share_a"] + found["share_b"]).tolist() == pytest.approx([1, 1])
    assert found[["share_a", "share_b"]].sum().tolist() == pytest.approx([1, 1])
