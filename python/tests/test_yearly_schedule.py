"""Annual schedules as they are written: a mine worked by hand, what is refused, and the second look at them."""

import json
import os
import shutil
import signal
from dataclasses import replace

import numpy as np
import pandas as pd
import pytest
from conftest import PROJECT, rows
from helpers.pushbacks import PUSHBACKS, UPRIGHT, pillars, with_pushbacks
from helpers.verified import differing
from helpers.writings import PLAIN, UNVERIFIED

import pitplan
from pitplan import PlanError, load, verify
from pitplan.cli import main
from pitplan.results.folder import read_record
from pitplan.scheduling import pushback_schedule
from pitplan.scheduling.flow import programme as programmes, scheduler
from pitplan.scheduling.flow.flows import none_of

# What each pillar is worth: 40 a per cent and tonne, less 10 for processing and 4 for mining.
WORTHS = [2600, 1400, 600]


def scheduled(plan_folder, words="", text=PUSHBACKS):
    project = load(plan_folder(pillars(), text + words))
    return pitplan.write_schedule(project, writing=PLAIN).set_index("method"), project.folder / "schedule"


def test_three_pillars_by_hand(plan_folder):
    """One pillar a year, the richest first. No schedule earns more, and the bound says so."""
    table, folder = scheduled(plan_folder)
    value = 2600 / 1.1 + 1400 / 1.21 + 600 / 1.331
    assert table["npv"].tolist() == pytest.approx([value] * len(table)) and table["years"].tolist() == [3] * len(table)
    assert table["tonnes"].tolist() == [600] * len(table) and table["unmined_tonnes"].tolist() == [0] * len(table)
    told = json.loads((folder / "schedule.json").read_text())
    assert told["methods"]["rule"] == {"npv": pytest.approx(value, abs=1e-3), "years": 3, "unmined_tonnes": 0}
    rows_of = pd.read_csv(folder / "tables/schedule.csv").groupby("method")
    for _, found in rows_of:
        assert found["year"].tolist() == [1, 1, 2, 2, 3, 3] and found["pushback"].tolist() == [1, 1, 2, 2, 3, 3]
        assert found["bench"].tolist() == [10, 0] * 3 and found["share"].tolist() == [1] * 6
        assert found["total_tonnes"].tolist() == [100] * 6 and found["feed_tonnes"].tolist() == [0, 100] * 3
        assert found["recovered_copper"].tolist() == pytest.approx([0, 0.5, 0, 0.35, 0, 0.25])
        assert found["cash_flow"].tolist() == [-200, 2800, -200, 1600, -200, 800]
        assert found["discounted_cash_flow"].tolist() == pytest.approx(
            [cash / 1.1 ** (1 + k // 2) for k, cash in enumerate(found["cash_flow"])], abs=1e-3
        )
    years = pd.read_csv(folder / "tables/years.csv").set_index("case").loc["rule"]
    assert (
        years["revenue_factor"].tolist() == [1.0] * 3
        and years["year"].tolist() == [1, 2, 3]
        and years["cash_flow"].tolist() == WORTHS
    )
    assert years["discounted_cash_flow"].tolist() == pytest.approx([2600 / 1.1, 1400 / 1.21, 600 / 1.331], abs=1e-3)
    blocks = pd.read_csv(folder / "tables/blocks.csv").set_index("name")
    assert blocks["year"].to_dict() == {f"b{i}-0-{k}": i + 1 for i in range(3) for k in range(2)}


@pytest.mark.parametrize(
    ("words", "cash"),
    [
        ("mining_capacity = 150", [1200, 1200, 1500, 700]),
        ("processing_capacity = 200\nmining_capacity = 400", [4000, 600]),
        ("ramp_up = [0.5, 1.0]", [1200, 2000, 1000, 400]),
        # The waste of the third pillar takes no metal, and is dug in the first year.
        ("max_metal_per_year = { copper = 0.85 }\nprocessing_capacity = 1e6\nmining_capacity = 1e6", [3800, 800]),
        # Two wastes, then ore; when the mill is full the waste of the third waits, and goes with the second ore.
        ("vertical_advance_rate = 1", [-400, 2800, 1400, 800]),
        ("years = 2", [2600, 1400]),
    ],
)
def test_the_rule_keeps_each_limit(plan_folder, words, cash):
    table, folder = scheduled(plan_folder, f"[schedule]\n{words}\n")
    years = pd.read_csv(folder / "tables/years.csv").set_index("case").loc["rule"]
    assert years["cash_flow"].tolist() == cash
    assert table["unmined_tonnes"]["rule"] == (200 if words == "years = 2" else 0)


@pytest.mark.parametrize(
    ("words", "said"),
    [
        ("processing_capacity = 0", "[schedule] processing_capacity: found 0, expected 1 or more"),
        ("vertical_advance_rate = 0", "[schedule] vertical_advance_rate: found 0, expected above 0"),
        ("bench_lag = -1", "[schedule] bench_lag: found -1, expected a whole number from 0 to 1,000"),
        ("ramp_up = 0.5", "[schedule] ramp_up: must be a list of shares of processing_capacity"),
        ("ramp_up = [0.5, 1.2]", "[schedule] ramp_up: found 1.2, expected 0 to 1"),
        (
            "ramp_up = [0.5, 0]",
            "[schedule] ramp_up: found 0 as the last share, which applies to all later years: expected above 0",
        ),
        ("max_metal_per_year = { copper = 0 }", "[schedule.max_metal_per_year] copper: found 0, expected above 0"),
        (
            "max_metal_per_year = { tin = 1 }",
            "[schedule] max_metal_per_year: found tin, expected one of the [[metals]]: copper",
        ),
        ("years = 0", "[schedule] years: found 0, expected a whole number from 1 to 200"),
        ("bench_lags = 3", "[schedule] bench_lags: unknown key: did you mean bench_lag"),
    ],
)
def test_what_is_refused(plan_folder, words, said):
    with pytest.raises(PlanError) as error:
        load(plan_folder(pillars(), PUSHBACKS + f"[schedule]\n{words}\n"))
    assert said in str(error.value) and "project.toml" in str(error.value)


@pytest.mark.parametrize("words", ["", "bins = 2\n"])
def test_limits_within_which_nothing_can_be_dug_are_refused(plan_folder, words):
    """The mill takes nothing in the first year, which is the only one, and all is ore."""
    path = plan_folder(
        rows(3, 1, 1, cu=lambda i, j, k: 2),
        PROJECT + f"[pushbacks]\ncount = 1\n[schedule]\nramp_up = [0, 1.0]\nyears = 1\n{words}",
    )
    with pytest.raises(
        PlanError,
        match="project.toml: .schedule. years: within these limits nothing can be mined in 1 year: check processing_capacity",
    ):
        pitplan.write_schedule(path, writing=PLAIN)


def test_without_pushbacks_nothing_is_scheduled(plan_folder):
    with pytest.raises(PlanError, match="project.toml: .pushbacks. is missing"):
        pitplan.write_schedule(plan_folder(pillars(), UPRIGHT), writing=PLAIN)


def test_the_command_line_tells_the_ways(plan_folder, capsys):
    path = plan_folder(pillars(), PUSHBACKS)
    assert main(["schedule", str(path), "--no-figures"]) == 0
    said = capsys.readouterr()
    lines = [line.split() for line in said.out.splitlines()]
    assert lines[0][:2] == ["method", "NPV"] and [line[:2] for line in lines[2:4]] == [
        ["rule", "3,971.45"],
        ["lp", "3,971.45"],
    ]
    assert (
        "the lead with the highest NPV" in said.err
        and "upper bound on the NPV of any schedule of these pushbacks of up to 4 years within these limits, wherever each block goes: "
        in said.err
    )
    assert (path.parent / "plan" / "schedule" / "report.html").exists()


def test_the_size_of_the_programme_is_told_before_it_is_solved(plan_folder, capsys):
    """Six benches and three parcels of ore, in a fifth more than the rule's three years."""
    assert main(["schedule", str(plan_folder(pillars(), PUSHBACKS)), "--no-figures"]) == 0
    said = "solving the linear programme of 4 years and 3 parcels, 36 variables .."
    assert said in capsys.readouterr().err


@pytest.fixture(scope="module")
def written(tmp_path_factory):
    """A hill in three pushbacks under several limits, with the workbook."""
    place = tmp_path_factory.mktemp("scheduled")
    table = rows(
        11,
        9,
        4,
        cu=lambda i, j, k: {(3, 4, 1): 6, (7, 4, 1): 2, (5, 2, 2): 0.9, (3, 3, 2): 1.5, (8, 4, 2): 0.8}.get(
            (i, j, k), 0
        ),
    )
    table.to_csv(place / "blocks.csv", index=False)
    words = "[schedule]\nmining_capacity = 700\nvertical_advance_rate = 2\nramp_up = [0.5, 1]\nmax_metal_per_year = { copper = 2 }\n"
    (place / "project.toml").write_text(with_pushbacks("count = 3", PROJECT) + words)
    pitplan.write_schedule(place / "project.toml", writing=pitplan.Writing(figures=False))
    return place


@pytest.fixture
def copied(written, tmp_path):
    return shutil.copytree(written, tmp_path / "mine") / "plan" / "schedule"


def wrong(folder):
    return {rule.name for rule in verify(folder) if rule.differences}


RULES = [
    *("schedule amounts", "material flow", "schedule order", "schedule limits", "schedule value"),
    *("cash flow", "inventory", "grade tonnage", "upper bound", "years of blocks"),
]


def test_what_is_right_passes(copied, capsys):
    assert wrong(copied) == set()
    assert main(["verify", str(copied)]) == 0
    *told, verdict = capsys.readouterr().out.splitlines()
    assert verdict == f"verified: all {len(told)} rules hold"
    assert [line.split(":")[0] for line in told][-len(RULES) :] == RULES
    record = read_record(copied)
    named = ["tables/schedule.csv", "tables/methods.csv", "schedule.json", "tables/schedule.xlsx"]
    assert set(named) <= set(record["files"])
    assert any(line.startswith("schedule order") for line in record["verified"])


def test_the_report_and_the_workbook_have_the_schedule(copied):
    page = (copied / "report.html").read_text()
    assert (
        "tables/methods.csv" in page
        and "data:image/png" not in page
        and "the schedule and its upper bound, the other numbers" in page
    )
    book = {name: plain(it) for name, it in pd.read_excel(copied / "tables/schedule.xlsx", sheet_name=None).items()}
    tables = ["feed", "flows", "cutoffs", "inventory", "methods", "schedule", "years", "pushbacks", "shells"]
    assert list(book) == ["cash_flow", "reserves", *tables]
    for name in ("cutoffs", "schedule", "pushbacks", "shells"):
        pd.testing.assert_frame_equal(book[name], pd.read_csv(copied / "tables" / f"{name}.csv"), check_dtype=False)
    years = pd.read_csv(copied / "tables/years.csv")
    pd.testing.assert_frame_equal(
        book["years"],
        years[years["revenue_factor"] == years["revenue_factor"].max()].reset_index(drop=True),
        check_dtype=False,
    )
    told = json.loads((copied / "schedule.json").read_text())["methods"]
    assert book["methods"]["npv"].tolist() == pytest.approx([way["npv"] for way in told.values()], abs=1e-3)


def plain(sheet):
    """A sheet with the names of columns alone, whose headers have their units."""
    return sheet.rename(columns=lambda head: str(head).partition(" (")[0])


def rewrite(path, change):
    """A table as it was, but for what `change` makes of it."""
    table = pd.read_csv(path)
    change(table).to_csv(path, index=False)


def with_more(name, by):
    def change(table):
        table.loc[0, name] += by
        return table

    return change


@pytest.mark.parametrize("name", ["total_tonnes", "feed_tonnes", "recovered_copper", "cash_flow", "share"])
def test_an_amount_that_is_not_of_its_bench_is_found(copied, name):
    rewrite(copied / "tables/schedule.csv", with_more(name, 0.01 if name in ("recovered_copper", "share") else 1))
    assert differing(copied, "schedule amounts")


@pytest.mark.parametrize(("name", "by"), [("pushback", 7), ("bench", 3), ("bench", 5000), ("year", -9)])
def test_a_row_of_no_bench_is_found(copied, name, by):
    rewrite(copied / "tables/schedule.csv", with_more(name, by))
    assert differing(copied, "schedule amounts")


def test_a_bench_that_is_dug_twice_is_found(copied):
    rewrite(copied / "tables/schedule.csv", lambda table: pd.concat([table, table.head(1)]))
    assert differing(copied, "schedule amounts")


def test_a_bench_before_its_time_is_found(copied):
    """The last that is dug is dug in the first year."""

    def change(table):
        table.loc[table["year"] == table["year"].max(), "year"] = 1
        return table

    rewrite(copied / "tables/schedule.csv", change)
    assert differing(copied, "schedule order")


@pytest.mark.parametrize(
    ("old", "new"),
    [
        ("mining_capacity = 700", "mining_capacity = 690"),
        ("vertical_advance_rate = 2", "vertical_advance_rate = 1.2"),
        ("ramp_up = [0.5, 1]", "ramp_up = [0.5]"),
        ("copper = 2", "copper = 1"),
        ("[schedule]", "[schedule]\nprocessing_capacity = 60"),
        ("[schedule]", "[schedule]\nyears = 2"),
    ],
)
def test_a_year_above_a_limit_is_found(copied, old, new):
    project = copied.parents[1] / "project.toml"
    text = project.read_text()
    assert old in text
    project.write_text(text.replace(old, new))
    assert differing(copied, "schedule limits")


@pytest.mark.parametrize(
    "bent",
    [{"ramp_up": [0.6, 1]}, {"lag": 1}, {"vertical_advance_rate": 3}, {"years": 1}, {"limits": {"feed_tonnes": 100}}],
)
def test_limits_that_are_told_as_others_are_found(copied, bent):
    told = json.loads((copied / "schedule.json").read_text())
    (copied / "schedule.json").write_text(json.dumps(told | bent))
    # The bound follows from the years of the record.
    assert wrong(copied) - {"upper bound"} == {"schedule limits"}


def test_a_lag_that_is_not_kept_is_found(plan_folder):
    """The waste of the second pillar is mined in the first year, and the ore of the first in the second."""
    path = plan_folder(pillars(), PUSHBACKS + "[schedule]\nvertical_advance_rate = 1\n")
    pitplan.write_schedule(path, writing=PLAIN)
    path.write_text(path.read_text() + "bench_lag = 1\n")
    assert differing(path.parent / "plan" / "schedule", "schedule order")


def change_told(folder, **more):
    told = json.loads((folder / "schedule.json").read_text())
    (folder / "schedule.json").write_text(json.dumps(told | more))
    return told


@pytest.mark.parametrize("name", ["npv", "years", "unmined_tonnes"])
def test_a_total_that_does_not_follow_is_found(copied, name):
    told = change_told(copied)
    told["methods"]["rule"][name] += 1
    change_told(copied, methods=told["methods"])
    assert differing(copied, "schedule value")


@pytest.mark.parametrize("name", ["upper_bound", "milp_upper_bound"])
def test_a_way_above_a_bound_is_found(copied, name):
    told = change_told(copied)
    least = min(way["npv"] for way in told["methods"].values())
    change_told(copied, **{name: least + 1e-4})
    found, is_another = wrong(copied), name == "upper_bound" and told[name] > least + 0.1
    is_above = any(way["npv"] > least + 0.1 for way in told["methods"].values())
    assert found - {"upper bound"} == ({"schedule value"} if is_above or is_another else set())
    change_told(copied, **{name: least - 1})
    # Another bound does not follow from its multipliers either.
    assert wrong(copied) - {"upper bound"} == {"schedule value"}


def test_what_the_rule_leaves_is_found(copied):
    """It digs all there is, unless so many years are given; a linear programme may leave what does not pay."""
    rewrite(copied / "tables/schedule.csv", lambda table: table[table.duplicated("method", keep="last")])
    said = [text for rule in verify(copied) if rule.name == "schedule value" for text in rule.differences]
    assert sum(" leaves " in text for text in said) == 1 and any(text.startswith("rule leaves ") for text in said)
    project = copied.parents[1] / "project.toml"
    project.write_text(project.read_text().replace("[schedule]", "[schedule]\nyears = 50"))
    assert not any(" leaves " in text for rule in verify(copied) for text in rule.differences)


def test_cash_that_is_discounted_otherwise_is_found(copied):
    rewrite(copied / "tables/schedule.csv", with_more("discounted_cash_flow", 1))
    assert differing(copied, "schedule value")


@pytest.mark.parametrize(
    "name",
    ["total_tonnes", "feed_tonnes", "recovered_copper", "cash_flow", "discounted_cash_flow", "revenue_factor", "year"],
)
def test_years_that_do_not_follow_are_found(copied, name):
    def change(table):
        table.loc[table.index[table["case"] == "rule"][-1], name] += 1
        return table

    rewrite(copied / "tables/years.csv", change)
    assert differing(copied, "schedule value")


def test_a_year_of_a_block_is_found(copied):
    rewrite(
        copied / "tables/blocks.csv",
        lambda table: table.assign(year=table["year"].where(table.index != table["year"].idxmax(), 1)),
    )
    assert wrong(copied) == {"years of blocks"}
    rewrite(copied / "tables/blocks.csv", lambda table: table.assign(year=0))
    assert wrong(copied) == {"years of blocks"}


def test_a_way_that_is_shown_and_earns_less_is_found(copied):
    told = change_told(copied)
    other = next(name for name in told["methods"] if name != told["shown"])
    told["methods"][told["shown"]]["npv"] = told["methods"][other]["npv"] - 1
    change_told(copied, methods=told["methods"])
    assert differing(copied, "years of blocks")
    change_told(copied, shown="hand")
    assert differing(copied, "years of blocks")


def test_great_amounts_are_right_too(plan_folder):
    """Billions, of which a float holds no thousandths of a cent, at the price as given a millionfold."""
    table, folder = scheduled(plan_folder, text=PUSHBACKS.replace("price = 8000", "price = 8_123_456_789.123"))
    assert table["npv"].min() > 1e9 and wrong(folder) == set()


def test_blocks_of_half_a_tonne_are_dug_and_counted(plan_folder):
    """Three tonnes in all, of which every half is a block of its own."""
    project = load(plan_folder(pillars(tonnes=lambda i, j, k: 0.5), PUSHBACKS))
    table, folder = pitplan.write_schedule(project, writing=UNVERIFIED).set_index("method"), project.folder / "schedule"
    assert table["tonnes"].tolist() == [3.0] * len(table) and table["unmined_tonnes"].tolist() == [0.0] * len(table)
    assert pd.read_csv(folder / "tables/pushbacks.csv")["blocks"].tolist() == [2, 2, 2] and wrong(folder) == set()


def test_a_case_of_no_way_is_found(copied):
    rewrite(copied / "tables/years.csv", lambda table: table.assign(case=table["case"].replace("rule", "hand")))
    assert wrong(copied) == {"years", "schedule value", "cash flow"}


def test_an_interruption_keeps_what_is_found_so_far(plan_folder, capsys, monkeypatch):
    """While the linear programme is solved; what is written is the schedule by rule, without a bound."""

    def interrupted(programme, effort=None):
        os.kill(os.getpid(), signal.SIGINT)

    monkeypatch.setattr(programmes, "solve", interrupted)
    path = plan_folder(pillars(), PUSHBACKS)
    assert main(["schedule", str(path), "--quiet", "--no-figures"]) == 130
    folder = path.parent / "plan" / "schedule"
    told = json.loads((folder / "schedule.json").read_text())
    assert list(told["methods"]) == ["rule"] and told["upper_bound"] is None and told["interrupted"]
    assert "interrupted before all methods had finished" in capsys.readouterr().err
    assert wrong(folder) == set() and (folder / "report.html").exists()


def test_an_interruption_while_depths_are_improved_keeps_the_schedule(plan_folder, capsys, monkeypatch):
    def interrupted(model, mined, value):
        raise KeyboardInterrupt

    monkeypatch.setattr(scheduler, "improved_depths", interrupted)
    assert main(["schedule", str(path := plan_folder(pillars(), PUSHBACKS)), "--no-figures"]) == 130
    told = json.loads((path.parent / "plan/schedule/schedule.json").read_text())
    assert list(told["methods"]) == ["rule", "lp"] and told["interrupted"]
    assert told["methods"]["lp"]["npv"] >= told["methods"]["rule"]["npv"]
    assert "interrupted before all methods had finished" in capsys.readouterr().err


def test_parcels_with_which_the_rule_takes_more_years_than_there_are_end_the_refinement(plan_folder, monkeypatch):
    """The linear programme and its bound have a fifth more years than the rule of the first parcels took."""
    monkeypatch.setattr(pushback_schedule, "FINE", -1.0)
    monkeypatch.setattr(pushback_schedule, "REFINEMENTS", 0)
    first, _ = scheduled(plan_folder)

    def longer(schedule, optimum, rules):
        years = schedule.model.years + 6
        mined = np.zeros((len(schedule.benches), years))
        flows = none_of(replace(schedule.model, years=years), mined)
        better = replace(schedule.model.ore, gain=1.01 * schedule.model.ore.gain)
        return replace(schedule, model=replace(schedule.model, ore=better), flows={"rule": flows})

    monkeypatch.setattr(pushback_schedule, "REFINEMENTS", 3)
    monkeypatch.setattr(pushback_schedule, "in_finer_bins", longer)
    again, _ = scheduled(plan_folder)
    assert again["npv"].tolist() == first["npv"].tolist() and again["years"].tolist() == first["years"].tolist()
